"""Walks whose outcomes were worked out by hand: tables, what is asked, and what is wanted.

A row wants an outcome, and of the readings either their number, the bits that each leaves, or each as `role level left place`.
"""

from table_walks import Ask

RAM = 0x1000000
PTCR = 0x20000
ENTRY = 0x20010  # that of partition 1
GUEST = 0x8000000000001033  # a guest's state, with relocation on
PROBLEM = 0x8000000000005033  # the same in problem state
HYPERVISOR = 0x9000000000001033  # the hypervisor's, with relocation on
UNRELOCATED = 0x8000000000001003  # a guest's, with relocation off


class Row:
    """A worked row: `wants` is a number of readings, a list of the bits left, or a list of readings."""

    def __init__(self, title, words, query, outcome, wants):
        self.title, self.words, self.query, self.outcome, self.wants = title, words, query, outcome, wants

    def holds(self, outcome, readings):
        """Whether a walk gives what the row wants."""
        if outcome != self.outcome:
            return False
        if isinstance(self.wants, int):
            return len(readings) == self.wants
        fields = [line.split() for line in readings]
        if self.wants and isinstance(self.wants[0], int):
            return [int(line[5]) for line in fields] == self.wants
        return [f"{line[0]} {line[4]} {line[5]} {line[6]}" for line in fields] == self.wants


def partition_rows():
    """Walks of a partition's tree: partition 1 and guest real address 5000 where nothing else is said."""

    def row(title, entry, words, outcome, wants, lpid=1, ptcr=PTCR):
        at = ENTRY + 16 * (lpid - 1)
        return Row(title, {at: entry, **words}, (ptcr, lpid, 0x5000), outcome, wants)

    shallow = 0x800000000010000A
    yield row(
        "a page of 4 KiB under two levels", shallow, {0x100000: 0x8000000000102009, 0x102028: 0xC000000000115187},
        "Leaf 115000 12 0 7 1 1", ["pate 0 31 20010", "gdir 1 21 100000", "gleaf 2 12 102028"],
    )
    yield row(
        "a page of 2 MiB whose leaf has low bits", 0x800000000040000A, {0x400000: 0xC0000000005FF187},
        "Leaf 5ff000 21 0 7 1 1", ["pate 0 31 20010", "gleaf 1 21 400000"],
    )
    deep = 0xC0000000004000AD
    yield row(
        "a page of 64 KiB under four levels", deep,
        {0x400000: 0x8000000000410009, 0x410000: 0x8000000000411009, 0x411000: 0x8000000000412005, 0x412000: 0xC000000000500187},
        "Leaf 500000 16 0 7 1 1", [52, 39, 30, 21, 16],
    )
    yield row(
        "a page of 1 GiB under two levels", deep, {0x400000: 0x8000000000410009, 0x410000: 0xC000000000500187},
        "Leaf 500000 30 0 7 1 1", ["pate 0 52 20010", "gdir 1 39 400000", "gleaf 2 30 410000"],
    )
    yield row("a root of size 4", 0x8000000000400004, {}, "Unsupported", 1)
    yield row("a root of size 17", 0xC0000000004000B1, {}, "Unsupported", 1)
    wide = 0x8000000000400010
    yield row("a table that leaves 10 of 15 bits", wide, {0x400000: 0x8000000000410005}, "Unsupported", 2)
    yield row("a leaf of 15 bits", wide, {0x400000: 0xC000000000500187}, "Unsupported", 2)
    yield row("a root of 53 bits", 0xC0000000004000CD, {}, "Unsupported", [53])
    yield row("a hashed partition, of 53 bits", 0x40000000004000CD, {}, "HashedPartition 1", 1)
    yield row(
        "a directory at level 4", 0xC0000000004000A5,
        {0x400000: 0x8000000000410005, 0x410000: 0x8000000000411005, 0x411000: 0x8000000000412005, 0x412000: 0x8000000000413005},
        "Unsupported", [52, 47, 42, 37, 32],
    )
    yield row("a root outside RAM", 0x800000007F00000A, {}, "NoStorage 7f000000", 1)
    yield row("an entry beyond the table", 0, {}, "Missing", 0, lpid=256)
    yield row("the last entry of the table, of zeros", 0, {}, "HashedPartition ff", ["pate 0 31 20ff0"], lpid=255)


def generated_image():
    """The tables of the generated image of seed 1 and size 1."""
    words = {}
    for guest in (1, 2):
        base = 0x100000 * guest
        words[0x20000 + 16 * guest] = 0x800000000000000A + base
        words[base] = 0x8000000000000009 + base + 0x2000
        words[base + 0x10010] = 0x000000000000200A
        words[base + 0x12000] = 0x8000000000004009
        for page in range(128):
            words[base + 0x2000 + 8 * page] = 0xC000000000000187 + base + 0x10000 + 0x1000 * page
            words[base + 0x14000 + 8 * page] = 0xC000000000000187 + 0x1000 * page
    return words


def deep_tables():
    """Both trees of sizes 13, 9, 9, 9, with pages of 4 KiB."""
    words = {ENTRY: 0xC0000000004000AD, 0x400000: 0x8000000000410009, 0x410000: 0x8000000000411009, 0x411000: 0x8000000000412009}
    for page in (0, 0x05, 0x10, 0x20, 0x21, 0x22):
        words[0x412000 + 8 * page] = 0xC000000000000187 + 0x500000 + 0x1000 * page
    real = 0x500000
    words[real + 0x10] = 0x40000000000100AD
    words[real + 0x10000] = 0x8000000000020009
    words[real + 0x20000] = 0x8000000000021009
    words[real + 0x21000] = 0x8000000000022009
    words[real + 0x22000 + 8 * 5] = 0xC000000000005187
    return words


ROOT = 0x112000  # where the generated image has guest 1's process root, its pages' leaves, and its partition's leaves
LEAVES = 0x114000
GUEST_LEAVES = 0x102000


def nested_rows():
    """Walks of asks over the tables of the generated image, where nothing else is said."""
    image = generated_image()
    fetch, load, store = "Fetch", "Load", "Store"

    def row(title, access, ea, changes, outcome, wants, msr=GUEST, lpid=1, pid=1):
        return Row(title, {**image, **changes}, Ask(access, ea, msr, lpid, pid, PTCR), outcome, wants)

    def translated(guest_page_leaf):
        return ["pate 0 31 20010", "gdir 1 21 100000", f"gleaf 2 12 {guest_page_leaf}"]

    sixteen = [
        "pate 0 0 20018", *translated("102000"), "prte 0 31 110010", *translated("102010"), "pdir 1 21 112000",
        *translated("102020"), "pleaf 2 12 114028", *translated("102028"),
    ]
    yield row("a fetch through sixteen words", fetch, 0x5000, {}, "Page 115000", sixteen)
    deep = ["pate 0 52 20010", "gdir 1 39 400000", "gdir 2 30 410000", "gdir 3 21 411000"]
    thirty_six = [
        "pate 0 0 20018", *deep, "gleaf 4 12 412000", "prte 0 52 500010",
        *deep, "gleaf 4 12 412080", "pdir 1 39 510000", *deep, "gleaf 4 12 412100", "pdir 2 30 520000",
        *deep, "gleaf 4 12 412108", "pdir 3 21 521000", *deep, "gleaf 4 12 412110", "pleaf 4 12 522028",
        *deep, "gleaf 4 12 412028",
    ]
    yield Row(
        "a fetch through thirty-six words", deep_tables(), Ask(fetch, 0x5000, GUEST, 1, 1, PTCR), "Page 505000", thirty_six
    )
    no_page = {GUEST_LEAVES + 8 * 0x7F: 0}
    yield row(
        "a table in a guest page that is not mapped", load, 0x200000, {ROOT + 8: 0x800000000007F009, **no_page},
        "HypDataStorage 200000 40020000 7f000", 12,
    )
    unchanged = {LEAVES + 8 * 0x12: 0xC000000000012107}
    yield row("a store where C is 0", store, 0x12000, unchanged, "DataStorage 12000 2040000", 13)
    yield row("a load where C is 0", load, 0x12000, unchanged, "Page 122000", 16)
    yield row("the guest's quadrant 1", load, 0x4000000000000000, {}, "DataSegment 4000000000000000", 0)
    yield row("the first address past the tree's", load, 0x80000000, {}, "DataSegment 80000000", 5)
    yield row("a fetch of a page with no leaf", fetch, 0x80000, {}, "InstStorage 40000000", 13)
    yield row("a fetch of a guest page that is not mapped", fetch, 0x7F000, no_page, "HypInstStorage 40000000 7f000", 16)
    for leaf, msr, fault in [
        (0xC000000000005186, GUEST, 0x10000000), (0xC0000000000051A7, GUEST, 0x10000000),
        (0xC000000000005087, GUEST, 0x00040000), (0xC00000000000518F, PROBLEM, 0x08000000),
    ]:
        yield row(f"a fetch through the leaf {leaf:x}", fetch, 0x5000, {LEAVES + 8 * 5: leaf}, f"InstStorage {fault:x}", 13, msr)
    yield row(
        "a table in a guest page that may not be read", fetch, 0x5000, {GUEST_LEAVES + 8 * 4: 0xC000000000114181},
        "HypInstStorage 8020000 4000", 12,
    )
    yield row(
        "a guest page that may not be executed", fetch, 0x5000, {GUEST_LEAVES + 8 * 5: 0xC000000000115186},
        "HypInstStorage 10000000 5000", 16,
    )
    yield row("the hypervisor's quadrant 1", load, 0x4000000000010000, {}, "Page 120000", 16, HYPERVISOR)
    yield row("the hypervisor's quadrant 2", load, 0x8000000000010000, {}, "DataStorage 8000000000010000 80000", 5, HYPERVISOR)
    yield row(
        "the hypervisor's quadrant 1 with LPIDR 0", load, 0x4000000000010000, {}, "DataSegment 4000000000010000", 0, HYPERVISOR, 0
    )
    # The partition table's base is the process table's: entry 1 is at guest real 10, which the partition's tree finds at real 10.
    own = {
        0x20000: 0x800000000010000A, 0x100000: 0x8000000000102009, 0x102000: 0xC000000000110187,
        0x2000: 0x8000000000004009, 0x4080: 0xC000000000120187,
    }
    yield row(
        "the hypervisor's own process", load, 0x10000, own, "Page 120000",
        ["pate 0 0 20008", "pate 0 31 20000", "gdir 1 21 100000", "gleaf 2 12 102000", "prte 0 31 110010",
         "pdir 1 21 2000", "pleaf 2 12 4080"], HYPERVISOR,
    )
    yield row("a process beyond the table", load, 0x10000, own, "DataStorage 10000 40000000", 1, HYPERVISOR, pid=300)
    yield row(
        "a guest real address with its highest bits", load, 0xF000000000010000, {}, "Page 120000", translated("102080"), UNRELOCATED
    )
    yield row("a guest real address past the mapped ones", load, 0x80000, {}, "HypDataStorage 80000 40000000 80000", 3, UNRELOCATED)
    yield row("a store of a partition beyond the table", store, 0x10000, {}, "HypDataStorage 10000 42000000 0", 0, lpid=256)
