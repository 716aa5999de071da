"""The cases of asks: each ending of each stage of a walk through two trees, and what decides where an ask goes.

`tools/walk_cases.py` writes them. Here tables are laid out and changed; what a walk gives is for table_walks.py to say.
"""

import itertools

from table_walks import ACCESSES, Ask
from walk_layouts import PTCR, Layout, Nested, Own, directory, leaf, root
from walk_rows import GUEST, HYPERVISOR, PROBLEM, UNRELOCATED

OUTSIDE = 0x7F000000  # no RAM is there, nor does a tree of 31 bits end below it
TWO = (31, (10, 9))
ONE = (31, (10,))

# The low bits of a leaf, and the right that is missing: R, C, attributes, privileged, read, read and write, execute.
RIGHTS = [
    (0x18F, "privileged"), (0x181, "not to be read"), (0x185, "not to be written"), (0x186, "not to be executed"),
    (0x1A7, "guarded"), (0x087, "not referenced"), (0x107, "not changed"), (0x183, "to be written, but no bit to read"),
    (0x197, "of attribute 1"), (0x1B7, "of attribute 3"),
]
TWO_RIGHTS = [
    (0x180, "no right"), (0x188, "privileged, with no right"), (0x08F, "privileged, and not referenced"),
    (0x081, "not read, not referenced"), (0x105, "not written, not changed"), (0x1A6, "not executed, guarded"), (0x0A7, "guarded, not referenced"),
    (0x007, "not referenced, not changed"), (0x000, "nothing at all"), (0x1A8, "privileged, guarded, with no right"),
]


def ask_of(layout, access, msr=GUEST, ea=None, lpid=None, pid=None, ptcr=None):
    """An ask of the page of a layout."""
    return Ask(
        access, layout.ea if ea is None else ea, msr, layout.lpid if lpid is None else lpid, layout.pid if pid is None else pid,
        layout.ptcr if ptcr is None else ptcr,
    )


def states(cases):
    """Quadrant, state and relocation, with the registers of partition and process 0 and not, in problem state and not."""
    cases.begin("asks: quadrants and states, with partition and process 0 and not")
    words = {}
    for lpid, table in [(0, 0x60000000), (1, 0x70000000)]:
        layout = Layout(lpid=lpid)
        layout.free = 0x700000 if lpid else 0x200000
        layout.partition(*ONE)
        layout.put(layout.entry_at + 8, table)
        layout.map(table)
        layout.map(0xA35DE8, page=0x9000000 + 0x800000 * lpid)
        for pid in (0, 0x23):
            tree_at = 0x1200000 * (pid + 1) if lpid else layout.take(8 << 10)
            result = 0x10000000 + 0x1000000 * pid + 0x800000 * lpid
            if lpid:
                layout.map(tree_at)
            layout.guest_put(table + 16 * pid, root(31, tree_at, 10) & ~(1 << 63))
            (layout.guest_put if lpid else layout.put)(tree_at + 8 * 5, leaf(result))
            layout.map(result, page=result ^ 0x55000000)
        words.update(layout.words)
    accesses = itertools.cycle(ACCESSES)
    combinations = itertools.product((0, 1), (0, 1), range(4), (0, 1), (0, 0x23), (0, 1))
    for hypervisor, relocated, quadrant, lpid, pid, problem in combinations:
        access = next(accesses)
        side = 0x20 if (access == "Fetch") == bool(relocated) else 0x10  # the other side's bit is the other way round
        msr = 1 << 63 | hypervisor << 60 | 0x1003 | problem << 14 | side
        title = f"HV {hypervisor}, relocation {relocated}, quadrant {quadrant}, LPIDR {lpid}, PIDR {pid:x}, PR {problem}"
        cases.add(title, words, Ask(access, quadrant << 62 | 0xA35DE8, msr, lpid, pid, PTCR))


def page_sizes(cases):
    """Each page size in each scope, the leaves with and without low bits."""
    cases.begin("asks: each page size in each tree, and low bits in the leaves")
    process = [(31, (10, 9)), (31, (10, 5)), (31, (10,)), (40, (10,))]
    partition = [(31, (10, 9)), (31, (10, 5)), (31, (10,)), (52, (13, 9))]
    accesses = itertools.cycle(ACCESSES)
    for own, host, low in itertools.product(process, partition, (0, 0x3FFFF000)):
        layout = Nested(part=host, process=own)
        if low and layout.rest == layout.tree.rest(len(host[1])) == 12:
            continue
        final = layout.goals["the result"][1][-1]
        changes = {
            layout.steps[-1]: layout.words[layout.steps[-1]] | low % (1 << layout.rest),
            final: layout.words[final] | low % (1 << layout.tree.rest(len(host[1]))),
        }
        title = f"a page of {layout.rest} bits in one of {layout.tree.rest(len(host[1]))}" + (", with low bits" if low else "")
        cases.add(title, layout.changed(changes), ask_of(layout, next(accesses)))


def widths(cases):
    """Process's trees of each width over partition's trees of each width."""
    cases.begin("asks: trees of 31, 40 and 52 bits over trees of 31 and 52 bits")
    addresses = {31: 0x2A735238, 40: 0xA12A735238, 52: 0xA52A735238124}
    for own, host in itertools.product([TWO, (40, (10, 9, 9)), (52, (13, 9, 9, 9))], [TWO, (52, (13, 9, 9, 9))]):
        layout = Nested(part=host, process=own, ea=addresses[own[0]])
        for access in ACCESSES:
            cases.add(f"{own[0]} bits over {host[0]}", layout.words, ask_of(layout, access))
        odd = Nested(part=host, process=own, ea=addresses[own[0]], odd=0x300)
        cases.add(f"{own[0]} bits over {host[0]}, tables off their size", odd.words, ask_of(odd, "Load"))


def goals_of(layout):
    """What guest real addresses are walked for, with the asks: those of a load of the page, and last one with relocation off."""
    for name, (gra, places) in layout.goals.items():
        yield name, gra, places, GUEST, layout.ea
    gra, places = layout.goals["the result"]
    yield "a guest real ask", gra, places, UNRELOCATED, gra


def partition_endings(cases):
    """What ends the partition's walk of each guest real address that a walk needs."""
    cases.begin("asks: each ending of each partition's walk")
    layout = Nested()
    small = layout.take(8 << 6)
    for name, gra, (first, second), msr, ea in goals_of(layout):
        changes = [
            ("nothing at level 1", {first: 0}), ("nothing at level 2", {second: 0}),
            ("a leaf that is not valid", {second: layout.words[second] & ~(1 << 63)}),
            ("a table of size 4", {first: directory(small, 4)}), ("a table of size 10 of 21 bits", {first: directory(small, 10)}),
            ("a directory at the last level", {second: directory(small, 5)}), ("a table outside RAM", {first: directory(OUTSIDE, 9)}),
            ("a leaf of 15 bits", {first: directory(small, 6), small + 8 * (gra >> 15 & 63): leaf(0x700000)}),
        ]
        for (title, change), access in itertools.product(changes, ACCESSES):
            cases.add(f"{name}: {title}", layout.changed(change), ask_of(layout, access, msr, ea))
    deep = Nested(part=(52, (13, 9, 9, 9)))
    for name, _, places, msr, ea in goals_of(deep):
        for (level, word), access in itertools.product([(3, 0), (4, directory(small, 5)), (4, 0)], ACCESSES):
            title = f"{name}: " + (f"a directory at level {level}" if word else f"nothing at level {level} of 4")
            cases.add(title, deep.changed({places[level - 1]: word}), ask_of(deep, access, msr, ea))


def whole_partition(cases):
    """The partition's entry, and addresses beyond its tree."""
    cases.begin("asks: the partition's entry, and guest real addresses beyond its tree")
    layout = Nested()
    beyond = 1 << 31
    entry = layout.words[layout.entry_at]
    entries = [
        ("hashed", entry & ~(1 << 63)), ("of 53 bits", entry | 1 << 62 | 6 << 5), ("of size 4", entry & ~31 | 4),
        ("of size 20", entry & ~31 | 20), ("outside RAM", root(31, OUTSIDE, 10)),
    ]
    for msr, access, (title, word) in itertools.product((GUEST, UNRELOCATED), ACCESSES, entries):
        state = "" if msr == GUEST else ", guest real"
        cases.add(f"a partition {title}{state}", layout.changed({layout.entry_at: word}), ask_of(layout, access, msr))
    last = layout.steps[-1]
    for access in ACCESSES:
        cases.add("the process table", layout.changed({layout.entry_at + 8: beyond}), ask_of(layout, access))
        cases.add("the process table, high", layout.changed({layout.entry_at + 8: (1 << 60) - 4096}), ask_of(layout, access))
        at = layout.real(layout.entry)
        cases.add("the process's root", layout.changed({at: root(31, beyond, 10) & ~(1 << 63)}), ask_of(layout, access))
        cases.add("a process's table", layout.changed({layout.steps[0]: directory(beyond + 0xFFF00, 9)}), ask_of(layout, access))
        cases.add("the result", layout.changed({last: leaf(beyond + 0x345000)}), ask_of(layout, access))
        cases.add("the highest result", layout.changed({last: leaf((1 << 57) - 4096)}), ask_of(layout, access))
    for ea, access in itertools.product([0x5238, beyond - 4, beyond, (1 << 60) - 8, (1 << 64) - 8, 0x8000000000005238], ACCESSES):
        cases.add("a guest real ask", layout.changed({}), ask_of(layout, access, UNRELOCATED, ea))


def partition_rights(cases):
    """The rights of each partition's leaf that a walk needs."""
    cases.begin("asks: the rights of each partition's leaf")
    layout = Nested(part=ONE)
    for name, _, places, msr, ea in goals_of(layout):
        for (low, title), access in itertools.product(RIGHTS, ACCESSES):
            word = layout.words[places[-1]] & ~0xFFF | low
            cases.add(f"{name}: {title}", layout.changed({places[-1]: word}), ask_of(layout, access, msr, ea))


def process_endings(cases):
    """What ends a process's walk at each level."""
    cases.begin("asks: each ending of each level of a process's tree")
    shapes = [((52, (13, 9, 9, 9)), (1, 2, 3, 4)), ((31, (10, 6)), (2,)), ((40, (10, 9, 6)), (3,)), ((52, (13, 9, 9, 8)), (4,))]
    for shape, levels in shapes:
        layout = Nested(part=ONE, process=shape, ea=0x252A735238124 % (1 << shape[0]))
        left = shape[0]
        for level, size in enumerate(shape[1], 1):
            left -= size
            if level not in levels:
                continue
            at = layout.steps[level - 1]
            endings = [
                ("nothing", 0), ("a leaf that is not valid", leaf(0x77000) & ~(1 << 63)), ("a table of size 4", directory(0x60000, 4)),
                ("a table of size 17", directory(0x60000, 17)), ("a table above what is left", directory(0x60000, max(left - 11, 5))),
                (f"a leaf of {left} bits", leaf(0x5A7F3C6000)),
            ]
            if len(levels) == 1:
                endings = endings[-1:]
            if level == 4:
                endings.append(("a directory at level 4", directory(0x60000, 5)))
            for (title, word), access in itertools.product(endings, ACCESSES):
                cases.add(f"level {level} has {title}", layout.changed({at: word}), ask_of(layout, access))


def process_rights(cases):
    """The rights of a process's leaf at each level."""
    cases.begin("asks: the rights of a process's leaf at each level")
    for shape in [(31, (10,)), (52, (13, 9)), (52, (13, 9, 9)), (52, (13, 9, 9, 9))]:
        layout = Nested(part=ONE, process=shape, ea=0x252A735238124 % (1 << shape[0]))
        at = layout.steps[-1]
        for (low, title), access in itertools.product(RIGHTS, ACCESSES):
            word = layout.words[at] & ~0xFFF | low
            msr = PROBLEM if low == 0x18F else GUEST
            cases.add(f"level {len(shape[1])}: {title}", layout.changed({at: word}), ask_of(layout, access, msr))
        cases.add("privileged, not in problem state", layout.changed({at: layout.words[at] | 8}), ask_of(layout, "Load"))


def two_rights(cases):
    """Leaves that fail more than one right: the earlier decides, and the process's before the partition's."""
    cases.begin("asks: leaves that fail more than one right")
    layout = Nested(part=ONE, process=ONE)
    own, host = layout.steps[-1], layout.goals["the result"][1][-1]
    for (low, title), access, msr in itertools.product(TWO_RIGHTS, ACCESSES, (GUEST, PROBLEM)):
        word = layout.words[own] & ~0xFFF | low
        state = ", in problem state" if msr == PROBLEM else ""
        cases.add(f"the process's leaf: {title}{state}", layout.changed({own: word}), ask_of(layout, access, msr))
    for (low, title), access in itertools.product(TWO_RIGHTS, ACCESSES):
        word = layout.words[host] & ~0xFFF | low
        cases.add(f"the partition's leaf: {title}", layout.changed({host: word}), ask_of(layout, access, PROBLEM))
    for access in ACCESSES:
        both = {own: layout.words[own] & ~0xFFF, host: 0}
        cases.add("the process's leaf gives nothing, and the partition has no page", layout.changed(both), ask_of(layout, access))
        cases.add("the partition has no page", layout.changed({host: 0}), ask_of(layout, access))


def gaps(cases):
    """RAM that ends before, in and after each word in turn."""
    cases.begin("asks: RAM that ends at each word in turn")
    accesses = itertools.cycle(ACCESSES)
    layout = Nested()
    walks = [(layout, GUEST, layout.ea), (layout, UNRELOCATED, layout.goals["the result"][0]), (Own(), HYPERVISOR, 0x2A735238)]
    for tables, msr, ea in walks:
        for at in sorted(tables.words):
            for more in (0, 7):
                query = ask_of(tables, next(accesses), msr, ea)
                cases.add(f"RAM ends {more} bytes into the word at {at:x}", tables.words, query, at + more)
    deep = Nested(part=(52, (13, 9, 9, 9)), process=(52, (13, 9, 9, 9)), ea=0xA52A735238124)
    for at in sorted(deep.words):
        cases.add(f"RAM ends before the word at {at:x}", deep.words, ask_of(deep, next(accesses)), at)
    cases.add("RAM ends after the last word", deep.words, ask_of(deep, "Load"), max(deep.words) + 8)
    for name, _, places, msr, ea in goals_of(deep):
        for level in range(3):
            words = deep.changed({places[level]: directory(OUTSIDE, 9)})
            cases.add(f"{name}: level {level + 2} is outside RAM", words, ask_of(deep, next(accesses), msr, ea))
    for name, places in [(name, places) for name, (_, places) in layout.goals.items()]:
        for access in ACCESSES:
            word = leaf(OUTSIDE)
            cases.add(f"{name}: its page is outside RAM", layout.changed({places[-1]: word}), ask_of(layout, access))


def same_pages(cases):
    """Tables in the page of their own entries, and tables that are their own children."""
    cases.begin("asks: tables in the page of their own entries")
    layout = Layout()
    layout.pid, layout.ea = 0x23, 0x5238
    layout.partition(*TWO)
    layout.map(0x10000)
    layout.put(layout.entry_at + 8, 0x10000)
    layout.guest_put(0x10230, root(31, 0x10400, 5) & ~(1 << 63))
    layout.guest_put(0x10400, directory(0x10500, 5))
    layout.guest_put(0x10500, directory(0x10600, 9))
    layout.guest_put(0x10600 + 8 * 5, leaf(0x10000))
    for access in ACCESSES:
        cases.add("a process's entry, its tables and its page are one page", layout.words, ask_of(layout, access))
        cases.add("the same, read as a guest real address", layout.words, ask_of(layout, access, UNRELOCATED, 0x10628))
    own = Layout()
    own.pid, own.ea = 0, 0x40005238
    own.partition(52, (13, 9, 9, 9))
    own.map(0)
    own.put(own.entry_at + 8, 0)
    own.guest_put(0, root(52, 0x100, 5) & ~(1 << 63))
    own.guest_put(0x100, directory(0x100, 5))
    for access in ACCESSES:
        cases.add("a process's root that is its own child", own.words, ask_of(own, access))
    table = {0x20010: root(31, 0x20000, 10), 0x20018: 0, 0x20000: leaf(0)}
    for access, ea, msr in itertools.product(ACCESSES, (0x5238, 0x20000000), (GUEST, UNRELOCATED)):
        cases.add("the partition table is a partition's root", table, Ask(access, ea, msr, 1, 2, PTCR))
        mapped = {**table, 0x20: root(31, 0x20000, 10)}
        cases.add("and a process's root", mapped, Ask(access, ea, msr, 1, 2, PTCR))


def own_processes(cases):
    """Processes of partition 0: only the entry goes through the partition's tree."""
    cases.begin("asks: partition 0, whose tables are real")
    layout = Own()
    first, second = layout.goals["the process's entry"][1]
    at, entry = layout.real(layout.entry), layout.words[layout.real(layout.entry)]
    changes = [
        ("as it is", {}), ("no entry at level 1", {first: 0}), ("no entry at level 2", {second: 0}),
        ("a table of size 4", {first: directory(0x30000, 4)}),
        ("a directory last", {second: directory(0x30000, 5)}), ("its table outside RAM", {first: directory(OUTSIDE, 9)}),
        ("an entry's page outside RAM", {second: leaf(OUTSIDE)}), ("hashed", {layout.entry_at: 0}),
        ("53 bits", {layout.entry_at: root(53, 0x30000, 10)}), ("the process table beyond", {layout.entry_at + 8: 1 << 31}),
        ("a process of 53 bits", {at: root(53, 0x30000, 10)}), ("a process of size 4", {at: entry & ~31 | 4}),
        ("a process's root outside RAM", {at: root(31, OUTSIDE, 10)}),
        ("a process's table outside RAM", {layout.steps[0]: directory(OUTSIDE, 9)}),
        ("nothing at level 1", {layout.steps[0]: 0}), ("nothing at level 2", {layout.steps[1]: 0}),
        ("a table of size 17", {layout.steps[0]: directory(0x30000, 17)}),
        ("a directory at the end", {layout.steps[1]: directory(0x30000, 5)}),
        ("tables of a partition's rights", {second: layout.words[second] & ~0xFFF | 0x181}),
        ("an entry that may only be read", {second: layout.words[second] & ~0xFFF | 0x104}),
    ]
    for (title, change), access in itertools.product(changes, ACCESSES):
        cases.add(title, layout.changed(change), ask_of(layout, access, HYPERVISOR, lpid=5))
    for (low, title), access in itertools.product(RIGHTS + TWO_RIGHTS[:4], ACCESSES):
        word = layout.words[layout.steps[-1]] & ~0xFFF | low
        cases.add(f"a leaf {title}", layout.changed({layout.steps[-1]: word}), ask_of(layout, access, HYPERVISOR | 0x4000, lpid=5))
    for shape in [(52, (13, 9, 9, 9)), (52, (13, 9, 9)), (52, (13, 9)), (31, (15,))]:
        deep = Own(shape, 0xA52A735238124 % (1 << shape[0]))
        for access in ACCESSES:
            cases.add(f"{shape[0]} bits by {shape[1]}", deep.words, ask_of(deep, access, HYPERVISOR))
            cases.add(f"{shape[0]} bits by {shape[1]}, past them", deep.words, ask_of(deep, access, HYPERVISOR, 1 << shape[0]))


def numbers(cases):
    """Numbers of partitions and processes at the edges of their tables, and edges of the effective address."""
    cases.begin("asks: edges of numbers and addresses")
    accesses = itertools.cycle(ACCESSES)
    layout = Nested(part=ONE, process=ONE)
    for size in (*range(9), 12, 13, 31):
        table = layout.words[layout.entry_at + 8] | size
        for pid in {min((256 << size) - 1, 0xFFFFF), min(256 << size, 0xFFFFF)}:
            query = ask_of(layout, next(accesses), pid=pid)
            cases.add(f"process {pid:x} where the table's size is {size}", layout.changed({layout.entry_at + 8: table}), query)
    for lpid, pats, msr in itertools.product((0, 1, 255, 256, 511, 512, 4095), (0, 1, 4), (GUEST, UNRELOCATED)):
        query = ask_of(layout, next(accesses), msr, lpid=lpid, ptcr=PTCR + pats)
        cases.add(f"partition {lpid} where the table's size is {pats}", layout.words, query)
    for width, sizes in [(31, (10,)), (40, (10,)), (52, (13, 9))]:
        tables = Nested(part=ONE, process=(width, sizes), ea=(1 << width) - 4)
        for ea in [(1 << width) - 4, 1 << width, (1 << 62) - 4, 3 << 62 | (1 << width) - 4, 3 << 62 | 1 << width, 1 << 62, 2 << 62]:
            cases.add(f"{width} bits: {ea:x}", tables.words, ask_of(tables, next(accesses), ea=ea))
    at = layout.real(layout.entry)
    for width in range(31, 63):
        word = root(width, 0, 4) & ~(1 << 63)
        for ea in (0x2A735238, (1 << min(width, 62)) - 4, 1 << width if width < 62 else 0):
            if (width in (31, 40, 51, 52, 53, 54, 62)) or ea == 0x2A735238 and width % 4 == 0:
                cases.add(f"a process of {width} bits: {ea:x}", layout.changed({at: word}), ask_of(layout, next(accesses), ea=ea))


def ignored_bits(cases):
    """Bits that no table or register gives a meaning."""
    cases.begin("asks: bits that are ignored")
    layout = Nested()
    places = [at for _, found in layout.goals.values() for at in found]
    more = {at: 0x3000_0000_0000_00E0 if layout.words[at] >> 62 == 2 else 0x3E00_0000_0000_0E40 for at in [*places, *layout.steps]}
    more.update({layout.entry_at: 1 << 60, layout.entry_at + 8: 0xF000_0000_0000_0FE0, layout.real(layout.entry): 0x9000_0000_0000_0000})
    everything = {at: word | more.get(at, 0) for at, word in layout.words.items()}
    for access in ACCESSES:
        cases.add("in every word", everything, ask_of(layout, access, ptcr=PTCR | 0xF000_0000_0000_0FE0))
        cases.add("in the state", layout.words, ask_of(layout, access, msr=GUEST | 0x0FFF_0000_0000_0000 & ~(1 << 60)))
        second = layout.changed({layout.real(layout.entry) + 8: (1 << 64) - 1})
        cases.add("in the process's second doubleword", second, ask_of(layout, access))


class Draws:
    """Numbers that look drawn at random, the same each time."""

    def __init__(self, seed):
        self.state = seed

    def below(self, bound):
        self.state = (self.state * 6364136223846793005 + 1442695040888963407) % 2**64
        return (self.state >> 33) % bound


def turned_bits(cases):
    """Each walk with a few bits of its words turned, as drawn."""
    cases.begin("asks: bits of the tables turned as drawn")
    draws = Draws(7)
    layouts = [(Nested(), GUEST), (Nested(part=ONE, process=(52, (13, 9, 9, 9)), ea=0x252A735238124), PROBLEM), (Own(), HYPERVISOR)]
    for number in range(90):
        layout, msr = layouts[number % 3]
        words = dict(layout.words)
        for _ in range(1 + draws.below(3)):
            at = sorted(words)[draws.below(len(words))]
            words[at] ^= 1 << draws.below(64)
        cases.add(f"layout {number % 3}", words, ask_of(layout, ACCESSES[draws.below(3)], msr))


def ask_cases(cases):
    """Every loop, in order."""
    for loop in (
        states, page_sizes, widths, partition_endings, whole_partition, partition_rights, process_endings, process_rights, two_rights, gaps,
        same_pages, own_processes, numbers, ignored_bits, turned_bits,
    ):
        loop(cases)
