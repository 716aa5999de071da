"""Walks of tables, worked out from the sentences of the machine's rules and from nothing of this repository's code.

Bit 0 is the highest of a doubleword. `Memory` has the doublewords of tables by their real addresses, and zeros elsewhere. A walk leaves
its readings as lines of text: role, partition, process, the address sought, level, bits left, place, value and moment, the addresses
and the value in hexadecimal and the rest in decimal. Its outcome is a line too.
"""

WORD = 8
PAGE_SIZES = (12, 16, 21, 30)  # base-two logarithms
MOST_BITS = 52
LEVELS = 4
ACCESSES = ("Fetch", "Load", "Store")


def bits(word, first, last):
    """Bits `first` to `last` of a doubleword as a number."""
    return word >> 63 - last & (1 << last - first + 1) - 1


def bit(number):
    """The weight of a bit of a doubleword."""
    return 1 << 63 - number


# What a fault sets: bits 33 to 46 have the same weights in the 32-bit registers, whose bits begin at 32.
FAULT_BITS = {
    "Missing": bit(33),
    "Execute": bit(35),
    "Guarded": bit(35),
    "Privilege": bit(36),
    "Read": bit(36),
    "Write": bit(36),
    "Unsupported": bit(44),
    "Referenced": bit(45),
    "Changed": bit(45),
}
STORE_BIT = bit(38)
TABLE_BIT = bit(46)


class Memory:
    """RAM of so many bytes from real address 0 on, with these doublewords."""

    def __init__(self, size, words):
        self.size, self.words = size, words

    def word(self, at):
        """The doubleword there, or None where a byte of it is outside RAM."""
        assert at % WORD == 0
        return self.words.get(at, 0) if at + WORD <= self.size else None


class Ask:
    """An address and an access, with the registers that decide where it goes."""

    def __init__(self, access, ea, msr, lpid, pid, ptcr):
        assert access in ACCESSES
        self.access, self.ea, self.msr, self.lpid, self.pid, self.ptcr = access, ea, msr, lpid, pid, ptcr

    def is_on(self, number):
        """Whether a bit of the machine state register is 1."""
        return bits(self.msr, number, number) == 1

    def place(self):
        """Where it points: ("Real", address), ("Guest", partition, address), ("Space", partition, process) or ("Segment",)."""
        hypervisor, problem = self.is_on(3), self.is_on(49)
        if not self.is_on(58 if self.access == "Fetch" else 59):
            address = bits(self.ea, 4, 63)
            return ("Real", address) if hypervisor else ("Guest", self.lpid, address)
        quadrant = bits(self.ea, 0, 1)
        if not hypervisor:
            return {0: ("Space", self.lpid, self.pid), 3: ("Space", self.lpid, 0)}.get(quadrant, ("Segment",))
        if quadrant in (1, 2) and (problem or self.lpid == 0):
            return ("Segment",)
        return ("Space", *((0, self.pid), (self.lpid, self.pid), (self.lpid, 0), (0, 0))[quadrant])


class NoPage(Exception):
    """A tree has no page for an address: Missing or Unsupported."""


class Over(Exception):
    """The walk is over, with this outcome."""


class Leaf:
    """A leaf of a tree and the number of address bits that it leaves."""

    def __init__(self, word, rest):
        self.page, self.rest = bits(word, 7, 51) << 12, rest
        self.referenced, self.changed = bits(word, 55, 55), bits(word, 56, 56)
        self.attributes, self.rights = bits(word, 58, 59), bits(word, 60, 63)

    def address(self, sought):
        """The page with its low bits replaced by those of the address sought."""
        size = 1 << self.rest
        return self.page - self.page % size + sought % size

    def line(self):
        return f"Leaf {self.page:x} {self.rest} {self.attributes} {self.rights} {self.referenced} {self.changed}"

    def first_denial(self, access, problem):
        """The first right that refuses the access, or None. A partition's leaf is never asked with `problem`."""
        privileged, read, write, execute = (self.rights >> place & 1 for place in (3, 2, 1, 0))
        tests = [
            ("Privilege", problem and privileged),
            ("Read", access == "Load" and not read and not write),
            ("Write", access == "Store" and not write),
            ("Execute", access == "Fetch" and not execute),
            ("Guarded", access == "Fetch" and self.attributes == 2),
            ("Referenced", not self.referenced),
            ("Changed", access == "Store" and not self.changed),
        ]
        return next((name for name, fails in tests if fails), None)


class Walker:
    """A walk over a memory, under a value of the partition table control register, of a moment."""

    def __init__(self, memory, ptcr, moment):
        self.memory, self.ptcr, self.moment = memory, ptcr, moment
        self.readings = []

    def read(self, at, describe):
        """Reads a word, and keeps the reading that `describe` makes of its value: all but its place, value and moment."""
        value = self.memory.word(at)
        if value is None:
            raise Over(f"NoStorage {at:x}")
        role, lpid, pid, sought, level, left = describe(value)
        self.readings.append(f"{role} {lpid} {pid} {sought:x} {level} {left} {at:x} {value:x} {self.moment}")
        return value

    def entry(self, lpid):
        """The place of a partition's entry, or None where it is beyond the table."""
        offset = 16 * lpid
        return (bits(self.ptcr, 4, 51) << 12) + offset if offset < 1 << 12 + bits(self.ptcr, 59, 63) else None

    def tree(self, word, address, read):
        """The leaf for an address in the tree whose root an entry has; `read` reads an entry of a table."""
        base, size, left = bits(word, 4, 55) << 8, bits(word, 59, 63), root_bits(word)
        for level in range(1, LEVELS + 1):
            if not 5 <= size <= 16 or size > left - 12:
                raise NoPage("Unsupported")
            rest = left - size
            index = (address & (1 << left) - 1) >> rest
            value = read(base + WORD * index, level, rest)
            if not bits(value, 0, 0):
                raise NoPage("Missing")
            if bits(value, 1, 1):
                if rest not in PAGE_SIZES:
                    raise NoPage("Unsupported")
                return Leaf(value, rest)
            base, size, left = bits(value, 4, 55) << 8, bits(value, 59, 63), rest
        raise NoPage("Unsupported")

    def partition(self, lpid, gra):
        """The leaf of a guest real address in a partition's tree."""
        at = self.entry(lpid)
        if at is None:
            raise NoPage("Missing")
        word = self.read(at, lambda value: ("pate", lpid, 0, gra, 0, root_bits(value)))
        if not bits(word, 0, 0):
            raise Over(f"HashedPartition {lpid:x}")
        if root_bits(word) > MOST_BITS:
            raise NoPage("Unsupported")
        if gra >= 1 << root_bits(word):
            raise NoPage("Missing")

        def read(place, level, rest):
            return self.read(place, lambda value: (role_of("g", value), lpid, 0, gra, level, rest))

        return self.tree(word, gra, read)

    def guest(self, ask, lpid, gra, table_use):
        """The real address of a guest real address: for table use, or for the ask's own access."""
        extra = TABLE_BIT if table_use else 0
        try:
            leaf = self.partition(lpid, gra)
        except NoPage as kind:
            raise Over(partition_fault(ask, FAULT_BITS[str(kind)] + extra, gra)) from None
        denial = leaf.first_denial("Load" if table_use else ask.access, False)
        if denial is not None:
            raise Over(partition_fault(ask, FAULT_BITS[denial] + extra, gra))
        return leaf.address(gra)

    def process(self, ask, lpid, pid):
        """The real address of an ask through the tables of a process."""
        sought = bits(ask.ea, 2, 63)
        at = self.entry(lpid)
        if at is None:
            raise Over(partition_fault(ask, FAULT_BITS["Missing"], 0))
        table = self.read(at + 8, lambda value: ("pate", lpid, pid, sought, 0, 0))
        if 16 * pid >= 1 << 12 + bits(table, 59, 63):
            raise Over(process_fault(ask, FAULT_BITS["Missing"]))
        at = self.guest(ask, lpid, (bits(table, 4, 51) << 12) + 16 * pid, True)
        word = self.read(at, lambda value: ("prte", lpid, pid, sought, 0, root_bits(value)))
        if root_bits(word) > MOST_BITS:
            raise Over(process_fault(ask, FAULT_BITS["Unsupported"]))
        if sought >= 1 << root_bits(word):
            raise Over("InstSegment" if ask.access == "Fetch" else f"DataSegment {ask.ea:x}")

        def read(place, level, rest):
            real = self.guest(ask, lpid, place, True) if lpid else place
            return self.read(real, lambda value: (role_of("p", value), lpid, pid, sought, level, rest))

        try:
            leaf = self.tree(word, sought, read)
        except NoPage as kind:
            raise Over(process_fault(ask, FAULT_BITS[str(kind)])) from None
        denial = leaf.first_denial(ask.access, ask.is_on(49))
        if denial is not None:
            raise Over(process_fault(ask, FAULT_BITS[denial]))
        result = leaf.address(sought)
        return self.guest(ask, lpid, result, False) if lpid else result


def root_bits(word):
    """How many address bits the root in an entry translates: 31 more than the number in bits 1:2 and 56:58."""
    return (bits(word, 1, 2) << 3 | bits(word, 56, 58)) + 31


def role_of(scope, word):
    """The role of a tree's entry: a leaf is valid and has bit 1."""
    return scope + ("leaf" if bits(word, 0, 1) == 3 else "dir")


def process_fault(ask, weights):
    if ask.access == "Fetch":
        return f"InstStorage {weights:x}"
    return f"DataStorage {ask.ea:x} {weights + (STORE_BIT if ask.access == 'Store' else 0):x}"


def partition_fault(ask, weights, gra):
    page = gra - gra % 4096
    if ask.access == "Fetch":
        return f"HypInstStorage {weights:x} {page:x}"
    return f"HypDataStorage {ask.ea:x} {weights + (STORE_BIT if ask.access == 'Store' else 0):x} {page:x}"


def walk_partition(memory, ptcr, lpid, gra, moment):
    """The outcome of a partition walk and its readings."""
    walker = Walker(memory, ptcr, moment)
    try:
        outcome = walker.partition(lpid, gra).line()
    except (NoPage, Over) as end:
        outcome = str(end)
    assert len(walker.readings) <= 5
    return outcome, walker.readings


def walk_ask(memory, ask, moment):
    """The outcome of an ask and its readings; of a real address there is no walk."""
    walker = Walker(memory, ask.ptcr, moment)
    place = ask.place()
    try:
        if place[0] == "Real":
            outcome = f"Real {place[1]:x}"
        elif place[0] == "Segment":
            outcome = "InstSegment" if ask.access == "Fetch" else f"DataSegment {ask.ea:x}"
        elif place[0] == "Guest":
            outcome = f"Page {walker.guest(ask, place[1], place[2], False):x}"
        else:
            outcome = f"Page {walker.process(ask, place[1], place[2]):x}"
    except Over as end:
        outcome = str(end)
    assert len(walker.readings) <= 36
    return outcome, walker.readings
