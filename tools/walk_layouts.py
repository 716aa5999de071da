"""Lays out tables for walks: a partition's tree, and in its pages a process's entry and tree.

It only places words. What a walk over them gives is for table_walks.py to say.
"""

from table_walks import bits

PTCR = 0x20000
RIGHTS = 0x187  # R, C and the rights to read, write and execute


def root(width, base, size):
    """The doubleword of a partition's or process's entry: `width` address bits, with bit 0."""
    number = width - 31
    return 1 << 63 | number >> 3 << 61 | base | (number & 7) << 5 | size


def directory(base, size):
    return 1 << 63 | base | size


def leaf(page, rights=RIGHTS):
    return 3 << 62 | page | rights


def up_to(number, unit):
    """The least multiple of a unit from a number on."""
    return -(-number // unit) * unit


class Tree:
    """A tree of so many address bits and tables of these sizes. `take` gives a table's place, `put` places a word."""

    def __init__(self, width, sizes, take, put):
        self.width, self.sizes, self.take, self.put = width, sizes, take, put
        self.tables = {(): take(8 << sizes[0])}

    def base(self):
        return self.tables[()]

    def entry(self):
        """The word that leads to it."""
        return root(self.width, self.base(), self.sizes[0])

    def path(self, address, level):
        """The indexes of an address down to a level."""
        indexes, left = [], self.width
        for size in self.sizes[:level]:
            left -= size
            indexes.append(address >> left & (1 << size) - 1)
        return indexes

    def rest(self, level):
        """How many address bits are left below a level."""
        return self.width - sum(self.sizes[:level])

    def places(self, address, level):
        """The places of the entries of an address down to a level, with the tables that are missing laid out."""
        indexes, found = self.path(address, level), []
        for depth, index in enumerate(indexes):
            key = tuple(indexes[:depth])
            if key not in self.tables:
                self.tables[key] = self.take(8 << self.sizes[depth])
                self.put(found[-1], directory(self.tables[key], self.sizes[depth]))
            found.append(self.tables[key] + 8 * index)
        return found

    def map(self, address, level, word):
        """Places a leaf for an address, and gives the places of its entries."""
        found = self.places(address, level)
        self.put(found[-1], word)
        return found


class Layout:
    """The words of a whole layout, as they grow.

    `odd` is added to the place of each table, so that it need not be a multiple of the table's size.
    """

    def __init__(self, ptcr=PTCR, lpid=1, odd=0):
        self.words, self.ptcr, self.lpid, self.odd = {}, ptcr, lpid, odd
        self.free = 0x30000
        self.pages = []  # of the partition: guest real address, number of bits, real address
        self.entry_at = (bits(ptcr, 4, 51) << 12) + 16 * lpid

    def take(self, size):
        """Room for a table in RAM."""
        at = up_to(self.free, max(size, 256))
        self.free = at + size + self.odd
        return at + self.odd

    def put(self, at, word):
        self.words[at] = word

    def partition(self, width, sizes):
        """Begins the partition's tree."""
        self.tree = Tree(width, sizes, self.take, self.put)
        self.put(self.entry_at, self.tree.entry())

    def map(self, gra, level=None, page=None, rights=RIGHTS):
        """Maps the page of a guest real address, to a new page of RAM if none is given; gives the places of its entries."""
        level = level or len(self.tree.sizes)
        rest = self.tree.rest(level)
        found = self.tree.places(gra, level)
        if page is None and rest > 21:
            page = 0  # all of RAM is in it
        elif page is None:
            page = up_to(self.free, 1 << rest)
            self.free = page + (1 << rest)
        self.put(found[-1], leaf(page, rights))
        self.pages.append((gra >> rest, rest, page >> rest))
        return found

    def real(self, gra):
        """The real address of a guest real one that was mapped."""
        for number, rest, page in self.pages:
            if gra >> rest == number:
                return (page << rest) + gra % (1 << rest)
        raise KeyError(hex(gra))

    def guest_put(self, gra, word):
        self.put(self.real(gra), word)


class Nested(Layout):
    """A process's tree in a partition's tree, and one page of it.

    Each guest real address that the walk of the page needs has a part of the partition's tree of its own, below the root: `goals` has
    the places of its entries, by what it is needed for. `steps` has the places of the process's entries, by level.
    """

    def __init__(self, part=(31, (10, 9)), process=(31, (10, 9)), ea=0x2A735238, level=None, part_level=None, **rest):
        super().__init__(**rest)
        self.pid, self.ea = 0x23, ea
        self.partition(*part)
        self.part_level = part_level or len(part[1])
        self.reach = 1 << self.tree.rest(1)
        self.areas = 0
        self.goals = {}
        table = self.area()
        self.put(self.entry_at + 8, table)
        self.entry = table + 16 * self.pid
        self.goal("the process's entry", self.entry)
        self.process_tree(*process, level or len(process[1]))

    def area(self):
        """The guest real address of an area that has no entry of the partition's root in common with another's, off its beginning."""
        self.areas += 1
        number = self.areas % (1 << self.tree.sizes[0])
        return number * self.reach + (number * 0x113000) % self.reach

    def goal(self, name, gra):
        """Maps a guest real address of the walk, and notes what it is for."""
        self.goals[name] = (gra, self.map(gra, self.part_level))

    def process_tree(self, width, sizes, level):
        """Lays out the process's tree down to a leaf for `ea`, and maps the result."""
        self.sizes, self.level, self.width, self.steps = sizes, level, width, []
        left, put = width, self.real(self.entry)
        for depth in range(level):
            base = self.area() // (8 << sizes[depth]) * (8 << sizes[depth]) + self.odd
            self.put(put, directory(base, sizes[depth]) if depth else root(width, base, sizes[0]) & ~(1 << 63))
            left -= sizes[depth]
            at = base + 8 * (self.ea >> left & (1 << sizes[depth]) - 1)
            self.goal(f"table {depth + 1}", at)
            put = self.real(at)
            self.steps.append(put)
        self.rest = left
        self.page = up_to(self.area(), 1 << left)
        self.put(put, leaf(self.page))
        self.goal("the result", self.page + self.ea % (1 << left))

    def changed(self, changes):
        """The words with some of them changed."""
        return {**self.words, **changes}


class Own(Layout):
    """The tables of a process of partition 0: only its entry is found through the partition's tree, the rest is real."""

    def __init__(self, process=(31, (10, 9)), ea=0x2A735238, level=None):
        super().__init__(lpid=0)
        self.pid, self.ea = 0x23, ea
        self.partition(31, (10, 9))
        self.entry = 0x413000 + 16 * self.pid
        self.put(self.entry_at + 8, 0x413000)
        self.goals = {"the process's entry": (self.entry, self.map(self.entry))}
        tree = Tree(*process, self.take, self.put)
        self.put(self.real(self.entry), tree.entry() & ~(1 << 63))
        level = level or len(process[1])
        self.steps = tree.map(ea, level, leaf(0x7F654321000 >> tree.rest(level) << tree.rest(level)))
        self.sizes, self.level, self.width, self.rest = process[1], level, process[0], tree.rest(level)

    def changed(self, changes):
        return {**self.words, **changes}
