#!/usr/bin/env python3
"""Writes crates/walk_tests/stdin, walks over tables, and crates/walk_tests/stdout, what each of them gives.

What they give is worked out by table_walks.py from the sentences of the machine's rules (docs/WALKS.md) and from nothing of this
repository's code. The rows of walk_rows.py were worked out by hand, and are compared here. With `--check` it writes nothing, and fails
where a file is not what it would write. With `--count` it prints how many walks there are, by loop. With `--walks NAME`, where NAME is
`first_load`, `missing` or `largest`, it writes the text that `--walks` adds to the report of this program of examples/guest/.

A line of the first file is one of these, its numbers in hexadecimal; the second has the lines with `#` as they are, and behind them
the outcome and the readings of each walk.

    # TEXT                         what follows
    m SIZE                         RAM is new and all zero, of so many bytes
    w PLACE DOUBLEWORD             a word of RAM, its highest byte first
    p PTCR LPID GRA                a walk of a partition's tree
    f EA MSR LPIDR PIDR PTCR       a walk of a fetch; l of a load, s of a store
"""

import collections
import itertools
import os
import sys

from table_walks import Ask, Memory, walk_ask, walk_partition
from walk_asks import ask_cases
from walk_layouts import PTCR, RIGHTS, Layout, directory, leaf, root
from walk_rows import RAM, nested_rows, partition_rows
from walk_texts import walks_text

TOP = os.path.dirname(os.path.dirname(os.path.abspath(__file__)))
FOLDER = os.path.join(TOP, "crates/walk_tests")
MOMENT = 3  # the number of step rows in the journal of the test

# Trees with a leaf of each size at each level where one can be: address bits, and the sizes of tables down to the leaf.
SHAPES = [
    (31, (10, 9)), (31, (5, 5, 9)), (31, (10,)), (40, (10, 9, 9)), (52, (13, 9, 9, 9)), (52, (16, 16, 8)), (52, (13, 9, 9, 5)),
    (52, (13, 9, 9)), (52, (13, 9)),
]
MORE_SHAPES = [
    (31, (15,)), (42, (14,)), (37, (16,)), (46, (16,)), (40, (12, 12)), (40, (10, 9)), (52, (13, 13, 10)), (52, (5, 5, 12)),
    (52, (5, 5, 5, 7)), (52, (13, 5, 5, 8)), (45, (12, 5, 5, 11)),
]
ADDRESS = 0x9A52A735238F5  # its lowest bits are sought in each tree


class Cases:
    """The lines of both files, as they grow."""

    def __init__(self):
        self.asked, self.printed = [], []
        self.ram, self.words = None, {}
        self.loop, self.counts, self.outcomes = "", collections.Counter(), collections.Counter()

    def begin(self, loop):
        """A loop of cases begins."""
        self.loop = loop
        self.note(f"# {loop}")

    def note(self, line):
        self.asked.append(line)
        self.printed.append(line)

    def set_words(self, words, ram):
        """Places what differs from the case before, and zeros where a word is none of this case."""
        if ram != self.ram:
            self.asked.append(f"m {ram:x}")
            self.ram, self.words = ram, {}
        words = {at: word for at, word in words.items() if word and at + 8 <= ram}
        for at in sorted({*self.words, *words}):
            if self.words.get(at, 0) != words.get(at, 0):
                self.asked.append(f"w {at:x} {words.get(at, 0):x}")
        self.words = words

    def add(self, title, words, query, ram=RAM):
        """A walk: of an ask, or of a partition's tree, given as (ptcr, lpid, gra). It answers the outcome and the readings."""
        self.counts[self.loop] += 1
        self.note(f"# {self.counts[self.loop]} {title}")
        self.set_words(words, ram)
        memory = Memory(ram, words)
        if isinstance(query, Ask):
            registers = (query.ea, query.msr, query.lpid, query.pid, query.ptcr)
            self.asked.append(" ".join([query.access[0].lower(), *(f"{it:x}" for it in registers)]))
            outcome, readings = walk_ask(memory, query, MOMENT)
        else:
            self.asked.append(" ".join(["p", *(f"{it:x}" for it in query)]))
            outcome, readings = walk_partition(memory, *query, MOMENT)
        self.printed += [outcome, *readings]
        self.outcomes[outcome.split()[0]] += 1
        return outcome, readings

    def rows(self, loop, rows):
        """The rows that were worked out by hand."""
        self.begin(loop)
        for row in rows:
            given = self.add(row.title, row.words, row.query)
            assert row.holds(*given), (row.title, *given)


def laid_out(width, sizes, gra, odd=0, lpid=1, ptcr=PTCR, word=None):
    """A partition's tree down to a leaf for an address, and the places of its entries."""
    layout = Layout(ptcr, lpid, odd)
    layout.partition(width, sizes)
    rest = layout.tree.rest(len(sizes))
    found = layout.tree.map(gra, len(sizes), leaf(0x5A7F3C6000 >> rest << rest) if word is None else word)
    return layout, found


def shapes(cases):
    """Each shape at the edges of its addresses and of its page."""
    cases.begin("partition: shapes of trees, and the edges of the address")
    for width, sizes in SHAPES + MORE_SHAPES:
        rest = width - sum(sizes)
        inner = ADDRESS % (1 << width)
        first = inner >> rest << rest
        edges = [inner, first, first + (1 << rest) - 1, 0, (1 << width) - 1]
        for gra in edges if (width, sizes) in SHAPES else edges[:1]:
            layout, _ = laid_out(width, sizes, gra)
            cases.add(f"{width} bits by {sizes}: {gra:x}", layout.words, (PTCR, 1, gra))
        if (width, sizes) in SHAPES:
            for gra in [1 << width, (1 << 60) - 1, (1 << 64) - 1]:
                cases.add(f"{width} bits by {sizes}: {gra:x} is beyond them", layout.words, (PTCR, 1, gra))


def widths_and_sizes(cases):
    """Every number of address bits of a root, and every size of a table at two levels."""
    cases.begin("partition: every width of a root")
    gra = 0x7F123450
    for width in range(31, 63):
        layout, _ = laid_out(31, (10,), gra)
        words = {**layout.words, layout.entry_at: root(width, layout.tree.base(), 10)}
        cases.add(f"{width} bits", words, (PTCR, 1, gra))
        if width in (31, 51, 52, 53, 62):
            cases.add(f"{width} bits, and an address beyond them", words, (PTCR, 1, 1 << width))
    cases.begin("partition: every size of a table")
    for size, (width, above) in itertools.product(range(32), [(31, ()), (31, (10,)), (52, (13,))]):
        if width == 52 and not 5 <= size <= 16:
            continue
        left, gra = width - sum(above), ADDRESS % (1 << width)
        layout, found = laid_out(width, (*above, min(max(size, 5), left - 12)), gra)
        parent = found[-2] if above else layout.entry_at
        words = {**layout.words, parent: layout.words[parent] & ~31 | size}
        cases.add(f"size {size} where {left} bits are left", words, (PTCR, 1, gra))


def tree_endings(level, rest, table):
    """Words at a level of a tree that end a walk there or at the table below; `rest` bits are left, `table` has room for one."""
    yield "nothing", 0
    yield "a leaf that is not valid", leaf(0x77000) & ~(1 << 63)
    yield "a directory that is not valid", directory(table, 9) & ~(1 << 63)
    yield "a table of size 4", directory(table, 4)
    yield "a table of size 17", directory(table, 17)
    yield "a table above what is left", directory(table, min(31, max(5, rest - 11)))
    yield "a table outside RAM", directory(0x7F000000, 5)
    if rest not in (12, 16, 21, 30):
        yield f"a leaf of {rest} bits", leaf(0x77000)
    if level == 4:
        yield "a directory at level 4", directory(table, 5)


def endings(cases):
    """What ends a partition's walk at each level."""
    cases.begin("partition: each ending at each level")
    for width, sizes in [(31, (10, 9)), (40, (10, 9, 9)), (52, (13, 9, 9, 9)), (52, (10, 10, 10, 10)), (31, (8, 6))]:
        gra = ADDRESS % (1 << width)
        layout, found = laid_out(width, sizes, gra)
        cases.add(f"{width} bits by {sizes}: the root is outside RAM", {layout.entry_at: root(width, 0xFFFF00, 5)}, (PTCR, 1, gra))
        for level, at in enumerate(found, 1):
            for title, word in tree_endings(level, layout.tree.rest(level), layout.free):
                cases.add(f"{width} bits by {sizes}: level {level} has {title}", {**layout.words, at: word}, (PTCR, 1, gra))


def numbers(cases):
    """The partition's number and the size of the partition table."""
    cases.begin("partition: numbers of partitions and the size of their table")
    pairs = list(itertools.product((0, 4), (0, 1, 255, 256, 4095)))
    pairs += [(pats, lpid) for pats in (1, 2, 3) for lpid in ((256 << pats) - 1, 256 << pats)] + [(5, 4095), (31, 4095)]
    for pats, lpid in pairs:
        layout, _ = laid_out(31, (10, 9), 0x5000, ptcr=PTCR + pats, lpid=lpid)
        cases.add(f"partition {lpid} where the table's size is {pats}", layout.words, (PTCR + pats, lpid, 0x5000))


def bits_and_places(cases):
    """Bits that are ignored, and tables whose place is no multiple of their size."""
    cases.begin("partition: bits that are ignored, and bases that are no multiples of their table's size")
    width, sizes = 52, (13, 9, 9, 9)
    gra = ADDRESS % (1 << width)
    layout, found = laid_out(width, sizes, gra)
    everywhere = 0xF000_0000_0000_0FE0  # of the control register: bits 0:3 and 52:58
    ignored = {layout.entry_at: 1 << 60, found[0]: 0x3000_0000_0000_00E0, found[-1]: 0x3E00_0000_0000_0E40}
    for at, more in ignored.items():
        cases.add("in one word", {**layout.words, at: layout.words[at] | more}, (PTCR, 1, gra))
    cases.add("in the control register", layout.words, (PTCR | everywhere, 1, gra))
    cases.add("in the second doubleword", {**layout.words, layout.entry_at + 8: (1 << 64) - 1}, (PTCR, 1, gra))
    everything = {at: word | ignored.get(at, 0) for at, word in layout.words.items()}
    everything.update({at: layout.words[at] | ignored[found[0]] for at in found[:-1]})
    cases.add("everywhere", everything, (PTCR | everywhere, 1, gra))
    for odd, (width, sizes) in itertools.product((0x100, 0x700), [(31, (10, 9)), (40, (10, 9, 9)), (52, (13, 9, 9, 9))]):
        gra = ADDRESS % (1 << width)
        layout, _ = laid_out(width, sizes, gra, odd)
        cases.add(f"{width} bits by {sizes}: tables {odd:x} off", layout.words, (PTCR, 1, gra))


def edges_of_ram(cases):
    """RAM that ends at, in and after each word; tables at the top of the address space; tables that are their own children."""
    cases.begin("partition: where RAM ends, and tables of every place")
    layout, found = laid_out(40, (10, 9, 9), 0x123456789)
    for at in (layout.entry_at, *found):
        for more in (0, 1, 7, 8):
            cases.add(f"RAM ends {more} bytes into the word at {at:x}", layout.words, (PTCR, 1, 0x123456789), at + more)
    for ram in (0, 7, 8, 0x1100000):
        cases.add(f"RAM of {ram:x} bytes, and the partition table at 0", {0: 0}, (0, 0, 0), ram)
    highest = 0x0FFF_FFFF_FFFF_F000
    cases.add("the partition table at the top", {}, (highest, 0, 0))
    cases.add("the partition table at the top, its last entry", {}, (highest + 4, 4095, 0))
    for pats in (0, 31):
        cases.add("a control register of ones", {}, ((1 << 64) - 32 + pats, 4095, 0))
    cases.add("a root at the top", {0x20010: root(52, 0x0FFF_FFFF_FFFF_FF00, 16)}, (PTCR, 1, (1 << 52) - 1))
    cases.add("a table at the top", {0x20010: root(31, 0x30000, 5), 0x30000: directory(0x0FFF_FFFF_FFFF_FF00, 14)}, (PTCR, 1, 0x3FFF000))
    for size in (5, 9, 10):
        child = {0x20010: root(52, 0x30000, size), 0x30000: directory(0x30000, size)}
        cases.add(f"a table of size {size} that is its own child", child, (PTCR, 1, 0))
    itself = {0x20010: root(52, 0x20000, 10), 0x20018: 0}
    cases.add("a root that is the partition table", itself, (PTCR, 1, 2 << 42))


def leaves(cases):
    """Every attribute and right of a leaf, and its page."""
    cases.begin("partition: what a leaf says")
    for number in range(16):
        rights = number | (number % 4) << 4 | (number >> 1 & 3) << 7
        layout, _ = laid_out(31, (10,), 0x12345678, word=leaf(0x7700000, rights))
        cases.add(f"rights {number:x}", layout.words, (PTCR, 1, 0x12345678))
    for at in range(7, 52):
        layout, _ = laid_out(31, (10, 9), 0x12345678, word=leaf(1 << 63 - at, RIGHTS))
        if at % 4 == 3 or at in (50, 51):
            cases.add(f"bit {at} of a page's address", layout.words, (PTCR, 1, 0x12345678))
    for word, title in [((1 << 64) - 1, "ones"), (3 << 62, "no bit but the first two")]:
        layout, _ = laid_out(31, (10, 9), 0x12345678, word=word)
        cases.add(f"a leaf of {title}", layout.words, (PTCR, 1, 0x12345678))


def all_cases():
    """Every case, in the order of the files."""
    cases = Cases()
    cases.rows("partition: rows worked out by hand", partition_rows())
    for loop in (shapes, widths_and_sizes, endings, numbers, bits_and_places, edges_of_ram, leaves):
        loop(cases)
    cases.rows("asks: rows worked out by hand", nested_rows())
    ask_cases(cases)
    return cases


def main():
    if sys.argv[1:2] == ["--walks"]:
        sys.stdout.write(walks_text(sys.argv[2]))
        return
    cases = all_cases()
    if "--count" in sys.argv[1:]:
        for loop, count in cases.counts.items():
            print(f"{count:5} {loop}")
        print(f"{sum(cases.counts.values()):5} in all; outcomes {dict(cases.outcomes)}")
        return
    for name, lines in [("stdin", cases.asked), ("stdout", cases.printed)]:
        path, text = os.path.join(FOLDER, name), "\n".join(lines) + "\n"
        if "--check" in sys.argv[1:]:
            with open(path, encoding="utf-8") as file:
                if file.read() != text:
                    sys.exit(f"{path} is not what {sys.argv[0]} writes")
        else:
            os.makedirs(FOLDER, exist_ok=True)
            with open(path, "w", encoding="utf-8") as file:
                file.write(text)


if __name__ == "__main__":
    main()
