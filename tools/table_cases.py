#!/usr/bin/env python3
"""Writes the cases of table words and of rights: crates/table_formats/src/tests/cases.rt and crates/protect/src/tests/cases.rt.

What is expected is worked out here from sentences of the Power ISA, Version 3.0B, Book III, 5.7, and of docs/MACHINE.md and
docs/TABLES.md, and from nothing of the crates: a doubleword is a text of 64 digits, bit 0 first, and a field is a piece of
this text, with zeros behind it where it is an address.

With `--check` it writes nothing, and fails where a file is not what it would write.
"""

import itertools
import os
import sys

TOP = os.path.dirname(os.path.dirname(os.path.abspath(__file__)))
TABLES = os.path.join(TOP, "crates/table_formats/src/tests/cases.rt")
RIGHTS = os.path.join(TOP, "crates/protect/src/tests/cases.rt")

# The fields of each kind of doubleword that is an entry of a tree: their first and last bits.
DIRECTORY = [(4, 55), (59, 63)]
LEAF = [(7, 51), (55, 55), (56, 56), (58, 59), (60, 63)]
ROOT = [(0, 0), (1, 2), (56, 58), (4, 55), (59, 63)]
LIST = [(4, 51), (59, 63)]


def digits(word):
    """The 64 digits of a doubleword, bit 0 first."""
    return format(word, "064b")


def piece(word, first, last, zeros=0):
    """The bits from first to last, with so many zeros behind them, as a number."""
    return int(digits(word)[first : last + 1] + "0" * zeros, 2)


def with_ones(word, places):
    """The word with ones at these places."""
    row = list(digits(word))
    for place in places:
        row[place] = "1"
    return int("".join(row), 2)


def ones(first, last):
    """Ones from the first to the last bit, and zeros elsewhere."""
    return with_ones(0, range(first, last + 1))


def kept(word, fields):
    """The word with zeros at all places that are in none of these fields."""
    named = {place for first, last in fields for place in range(first, last + 1)}
    return with_ones(0, [place for place in named if digits(word)[place] == "1"])


# ---- entries of trees


def entry(word):
    """What a doubleword of a tree means, and the word of this meaning."""
    if digits(word)[0] == "0":
        return f"{word:016x} invalid {0:016x}"
    if digits(word)[1] == "1":
        page = piece(word, 7, 51, zeros=12)
        r, c, att, eaa = [piece(word, first, last) for first, last in LEAF[1:]]
        return f"{word:016x} leaf {page:x} {r} {c} {att:x} {eaa:x} {kept(word, [(0, 1)] + LEAF):016x}"
    base = piece(word, 4, 55, zeros=8)
    return f"{word:016x} directory {base:x} {piece(word, 59, 63):x} {kept(word, [(0, 1)] + DIRECTORY):016x}"


def edges(head, fields):
    """Words with these first bits: each field alone at 0, at 1, at its highest bit, and with all ones; all other bits 1; all 1."""
    yield head
    for first, last in fields:
        for inside in [ones(first, last), ones(last, last), ones(first, first)]:
            yield head | inside
        yield head | (ones(2, 63) & ~ones(first, last))
    ignored = ones(2, 63) & ~kept(ones(0, 63), fields)
    yield head | ignored
    yield head | ones(2, 63)
    yield head | (ones(2, 63) & ~ignored)
    for place in range(2, 64):
        yield head | ones(place, place)


def entry_words():
    """The words of the cases."""
    yield from [0x8000000000102009, 0xC000000000110187, 0xC000000000012107]
    yield from edges(0, DIRECTORY)
    yield from edges(ones(1, 1), LEAF)
    yield from edges(ones(0, 0), DIRECTORY)
    yield from edges(ones(0, 1), LEAF)


# ---- roots and tables of partitions and processes


def root(word):
    """HR, the bits that a root translates, its base and its size."""
    rts = digits(word)[1:3] + digits(word)[56:59]
    return f"{word:016x} {digits(word)[0]} {int(rts, 2) + 31} {piece(word, 4, 55, zeros=8):x} {piece(word, 59, 63)}"


def root_words():
    yield from [0xC0000000000000AD, 0x40000000000000AD, 0x800000000010000A, 0x000000000000200A]
    for rts in range(32):
        row = format(rts, "05b")
        yield with_ones(0, [1 + i for i in range(2) if row[i] == "1"] + [56 + i for i in range(3) if row[2 + i] == "1"])
    for first, last in ROOT:
        yield from [ones(first, last), ones(0, 63) & ~ones(first, last)]
    yield ones(0, 63)


def table(word):
    """The base and the size of a table of partitions or processes."""
    return f"{word:016x} {piece(word, 4, 51, zeros=12):x} {piece(word, 59, 63)}"


def list_words():
    yield from [0, ones(0, 63), 0x0000000000100004, 0x0FFFFFFFFFFFF01F]
    for first, last in LIST:
        yield from [ones(first, first), ones(last, last), ones(first, last), ones(0, 63) & ~ones(first, last)]


# ---- quadrants

LPIDS = [0, 5]
PID = 7


def quadrant(hv, pr, lpid, quarter):
    """The partition and the process, or a dash where there is no segment."""
    if hv == 0:
        space = {0: (lpid, PID), 3: (lpid, 0)}.get(quarter)
    elif quarter in (1, 2) and (pr == 1 or lpid == 0):
        space = None
    else:
        space = {0: (0, PID), 1: (lpid, PID), 2: (lpid, 0), 3: (0, 0)}[quarter]
    return f"{hv} {pr} {lpid} {quarter} " + ("- -" if space is None else f"{space[0]} {space[1]}")


def quadrants():
    for hv, pr, lpid, quarter in itertools.product([0, 1], [0, 1], LPIDS, range(4)):
        yield quadrant(hv, pr, lpid, quarter)


# ---- rights


def letter(scope, access, pr, att, eaa, r, c):
    """A dot where the access is permitted, else the letter of the first right that refuses it."""
    privileged, may_read, may_read_and_write, may_execute = [digit == "1" for digit in format(eaa, "04b")]
    if scope == "process" and pr == 1 and privileged:
        return "p"
    if access == "load" and not may_read and not may_read_and_write:
        return "r"
    if access == "store" and not may_read_and_write:
        return "w"
    if access == "fetch" and not may_execute:
        return "x"
    if access == "fetch" and att == 2:
        return "g"
    if r == 0:
        return "f"
    if access == "store" and c == 0:
        return "c"
    return "."


def rights():
    """A line for each scope, access, PR and ATT, with a letter for each R, C and EAA."""
    for scope, access, pr, att in itertools.product(["process", "partition"], ["fetch", "load", "store"], [0, 1], range(4)):
        row = [letter(scope, access, pr, att, eaa, r, c) for r, c, eaa in itertools.product([0, 1], [0, 1], range(16))]
        yield f"{scope} {access} {pr} {att} {''.join(row)}"


# ---- causes

EA = 0x4000000000123456
GUEST_REAL = 0x0000000087654321
BITS = {
    "missing": 33,
    "unsupported": 44,
    "privilege": 36,
    "read": 36,
    "write": 36,
    "execute": 35,
    "guarded": 35,
    "referenced": 45,
    "changed": 45,
}


def status(places, width):
    """The value of a status register whose bits of these numbers are 1; the last bit is number 63."""
    return int("".join("1" if i in places else "0" for i in range(64 - width, 64)), 2)


def cause(scope, access, what, table_use):
    """A line: what is asked, then the cause with its address, its bits and its guest real address, where it has them."""
    places = {BITS[what]} | ({46} if table_use else set()) | ({38} if access == "store" else set())
    side = "Inst" if access == "fetch" else "Data"
    name = f"{side}Storage" if scope == "process" else f"Hyp{side}Storage"
    address = "-" if side == "Inst" else f"{EA:016x}"
    value = f"{status(places, 64):016x}" if side == "Inst" else f"{status(places, 32):08x}"
    below = "-" if scope == "process" else f"{GUEST_REAL // 4096:x}000"
    return f"{scope} {access} {what} {46 if table_use else '-'} {name} {address} {value} {below}"


def segment(access):
    """The line of an address in no segment."""
    if access == "fetch":
        return f"segment {access} - - InstSegment - - -"
    return f"segment {access} - - DataSegment {EA:016x} - -"


def causes():
    yield from map(segment, ["fetch", "load", "store"])
    for what, access in itertools.product(BITS, ["fetch", "load", "store"]):
        yield cause("process", access, what, False)
        yield cause("partition", access, what, False)
        yield cause("partition", access, what, True)


# ---- the files


def listed(name, doc, lines):
    """A constant with these lines."""
    return ["", *[f"/// {line}" for line in doc], f'pub(crate) const {name}: &str = "\\', *lines, '";']


def table_file():
    parts = ["//! Table words and what they mean, as tools/table_cases.py works it out."]
    doc = ["A doubleword of a tree, what it means, and the word of this meaning, a line each. A directory has its base and size; a", "leaf its page, R, C, ATT and EAA."]
    parts += listed("ENTRIES", doc, dict.fromkeys(map(entry, entry_words())))
    doc = ["A doubleword as a root: HR, how many bits of an address the tree translates, the base and the size, a line each."]
    parts += listed("ROOTS", doc, dict.fromkeys(map(root, root_words())))
    doc = ["A doubleword that has the base and the size of a table of partitions or processes, with both, a line each."]
    parts += listed("LISTS", doc, dict.fromkeys(map(table, list_words())))
    doc = ["HV, PR, LPIDR and bits 0:1 of an address, then the partition and the process, or dashes where there is no segment, a line", "each."]
    parts += listed("QUADRANTS", doc, quadrants())
    return "\n".join(parts + [""])


def rights_file():
    parts = ["//! Rights, and what ensues where one is missing, as tools/table_cases.py works it out."]
    doc = ["A scope, an access, PR and ATT, a line each, and then a letter for each R, C and EAA, EAA counted first: a dot where all", "is permitted; p privilege, r read, w write, x execute, g guarded, f referenced, c changed."]
    parts += listed("RIGHTS", doc, rights())
    doc = ["Whose tables give no page, or that there is no segment; an access, what is wrong, 46 where an entry of a table was read; and", "then the cause with its address, its bits and its guest real address, a line each."]
    parts += listed("CAUSES", doc, causes())
    return "\n".join(parts + [""])


def examples():
    """Some values by hand, which the sentences above must give."""
    assert entry(0x8000000000102009).split()[1:4] == ["directory", "102000", "9"]
    assert entry(0xC000000000110187).split()[1:7] == ["leaf", "110000", "1", "1", "0", "7"]
    assert entry(0xC000000000012107).split()[1:7] == ["leaf", "12000", "1", "0", "0", "7"]
    assert root(0xC0000000000000AD).split()[1:] == ["1", "52", "0", "13"]
    assert root(0x40000000000000AD).split()[1:] == ["0", "52", "0", "13"]
    assert root(0x800000000010000A).split()[1:] == ["1", "31", "100000", "10"]
    assert root(0x000000000000200A).split()[1:] == ["0", "31", "2000", "10"]
    assert cause("process", "load", "missing", False).split()[-2] == "40000000"
    assert cause("process", "store", "changed", False).split()[-2] == "02040000"
    assert cause("process", "fetch", "guarded", False).split()[-2] == "0000000010000000"
    assert cause("partition", "load", "missing", True).split()[-2] == "40020000"


def main():
    examples()
    files = {TABLES: table_file(), RIGHTS: rights_file()}
    if "--check" in sys.argv[1:]:
        for path, text in files.items():
            with open(path, encoding="utf-8") as file:
                if file.read() != text:
                    sys.exit(f"{path} is not what {sys.argv[0]} writes")
        return
    for path, text in files.items():
        os.makedirs(os.path.dirname(path), exist_ok=True)
        with open(path, "w", encoding="utf-8") as file:
            file.write(text)


if __name__ == "__main__":
    main()
