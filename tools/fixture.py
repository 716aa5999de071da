#!/usr/bin/env python3
"""Writes the sources of examples/guest/ from examples/generated/generated.s, so that their tables are its tables.

`guest.asm` is that source with two doublewords more, `first_load.asm` the same with two loads as the code of guest 1, `missing.asm` this
without an entry of the partition's tree, and `largest.asm` the start with the largest trees that there are. With `--check` it writes nothing, and fails where a file is not what it would write.
With `--compare GENERATED GUEST` it compares the two images: the second has the entry and the segments of the first, and the doublewords.
"""

import os
import struct
import sys

TOP = os.path.dirname(os.path.dirname(os.path.abspath(__file__)))
SOURCE = os.path.join(TOP, "examples/generated/generated.s")
FOLDER = os.path.join(TOP, "examples/guest")
EXTRA = [(0x120000, 0x11), (0x121000, 0x22)]  # real addresses, and the doublewords there, their lowest bytes first

GUEST_HEAD = """\
# The hypervisor with two guests of examples/generated, with two doublewords in the memory of guest 1. Written by tools/fixture.py.
# README.md goes through it.

"""
FIRST_LOAD_HEAD = """\
# The hypervisor of examples/generated, whose guest 1 loads a doubleword twice. Written by tools/fixture.py. README.md goes through it.

"""
MISSING_HEAD = """\
# first_load.asm without the entry of the partition's tree for the page that is loaded from. Written by tools/fixture.py. README.md goes
# through it.

"""
MISSING_LEAF = "        .bedword page+home1+0x10000     # 10000: the page in which the guest counts\n"
NO_LEAF = "        .bedword 0                      # 10000: no page\n"
DOUBLEWORDS = """\
# Two doublewords of guest 1, in its pages at 10000 and 11000.
.seg 0x120000
        .dword 0x11
.seg 0x121000
        .dword 0x22

"""
TWO_LOADS = """\
# The code of guest 1, at its address 5000. Register 12 is 10000 since the reset.
count1: ld r7,0(r12)                    # the doubleword at the guest's address 10000, which is 11
        ld r7,0(r12)                    # and once more
        .space count1+4096-.            # the rest of the page

"""
LARGEST_HEAD = """\
# A guest behind the largest trees: 52 bits of addresses, four levels in either tree, pages of 4 KiB. Its first instruction is fetched
# through 36 words of tables. Written by tools/fixture.py. README.md goes through it. Addresses in comments are hexadecimal.

.equ valid, 0x8000000000000000          # of a tree's entry, bit 0: the entry is valid
.equ leaf, 0x4000000000000000           # of a tree's entry, bit 1: it gives a page; else it gives the next table
.equ page, valid+leaf+0x187             # a leaf: referenced and changed; read, read and write, execute
.equ radix, 0x8000000000000000          # of a partition's entry, bit 0: its tables are a radix tree
.equ wide, 0x40000000000000a0           # of an entry with a root, bits 1:2 and 56:58: the tree has 21 + 31 = 52 bits

"""
LARGEST_TABLES = """\
# Partition 1. Only what the guest needs is written; all other entries are zeros, which is not valid.
.seg 0x20010
        .bedword radix+wide+0x400000+13 # 52 bits of addresses, of which the root at 400000, with 2^13 entries, takes 13
        .bedword 0                      # the process table is at the guest's address 0, in 2^12 bytes

# Its tree. Each table's first entry leads to the next, so the guest has the addresses 0 to 1FFFFF.
.seg 0x400000
        .bedword valid+0x410000+9       # level 1, 39 bits are left: the table at 410000, which has 2^9 entries
.seg 0x410000
        .bedword valid+0x411000+9       # level 2, 30 bits are left: the table at 411000
.seg 0x411000
        .bedword valid+0x412000+9       # level 3, 21 bits are left: the table at 412000
.seg 0x412000
last:   .bedword page+0x500000          # level 4, 12 bits are left: the guest's addresses 0 to FFF are the page at 500000
        .space last+0x28-.
        .bedword page+0x505000          # 5000: the code
        .space last+0x80-.
        .bedword page+0x510000          # 10000: the root of the process
        .space last+0x100-.
        .bedword page+0x520000          # 20000, 21000 and 22000: its tables of level 2, 3 and 4
        .bedword page+0x521000
        .bedword page+0x522000

# The guest's own tables. The addresses that they name are the guest's.
.seg 0x500010
        .bedword wide+0x10000+13        # process 1: 52 bits of addresses, of which the root at 10000, with 2^13 entries, takes 13
        .bedword 0
.seg 0x510000
        .bedword valid+0x20000+9        # level 1: the table at 20000, which has 2^9 entries
.seg 0x520000
        .bedword valid+0x21000+9        # level 2: the table at 21000
.seg 0x521000
        .bedword valid+0x22000+9        # level 3: the table at 22000
.seg 0x522028
        .bedword page+0x5000            # level 4, entry 5: the address 5000 is the guest's page at 5000

# The guest's code, at its address 5000.
.seg 0x505000
        b .                             # for ever

"""


def between(text, first, behind):
    """The part of a text from one line's beginning on, up to another's; each beginning stands once."""
    assert text.count("\n" + first) == 1 and text.count("\n" + behind) == 1, (first, behind)
    begin, end = text.index("\n" + first) + 1, text.index("\n" + behind) + 1
    assert begin < end
    return text[begin:end]


def sources(text):
    """The four sources, by their names."""
    entry = ".entry start\n"
    assert text.endswith(entry)
    body = text[: -len(entry)]
    with_doublewords = body + DOUBLEWORDS + entry
    code = between(text, "# The code of guest 1,", "# The tree of guest 2:")
    start = between(text, "# The start,", "# The partition table:")
    assert with_doublewords.count(code) == 1 and with_doublewords.count(MISSING_LEAF) == 1
    two_loads = with_doublewords.replace(code, TWO_LOADS)
    return {
        "guest.asm": GUEST_HEAD + with_doublewords,
        "first_load.asm": FIRST_LOAD_HEAD + two_loads,
        "missing.asm": MISSING_HEAD + two_loads.replace(MISSING_LEAF, NO_LEAF),
        "largest.asm": LARGEST_HEAD + start + LARGEST_TABLES + entry,
    }


def image(path):
    """The entry of an image, and its segments: address, size in memory, bytes."""
    with open(path, "rb") as file:
        data = file.read()
    (entry,), (table,), (count,) = (struct.unpack_from(form, data, at) for form, at in (("<Q", 24), ("<Q", 32), ("<H", 56)))
    segments = []
    for number in range(count):
        _, _, at, address, _, size, memory, _ = struct.unpack_from("<IIQQQQQQ", data, table + 56 * number)
        segments.append((address, memory, data[at : at + size]))
    return entry, segments


def compare(generated, guest):
    """Ends with a message where the image of the fixture is not the generated one with the doublewords."""
    entry, segments = image(generated)
    wanted = segments + [(at, 8, value.to_bytes(8, "little")) for at, value in EXTRA]
    came_entry, came = image(guest)
    if came_entry != entry or sorted(came) != sorted(wanted):
        sys.exit(f"fixture: {guest} has not the entry and the segments of {generated} and the two doublewords")


def main():
    if sys.argv[1:2] == ["--compare"]:
        compare(*sys.argv[2:])
        return
    with open(SOURCE, encoding="utf-8") as file:
        text = file.read()
    for name, source in sources(text).items():
        path = os.path.join(FOLDER, name)
        if "--check" in sys.argv[1:]:
            with open(path, encoding="utf-8") as file:
                if file.read() != source:
                    sys.exit(f"{path} is not what {sys.argv[0]} writes")
        else:
            os.makedirs(FOLDER, exist_ok=True)
            with open(path, "w", encoding="utf-8") as file:
                file.write(source)


if __name__ == "__main__":
    main()
