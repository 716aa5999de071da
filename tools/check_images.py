#!/usr/bin/env python3
"""Compares what the program answers to some two thousand files with a plain reading of docs/FORMATS.md, "The image".

    tools/check_images.py [--program PATH]

The files are every cut of two good ones, these two with each field of their headers at its least, middle and greatest
values, and with one byte changed at random, from a fixed seed. For each the program is run for no step, so it reads the
image, and opens a machine or says what is wrong. Ends with status 1 where an answer differs.
"""

import argparse
import pathlib
import random
import struct
import subprocess
import sys
import tempfile

TOP = pathlib.Path(__file__).resolve().parent.parent
RAM = 16 * 1024 * 1024
CHANGES = 1000

# The fields of the header and of a segment's header: place and size.
HEADER_FIELDS = [(4, 1), (5, 1), (6, 1), (16, 2), (18, 2), (20, 4), (24, 8), (32, 8), (40, 8), (48, 4), (52, 2), (54, 2), (56, 2)]
SEGMENT_FIELDS = [(0, 4), (4, 4), (8, 8), (16, 8), (24, 8), (32, 8), (40, 8), (48, 8)]


def number(data, place, size):
    return int.from_bytes(data[place:place + size], "little")


def header_fault(data):
    """The first fault of the header of a file, or None."""
    if len(data) < 64:
        return "Short"
    tests = [
        ("Magic", data[:4] == b"\x7fELF"),
        ("Class", data[4] == 2),
        ("Order", data[5] == 1),
        ("Machine", number(data, 18, 2) == 21),
        ("Abi", number(data, 48, 4) % 4 in (0, 2)),
        ("FileType", number(data, 16, 2) in (2, 3)),
        ("Header", number(data, 54, 2) == 56 and number(data, 56, 2) != 0
         and number(data, 32, 8) + 56 * number(data, 56, 2) <= len(data)),
        ("TooMany", number(data, 56, 2) <= 64),
    ]
    return next((name for name, passed in tests if not passed), None)


def meet(one, other):
    """Whether two ranges, each a first address and a size, have a common address."""
    return max(one[0], other[0]) < min(sum(one), sum(other))


def reading(data):
    """The fault of a file as the program names it and an empty list, or None and the ranges of its segments."""
    fault = header_fault(data)
    if fault:
        return fault, []
    loads = []
    table = number(data, 32, 8)
    for i in range(number(data, 56, 2)):
        header = data[table + 56 * i:table + 56 * i + 56]
        if number(header, 0, 4) != 1:
            continue
        offset, at, filesz, memsz = (number(header, place, 8) for place in (8, 24, 32, 40))
        if filesz > memsz or (filesz != 0 and offset + filesz > len(data)) or at + memsz > 2 ** 64:
            return f"Segment {i}", []
        loads.append((i, (at, memsz)))
    for j, (number_j, later) in enumerate(loads):
        for number_i, earlier in loads[:j]:
            if meet(earlier, later):
                return f"Overlap {number_i} {number_j}", []
    return None, [place for _, place in loads if place[1] != 0]


def wanted(data):
    """The first line of what the program prints, and its exit status."""
    fault, ranges = reading(data)
    if fault:
        return f"fault image {fault}", 5
    for at, size in ranges:
        if at + size > RAM:
            end = min(at + size, 2 ** 64 - 1)
            return f"fault place {at:016x} {end:016x} {0:016x} {RAM:016x}", 10
    return "radix 1", 0


def segment(kind, offset, at, filesz, memsz):
    return struct.pack("<IIQQQQQQ", kind, 5, offset, at, at, filesz, memsz, 65536)


def second_file():
    """A file as a linker writes it: two segments, one of them of zeros alone, a note, a stack, and bytes behind them."""
    headers = [
        segment(1, 0x200, 0x10000, 0x40, 0x40),
        segment(1, 0x10000, 0x20000, 0, 0x100),
        segment(4, 0x210, 0x10010, 0x20, 0x20),
        segment(0x6474E551, 0, 0, 0, 0),
    ]
    front = b"\x7fELF\x02\x01\x01" + bytes(9)
    front += struct.pack("<HHIQQQIHHHHHH", 2, 21, 1, 0x10000, 64, 0x240, 2, 64, 56, len(headers), 64, 0, 0)
    data = (front + b"".join(headers)).ljust(0x200, b"\xcc")
    return data + bytes(range(0x40)) + b"sections"


def values(size):
    top = 256 ** size
    return sorted({0, 1, 2, top // 2, top - 1})


def files():
    """Names and contents."""
    first = (TOP / "examples/first/first.elf").read_bytes()
    for count, length in ((64, 3648), (65, 3704), (65, 3703), (65535, 3670024)):
        data = first[:56] + count.to_bytes(2, "little") + first[58:64]
        yield f"{count} headers in {length} bytes", data.ljust(length, b"\0")
    for name, data in (("first", first), ("second", second_file())):
        for cut in range(len(data) + 1):
            yield f"{name} cut to {cut} bytes", data[:cut]
        places = list(HEADER_FIELDS)
        for i in range(number(data, 56, 2)):
            places += [(64 + 56 * i + place, size) for place, size in SEGMENT_FIELDS]
        for place, size in places:
            for value in values(size):
                yield f"{name} with {value:x} at {place}", data[:place] + value.to_bytes(size, "little") + data[place + size:]
        chance = random.Random(name)
        for _ in range(CHANGES // 2):
            place, byte = chance.randrange(len(data)), chance.randrange(256)
            yield f"{name} with byte {place} {byte:02x}", data[:place] + bytes([byte]) + data[place + 1:]


def main():
    parser = argparse.ArgumentParser(description=__doc__, formatter_class=argparse.RawDescriptionHelpFormatter)
    parser.add_argument("--program", default=str(TOP / "crates/radix/out/radix"))
    program = parser.parse_args().program
    schedule = str(TOP / "examples/first/first.sched")
    count = 0
    answers = set()
    with tempfile.TemporaryDirectory() as folder:
        path = pathlib.Path(folder) / "image.elf"
        for name, data in files():
            path.write_bytes(data)
            run = subprocess.run([program, "run", str(path), schedule, "0"], capture_output=True, timeout=60)
            line = run.stdout.split(b"\n")[0].decode("ascii", "replace")
            if (line, run.returncode) != wanted(data):
                print(f"check_images: {name}: wanted {wanted(data)}, came {(line, run.returncode)}")
                print("Read docs/FORMATS.md, \"The image\", and see which of the program and this script is wrong.")
                return 1
            count += 1
            answers.add(line.split(" ")[2] if line.startswith("fault image") else line.split(" ")[1])
    print(f"check_images: {count} files have their answers, of {len(answers)} kinds")
    return 0


if __name__ == "__main__":
    sys.exit(main())
