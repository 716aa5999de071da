#!/usr/bin/env python3
"""Times this copy's program beside that of another copy of the repository, whose folder is given: 1,048,576 steps of three
loops, whole calls, opening and report included. The programs are run in turn, nine times each, each in the environment that its
launcher gives it; the best times count, and their ratio is what to go by, since other work on the machine slows both. The reports
must be the same, byte for byte. Both programs must be built (`./radix --version` builds them)."""

import os
import pathlib
import struct
import subprocess
import sys
import tempfile
import time

STEPS = "1048576"
RUNS = 9
TUNING = "GLIBC_TUNABLES"

# addi r3,r3,1; b .-4 -- eight sums, products and a quotient -- eight logic operations, shifts, rotations and a count
LOOPS = {
    "two instructions": [0x38630001, 0x4BFFFFFC],
    "arithmetic": [0x38630003, 0x7C841A14, 0x7CA32050, 0x30C4FFFF, 0x7CE53114, 0x7D0321D2, 0x7D2800D0, 0x7D481B92, 0x4BFFFFE0],
    "logic": [0x60630005, 0x7C841A78, 0x7C652036, 0x54A638F8, 0x7CC70074, 0x7CA83878, 0x7D091E70, 0x792A6900, 0x4BFFFFE0],
}


def image(words):
    """An image with these words at 0x10000, where it begins."""
    start, size = 0x10000, 4 * len(words)
    header = b"\x7fELF\x02\x01\x01" + bytes(9)
    header += struct.pack("<HHIQQQIHHHHHH", 2, 21, 1, start, 64, 0, 2, 64, 56, 1, 0, 0, 0)
    segment = struct.pack("<IIQQQQQQ", 1, 7, 120, start, start, size, size, 1)
    return header + segment + struct.pack(f"<{len(words)}I", *words)


def environment(copy):
    """What the launcher of a copy runs its program with: it asks for large pages, or it does not."""
    given = dict(os.environ)
    given.pop(TUNING, None)
    if TUNING in (copy / "radix").read_text():
        given[TUNING] = "glibc.malloc.hugetlb=1"
    return given


def spent(copy, folder):
    """The seconds of one run in a copy, and its report."""
    command = [copy / "crates/radix/out/radix", "run", folder / "image", folder / "schedule", STEPS]
    start = time.perf_counter()
    done = subprocess.run(command, env=environment(copy), stdout=subprocess.PIPE, check=True)
    return time.perf_counter() - start, done.stdout


def compare(copies, folder, name, words):
    """Prints the best times of both programs over a loop, and their ratio."""
    (folder / "image").write_bytes(image(words))
    runs = [[spent(copy, folder) for copy in copies] for _ in range(RUNS)]
    if len({report for row in runs for _, report in row}) != 1:
        sys.exit(f"compare: the reports of {name} differ")
    old, new = (min(row[k][0] for row in runs) for k in range(2))
    print(f"{name}: {old * 1000:.0f} ms there, {new * 1000:.0f} ms here, ratio {new / old:.2f}")


def main():
    if len(sys.argv) != 2:
        sys.exit("usage: bench/compare.py FOLDER-OF-THE-OTHER-COPY")
    copies = [pathlib.Path(sys.argv[1]), pathlib.Path(__file__).resolve().parent.parent]
    with tempfile.TemporaryDirectory() as name:
        folder = pathlib.Path(name)
        (folder / "schedule").write_text("threads 1\n0\nrepeat\n")
        for loop, words in LOOPS.items():
            compare(copies, folder, loop, words)


main()
