#!/usr/bin/env python3
"""Builds the programs of examples/linked in several layouts, runs each, and compares what it shows with its own bytes.

    tools/check_linker.py [--program PATH] [--build-only]

Each program shows its code, its data and its zeros on the console and stops the machine. The bytes wanted are those that
objcopy takes out of the file, and zeros. Then the listing of each file is to have one line for each whole word of the bytes that the
file has of its segments, with the word's address and digits. --build-only builds and does not run. Ends with status 1 at the first
difference.
"""

import argparse
import pathlib
import struct
import subprocess
import sys
import tempfile

TOP = pathlib.Path(__file__).resolve().parent.parent
SOURCES = TOP / "examples/linked"
PREFIX = "powerpc64le-linux-gnu-"
COMPILE = [PREFIX + "gcc", "-nostdlib", "-ffreestanding", "-mno-vsx", "-mno-altivec", "-fno-asynchronous-unwind-tables", "-Wl,--build-id=none"]
STEPS = "200000"

C_FILES = ["start.s", "shown.c"]
LAYOUTS = [
    ("C at 10000, not optimised", C_FILES, ["-static", "-O0", "-Wl,-Ttext-segment=0x10000"], False),
    ("C at 10000", C_FILES, ["-static", "-O2", "-Wl,-Ttext-segment=0x10000"], False),
    ("C at 100000, stripped", C_FILES, ["-static", "-O2", "-Wl,-Ttext-segment=0x100000"], True),
    ("C with zeros alone", C_FILES, ["-static", "-O2", "-DWITHOUT_DATA", "-Wl,-Ttext-segment=0x10000"], False),
    ("C that may be moved, at 0", C_FILES, ["-static-pie", "-fpie", "-O2", "-Wl,-z,text"], False),
    ("assembly at 10000", ["bytes.s"], ["-static", "-Wl,-Ttext-segment=0x10000"], False),
    ("assembly at 100000, stripped", ["bytes.s"], ["-static", "-Wl,-Ttext-segment=0x100000"], True),
]


def output(*words):
    return subprocess.run([str(word) for word in words], check=True, capture_output=True, text=True).stdout


def build(sources, options, path):
    subprocess.run(COMPILE + options + ["-o", str(path)] + [str(SOURCES / name) for name in sources], check=True)


def symbols(path):
    lines = (line.split() for line in output(PREFIX + "nm", path).splitlines())
    return {words[2]: int(words[0], 16) for words in lines if len(words) == 3}


def lowest_section(path):
    """The address of the first section that objcopy takes out."""
    lines = output(PREFIX + "objdump", "-hw", path).splitlines()
    return min(int(line.split()[3], 16) for line in lines if "CONTENTS" in line and "ALLOC" in line)


def shown_bytes(path, folder):
    """The bytes of the file's code and data, and zeros."""
    binary = folder / "binary"
    output(PREFIX + "objcopy", "-O", "binary", path, binary)
    data = binary.read_bytes()
    base = lowest_section(path)
    at = symbols(path)
    text = data[at["text_start"] - base:at["_etext"] - base]
    words = data[at["data_start"] - base:at["_edata"] - base]
    return text + words + bytes(at["_end"] - at["__bss_start"])


def console_line(data):
    """The line of a report that shows these bytes, as docs/FORMATS.md says."""
    def shown(byte):
        if byte == 0x5C:
            return "\\\\"
        if byte == 0x0A:
            return "\\n"
        return chr(byte) if 0x20 <= byte <= 0x7E else f"\\x{byte:02x}"
    return f"console 0 {len(data)} " + "".join(map(shown, data))


def words_of(path):
    """The address and the number of each whole word of the bytes that a file has of its segments, in order."""
    data = path.read_bytes()
    table, = struct.unpack_from("<Q", data, 32)
    count, = struct.unpack_from("<H", data, 56)
    words = []
    for number in range(count):
        kind, _, offset, _, address, size, memory, _ = struct.unpack_from("<IIQQQQQQ", data, table + 56 * number)
        if kind == 1 and memory:
            words += [(address + at, *struct.unpack_from("<I", data, offset + at)) for at in range(0, size - 3, 4)]
    return words


def listing_fault(program, path):
    """What is wrong with the listing of a file, or None."""
    listing = subprocess.run([program, "dis", str(path)], capture_output=True, text=True, timeout=60)
    lines, words = listing.stdout.splitlines(), words_of(path)
    if listing.returncode != 0:
        return f"dis ended with {listing.returncode}: {listing.stdout}{listing.stderr}"
    if len(lines) != len(words):
        return f"wanted {len(words)} lines of dis, and {len(lines)} came"
    for line, (address, word) in zip(lines, words):
        if not line.startswith(f"{address:016x} {word:08x} "):
            return f"wanted a line of {address:016x} {word:08x}, and '{line}' came"
    return None


def main():
    parser = argparse.ArgumentParser(description=__doc__, formatter_class=argparse.RawDescriptionHelpFormatter)
    parser.add_argument("--program", default=str(TOP / "crates/radix/out/radix"))
    parser.add_argument("--build-only", action="store_true")
    options = parser.parse_args()
    schedule = str(TOP / "examples/first/first.sched")
    with tempfile.TemporaryDirectory() as name:
        folder = pathlib.Path(name)
        for layout, sources, flags, stripped in LAYOUTS:
            path = folder / "program.elf"
            build(sources, flags, path)
            line = console_line(shown_bytes(path, folder))
            if stripped:
                output(PREFIX + "strip", path)
            if options.build_only:
                continue
            run = subprocess.run([options.program, "run", str(path), schedule, STEPS], capture_output=True, text=True, timeout=60)
            lines = run.stdout.split("\n")
            if not any(text.startswith("end stopped DeviceStop ") for text in lines) or line not in lines:
                print(f"check_linker: {layout}: wanted a DeviceStop and\n  {line}\ncame\n{run.stdout}{run.stderr}")
                print("Build it by the first line of examples/linked/README.md and run it, to see which side is wrong.")
                return 1
            fault = listing_fault(options.program, path)
            if fault is not None:
                print(f"check_linker: {layout}: {fault}")
                return 1
    said = "are built" if options.build_only else "show their own bytes, and their words are listed"
    print(f"check_linker: {len(LAYOUTS)} programs {said}")
    return 0


if __name__ == "__main__":
    sys.exit(main())
