#!/usr/bin/env python3
"""Compares the text of instructions that the program prints with that of GNU objdump.

    tools/check_text.py [--program PATH] [--words N] [--seed N]

Random words of each row of docs/INSTRUCTIONS.md, with 0 in the bits that the row ignores, are the one segment of an image. The program
lists it, and objdump disassembles the same words. The text of objdump is rewritten by the rules of docs/INSTRUCTIONS.md, "The text that
objdump prints" (`own_text`), and must then be the program's. Invalid forms are left out. A word that objdump does not know is passed over
where check_isa.py has the reason in its list. Each difference is printed, and the exit status is then 1.
"""

import argparse
import pathlib
import random
import re
import struct
import subprocess
import sys
import tempfile

from check_isa import INVALID_FORMS, MACHINE, MACHINE_OF_OPERATION, PROFILE, SPECIAL_CHANCE, SPECIAL_VALUES, UNKNOWN
from check_isa import disassemble_words
from instruction_table import WORD_BITS, read_table

TOP = pathlib.Path(__file__).resolve().parent.parent
WORD_BYTES = 4
CONDITION_BITS = ("lt", "gt", "eq", "so")

# Names, with their marks, behind whose operands objdump has one more, a hint, and names whose last operand is a target.
WITH_HINT = re.compile(r"(bclr|bcctr|bctar)l?|dcbf|dcbt|dcbtst|l[bhwd]arx")
WITH_TARGET = re.compile(r"bc?l?a?")


class Sample:
    """A random word of a row."""

    def __init__(self, operation, values, word):
        self.operation = operation
        self.values = values
        self.word = word

    def may_be_unknown(self):
        """Whether check_isa.py lists that GNU does not know this word."""
        named = (it for it in PROFILE if not it.operations or self.operation.name in it.operations)
        return any(UNKNOWN in it.answers and it.meant(self.values, 0) for it in named)


def place(reading, bits):
    """A word with these bits of a field at their places."""
    word = 0
    for first, last in reversed(reading.ranges):
        width = last - first + 1
        word |= (bits & ((1 << width) - 1)) << (WORD_BITS - 1 - last)
        bits >>= width
    return word


def random_bits(field, reading, source):
    """The bits of a field: at its edges, or any."""
    width = sum(last - first + 1 for first, last in reading.ranges)
    if source.random() < SPECIAL_CHANCE:
        return source.choice([0, (1 << width) - 1, 1 << (width - 1), *SPECIAL_VALUES.get(field.name, [])])
    return source.getrandbits(width)


def readings(layout, groups):
    """The fields of a layout that have bits in the words of an operation of these classes, each with how it is read."""
    pairs = [(field, field.other if field.where in groups else field.reading) for field in layout.fields]
    return [(field, reading) for field, reading in pairs if reading]


def random_sample(operation, fields, groups, source):
    """A random word of a row that is no invalid form."""
    invalid_forms = [INVALID_FORMS[it] for it in [operation.name, *groups] if it in INVALID_FORMS]
    while True:
        values = {field.name: random_bits(field, reading, source) for field, reading in fields}
        if not any(is_invalid(values) for is_invalid in invalid_forms):
            word = operation.value() | sum(place(reading, values[field.name]) for field, reading in fields)
            return Sample(operation, values, word)


def random_samples(table, count, source):
    """So many random words of each row."""
    samples = []
    for layout in table.layouts:
        for operation in layout.operations:
            groups = [it.name for it in table.classes if operation.name in it.operations]
            fields = readings(layout, groups)
            samples += [random_sample(operation, fields, groups, source) for _ in range(count)]
    return samples


def signed(number, width):
    """The number of so many bits that is this one but for a multiple of 2^width, read as a signed one."""
    half = 1 << (width - 1)
    return (number + half) % (2 * half) - half


def own_target(text, is_absolute, address):
    """A target that objdump has for the branch at an address. An absolute one has 32 bits there and 64 here."""
    if not re.fullmatch("0x[0-9a-f]+", text):
        return text
    target = int(text, 16)
    return str(signed(target, 32) % 2 ** 64) if is_absolute else f".{signed(target - address, 64):+d}"


def own_operand(text):
    """An operand of objdump: fields and bits of the condition register are numbers here."""
    if re.fullmatch("cr[0-7]", text):
        return text[2:]
    bit = re.fullmatch(r"(?:4\*cr([0-7])\+)?(lt|gt|eq|so)", text)
    return str(4 * int(bit[1] or 0) + CONDITION_BITS.index(bit[2])) if bit else text


def own_text(text, address):
    """The program's text for a word that objdump, at this address, has this text for. The mask of mfcr has been taken off already."""
    name, _, rest = text.partition(" ")
    operands = [own_operand(it) for it in rest.split(",")] if rest else []
    if WITH_HINT.fullmatch(name) and operands[-1:] == ["0"]:
        operands.pop()
    elif WITH_TARGET.fullmatch(name) and operands:
        operands[-1] = own_target(operands[-1], name.endswith("a"), address)
    elif name in ("mtcrf", "mtocrf"):
        operands.reverse()
    elif name == "cmpeqb":
        operands.insert(1, "0")
    return f"{name} {','.join(operands)}".strip()


def image(words):
    """An image whose one segment has these words, from address 0 on."""
    size = WORD_BYTES * len(words)
    header = b"\x7fELF\x02\x01\x01" + bytes(9)
    header += struct.pack("<HHIQQQIHHHHHH", 2, 21, 1, 0, 64, 0, 2, 64, 56, 1, 0, 0, 0)
    segment = struct.pack("<IIQQQQQQ", 1, 7, 120, 0, 0, size, size, 1)
    return header + segment + struct.pack(f"<{len(words)}I", *words)


def listing(program, words, folder):
    """The lines that the program prints of an image of these words."""
    path = pathlib.Path(folder) / "image.elf"
    path.write_bytes(image(words))
    run = subprocess.run([program, "dis", str(path)], stdout=subprocess.PIPE, universal_newlines=True)
    lines = run.stdout.splitlines()
    if run.returncode != 0 or len(lines) != len(words):
        sys.exit(f"check_text: dis ended with {run.returncode} and {len(lines)} lines for {len(words)} words: {lines[:1]}")
    return lines


def disassembled(samples, folder):
    """objdump's text of each word, for the machine for which GNU has its operation."""
    machines = [MACHINE_OF_OPERATION.get(it.operation.name, MACHINE) for it in samples]
    words = [it.word for it in samples]
    texts = {machine: disassemble_words(words, machine, folder) for machine in set(machines)}
    return [texts[machine][i] for i, machine in enumerate(machines)]


def compare(samples, lines, texts):
    """Prints the lines that are not those of objdump's texts. Gives how many these are, and how many words GNU need not know."""
    differences = unknown = 0
    for i, (sample, line, text) in enumerate(zip(samples, lines, texts)):
        address = WORD_BYTES * i
        wanted = f"{address:016x} {sample.word:08x} {own_text(text, address)}"
        if line == wanted:
            continue
        if text.startswith(UNKNOWN) and sample.may_be_unknown():
            unknown += 1
            continue
        print(f"{sample.operation.name}: objdump has `{text}`, so wanted was\n  {wanted}\nand came\n  {line}")
        differences += 1
    return differences, unknown


def main():
    parser = argparse.ArgumentParser(description=__doc__, formatter_class=argparse.RawDescriptionHelpFormatter)
    parser.add_argument("--program", default=str(TOP / "radix"))
    parser.add_argument("--words", type=int, default=64, help="random words of each operation (64)")
    parser.add_argument("--seed", type=int, default=1, help="seed of the random words (1)")
    options = parser.parse_args()
    samples = random_samples(read_table(TOP / "docs/INSTRUCTIONS.md"), options.words, random.Random(options.seed))
    with tempfile.TemporaryDirectory() as folder:
        lines = listing(options.program, [it.word for it in samples], folder)
        differences, unknown = compare(samples, lines, disassembled(samples, folder))
    print(f"check_text: {len(samples)} words compared, {unknown} that objdump is known not to know, {differences} differences")
    return 1 if differences else 0


if __name__ == "__main__":
    sys.exit(main())
