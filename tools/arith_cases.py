#!/usr/bin/env python3
"""Writes crates/fixed_arith/src/tests/cases.rt: arithmetic instructions on edge operands, and what they leave.

What they leave is worked out here from the sentences of the Power ISA, Version 3.0B, Book I, 3.2.2 and 3.3.9, and from
nothing of this repository: sums go bit by bit, with the overflow as a difference of two carries; a quotient is searched
by the signs and sizes of its operands and then checked against the sentence that says which number it is. Results that
the architecture leaves undefined are 0, and CR0 is always that of all 64 bits.

With `--check` it writes nothing, and fails where the file is not what it would write.
"""

import itertools
import os
import sys

TOP = os.path.dirname(os.path.dirname(os.path.abspath(__file__)))
FILE = os.path.join(TOP, "crates/fixed_arith/src/tests/cases.rt")

ALL = 2**64 - 1
HIGHEST = 2**63  # the least signed doubleword
TOP_OF_WORD = 2**31  # the least signed word, as the low word of a register
XERS = ["00000", "00101", "10000", "11111", "01010", "00100", "00001"]  # SO, OV, CA, OV32, CA32

# Pairs of operands RA and RB: equal and opposite signs, carries and overflows of 64 bits alone, of the low word alone
# and of both, zero divisors, the least numbers by -1, and quotients at the edge of their range.
PAIRS = [
    (0, 0),
    (1, ALL),
    (HIGHEST - 1, 1),
    (HIGHEST, ALL),
    (TOP_OF_WORD - 1, 1),
    (0xFFFF_FFFF_8000_0000, ALL),
    (5, 0),
    (0xFFFF_FFFF, 0x1_0000_0001),
    (HIGHEST, HIGHEST),
    (0x8000_0000_8000_0000, 0x8000_0000_8000_0000),
    (ALL - 6, 2),
    (7, ALL - 1),
    (0x1234_5678_9ABC_DEF0, 0xFEDC_BA98_7654_3210),
    (2, 0x7FFF_FFFF_7FFF_FFFF),
    (0x7FFF_FFFF_FFFF_FFFF, HIGHEST),
    (0xFFFF_FFFE, 0xFFFF_FFFF),
]
# For quotients whose dividend is extended by zeros: at, just under and just over the edge.
EXTENDED_PAIRS = [
    (0x3FFF_FFFF, 0x8000_0000),
    (0x4000_0000, 0x8000_0000),
    (0x4000_0000, 0x7FFF_FFFF),
    (0xC000_0000, 0x7FFF_FFFF),
    (0x4000_0000_0000_0000, HIGHEST),
    (0x3FFF_FFFF_FFFF_FFFF, HIGHEST),
    (0xC000_0000_0000_0000, HIGHEST),
    (0xFFFF_FFFF_FFFF_FFFE, ALL),
]
IMMEDIATES = [0, 1, -1, 0x7FFF, -0x8000]
REGISTERS = [0, 1, ALL, HIGHEST - 1, HIGHEST, TOP_OF_WORD - 1, TOP_OF_WORD, 0xFFFF_FFFF, 0x1_0000_8000]
TRIPLES = [
    (0, 0, ALL),
    (ALL, ALL, ALL),
    (HIGHEST, HIGHEST, HIGHEST),
    (HIGHEST, ALL, HIGHEST),
    (HIGHEST - 1, HIGHEST - 1, HIGHEST - 1),
    (HIGHEST, 1, ALL),
    (0x1_0000_0000, 0x1_0000_0000, 0x1234),
    (ALL, 1, 1),
]

SUMS = ["add", "subf", "addc", "subfc", "adde", "subfe", "addme", "subfme", "addze", "subfze", "neg"]
OF_ONE = ["addme", "subfme", "addze", "subfze", "neg"]
EXTENDED = ["divwe", "divweu", "divde", "divdeu"]
DIVIDES = ["divw", "divwu", "divd", "divdu"] + EXTENDED


def signed(value, bits):
    """The low bits as a signed number."""
    value %= 2**bits
    return value - 2**bits if value >= 2 ** (bits - 1) else value


def number(value, bits, is_signed):
    """The low bits as a number."""
    return signed(value, bits) if is_signed else value % 2**bits


def fits(value, bits, is_signed):
    """Whether the number can be represented in so many bits."""
    least, most = (-(2 ** (bits - 1)), 2 ** (bits - 1)) if is_signed else (0, 2**bits)
    return least <= value < most


def adder(left, right, carry):
    """The 64 bits of a sum, and the carry out of each bit; 0 is the lowest here."""
    value, carries = 0, []
    for place in range(64):
        ones = (left >> place & 1) + (right >> place & 1) + carry
        value |= (ones & 1) << place
        carry = ones >> 1
        carries.append(carry)
    return value, carries


def quotient(dividend, divisor):
    """dividend = quotient * divisor + r, where 0 <= r < |divisor| if the dividend is not negative, and
    -|divisor| < r <= 0 if it is negative."""
    size = abs(dividend) // abs(divisor)
    answer = -size if (dividend < 0) != (divisor < 0) else size
    rest = dividend - answer * divisor
    assert 0 <= rest < abs(divisor) if dividend >= 0 else -abs(divisor) < rest <= 0
    return answer


class Machine:
    """The bits of XER by name."""

    def __init__(self, bits):
        self.so, self.ov, self.ca, self.ov32, self.ca32 = (int(bit) for bit in bits)

    def bits(self):
        return f"{self.so}{self.ov}{self.ca}{self.ov32}{self.ca32}"

    def overflow(self, whole, low):
        """OV and OV32 are set or cleared; SO is set where OV is, and stays so."""
        self.ov, self.ov32 = int(whole), int(low)
        self.so |= self.ov

    def sum(self, left, right, carry, sets_carry, oe):
        value, out = adder(left, right, carry)
        if sets_carry:
            self.ca, self.ca32 = out[63], out[31]
        if oe:  # the carry out of the sign is not the carry into it
            self.overflow(out[63] != out[62], out[31] != out[30])
        return value

    def product(self, exact, bits, oe):
        if oe:
            self.overflow(not fits(exact, bits, True), not fits(exact, bits, True))
        return exact % 2**64

    def divide(self, op, a, b, oe):
        bits = 32 if op.startswith("divw") else 64
        is_signed = not op.endswith("u")
        dividend, divisor = number(a, bits, is_signed), number(b, bits, is_signed)
        if op in EXTENDED:
            dividend *= 2**bits
        answer = None if divisor == 0 else quotient(dividend, divisor)
        if answer is not None and not fits(answer, bits, is_signed):
            answer = None
        if oe:
            self.overflow(answer is None, answer is None)
        return 0 if answer is None else answer % 2**bits

    def add(self, op, a, b, oe):
        """add to neg: the register RA or its complement, RB, -1 or 0, and 0, 1 or CA."""
        left = a ^ ALL if op.startswith("subf") or op == "neg" else a
        right = {"me": ALL, "ze": 0}.get(op[-2:] if op in OF_ONE else "", 0 if op == "neg" else b)
        if op in ("adde", "subfe") or op in OF_ONE[:4]:
            carry = self.ca
        else:
            carry = int(op.startswith("subf") or op == "neg")
        return self.sum(left, right, carry, op not in ("add", "subf", "neg"), oe)

    def run(self, op, oe, a, b, c):
        """The value that the instruction puts into RT; `b` is the immediate where there is one."""
        if op in ("addi", "addic", "addic."):
            return self.sum(a, b % 2**64, 0, op != "addi", False)
        if op in ("addis", "addpcis"):
            return self.sum(a, (b << 16) % 2**64, 0, False, False)
        if op == "subfic":
            return self.sum(a ^ ALL, b % 2**64, 1, True, False)
        if op == "mulli":
            return self.product(signed(a, 64) * b, 64, False)
        if op in SUMS:
            return self.add(op, a, b, oe)
        if op in ("mullw", "mulld"):
            bits = 32 if op == "mullw" else 64
            return self.product(signed(a, bits) * signed(b, bits), bits, oe)
        if op in DIVIDES:
            return self.divide(op, a, b, oe)
        is_signed = not op.endswith("u")
        if op.startswith("mulh"):
            bits = 32 if "w" in op else 64
            product = number(a, bits, is_signed) * number(b, bits, is_signed)
            return (product % 2 ** (2 * bits)) >> bits
        if op.startswith("mod"):
            bits = 32 if op.endswith("w") else 64
            is_signed = op[3] == "s"
            dividend, divisor = number(a, bits, is_signed), number(b, bits, is_signed)
            if divisor == 0 or not fits(quotient(dividend, divisor), bits, is_signed):
                return 0
            return (dividend - quotient(dividend, divisor) * divisor) % 2**bits
        assert op.startswith("madd")
        total = number(a, 64, is_signed) * number(b, 64, is_signed) + number(c, 64, is_signed)
        return total % 2**64 if op == "maddld" else (total % 2**128) >> 64


def case(op, oe, rc, a, b, c, before):
    """A line of the file: the instruction, the values of its registers and XER, and the value, XER and CR0 after it."""
    machine = Machine(before)
    value = machine.run(op, oe, a, b, c)
    order = 8 if signed(value, 64) < 0 else 4 if value > 0 else 2
    field = f"{order + machine.so:x}" if rc or op == "addic." else "-"
    operands = f"{a:016x} {b % 2**64:016x} {c:016x}"
    return f"{op} {int(oe)} {int(rc)} {operands} {before} {value:016x} {machine.bits()} {field}"


def cases():
    """The lines: first some whose results can be seen at once, then each operation on its edges."""
    yield case("add", True, False, HIGHEST - 1, 1, 0, "00000")
    yield case("divd", True, False, 5, 0, 0, "00000")
    yield case("divd", True, False, HIGHEST, ALL, 0, "00000")
    yield case("divd", False, False, 5, 0, 0, "00101")
    yield case("divd", False, False, HIGHEST, ALL, 0, "00101")
    yield case("addic", False, False, ALL, 1, 0, "00000")
    yield case("neg", True, True, HIGHEST, 0, 0, "00000")
    xers = itertools.cycle(XERS)
    records = itertools.cycle([False, True, True])
    for op in ["addi", "addis", "addic", "addic.", "subfic", "mulli", "addpcis"]:
        for a, immediate in itertools.islice(itertools.product(REGISTERS, IMMEDIATES), 0, None, 2):
            yield case(op, False, False, a, immediate, 0, next(xers))
    for op in SUMS + ["mullw", "mulld"] + DIVIDES:
        pairs = [(a, 0) for a in REGISTERS for _ in range(2)] if op in OF_ONE else PAIRS
        for a, b in pairs + (EXTENDED_PAIRS if op in EXTENDED else []):
            yield case(op, True, next(records), a, b, 0, next(xers))
        for a, b in pairs[3:6]:
            yield case(op, False, next(records), a, b, 0, next(xers))
    for op in ["mulhw", "mulhwu", "mulhd", "mulhdu"]:
        for a, b in PAIRS:
            yield case(op, False, next(records), a, b, 0, next(xers))
    for op in ["modsw", "moduw", "modsd", "modud"]:
        for a, b in PAIRS:
            yield case(op, False, False, a, b, 0, next(xers))
    for op in ["maddhd", "maddhdu", "maddld"]:
        for a, b, c in TRIPLES:
            yield case(op, False, False, a, b, c, next(xers))


def main():
    text = "\n".join(
        [
            "//! Arithmetic instructions and what they leave, as tools/arith_cases.py works it out.",
            "",
            "/// Operation, `oe`, `rc`, the values of RA, RB (or the immediate) and the third register, SO OV CA OV32 CA32, and",
            "/// behind them the value, SO OV CA OV32 CA32 and the first field of the condition register, a line each.",
            'pub(crate) const CASES: &str = "\\',
            *cases(),
            '";',
            "",
        ]
    )
    if "--check" in sys.argv[1:]:
        with open(FILE, encoding="utf-8") as file:
            sys.exit(0 if file.read() == text else f"{FILE} is not what {sys.argv[0]} writes")
    os.makedirs(os.path.dirname(FILE), exist_ok=True)
    with open(FILE, "w", encoding="utf-8") as file:
        file.write(text)


if __name__ == "__main__":
    main()
