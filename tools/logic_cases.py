#!/usr/bin/env python3
"""Writes crates/fixed_logic/src/tests/cases.rt: cases of logic instructions with the values that they leave.

The values come from the sentences of the Power ISA, Version 3.0B, Book I, 3.3.13 and 3.3.14, taken down here bit by
bit: a doubleword is a list of 64 bits, bit 0 first, and each function below follows the sentence of its instruction.
Nothing is shared with the crate's definitions or code. Run it without arguments to write the file anew, with --check
to see whether the file is what it gives.
"""
import pathlib
import random
import sys

OUT = pathlib.Path(__file__).resolve().parent.parent / "crates/fixed_logic/src/tests/cases.rt"


def bits(value, width=64):
    return [int(digit) for digit in format(value, f"0{width}b")]


def number(row):
    return int("".join(str(bit) for bit in row), 2)


def signed(row):
    """The number in two's complement."""
    return sum(-bit * 2 ** (len(row) - 1) if i == 0 else bit * 2 ** (len(row) - 1 - i) for i, bit in enumerate(row))


def rotl(row, n):
    """ROTL: the bits that leave at the left come back at the right."""
    return row[n:] + row[:n]


def mask(mstart, mstop):
    """MASK: ones from bit mstart through bit mstop, past bit 63 to bit 0 where mstart is greater; zeros elsewhere."""
    row = [0] * 64
    i = mstart
    while True:
        row[i] = 1
        if i == mstop:
            return row
        i = (i + 1) % 64


def under(r, m, other):
    return [x if k else y for x, k, y in zip(r, m, other)]


ZEROS = [0] * 64
BOTH = {
    "and": lambda x, y: x and y,
    "or": lambda x, y: x or y,
    "xor": lambda x, y: int(x != y),
    "nand": lambda x, y: int(not (x and y)),
    "nor": lambda x, y: int(not (x or y)),
    "eqv": lambda x, y: int(x == y),
    "andc": lambda x, y: x and int(not y),
    "orc": lambda x, y: x or int(not y),
}
IMMEDIATE = {"ori": "or", "oris": "or", "xori": "xor", "xoris": "xor", "andi.": "and", "andis.": "and"}


def signed_right(row, n):
    """The algebraic shift: copies of the sign come in at the left; a carry where the row is negative and a 1 left."""
    sign, lost = row[0], 0
    for _ in range(n):
        lost |= row[-1]
        row = [sign] + row[:-1]
    return row, sign & lost


def run(op, s, b, old, x, y, z):
    """The value, and the carry or None where XER stays. The operands x, y, z are ui; or sh; or by, mb, me; or by, edge."""
    S, B, OLD = bits(s), bits(b), bits(old)
    low = S[32:]
    if op in BOTH:
        return number([BOTH[op](p, q) for p, q in zip(S, B)]), None
    if op in IMMEDIATE:
        ui = [0] * 32 + bits(x, 16) + [0] * 16 if op in ("oris", "xoris", "andis.") else [0] * 48 + bits(x, 16)
        return number([BOTH[IMMEDIATE[op]](p, q) for p, q in zip(S, ui)]), None
    if op in ("slw", "srw"):
        for _ in range(number(B[58:64])):
            low = low[1:] + [0] if op == "slw" else [0] + low[:-1]
        return number([0] * 32 + low), None
    if op in ("sld", "srd"):
        row = S
        for _ in range(number(B[57:64])):
            row = row[1:] + [0] if op == "sld" else [0] + row[:-1]
        return number(row), None
    if op in ("sraw", "srawi"):
        row, carry = signed_right(low, number(B[58:64]) if op == "sraw" else x)
        return number([row[0]] * 32 + row), carry
    if op in ("srad", "sradi"):
        row, carry = signed_right(S, number(B[57:64]) if op == "srad" else x)
        return number(row), carry
    if op == "extswsli":
        row = [low[0]] * 32 + low
        return number(row[x:] + [0] * x), None
    if op in ("extsb", "extsh", "extsw"):
        part = S[{"extsb": 56, "extsh": 48, "extsw": 32}[op]:]
        return number([part[0]] * (64 - len(part)) + part), None
    if op in ("cntlzw", "cntlzd", "cnttzw", "cnttzd"):
        row = low if op[-1] == "w" else S
        row = row[::-1] if op[3] == "t" else row
        return (row + [1]).index(1), None
    if op in ("popcntb", "popcntw", "popcntd"):
        size = {"b": 8, "w": 32, "d": 64}[op[-1]]
        return number(sum((bits(sum(S[i:i + size]), size) for i in range(0, 64, size)), [])), None
    if op in ("prtyw", "prtyd"):
        size = {"w": 32, "d": 64}[op[-1]]
        parity = [sum(S[i + k * 8 + 7] for k in range(size // 8)) % 2 for i in range(0, 64, size)]
        return number(sum((bits(p, size) for p in parity), [])), None
    if op == "cmpb":
        return number(sum(([1] * 8 if S[i:i + 8] == B[i:i + 8] else [0] * 8 for i in range(0, 64, 8)), [])), None
    if op == "bpermd":
        row = [0] * 56
        for i in range(8):
            index = number(S[8 * i:8 * i + 8])
            row.append(B[index] if index < 64 else 0)
        return number(row), None
    if op in ("rlwimi", "rlwinm", "rlwnm"):
        n = number(B[59:64]) if op == "rlwnm" else x
        r = rotl(low, n) * 2
        return number(under(r, mask(y + 32, z + 32), OLD if op == "rlwimi" else ZEROS)), None
    n = number(B[58:64]) if op in ("rldcl", "rldcr") else x
    m = {"rldicl": (y, 63), "rldcl": (y, 63), "rldicr": (0, y), "rldcr": (0, y)}.get(op, (y, 63 - n))
    return number(under(rotl(S, n), mask(*m), OLD if op == "rldimi" else ZEROS)), None


def record(value, so):
    number_of = signed(bits(value))
    return (8 if number_of < 0 else 4 if number_of > 0 else 2) + so


WITHOUT_RC = {"ori", "oris", "xori", "xoris", "popcntb", "popcntw", "popcntd", "prtyw", "prtyd", "cmpb", "bpermd"}
ALWAYS = {"andi.", "andis."}


def line(op, rc, s, b, old, x=0, y=0, z=0, xer="00000"):
    """XER is SO, OV, CA, OV32, CA32 as digits."""
    rc = op in ALWAYS or (rc and op not in WITHOUT_RC)
    value, carry = run(op, s, b, old, x, y, z)
    after = xer if carry is None else f"{xer[0]}{xer[1]}{carry}{xer[3]}{carry}"
    cr0 = format(record(value, int(xer[0])), "x") if rc else "-"
    dot = "." if rc and op not in ALWAYS else ""
    return f"{op}{dot} {s:x} {b:x} {old:x} {x} {y} {z} {xer} {value:016x} {after} {cr0}"


VALUES = [0, 1, 0x12345678, 0x80000001, 0x7FFFFFFF, 0xFFFFFFFF, 0xFFFFFFFF80000000, 0x8000000000000000,
          0x8000000000000001, 0x7FFFFFFFFFFFFFFF, 0xFFFFFFFFFFFFFFFF, 0x0123456789ABCDEF, 0xFEDCBA9876543210,
          0x00000000000000FF, 0x0000000000008000, 0xDEADBEEFCAFEBABE, 0x0000000100000000]
DISTANCES = [0, 1, 31, 32, 63, 64]


def cases():
    chance = random.Random(20170301)
    wide = lambda: chance.getrandbits(64)
    some = lambda: chance.choice(VALUES) if chance.random() < 0.5 else wide()
    xer = lambda: format(chance.getrandbits(5), "05b")
    rc = lambda: chance.random() < 0.5
    rows = [
        line("rlwinm", False, 0x12345678, 0, 0, 0, 28, 3),
        line("sraw", False, 0x80000001, 1, 0),
        line("sraw", True, 0x80000001, 63, 0, xer="10000"),
        # byte 0 is 0 and takes bit 0, byte 1 is 63 and takes bit 63, byte 2 is 64 and takes none, and so on
        line("bpermd", False, 0x003F4001FF020304, 0b1001 << 60 | 0b1000 << 56 | 1, 0),
        # the lowest bits of the bytes are 1 0 1 1 0 0 0 1
        line("prtyd", False, 0x01FE030502FC0033, 0, 0),
        line("prtyw", False, 0x01FE030502FC0033, 0, 0),
    ]
    for op in IMMEDIATE:
        for ui in (0, 1, 0x8000, 0xFFFF, 0x1234):
            rows.append(line(op, False, some(), wide(), wide(), ui, xer=xer()))
        rows.append(line(op, False, 0, wide(), wide(), 0, xer=xer()))
    for op in BOTH:
        for s, b in ((0, 0), (2 ** 64 - 1, 2 ** 64 - 1), (wide(), wide()), (some(), some()), (some(), wide())):
            rows.append(line(op, rc(), s, b, wide(), xer=xer()))
    for op in ("slw", "srw", "sraw", "sld", "srd", "srad"):
        for n in DISTANCES + [127, 15, 33]:
            rows.append(line(op, rc(), some(), chance.getrandbits(57) << 7 | n, wide(), xer=xer()))
            rows.append(line(op, rc(), 0xFFFFFFFF80000000 if n % 2 else 0x80000000, n, wide(), xer=xer()))
        rows.append(line(op, rc(), wide() | 1, 64, wide(), xer=xer()))
    for op in ("srawi", "sradi", "extswsli"):
        for n in [d for d in DISTANCES + [17, 40] if d < (32 if op == "srawi" else 64)]:
            rows.append(line(op, rc(), some(), wide(), wide(), n, xer=xer()))
            rows.append(line(op, rc(), 0xFFFFFFFF80000000, wide(), wide(), n, xer=xer()))
            rows.append(line(op, rc(), 0x5555555500000000 | chance.getrandbits(31), wide(), wide(), n, xer=xer()))
    for op in ("extsb", "extsh", "extsw", "cntlzw", "cntlzd", "cnttzw", "cnttzd"):
        for s in (0, 1, 0x80, 0x8000, 0x80000000, 2 ** 63, 0x7F7F7F7F, wide()):
            rows.append(line(op, rc(), s, wide(), wide(), xer=xer()))
    for op in ("popcntb", "popcntw", "popcntd", "prtyw", "prtyd"):
        for s in (0, 2 ** 64 - 1, 0xFF00FF, 0x0101010100000001, wide(), wide()):
            rows.append(line(op, False, s, wide(), wide(), xer=xer()))
    for _ in range(8):
        s = wide()
        rows.append(line("cmpb", False, s, s ^ (wide() & sum(0xFF << 8 * i for i in range(8) if chance.random() < 0.4)), wide(), xer=xer()))
        rows.append(line("bpermd", False, sum(chance.randrange(80) << 8 * i for i in range(8)), wide(), wide(), xer=xer()))
    for op in ("rlwimi", "rlwinm", "rlwnm"):
        for by, mb, me in ((0, 0, 31), (1, 0, 0), (31, 31, 0), (16, 8, 23), (5, 20, 4), (31, 31, 31), (0, 24, 7)):
            by, b = (0, chance.getrandbits(59) << 5 | by) if op == "rlwnm" else (by, wide())
            rows.append(line(op, rc(), some(), b, wide(), by, mb, me, xer()))
    for op in ("rldicl", "rldicr", "rldic", "rldimi", "rldcl", "rldcr"):
        for by, edge in ((0, 0), (1, 63), (31, 32), (32, 31), (63, 0), (63, 63), (40, 50), (13, 7)):
            by, b = (0, chance.getrandbits(58) << 6 | by) if op in ("rldcl", "rldcr") else (by, wide())
            rows.append(line(op, rc(), some(), b, wide(), by, edge, xer=xer()))
    return rows


def text():
    rows = cases()
    return "\n".join([
        "//! Logic instructions with what they leave, as `tools/logic_cases.py` computes it.",
        "",
        "/// A line each: the operation; RS, RB and the old RA; three operands; XER; and after it the value, XER and the",
        "/// first field of the condition register. The operands are `ui`; or `sh`; or `by`, `mb` and `me`; or `by` and",
        "/// `edge`. XER is SO, OV, CA, OV32 and CA32.",
        'pub(crate) const CASES: &str = "\\',
    ] + rows[:-1] + [rows[-1] + '";', ""])


def main():
    if "--check" in sys.argv:
        if OUT.read_text() != text():
            sys.exit(f"{OUT} is not what this script gives")
        return
    OUT.parent.mkdir(exist_ok=True)
    OUT.write_text(text())


main()
