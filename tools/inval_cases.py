#!/usr/bin/env python3
"""Writes the cases of invalidations: crates/tlbie_ops/src/tests/cases.rt.

What is expected is worked out here from sentences of the Power ISA, Version 3.0B, Book III, 5.9.3 and 5.10, and of docs/MACHINE.md,
and from nothing of the crates: a register is a text of 64 digits, bit 0 first, and a field is a piece of this text.

With `--check` it writes nothing, and fails where the file is not what it would write.
"""

import itertools
import os

from case_files import write_or_check

TOP = os.path.dirname(os.path.dirname(os.path.abspath(__file__)))
CASES = os.path.join(TOP, "crates/tlbie_ops/src/tests/cases.rt")

# The fields of RB and RS, and the pieces that no field has: first and last bit.
RB_PIECES = {"page": (0, 51), "is": (52, 53), "54": (54, 55), "ap": (56, 58), "59": (59, 63)}
RS_PIECES = {"0": (0, 11), "pid": (12, 31), "32": (32, 51), "lpid": (52, 63)}
SIZES = {0: 12, 5: 16, 1: 21, 2: 30}
LPIDR = 0x123


def digits(word):
    """The 64 digits of a register, bit 0 first."""
    return format(word, "064b")


def piece(word, first, last):
    """The bits from first to last as a number."""
    return int(digits(word)[first : last + 1], 2)


def ones(first, last):
    """Ones from the first to the last bit, and zeros elsewhere."""
    return int("0" * first + "1" * (last - first + 1) + "0" * (63 - last), 2)


# ---- operands


def operands(form, hv, ric, prs, r, rb, rs):
    """What an instruction with these registers means, or why it is bad, as a line."""
    place, code = piece(rb, 52, 53), piece(rb, 56, 58)
    if ric == 3:
        wanted = "bad 0"
    elif r == 0:
        wanted = "bad 1"
    elif place == 1 and prs == 0:
        wanted = "bad 2"
    elif ric == 0 and place == 0 and code in (3, 4, 6, 7):
        wanted = "bad 3"
    else:
        page = int(digits(rb)[2 if prs else 4 : 52] + "0" * 12, 2)
        lpid = piece(rs, 52, 63) if form == "tlbie" and hv else LPIDR
        place = 2 if place == 3 and not hv else place
        wanted = f"op {place:x} {lpid:x} {piece(rs, 12, 31):x} {page:x} {SIZES.get(code, 0)}"
    return f"{form} {hv} {ric} {prs} {r} {rb:x} {rs:x} {wanted}"


def operand_lines():
    """Each piece of RB and RS alone at its least and greatest, and each value of IS and AP."""
    whole = 2**64 - 1
    pairs = []
    for first, last in RB_PIECES.values():
        pairs += [(ones(first, last), 0), (whole - ones(first, last), whole)]
    for first, last in RS_PIECES.values():
        pairs += [(0, ones(first, last)), (whole, whole - ones(first, last))]
    lines = []
    for (rb, rs), form, hv in itertools.product(pairs, ("tlbie", "tlbiel"), (0, 1)):
        lines += [operands(form, hv, 2, 1, 1, rb, rs), operands(form, hv, 2, 0, 1, rb, rs)]
    for place, code, (ric, prs) in itertools.product(range(4), range(8), ((0, 0), (0, 1), (1, 0))):
        lines.append(operands("tlbie", 1, ric, prs, 1, 0x210000 | place << 10 | code << 5, 0x5_00000007))
    for ric, prs, r, place in itertools.product(range(4), (0, 1), (0, 1), (0, 1, 3)):
        lines.append(operands("tlbiel", 0, ric, prs, r, 0x60 | place << 10, 0x5_00000007))
    return list(dict.fromkeys(lines))


# ---- readings


def by_partition(sought, sizes):
    """The readings of a guest real address: an entry, directories, a leaf, by how many bits each leaves."""
    roles = ["pate"] + ["gdir"] * (len(sizes) - 2) + ["gleaf"]
    return [(role, 1, 0, sought, left) for role, left in zip(roles, sizes)]


def walk(address, places, own, sizes):
    """The readings of an access of process 1 of partition 1: each place of a table of the process, then a doubleword of it."""
    readings = [("pate", 1, 1, address, 0)]
    for place, (role, left) in zip(places, own):
        readings += by_partition(place, sizes) + [(role, 1, 1, address, left)]
    return readings + by_partition(address, sizes)


SMALL = walk(0x10000, (0x10, 0x2000, 0x4080), (("prte", 31), ("pdir", 21), ("pleaf", 12)), (31, 21, 12))
LARGE = walk(
    0x5000,
    (0x10, 0x10000, 0x20000, 0x21000, 0x22028),
    (("prte", 52), ("pdir", 39), ("pdir", 30), ("pdir", 21), ("pleaf", 12)),
    (52, 39, 30, 21, 12),
)


def is_covered(op, reading):
    """Whether an operation covers a reading."""
    ric, prs, place, lpid, pid, page, bits = op
    role, its_lpid, its_pid, sought, left = reading
    scope = role in ("prte", "pdir", "pleaf") if prs else role in ("pate", "gdir", "gleaf")
    if ric == 0:
        kind = role in ("pleaf", "gleaf")
    elif ric == 1:
        kind = role in ("pdir", "gdir")
    else:
        kind = True
    owner = lpid == its_lpid and (pid == its_pid or not prs)
    if place == 3:
        at = True
    elif place == 2:
        at = lpid == its_lpid
    elif place == 1:
        at = lpid == its_lpid and pid == its_pid
    elif ric == 0:
        at = owner and left == bits and page // 2**bits == sought // 2**bits
    else:
        at = owner
    return scope and kind and at


def covered(op):
    """An operation and which of the readings it covers, as a line."""
    row = "".join("1" if is_covered(op, reading) else "0" for reading in SMALL)
    rows = "".join("1" if is_covered(op, reading) else "0" for reading in LARGE)
    ric, prs, place, lpid, pid, page, bits = op
    return f"{ric} {prs} {place} {lpid} {pid} {page:x} {bits} {row} {rows}"


def covered_lines():
    """Operations of each kind and place, and pages of each size."""
    operations = [(ric, prs, place, 1, 1, 0x10000, 12) for ric, prs, place in itertools.product(range(3), (1, 0), range(4))]
    operations += [(0, 1, 1, 1, 2, 0x10000, 12), (0, 1, 2, 1, 2, 0x10000, 12), (0, 1, 3, 7, 1, 0x10000, 12), (2, 1, 0, 1, 2, 0, 12)]
    operations += [(0, 1, 0, 1, 1, page, bits) for page, bits in ((0x11000, 12), (0x10000, 16), (0x10000, 21), (0x10000, 0), (0x5000, 12))]
    operations += [(0, 0, 0, 1, 1, page, bits) for page, bits in ((0x4000, 12), (0x22000, 12), (0x20000, 12), (0x20000, 30), (0, 12))]
    operations += [(2, 0, 2, 2, 1, 0, 12), (0, 0, 0, 2, 0, 0x4000, 12)]
    return list(dict.fromkeys(covered(op) for op in operations))


# ---- the file


def listed(name, doc, lines):
    """A constant with these lines."""
    return ["", *[f"/// {line}" for line in doc], f'pub(crate) const {name}: &str = "\\', *lines, '";']


def cases():
    """The file."""
    parts = ["//! Invalidations, what they mean and what they cover, as tools/inval_cases.py works it out."]
    doc = ["The form, HV, RIC, PRS, R, RB and RS, where LPIDR is 123; then the number of what is bad, or IS, LPID, PID, the page and its", "bits, a line each."]
    parts += listed("OPERANDS", doc, operand_lines())
    for name, doc, readings in (("LOAD", "a guest's load of 10000", SMALL), ("LARGEST", "the largest walk", LARGE)):
        lines = [f"{role} {lpid} {pid} {sought:x} {left}" for role, lpid, pid, sought, left in readings]
        parts += listed(name, [f"The readings of {doc}: the role, LPID, PID, the address that was sought and how many bits are left, a line each."], lines)
    doc = ["RIC, PRS, IS, LPID, PID, the page and its bits, and which of the readings of the two walks are covered, a line each."]
    parts += listed("COVERED", doc, covered_lines())
    return "\n".join(parts + [""])


def examples():
    """Some values by hand, which the sentences above must give."""
    assert len(SMALL) == 16 and len(LARGE) == 36
    assert operands("tlbie", 0, 0, 1, 1, 0x10000, 0x1_00000000).endswith("op 0 123 1 10000 12")
    assert operands("tlbie", 1, 0, 1, 1, 0xC000000000210020, 0x1_00000000).endswith("op 0 0 1 210000 21")
    assert operands("tlbie", 1, 2, 0, 1, 2**64 - 1, 2**64 - 1).endswith("op 3 fff fffff ffffffffffff000 0")
    assert operands("tlbie", 0, 0, 0, 1, 0x460, 0).endswith("bad 2")
    counts = {(0, 1, 0, 1, 1, 0x10000, 12): 1, (0, 1, 0, 1, 1, 0x10000, 21): 0, (2, 1, 0, 1, 1, 0x10000, 12): 3, (0, 0, 2, 1, 1, 0, 12): 4, (2, 0, 2, 1, 1, 0, 12): 13}
    for op, count in counts.items():
        assert covered(op).split()[7].count("1") == count, op


def main():
    examples()
    write_or_check(CASES, cases())


if __name__ == "__main__":
    main()
