"""Reads the instruction table of docs/INSTRUCTIONS.md."""

import re
from dataclasses import dataclass, field
from typing import List, Optional, Tuple

WORD_BITS = 32
PRIMARY = (0, 5)


@dataclass
class Reading:
    """How an operand is read: ranges of bits, the highest first, zeros joined behind them, and whether it is signed."""

    ranges: List[Tuple[int, int]]
    zeros: int = 0
    signed: bool = False

    def width(self):
        """How many bits the operand has."""
        return sum(last - first + 1 for first, last in self.ranges) + self.zeros


@dataclass
class Field:
    """An operand of a layout. `other` is its reading in operations of the class `where`; None is the constant 0."""

    name: str
    type: str
    reading: Reading
    where: Optional[str] = None
    other: Optional[Reading] = None


@dataclass
class Operation:
    """An operation with its fixed bits, each a first bit, a last bit and a value."""

    name: str
    layout: str
    fixed: List[Tuple[int, int, int]]
    meaning: str
    section: str

    def variant(self):
        """The name of its variant of the enum `Op`."""
        return re.sub(r"\.$", "Dot", self.name).capitalize().replace("dot", "Dot")

    def mask(self):
        """The word whose ones are the fixed bits."""
        return sum(((1 << (b - a + 1)) - 1) << (WORD_BITS - 1 - b) for a, b, _ in self.fixed)

    def value(self):
        """The word that has the fixed bits and zeros elsewhere."""
        return sum(v << (WORD_BITS - 1 - b) for _, b, v in self.fixed)

    def primary(self):
        """The primary opcode."""
        return self.value() >> 26


@dataclass
class Text:
    """The operands of a layout in text. `other` has those of the operations and classes `where`."""

    usual: List[str] = field(default_factory=list)
    where: List[str] = field(default_factory=list)
    other: List[str] = field(default_factory=list)


@dataclass
class Layout:
    """A layout of operands with its operations."""

    name: str
    summary: str
    has_op: bool = False
    fields: List[Field] = field(default_factory=list)
    text: Text = field(default_factory=Text)
    operations: List[Operation] = field(default_factory=list)


@dataclass
class OperationClass:
    """A class of operations."""

    name: str
    operations: List[str]
    summary: str


@dataclass
class Table:
    """The whole table."""

    layouts: List[Layout]
    classes: List[OperationClass]

    def operations(self):
        """All operations in their order."""
        return [operation for layout in self.layouts for operation in layout.operations]

    def operation(self, name):
        """The operation of a name."""
        return next(o for o in self.operations() if o.name == name)


def read_range(text):
    """`6:10` or `31`."""
    first, _, last = text.strip().partition(":")
    return int(first), int(last or first)


def read_reading(text):
    """`bits 6:10`, `bit 31`, `signed bits 16:25, 11:15, 31`, `signed bits 6:29, 00` or `0`."""
    text = text.strip()
    if text == "0":
        return None
    signed, bits = re.fullmatch(r"(signed )?bits? (.*)", text).groups()
    parts = bits.split(", ")
    zeros = 2 if parts[-1] == "00" else 0
    ranges = [read_range(part) for part in (parts[:-1] if zeros else parts)]
    return Reading(ranges, zeros, bool(signed))


def read_field(text):
    """`rt: u8` bits 6:10`, perhaps with `; where `CLASS`: READING`."""
    name, kind, reading, where, other = re.fullmatch(r"`(\w+): (\w+)` ([^;]*)(?:; where `(\w+)`: (.*))?", text).groups()
    return Field(name, kind, read_reading(reading), where, read_reading(other) if other else None)


def read_text(text):
    """`text `OPERAND,OPERAND`, perhaps with `; where `CLASS`, `OPERATION`: `OPERAND,OPERAND`."""
    usual, where, other = re.fullmatch(r"text `([^`]+)`(?:; where (`[^:]+`): `([^`]+)`)?", text).groups()
    names = re.findall(r"`(\w+)`", where) if where else []
    return Text(usual.split(","), names, other.split(",") if other else [])


def read_fixed(text):
    """`0:5 = 31, 22:30 = 266`."""
    fixed = []
    for part in text.split(", "):
        bits, value = part.split(" = ")
        fixed.append((*read_range(bits), int(value)))
    return fixed


def cells(line):
    """The cells of a line of a table, in which `\\|` is a bar."""
    return [cell.strip().replace("\\|", "|") for cell in re.split(r"(?<!\\)\|", line)[1:-1]]


def read_layout_line(layout, line):
    """Adds what one line below a layout's heading says."""
    if line == "- `op: Op`":
        layout.has_op = True
    elif line.startswith("- text "):
        layout.text = read_text(line[2:])
    elif line.startswith("- "):
        layout.fields.append(read_field(line[2:]))
    elif line.startswith("| `"):
        name, fixed, meaning, section = cells(line)
        layout.operations.append(Operation(name.strip("`"), layout.name, read_fixed(fixed), meaning, section))
    elif line and not line.startswith("|"):
        layout.summary = f"{layout.summary} {line}".strip()


def read_class(line):
    """`- `CLASS` (`OPERATION`, ..): SUMMARY`, or None."""
    match = re.fullmatch(r"- `(\w+)` \((`[^)]*`)\): (.*)", line)
    if not match:
        return None
    name, operations, summary = match.groups()
    return OperationClass(name, [o.strip("`") for o in operations.split(", ")], summary)


def read_table(path):
    """The table in a document. A heading of the third level with a name in backquotes begins a layout."""
    table = Table([], [])
    inside = None
    with open(path, encoding="utf-8") as document:
        for line in document.read().splitlines():
            heading = re.fullmatch(r"### `(\w+)`", line)
            if heading:
                inside = Layout(heading.group(1), "")
                table.layouts.append(inside)
            elif line.startswith("#"):
                inside = None
            elif inside:
                read_layout_line(inside, line)
            elif read_class(line):
                table.classes.append(read_class(line))
    return table
