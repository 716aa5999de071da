"""Writes the files that say where a layout's operands stand in a word, and which operands fit them."""

import re
import textwrap

OPS = "crates/ppc_ops"
WORDS = "crates/word_decoder"
HELPER_NAMES = [
    "bits",
    "flag",
    "immediate",
    "jump_distance",
    "scaled_immediate",
    "six_bits",
    "special_register",
    "split_immediate",
]
LINE = 100
SINGLE_LINE = 50  # the layout of Rust breaks a longer `if` with an `else`

# The code that reads an operand of several ranges, or a signed one.
HELPERS = {
    "u8 30:30 16:20": "six_bits(word, 30, 16)",
    "u8 26:26 21:25": "six_bits(word, 26, 21)",
    "u16 16:31": "field(word, 32, 16, 31) as u16",
    "u16 16:20 11:15": "special_register(word)",
    "i16 signed 16:31": "immediate(word)",
    "i16 signed 16:29 00": "scaled_immediate(word)",
    "i16 signed 16:25 11:15 31:31": "split_immediate(word)",
    "i32 signed 16:31": "i32::from(immediate(word))",
    "i32 16:31": "field(word, 32, 16, 31) as i32",
    "i32 signed 16:29 00": "i32::from(scaled_immediate(word))",
    "i32 signed 6:29 00": "jump_distance(word)",
}


def import_lines(path, names):
    """A `use` of several names, broken into lines where it is long."""
    whole = f"use {path}::{{{', '.join(names)}}};"
    if len(whole) <= LINE:
        return [whole]
    indent = " " * 4
    wrapped = textwrap.wrap(", ".join(names) + ",", LINE - 1, initial_indent=indent, subsequent_indent=indent)
    return [f"use {path}::{{", *wrapped, "};"]


def pattern_lines(variants):
    """A pattern of alternatives over one or several lines."""
    whole = "        " + " | ".join(variants)
    if len(whole) <= LINE:
        return [whole]
    return ["        " + variants[0]] + [f"            | {variant}" for variant in variants[1:]]


def snake(name):
    """The name of a layout's function."""
    return re.sub("(?<!^)([A-Z])", r"_\1", name).lower()


def code_of_reading(kind, reading):
    """The expression of the code that reads an operand."""
    if reading is None:
        return "0"
    (first, last), *others = reading.ranges
    if kind == "bool":
        return f"flag(word, {first})"
    if kind == "u8" and not others:
        return f"bits(word, {first}, {last})"
    signed = ["signed"] if reading.signed else []
    zeros = ["00"] if reading.zeros else []
    return HELPERS[" ".join([kind] + signed + [f"{a}:{b}" for a, b in reading.ranges] + zeros)]


def spec_of_number(reading):
    """The number of an operand's bits, in the words of the specs."""
    text = "bits word {} {}".format(*reading.ranges[0])
    for first, last in reading.ranges[1:]:
        text = f"followed ({text}) {last - first + 1} (bits word {first} {last})"
    return f"followed ({text}) {reading.zeros} 0" if reading.zeros else text


def spec_of_reading(field, reading):
    """An operand, in the words of the specs."""
    if field.type == "bool":
        return f"flag word {reading.ranges[0][0]}" if reading else "false"
    if reading is None:
        return "0"
    number = spec_of_number(reading)
    if reading.signed:
        return f"signed_of {reading.width()} ({number})"
    return f"pos ({number})" if field.type == "i32" else number


def spec_of_field(field):
    """An operand with both its readings."""
    usual = spec_of_reading(field, field.reading)
    if not field.where:
        return f"({usual})"
    return f"(if {field.where} op then {spec_of_reading(field, field.other)} else {usual})"


def code_of_field(field):
    """The lines of one field of the struct that the code makes."""
    usual = code_of_reading(field.type, field.reading)
    if not field.where:
        return [f"        {field.name}: {usual},"]
    if field.type == "bool":
        return [f"        {field.name}: !{field.where}(op) && {usual},"]
    other = code_of_reading(field.type, field.other)
    whole = f"if {field.where}(op) {{ {other} }} else {{ {usual} }}"
    if len(whole) <= SINGLE_LINE:
        return [f"        {field.name}: {whole},"]
    return [
        f"        {field.name}: if {field.where}(op) {{",
        f"            {other}",
        "        } else {",
        f"            {usual}",
        "        },",
    ]


def layout_function(layout):
    """The function that reads the operands of one layout."""
    fields = (["        op,"] if layout.has_op else []) + [line for f in layout.fields for line in code_of_field(f)]
    given = "op: Op, " if layout.has_op else ""
    op = "op" if layout.has_op else layout.operations[0].variant()
    return [
        "",
        f"fn {snake(layout.name)}({given}word: u64) -> Insn",
        "    requires word { word < 2 ^ 32 }",
        *([f"    requires op {{ layout_of op ≡ layouts.{layout.name} }}"] if layout.has_op else []),
        f"    ensures form {{ result ≡ operands_of layouts.{layout.name} {op} word }}",
        "    ensures fits { FitsFields result }",
        "{",
        f"    Insn::{layout.name} {{",
        *fields,
        "    }",
        "}",
    ]


def layout_arm(layout):
    """The arm of one layout in the match of `operands`."""
    if not layout.fields and not layout.has_op:
        return f"        Layout::{layout.name} => Insn::{layout.name},"
    return f"        Layout::{layout.name} => {snake(layout.name)}({'op, ' if layout.has_op else ''}word),"


def used_classes(table):
    """The classes that a field's reading cites."""
    return sorted({f.where for layout in table.layouts for f in layout.fields if f.where})


def operands_file(table):
    """The functions that read operands."""
    classes = used_classes(table)
    alone = [l.operations[0].variant() for l in table.layouts if l.fields and not l.has_op]
    lines = [
        "//! The operands of each layout.",
        "",
        "ghost use Rattle.std.specs.Prelude.{◌≡◌, ◌<◌, ◌^◌};",
        "ghost use Rattle.ppc_ops.specs.declared.insn.Layout.TheVariants as layouts;",
        f"ghost use Rattle.ppc_ops.specs.declared.op.Op.TheVariants.{{{', '.join(alone)}}};",
        "ghost use Rattle.ppc_ops.specs.Table.{layout_of};",
        "ghost use Rattle.ppc_ops.specs.Fitting.{FitsFields};",
        "ghost use Rattle.word_decoder.specs.Operands.{operands_of};",
        "",
        *import_lines("crate::fields", HELPER_NAMES),
        "use ppc_bits::field;",
        *import_lines("ppc_ops", sorted(["Insn", "Layout", "Op", "layout"] + classes)),
    ]
    for layout in table.layouts:
        if layout.has_op or layout.fields:
            lines += layout_function(layout)
    return lines + [
        "",
        "/// The form of an operation, with the operands that the word has in its fields.",
        "pub(crate) fn operands(op: Op, word: u64) -> Insn",
        "    requires { word < 2 ^ 32 }",
        "    ensures form { result ≡ operands_of (layout_of op) op word }",
        "    ensures fits { FitsFields result }",
        "{",
        "    match layout(op) {",
        *[layout_arm(layout) for layout in table.layouts],
        "    }",
        "}",
    ]


def operands_spec(table):
    """The definition of the operands."""
    lines = [
        "-- The operands of each layout, by the bits of the word, bit 0 the highest of 32.",
        "use Rattle.std.specs.Prelude.{ℕ, ◌+◌, ◌*◌, ◌^◌, Bool, false, if◌then◌else◌, pos}",
        "use Rattle.ppc_bits.specs.Bits.{field_of, is_set, signed_of}",
        "use Rattle.ppc_ops.specs.declared.op.Op.{Op}",
        "use Rattle.ppc_ops.specs.declared.insn.Insn.{Insn}",
        "use Rattle.ppc_ops.specs.declared.insn.Insn.TheVariants as insn",
        "use Rattle.ppc_ops.specs.declared.insn.Layout.{Layout}",
        "use Rattle.ppc_ops.specs.declared.insn.Layout.TheVariants as layout",
        f"use Rattle.ppc_ops.specs.Classes.{{{', '.join(used_classes(table))}}}",
        "",
        "-- the bits from a to b",
        "abbrev pub bits : ℕ → ℕ → ℕ → ℕ",
        "bits word a b = field_of 32 word a b",
        "",
        "-- bit i is 1",
        "abbrev pub flag : ℕ → ℕ → Bool",
        "flag word i = is_set 32 word i",
        "",
        "-- a number followed by n more bits",
        "abbrev pub followed : ℕ → ℕ → ℕ → ℕ",
        "followed high n low = high * 2 ^ n + low",
        "",
        "-- the form of an operation of this layout that the word has",
        "abbrev pub operands_of : Layout → Op → ℕ → Insn",
    ]
    for layout in table.layouts:
        fields = (["op"] if layout.has_op else []) + [spec_of_field(f) for f in layout.fields]
        lines.append(f"operands_of layout.{layout.name} op word = {' '.join([f'insn.{layout.name}'] + fields)}")
    return lines


def fit_of_field(field):
    """What says that an operand fits its field, or None where its type says it."""
    name, reading, other = field.name, field.reading, field.other
    if field.type == "bool":
        return f"(({field.where} op && {name}) ≡ false)" if field.where else None
    if reading.zeros and not field.where:
        return f"IsSignedMultiple {reading.width()} {name}"
    if reading.signed and not field.where:
        return f"IsSigned {reading.width()} {name}"
    if reading.signed and other.zeros:
        return f"IsDisplacement ({field.where} op) {name}"
    if reading.signed:
        return f"IsCompared ({field.where} op) {name}"
    if field.where:
        return f"({name} < 2 ^ (if {field.where} op then {other.width() if other else 0} else {reading.width()}))"
    return f"({name} < 2 ^ {reading.width()})"


def fit_of_layout(layout):
    """What says that an instruction of this layout fits."""
    parts = [f"(layout_of op ≡ layout.{layout.name})"] if layout.has_op else []
    parts += [part for part in map(fit_of_field, layout.fields) if part]
    return " × ".join(parts) if parts else "Unit {0}"


def fitting_spec(table):
    """The definition of fitting operands."""
    lines = [
        "-- Which instructions have an operation of their layout, and operands that fit their fields.",
        "use Rattle.std.specs.Prelude.{◌≡◌, ℕ, ◌<◌, ◌^◌, Bool, true, false, ◌&&◌, if◌then◌else◌, ℤ, pos}",
        "use Rattle.ppc_bits.specs.Bits.{signed_of, modulo}",
        "use Rattle.ppc_ops.specs.declared.insn.Insn.{Insn}",
        "use Rattle.ppc_ops.specs.declared.insn.Insn.TheVariants as insn",
        "use Rattle.ppc_ops.specs.declared.insn.Layout.TheVariants as layout",
        f"use Rattle.ppc_ops.specs.Classes.{{{', '.join(used_classes(table))}}}",
        "use Rattle.ppc_ops.specs.Table.{layout_of}",
        "",
        "-- a signed number of k bits: it is the number that its own low k bits stand for",
        "abbrev pub IsSigned : ℕ → ℤ → Type 0",
        "IsSigned k z = signed_of k (modulo k z) ≡ z",
        "",
        "-- a signed number of k bits whose two lowest are 0",
        "abbrev pub IsSignedMultiple : ℕ → ℤ → Type 0",
        "IsSignedMultiple k z = IsSigned k z × (modulo 2 z ≡ 0)",
        "",
        "-- a displacement, where it is scaled a multiple of 4",
        "abbrev pub IsDisplacement : Bool → ℤ → Type 0",
        "IsDisplacement true z = IsSignedMultiple 16 z",
        "IsDisplacement false z = IsSigned 16 z",
        "",
        "-- an immediate of 16 bits, signed or not, that is compared",
        "abbrev pub IsCompared : Bool → ℤ → Type 0",
        "IsCompared true z = pos (modulo 16 z) ≡ z",
        "IsCompared false z = IsSigned 16 z",
        "",
        "-- the operation is one of the layout's, and each operand fits its field",
        "abbrev pub FitsFields : Insn → Type 0",
    ]
    for layout in table.layouts:
        names = (["op"] if layout.has_op else []) + [f.name for f in layout.fields]
        insn = " ".join([f"insn.{layout.name}"] + names)
        lines.append(f"FitsFields {f'({insn})' if names else insn} = {fit_of_layout(layout)}")
    return lines


def operand_files(table):
    """All files on operands."""
    return {
        f"{OPS}/specs/Fitting.antt": fitting_spec(table),
        f"{WORDS}/specs/Operands.antt": operands_spec(table),
        f"{WORDS}/src/operands.rt": operands_file(table),
    }
