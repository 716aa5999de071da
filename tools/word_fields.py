"""Writes the files that say which word a form has."""

from operand_fields import LINE, import_lines, snake, used_classes

ENCODE = "crates/ppc_decode"
PATTERN_WIDTH = 18  # the layout of Rust breaks a longer pattern of a struct
HELPER_NAMES = [
    "branch_distance",
    "compared",
    "fixed_bits",
    "flag",
    "has_layout",
    "immediate",
    "is_branch_distance",
    "is_compared",
    "is_displacement",
    "is_jump_distance",
    "jump_distance",
    "place",
    "six_bits",
    "special_register",
    "split_immediate",
]


def power(exponent):
    """A power of 2, in the words of the specs."""
    return "2" if exponent == 1 else f"2 ^ {exponent}"


def number_of_field(field):
    """The number whose bits stand in the word, in the words of the specs."""
    if field.type == "bool":
        return f"from_bool {field.name}"
    return f"modulo {field.reading.width()} {field.name}" if field.type.startswith("i") else field.name


def fixed_of_reading(field, reading):
    """The fields of the word that an operand takes, each with what stands there."""
    number = number_of_field(field)
    below, fixed = reading.width(), []
    for first, last in reading.ranges:
        width = last - first + 1
        top, below = below, below - width
        text = number
        if below:
            text = f"{text} / {power(below)}"
        if top < reading.width():
            text = f"{text} % {power(width)}"
        fixed.append(f"at {first} {last} {f'({text})' if ' ' in text else text}")
    return fixed


def is_split(field):
    """Whether the operations of a class have the operand in other bits."""
    return bool(field.where) and (not field.other or field.other.ranges != field.reading.ranges)


def listed(fixed):
    """A list, in the words of the specs."""
    return " ∷ ".join(fixed + ["[]"])


def fields_of_layout(layout):
    """All fields of the word that a form has, those that depend on the operation last."""
    fixed = [part for f in layout.fields if not is_split(f) for part in fixed_of_reading(f, f.reading)]
    split = [f for f in layout.fields if is_split(f)]
    if not split:
        return listed(fixed)
    (field,) = split
    other = listed(fixed_of_reading(field, field.other) if field.other else [])
    usual = listed(fixed_of_reading(field, field.reading))
    return " ∷ ".join(fixed + [f"(if {field.where} op then {other} else {usual})"])


def insn_pattern(layout):
    """An instruction of a layout, with a variable for each operand."""
    names = (["op"] if layout.has_op else []) + [f.name for f in layout.fields]
    insn = " ".join([f"insn.{layout.name}"] + names)
    return f"({insn})" if names else insn


def split_classes(table):
    """The classes of operations that have an operand in other bits."""
    return sorted({f.where for layout in table.layouts for f in layout.fields if is_split(f)})


def words_spec(table):
    """The definition of the word of a form."""
    alone = [l.operations[0].variant() for l in table.layouts if not l.has_op]
    lines = [
        "-- The word of a form, bit 0 the highest of 32.",
        "use Rattle.std.specs.Prelude.{ℕ, ◌+◌, ◌/◌, ◌%◌, ◌^◌, if◌then◌else◌, List, [], ◌∷◌}",
        "use Rattle.std.specs.Int.{from_bool}",
        "use Rattle.ppc_bits.specs.Bits.{modulo}",
        "use Rattle.ppc_ops.specs.declared.op.Op.{Op}",
        f"use Rattle.ppc_ops.specs.declared.op.Op.TheVariants.{{{', '.join(alone)}}}",
        "use Rattle.ppc_ops.specs.declared.insn.Insn.{Insn}",
        "use Rattle.ppc_ops.specs.declared.insn.Insn.TheVariants as insn",
        f"use Rattle.ppc_ops.specs.Classes.{{{', '.join(split_classes(table))}}}",
        "use Rattle.ppc_ops.specs.Rows.{Fixed, at, mask_of, value_of}",
        "use Rattle.ppc_ops.specs.Table.{op_row}",
        "",
        "-- the operation of a form",
        "abbrev pub insn_op : Insn → Op",
    ]
    for layout in table.layouts:
        op = "op" if layout.has_op else layout.operations[0].variant()
        lines.append(f"insn_op {insn_pattern(layout)} = {op}")
    lines += [
        "",
        "-- the fields of a form's word, with the numbers that stand in them",
        "abbrev pub fields_of : Insn → List Fixed",
    ]
    lines += [f"fields_of {insn_pattern(layout)} = {fields_of_layout(layout)}" for layout in table.layouts]
    return lines + [
        "",
        "-- the word of a form: the fixed bits of its operation's row, its fields, and zeros elsewhere",
        "unfoldable pub word_for : Insn → ℕ",
        "word_for i = (op_row (insn_op i)).value + value_of (fields_of i)",
        "",
        "-- ones in the bits that the row of a form fixes and in those of its fields; all others are ignored",
        "unfoldable pub used_of : Insn → ℕ",
        "used_of i = (op_row (insn_op i)).mask + mask_of (fields_of i)",
    ]


# The code that puts an operand of several ranges, or a signed one, where it stands.
PLACES = {
    "u8 30:30 16:20": "six_bits({}, 30, 20)",
    "u8 26:26 21:25": "six_bits({}, 26, 25)",
    "u16 16:31": "u32::from({})",
    "u16 16:20 11:15": "special_register({})",
    "i16 16:31": "immediate({})",
    "i16 16:25 11:15 31:31": "split_immediate({})",
    "i32 16:31": "compared({})",
    "i32 16:29 00": "branch_distance({})",
    "i32 6:29 00": "jump_distance({})",
}
OWN_RANGE = {"u8": 8, "u16": 16, "i16": 16}  # the bits that an operand's type has itself


def kind_of(field):
    """The kind of an operand, as the tables of this page name it."""
    zeros = ["00"] if field.reading.zeros else []
    return " ".join([field.type] + [f"{a}:{b}" for a, b in field.reading.ranges] + zeros)


def code_of_place(field):
    """The expression of the code that puts an operand into the word."""
    (first, last), *others = field.reading.ranges
    if field.type == "bool":
        return f"flag({field.name}, {first})"
    if field.type == "u8" and not others:
        return f"place({field.name}, {last})"
    return PLACES[kind_of(field)].format(field.name)


def code_of_fit(field):
    """The test of the code that an operand fits its field, or None where its type says it."""
    name, reading = field.name, field.reading
    if field.type == "bool":
        return f"!({field.where}(op) && {name})" if field.where else None
    if field.where and field.type == "i16":
        return f"is_displacement({field.where}(op), {name})"
    if field.where and field.type == "i32":
        return f"is_compared({field.where}(op), {name})"
    if field.where:
        return f"{name} < {name}_end"
    if reading.zeros:
        return f"is_{'jump' if reading.width() > 16 else 'branch'}_distance({name})"
    return None if OWN_RANGE[field.type] == reading.width() else f"{name} < {2 ** reading.width()}"


def code_of_end(field):
    """The line that says where an operand's values end, if that depends on the operation."""
    if not field.where or field.type != "u8":
        return []
    other = 2 ** field.other.width() if field.other else 1
    return [f"    let {field.name}_end = if {field.where}(op) {{ {other} }} else {{ {2 ** field.reading.width()} }};"]


def test_lines(tests):
    """The head of an `if`, over several lines where it is long."""
    whole = f"    if {' && '.join(tests)} {{"
    if len(whole) <= LINE:
        return [whole]
    first, *others = tests
    return [f"    if {first}"] + [f"        && {test}" for test in others] + ["    {"]


def sum_lines(terms):
    """The sum that is the result, over several lines where it is long."""
    whole = f"        Ok({' + '.join(terms)})"
    if len(whole) <= LINE:
        return [whole]
    first, *others = terms
    lines = [f"            {first}"] + [f"                + {term}" for term in others]
    return ["        Ok("] + lines[:-1] + [lines[-1] + ",", "        )"]


def layout_word(layout):
    """The function that puts the operands of one layout into a word."""
    insn, op = insn_pattern(layout), "op" if layout.has_op else layout.operations[0].variant()
    given = (["op: Op"] if layout.has_op else []) + [f"{f.name}: {f.type}" for f in layout.fields]
    tests = [f"has_layout(op, Layout::{layout.name})"] if layout.has_op else []
    tests += [test for test in map(code_of_fit, layout.fields) if test]
    terms = [f"fixed_bits({'op' if layout.has_op else 'Op::' + op})"] + [code_of_place(f) for f in layout.fields]
    return [
        "",
        f"fn {snake(layout.name)}({', '.join(given)}) -> Result<u32, OutOfField>",
        f"    ensures word {{ IfOk result (λ w. w ≡ (op_row {op}).value + value_of (fields_of {insn})) }}",
        f"    ensures fits {{ IsOk result → FitsFields {insn} }}",
        f"    ensures refused {{ IsErr result → FitsFields {insn} → ⊥ }}",
        "{",
        *[line for f in layout.fields for line in code_of_end(f)],
        *test_lines(tests),
        *sum_lines(terms),
        "    } else {",
        "        Err(OutOfField)",
        "    }",
        "}",
    ]


def word_arm(layout):
    """The lines of one layout in the match of `word`."""
    names = (["op"] if layout.has_op else []) + [f.name for f in layout.fields]
    if not names:
        return [f"        Insn::{layout.name} => Ok(fixed_bits(Op::{layout.operations[0].variant()})),"]
    given, call = ", ".join(names), f"{snake(layout.name)}({', '.join(names)}),"
    if len(given) <= PATTERN_WIDTH:
        return [f"        Insn::{layout.name} {{ {given} }} => {call}"]
    return [f"        Insn::{layout.name} {{"] + [f"            {name}," for name in names] + [f"        }} => {call}"]


def layouts_file(table):
    """The functions that make the words of each layout."""
    classes = used_classes(table)
    alone = [l.operations[0].variant() for l in table.layouts if l.fields and not l.has_op]
    lines = [
        "//! The words of each layout.",
        "",
        "ghost use Rattle.std.specs.Prelude.{◌≡◌, ◌+◌, IfOk, IsOk, IsErr};",
        "ghost use Rattle.ppc_ops.specs.declared.insn.Insn.TheVariants as insn;",
        f"ghost use Rattle.ppc_ops.specs.declared.op.Op.TheVariants.{{{', '.join(alone)}}};",
        "ghost use Rattle.ppc_ops.specs.Fitting.{FitsFields};",
        "ghost use Rattle.ppc_ops.specs.Rows.{value_of};",
        "ghost use Rattle.ppc_ops.specs.Table.{op_row};",
        "ghost use Rattle.ppc_decode.specs.Encode.{insn_op, fields_of};",
        "",
        "use crate::encoder::OutOfField;",
        *import_lines("crate::fields", HELPER_NAMES),
        *import_lines("ppc_ops", sorted(["Insn", "Layout", "Op"] + classes)),
    ]
    for layout in table.layouts:
        if layout.has_op or layout.fields:
            lines += layout_word(layout)
    return lines + [
        "",
        "/// The fixed bits and the fields of an instruction whose operands fit.",
        "pub(crate) fn word(insn: Insn) -> Result<u32, OutOfField>",
        "    ensures word { IfOk result (λ w. w ≡ (op_row (insn_op insn)).value + value_of (fields_of insn)) }",
        "    ensures fits { IsOk result → FitsFields insn }",
        "    ensures refused { IsErr result → FitsFields insn → ⊥ }",
        "{",
        "    match insn {",
        *[line for layout in table.layouts for line in word_arm(layout)],
        "    }",
        "}",
    ]


def word_files(table):
    """All files on the words of forms."""
    return {
        f"{ENCODE}/specs/Encode.antt": words_spec(table),
        f"{ENCODE}/src/encodings.rt": layouts_file(table),
    }
