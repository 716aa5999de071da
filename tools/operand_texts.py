"""Writes the files of `operand_texts` that say how the operands of each layout stand in assembler text."""

import re

from operand_fields import import_lines, pattern_lines, snake

TEXTS = "crates/operand_texts"
LIST_WIDTH = 60  # the layout of Rust breaks longer lists of values
KINDS = ["DisplacementOrZero", "Displacement", "Number", "RegisterOrZero", "Register", "Signed", "Target"]

# The marks behind an operation's name: the field that asks for one, the function, and what the function says.
MARKS = {
    "oe": ("takes_overflow", "has_overflow", "`o`, which asks for the overflow bits"),
    "rc": ("takes_record", "has_record", "`.`, which asks for CR0"),
    "lk": ("takes_link", "has_link", "`l`, which puts the next address into LR"),
    "aa": ("takes_absolute", "has_absolute", "`a`, which makes the target the address itself"),
}


def capital(name):
    """The name of a field's variant."""
    return name.capitalize()


def read_operand(text):
    """The kind of an operand in text, and its field. A displacement has its field alone, which stands before RA."""
    forms = {
        r"r([A-Z]+)\|0": "RegisterOrZero",
        r"r([A-Z]+)": "Register",
        r"\.±([A-Z]+)": "Target",
        r"±([A-Z]+)\(rRA\|0\)": "DisplacementOrZero",
        r"±([A-Z]+)\(rRA\)": "Displacement",
        r"±([A-Z]+)": "Signed",
        r"([A-Z]+)": "Number",
    }
    form = next(form for form in forms if re.fullmatch(form, text))
    return forms[form], re.fullmatch(form, text).group(1).lower()


def is_displacement(kind):
    """Whether the operand has a register in brackets, and so no field of its own."""
    return kind.startswith("Displacement")


def fields_in(operands):
    """The fields of operands in text."""
    pairs = [read_operand(text) for text in operands]
    return [name for kind, name in pairs] + ["ra" for kind, _ in pairs if is_displacement(kind)]


def operations_named(table, names):
    """The names of the operations in these classes, and of these operations."""
    classes = {c.name: c.operations for c in table.classes}
    return [operation for name in names for operation in classes.get(name, [name])]


def readings_of(table, layout, operation):
    """How each field of an operation is read that is no mark; None where it is the constant 0."""
    fields = [f for f in layout.fields if f.name not in MARKS]
    return {f.name: f.other if f.where and operation.name in operations_named(table, [f.where]) else f.reading for f in fields}


def check_layout(table, layout):
    """Ends the script where an operation's text has not each of its fields once, or has a sign where the field has none."""
    bools = [f.name for f in layout.fields if f.type == "bool"]
    others = operations_named(table, layout.text.where)
    assert set(others) & {o.name for o in layout.operations} or not others, layout.name
    for operation in layout.operations:
        operands = layout.text.other if operation.name in others else layout.text.usual
        readings = readings_of(table, layout, operation)
        wanted = [name for name, reading in readings.items() if reading or name in bools]
        assert sorted(fields_in(operands)) == sorted(wanted), f"text of {operation.name}"
        for kind, name in map(read_operand, operands):
            signed = kind in ("Signed", "Target") or is_displacement(kind)
            assert readings[name] is None or readings[name].signed == signed, f"sign of {name} in {operation.name}"


def text_fields(table):
    """All fields that stand in text, in the order in which the table has them."""
    fields = [f.name for layout in table.layouts for f in layout.fields if f.name not in MARKS]
    return list(dict.fromkeys(fields))


def fields_alone(table):
    """The fields that an operand in text names; a displacement names none."""
    pairs = [read_operand(text) for layout in table.layouts for text in layout.text.usual + layout.text.other]
    named = {name for kind, name in pairs if not is_displacement(kind)}
    return [name for name in text_fields(table) if name in named]


def fields_file(table):
    """The enum `Field`."""
    return [
        "//! The fields of forms that stand in text.",
        "",
        "/// A field of a form that stands in text as an operand, or as a part of one. It is named as in `Insn`.",
        "#[derive(Clone, Copy, Debug, PartialEq, Eq)]",
        "pub enum Field {",
        *[f"    {capital(name)}," for name in text_fields(table)],
        "}",
    ]


def code_of_operand(text):
    """An operand in the code."""
    kind, name = read_operand(text)
    return kind if is_displacement(kind) else f"{kind}({capital(name)})"


def code_of_list(operands, indent, before="", after=""):
    """The lines of a list of operands in the code."""
    codes = [code_of_operand(text) for text in operands]
    whole = ", ".join(codes)
    if len(whole) <= LIST_WIDTH:
        return [f"{indent}{before}&[{whole}]{after}"]
    return [f"{indent}{before}&["] + [f"{indent}    {code}," for code in codes] + [f"{indent}]{after}"]


def test_of(table, name, op):
    """The test of a class or an operation."""
    return f"{name}{op}" if name in [c.name for c in table.classes] else f"is_{name}{op}"


def single_operations(table):
    """The operations that alone have another text."""
    classes = [c.name for c in table.classes]
    return [name for layout in table.layouts for name in layout.text.where if name not in classes]


def used_classes(table):
    """The classes whose operations have another text."""
    classes = [c.name for c in table.classes]
    return sorted({name for layout in table.layouts for name in layout.text.where if name in classes})


def single_function(table, name):
    """The test of one operation."""
    return [
        "",
        f"fn is_{name}(op: Op) -> bool",
        f"    ensures {{ result ≡ is_{name} op }}",
        "{",
        f"    matches!(op, Op::{table.operation(name).variant()})",
        "}",
    ]


def layout_function(table, layout):
    """The function of a layout with two texts."""
    tests = " || ".join(test_of(table, name, "(op)") for name in layout.text.where)
    return [
        "",
        f"fn {snake(layout.name)}(op: Op) -> &'static [OperandText]",
        f"    ensures {{ result.now ≡ layout_texts layouts.{layout.name} op }}",
        "{",
        f"    if {tests} {{",
        *code_of_list(layout.text.other, " " * 8),
        "    } else {",
        *code_of_list(layout.text.usual, " " * 8),
        "    }",
        "}",
    ]


def layout_arm(layout):
    """The lines of one layout in the match of `operands`."""
    before = f"Layout::{layout.name} => "
    if layout.text.where:
        return [f"        {before}{snake(layout.name)}(op),"]
    return code_of_list(layout.text.usual, " " * 8, before, ",")


def lists_file(table):
    """The function `operands`."""
    lines = [
        "//! The operands of each operation in text.",
        "",
        "ghost use Rattle.std.specs.Prelude.{◌≡◌, ◌≤◌, length};",
        "ghost use Rattle.ppc_ops.specs.declared.insn.Layout.TheVariants as layouts;",
        "ghost use Rattle.operand_texts.specs.Operands.{"
        + ", ".join(["operand_texts", "layout_texts"] + [f"is_{name}" for name in single_operations(table)])
        + "};",
        "",
        *import_lines("crate::fields::Field", sorted(capital(name) for name in fields_alone(table))),
        "use crate::kinds::OperandText;",
        *import_lines("crate::kinds::OperandText", sorted(KINDS)),
        *import_lines("ppc_ops", ["Layout", "Op"] + sorted(["layout"] + used_classes(table))),
    ]
    for name in single_operations(table):
        lines += single_function(table, name)
    for layout in table.layouts:
        if layout.text.where:
            lines += layout_function(table, layout)
    return lines + [
        "",
        "/// The operands of an operation in assembler text, in their order; at most five.",
        "pub fn operands(op: Op) -> &'static [OperandText]",
        "    ensures list { result.now ≡ operand_texts op }",
        "    ensures most { length result.now ≤ 5 }",
        "{",
        "    match layout(op) {",
        *[line for layout in table.layouts for line in layout_arm(layout)],
        "    }",
        "}",
    ]


def spec_of_list(operands):
    """A list of operands in the words of the specs."""
    pairs = [read_operand(text) for text in operands]
    parts = [kind if is_displacement(kind) else f"{kind} {capital(name)}" for kind, name in pairs]
    return " ∷ ".join(parts + ["[]"])


def lists_spec(table):
    """The definition of the operands."""
    singles = ", ".join(table.operation(name).variant() for name in single_operations(table))
    variants = ", ".join(capital(name) for name in fields_alone(table))
    lines = [
        "-- How the operands of each operation stand in text, by the layout and, in some layouts, by a class of operations.",
        "use Rattle.std.specs.Prelude.{List, [], ◌∷◌, Bool, true, false, ◌||◌, if◌then◌else◌}",
        "use Rattle.ppc_ops.specs.declared.op.Op.{Op}",
        f"use Rattle.ppc_ops.specs.declared.op.Op.TheVariants.{{{singles}}}",
        "use Rattle.ppc_ops.specs.declared.insn.Layout.{Layout}",
        "use Rattle.ppc_ops.specs.declared.insn.Layout.TheVariants as layout",
        f"use Rattle.ppc_ops.specs.Classes.{{{', '.join(used_classes(table))}}}",
        "use Rattle.ppc_ops.specs.Table.{layout_of}",
        f"use Rattle.operand_texts.specs.declared.fields.Field.TheVariants.{{{variants}}}",
        "use Rattle.operand_texts.specs.declared.kinds.OperandText.{OperandText}",
        f"use Rattle.operand_texts.specs.declared.kinds.OperandText.TheVariants.{{{', '.join(KINDS)}}}",
    ]
    for name in single_operations(table):
        lines += [
            "",
            f"-- the operation is {name}",
            f"abbrev pub is_{name} : Op → Bool",
            f"is_{name} {table.operation(name).variant()} = true",
            f"is_{name} op = false",
        ]
    lines += [
        "",
        "-- the operands of an operation of this layout in text",
        "abbrev pub layout_texts : Layout → Op → List OperandText",
    ]
    for layout in table.layouts:
        usual = spec_of_list(layout.text.usual)
        start = f"layout_texts layout.{layout.name} op = "
        if layout.text.where:
            tests = " || ".join(test_of(table, name, " op") for name in layout.text.where)
            lines.append(f"{start}if {tests} then {spec_of_list(layout.text.other)} else {usual}")
        else:
            lines.append(start + usual)
    return lines + [
        "",
        "-- the operands of an operation in text, in their order",
        "abbrev pub operand_texts : Op → List OperandText",
        "operand_texts op = layout_texts (layout_of op) op",
    ]


def marked_layouts(table, name):
    """The layouts that have this field."""
    return [layout.name for layout in table.layouts if name in [f.name for f in layout.fields]]


def marks_file(table):
    """The functions that say which marks a name takes."""
    lines = [
        "//! The marks behind the names of operations.",
        "",
        "ghost use Rattle.std.specs.Prelude.{◌≡◌};",
        "ghost use Rattle.operand_texts.specs.Marks as marks;",
        "",
        "use ppc_ops::{Layout, Op, layout};",
    ]
    for name, (function, _, meaning) in MARKS.items():
        variants = [f"Layout::{layout}" for layout in marked_layouts(table, name)]
        whole = f"layout(op), {' | '.join(variants)}"
        body = [f"    matches!({whole})"]
        if len(whole) > LIST_WIDTH:
            body = ["    matches!(", "        layout(op),", *pattern_lines(variants), "    )"]
        lines += [
            "",
            f"/// Whether the operation's name takes the mark {meaning}.",
            f"pub fn {function}(op: Op) -> bool",
            f"    ensures {{ result ≡ marks.{function} op }}",
            "{",
            *body,
            "}",
        ]
    return lines


def marks_spec(table):
    """The definitions of the marks."""
    lines = [
        "-- Which marks an operation's name takes: those of the fields of its layout.",
        "use Rattle.std.specs.Prelude.{Bool, true, false}",
        "use Rattle.ppc_ops.specs.declared.op.Op.{Op}",
        "use Rattle.ppc_ops.specs.declared.insn.Layout.{Layout}",
        "use Rattle.ppc_ops.specs.declared.insn.Layout.TheVariants as layout",
        "use Rattle.ppc_ops.specs.Table.{layout_of}",
    ]
    for name, (function, has, meaning) in MARKS.items():
        lines += ["", f"-- the forms of the layout have the field {name}", f"abbrev pub {has} : Layout → Bool"]
        lines += [f"{has} layout.{layout} = true" for layout in marked_layouts(table, name)]
        lines += [f"{has} other = false", "", f"-- the name takes {meaning.replace('`', '')}"]
        lines += [f"abbrev pub {function} : Op → Bool", f"{function} op = {has} (layout_of op)"]
    return lines


def text_files(table):
    """The files of `operand_texts` that repeat the table."""
    for layout in table.layouts:
        check_layout(table, layout)
    return {
        f"{TEXTS}/src/fields.rt": fields_file(table),
        f"{TEXTS}/src/lists.rt": lists_file(table),
        f"{TEXTS}/src/marks.rt": marks_file(table),
        f"{TEXTS}/specs/Operands.antt": lists_spec(table),
        f"{TEXTS}/specs/Marks.antt": marks_spec(table),
    }
