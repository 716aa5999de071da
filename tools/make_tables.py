#!/usr/bin/env python3
"""Writes the files of `ppc_ops`, `word_decoder`, `ppc_decode`, `storage_ops`, `operand_texts`, `asm_forms`, `ppc_disasm` and
`text_laws` that repeat the table of docs/INSTRUCTIONS.md.

With `--check` it writes nothing, and fails where a file is not what the table gives.
"""

import os
import sys
import textwrap

from access_forms import access_files
from insn_texts import insn_text_files
from instruction_table import PRIMARY, read_table
from opcode_branches import branch_files
from operand_fields import operand_files, pattern_lines
from operand_texts import text_files
from operand_values import value_files
from round_trip import round_trip_files
from text_readings import reading_files
from word_fields import word_files

TOP = os.path.dirname(os.path.dirname(os.path.abspath(__file__)))
OPS = "crates/ppc_ops"
CALL_WIDTH = 60  # the layout of Rust breaks longer arguments of a call


def doc_lines(text, indent=0):
    """A doc comment, broken into lines."""
    start = " " * indent + "/// "
    return textwrap.wrap(text, 110, initial_indent=start, subsequent_indent=start, break_long_words=False)


def first_lower(text):
    """The text with a small first letter."""
    return text[0].lower() + text[1:]


def op_file(table):
    """The enum `Op` and the struct `Row`."""
    lines = [
        "//! The operations of the instruction table.",
        "",
        "/// An operation of the instruction table.",
        "#[derive(Clone, Copy, Debug, PartialEq, Eq)]",
        "pub enum Op {",
    ]
    for operation in table.operations():
        lines += doc_lines(f"{operation.name}: {operation.meaning} ({operation.section}).", 4)
        lines.append(f"    {operation.variant()},")
    return lines + [
        "}",
        "",
        "/// A row of the instruction table: the words that have `value` in the bits of `mask` are those of `op`.",
        "#[derive(Clone, Copy, Debug, PartialEq, Eq)]",
        "pub struct Row {",
        "    /// Ones in the fixed bits.",
        "    pub mask: u32,",
        "    /// The fixed bits, and zeros elsewhere.",
        "    pub value: u32,",
        "    /// The operation.",
        "    pub op: Op,",
        "}",
    ]


def layout_enum(table):
    """The enum `Layout`."""
    lines = [
        "/// The layout of an operation's operands in a word (Power ISA, Book I, 1.6).",
        "#[derive(Clone, Copy, Debug, PartialEq, Eq)]",
        "pub enum Layout {",
    ]
    for layout in table.layouts:
        lines += doc_lines(layout.summary, 4) + [f"    {layout.name},"]
    return lines + ["}"]


def insn_variant(layout):
    """One variant of `Insn`."""
    fields = (["op: Op"] if layout.has_op else []) + [f"{f.name}: {f.type}" for f in layout.fields]
    lines = doc_lines(layout.summary, 4)
    if not fields:
        return lines + [f"    {layout.name},"]
    return lines + [f"    {layout.name} {{"] + [f"        {f}," for f in fields] + ["    },"]


def insn_file(table):
    """The enums `Layout` and `Insn`."""
    lines = ["//! Instructions with their operands.", "", "use crate::op::Op;", ""] + layout_enum(table) + [
        "",
        "/// An instruction with its operands. A field is named as the Power ISA names it, in lower case.",
        "#[derive(Clone, Copy, Debug, PartialEq, Eq)]",
        "pub enum Insn {",
    ]
    for layout in table.layouts:
        lines += insn_variant(layout)
    return lines + ["}"]


def one_match(doc, name, result, contract, arms):
    """A function of an operation that is one match."""
    return [
        "",
        f"/// {doc}",
        f"pub fn {name}(op: Op) -> {result}",
        f"    ensures {{ {contract} }}",
        "{",
        "    match op {",
        *arms,
        "    }",
        "}",
    ]


def names_file(table):
    """The function `name`."""
    return [
        "//! The names of operations.",
        "",
        "ghost use Rattle.std.specs.Prelude.{◌≡◌};",
        "ghost use Rattle.ppc_ops.specs.Table.{name_of};",
        "",
        "use crate::op::Op;",
        *one_match(
            "The name of an operation in assembler text, without the marks of `oe`, `rc`, `lk` and `aa`.",
            "name",
            "&'static str",
            "result.now ≡ name_of op",
            [f'        Op::{o.variant()} => "{o.name}",' for o in table.operations()],
        ),
    ]


def layouts_file(table):
    """The function `layout`."""
    return [
        "//! The layout of each operation.",
        "",
        "ghost use Rattle.std.specs.Prelude.{◌≡◌};",
        "ghost use Rattle.ppc_ops.specs.Table.{layout_of};",
        "",
        "use crate::insn::Layout;",
        "use crate::op::Op;",
        *one_match(
            "The layout of an operation's operands.",
            "layout",
            "Layout",
            "result ≡ layout_of op",
            [f"        Op::{o.variant()} => Layout::{o.layout}," for o in table.operations()],
        ),
    ]


def rows_file(table):
    """The static list of rows."""
    rows = [f"    (0x{hex_word(o.mask())}, 0x{hex_word(o.value())}, Op::{o.variant()})," for o in table.operations()]
    return [
        "//! The rows of the instruction table.",
        "",
        "use crate::op::Op;",
        "",
        "/// The mask of each row's fixed bits, their value, and the operation.",
        f"pub(crate) static ROWS: [(u32, u32, Op); {len(rows)}] = [",
        *rows,
        "];",
    ]


def hex_word(word):
    """Eight digits, parted in the middle."""
    return f"{word >> 16:04x}_{word & 0xFFFF:04x}"


def fixed_spec(operation):
    """The fixed bits of a row, in the words of the specs."""
    (first, last, value), *others = operation.fixed
    assert (first, last) == PRIMARY
    return " ∷ ".join([f"opcode {value}"] + [f"at {a} {b} {v}" for a, b, v in others] + ["[]"])


def table_spec(table):
    """The definition of the table."""
    variants = [o.variant() for o in table.operations()]
    lines = [
        "-- The instruction table: of each operation the name, the layout of the operands, and the fixed bits of its words.",
        "use Rattle.std.specs.Prelude.{ℕ, List, [], ◌∷◌, codes, map}",
        "use Rattle.ppc_ops.specs.declared.op.Op.{Op}",
        f"use Rattle.ppc_ops.specs.declared.op.Op.TheVariants.{{{', '.join(variants)}}}",
        "use Rattle.ppc_ops.specs.declared.insn.Layout.{Layout}",
        "use Rattle.ppc_ops.specs.declared.insn.Layout.TheVariants as layout",
        "use Rattle.ppc_ops.specs.declared.op.Row.{Row}",
        "use Rattle.ppc_ops.specs.Rows.{Fixed, at, opcode, row_of}",
        "",
        "-- a line of the table",
        "pub record Entry : Type 0 where",
        "  pub name : List ℕ",
        "  pub layout : Layout",
        "  pub fixed : List Fixed",
        "",
        "abbrev pub entry : List ℕ → Layout → List Fixed → Entry",
        "entry name layout fixed = record { name = name; layout = layout; fixed = fixed }",
        "",
        "abbrev pub entry_of : Op → Entry",
    ]
    for o in table.operations():
        lines.append(f'entry_of {o.variant()} = entry (codes "{o.name}") layout.{o.layout} ({fixed_spec(o)})')
    lines += ["", "-- all operations", "abbrev pub operations : List Op", "operations ="]
    lines += [f"    {variant} ∷" for variant in variants] + ["    []"]
    return lines + [
        "",
        "-- the name of an operation",
        "abbrev pub name_of : Op → List ℕ",
        "name_of op = (entry_of op).name",
        "",
        "-- the layout of its operands",
        "abbrev pub layout_of : Op → Layout",
        "layout_of op = (entry_of op).layout",
        "",
        "-- the row of an operation",
        "abbrev pub op_row : Op → Row",
        "op_row op = row_of (entry_of op).fixed op",
        "",
        "-- the rows of all operations",
        "unfoldable pub rows : List Row",
        "rows = map op_row operations",
    ]


def class_function(table, operation_class):
    """The test of one class of operations."""
    variants = [f"Op::{table.operation(name).variant()}" for name in operation_class.operations]
    arms = " | ".join(variants)
    body = [f"    matches!(op, {arms})"]
    if len(f"op, {arms}") > CALL_WIDTH:
        body = ["    matches!(", "        op,"] + pattern_lines(variants) + ["    )"]
    return [
        "",
        *doc_lines(f"Whether the operation is one of these: {first_lower(operation_class.summary)}"),
        f"pub fn {operation_class.name}(op: Op) -> bool",
        f"    ensures {{ result ≡ classes.{operation_class.name} op }}",
        "{",
        *body,
        "}",
    ]


def classes_file(table):
    """The tests of all classes."""
    lines = [
        "//! Classes of operations.",
        "",
        "ghost use Rattle.std.specs.Prelude.{◌≡◌};",
        "ghost use Rattle.ppc_ops.specs.Classes as classes;",
        "",
        "use crate::op::Op;",
    ]
    for operation_class in table.classes:
        lines += class_function(table, operation_class)
    return lines


def classes_spec(table):
    """The definitions of all classes."""
    names = [name for c in table.classes for name in c.operations]
    variants = list(dict.fromkeys(table.operation(name).variant() for name in names))
    lines = [
        "-- Classes of operations.",
        "use Rattle.std.specs.Prelude.{Bool, true, false}",
        "use Rattle.ppc_ops.specs.declared.op.Op.{Op}",
        f"use Rattle.ppc_ops.specs.declared.op.Op.TheVariants.{{{', '.join(variants)}}}",
    ]
    for c in table.classes:
        lines += ["", f"-- {first_lower(c.summary).rstrip('.')}", f"abbrev pub {c.name} : Op → Bool"]
        lines += [f"{c.name} {table.operation(name).variant()} = true" for name in c.operations]
        lines.append(f"{c.name} op = false")
    return lines


def all_files(table):
    """All files that repeat the table, each a list of lines."""
    files = {
        f"{OPS}/src/op.rt": op_file(table),
        f"{OPS}/src/insn.rt": insn_file(table),
        f"{OPS}/src/names.rt": names_file(table),
        f"{OPS}/src/layouts.rt": layouts_file(table),
        f"{OPS}/src/rows.rt": rows_file(table),
        f"{OPS}/src/classes.rt": classes_file(table),
        f"{OPS}/specs/Table.antt": table_spec(table),
        f"{OPS}/specs/Classes.antt": classes_spec(table),
    }
    files.update(branch_files(table))
    files.update(operand_files(table))
    files.update(word_files(table))
    files.update(round_trip_files(table))
    files.update(access_files(table))
    files.update(text_files(table))
    files.update(value_files(table))
    files.update(insn_text_files(table))
    files.update(reading_files(table))
    return files


def first_line(name):
    """The line that says what writes a file, and from what."""
    mark = "//" if name.endswith(".rt") else "--"
    return f"{mark} Written by tools/make_tables.py from docs/INSTRUCTIONS.md."


def main():
    """Writes or checks each file."""
    wrong = 0
    for name, lines in all_files(read_table(f"{TOP}/docs/INSTRUCTIONS.md")).items():
        path, text = f"{TOP}/{name}", "\n".join([first_line(name), *lines]) + "\n"
        if "--check" not in sys.argv:
            with open(path, "w", encoding="utf-8") as file:
                file.write(text)
        elif not os.path.exists(path) or open(path, encoding="utf-8").read() != text:
            print(f"{name} is not what docs/INSTRUCTIONS.md gives; run tools/make_tables.py")
            wrong += 1
    sys.exit(1 if wrong else 0)


if __name__ == "__main__":
    main()
