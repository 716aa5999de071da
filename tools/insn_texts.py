"""Writes the files of `ppc_disasm` that say which marks and values each form has in assembler text."""

from operand_texts import MARKS, is_displacement, read_operand, test_of
from operand_values import fields_in_order
from round_trip import facts_pattern, nested
from word_fields import PATTERN_WIDTH, insn_pattern

DISASM = "crates/ppc_disasm"
ARRAY_WIDTH = 60  # the layout of Rust breaks longer lists of values


def mark_fields(layout):
    """The marks that the forms of a layout have."""
    return [name for name in MARKS if name in [f.name for f in layout.fields]]


def spec_of_mnemonic(layout):
    """The operation of a form with its marks, in the words of the specs."""
    op = "op" if layout.has_op else layout.operations[0].variant()
    marks = mark_fields(layout)
    if not marks:
        return f"unmarked {op}"
    return " ".join(["marked", op] + [name if name in marks else "false" for name in MARKS])


def spec_of_value(field):
    """The value of a field, in the words of the specs."""
    if field.type == "bool":
        return f"pos (from_bool {field.name})"
    return f"pos {field.name}" if field.type in ("u8", "u16") else field.name


def value_fields(layout):
    """The fields of a layout that stand in text, each at the place of its value."""
    fields = {f.name: f for f in layout.fields}
    return [fields[name] for name in fields_in_order(layout.text.usual)]


def spec_of_values(layout):
    """The values of a form, in the words of the specs."""
    return " ∷ ".join([spec_of_value(f) for f in value_fields(layout)] + ["[]"])


def single_variants(table):
    """The operations of the layouts that have only one."""
    return [layout.operations[0].variant() for layout in table.layouts if not layout.has_op]


def forms_spec(table):
    """The definitions of a form's mnemonic and values."""
    lines = [
        "-- What stands in the text of each form.",
        "use Rattle.std.specs.Prelude.{ℤ, pos, List, [], ◌∷◌, false}",
        "use Rattle.std.specs.Int.{from_bool}",
        f"use Rattle.ppc_ops.specs.declared.op.Op.TheVariants.{{{', '.join(single_variants(table))}}}",
        "use Rattle.ppc_ops.specs.declared.insn.Insn.{Insn}",
        "use Rattle.ppc_ops.specs.declared.insn.Insn.TheVariants as insn",
        "use Rattle.operand_texts.specs.declared.mnemonic.Mnemonic.{Mnemonic}",
        "use Rattle.operand_texts.specs.Mnemonics.{marked, unmarked}",
        "",
        "-- the operation of a form, with its marks",
        "abbrev pub mnemonic_of : Insn → Mnemonic",
    ]
    lines += [f"mnemonic_of {insn_pattern(layout)} = {spec_of_mnemonic(layout)}" for layout in table.layouts]
    lines += [
        "",
        "-- The values of a form's operands in the order in which they stand in text, the register of a displacement behind it.",
        "-- What no operand of the operation stands for comes last.",
        "abbrev pub values_of : Insn → List ℤ",
    ]
    return lines + [f"values_of {insn_pattern(layout)} = {spec_of_values(layout)}" for layout in table.layouts]


def code_of_mnemonic(layout):
    """The operation of a form with its marks, in the code."""
    op = "op" if layout.has_op else f"Op::{layout.operations[0].variant()}"
    marks = mark_fields(layout)
    if not marks:
        return [f"Mnemonic::unmarked({op})"]
    return ["Mnemonic {", *[f"    {name}," for name in marks], f"    ..Mnemonic::unmarked({op})", "}"]


def code_of_value(field):
    """The value of a field, in the code."""
    return field.name if field.type == "i32" else f"i32::from({field.name})"


def code_of_values(layout):
    """The lines of the values of a form in the code."""
    values = [code_of_value(f) for f in value_fields(layout)]
    whole = ", ".join(values)
    return [f"[{whole}]"] if len(whole) <= ARRAY_WIDTH else ["["] + [f"    {value}," for value in values] + ["]"]


def indented(lines, indent, before, after):
    """Lines of code, with what stands before and behind them."""
    lines = [before + lines[0]] + lines[1:]
    return [indent + line for line in lines[:-1]] + [indent + lines[-1] + after]


def pattern_of(layout):
    """The lines of a form's pattern in the code."""
    names = (["op"] if layout.has_op else []) + [f.name for f in layout.fields]
    given = ", ".join(names)
    if not names:
        return [f"Insn::{layout.name}"]
    if len(given) <= PATTERN_WIDTH:
        return [f"Insn::{layout.name} {{ {given} }}"]
    return [f"Insn::{layout.name} {{"] + [f"    {name}," for name in names] + ["}"]


def layout_arm(layout):
    """The arm of one layout in the match of a function over forms."""
    indent = " " * 8
    if not layout.has_op and not layout.fields:
        return [f"{indent}Insn::{layout.name} => push_form(line, Mnemonic::unmarked(Op::{layout.operations[0].variant()}), &[]),"]
    return [
        *indented(pattern_of(layout), indent, "", " => {"),
        *indented(code_of_mnemonic(layout), indent + "    ", "let mnemonic = ", ";"),
        *indented(code_of_values(layout), indent + "    ", "let values = ", ";"),
        f"{indent}    push_form(line, mnemonic, &values);",
        f"{indent}}}",
    ]


def forms_file(table):
    """The function that adds the text of a form to a line."""
    return [
        "//! The text of each form.",
        "",
        "ghost use Rattle.std.specs.Prelude.{◌≡◌, ◌+◌, ◌++◌, ◌≤◌, length};",
        "ghost use Rattle.ppc_disasm.specs.Texts.{insn_text};",
        "",
        "use crate::operands::push_form;",
        "use line_text::Line;",
        "use operand_texts::Mnemonic;",
        "use ppc_ops::{Insn, Op};",
        "",
        "/// Adds the text of an instruction to a line, which must have room for it and 20 bytes more.",
        "#[tactic(auto, unfolding(crate::specs::Texts::insn_text))]",
        "pub(crate) fn push_text(line: &mut Line, insn: Insn)",
        "    requires { length line.old + length (insn_text insn) + 20 ≤ 512 }",
        "    ensures { line.new ≡ line.old ++ insn_text insn }",
        "{",
        "    match insn {",
        *[line for layout in table.layouts for line in layout_arm(layout)],
        "    }",
        "}",
    ]


def fact_of(field, kind, chosen):
    """The proof that a field's value fits an operand of its kind. `chosen` says that the facts go by the text's class."""
    name, reading = field.name, field.reading
    fact = f"(rw e at f_{name})" if field.where and chosen else f"f_{name}"
    if field.type == "bool":
        return f"flag_below {name}"
    if not reading.signed:
        if field.where and not chosen:
            return f"distance_below ({field.where} op) {name} {fact}"
        return fact if kind.startswith("Register") else f"number_below {name} _ {fact} (omega arith)"
    if reading.zeros:
        return f"{ {16: 'branch', 26: 'jump'}[reading.width()] }_within {name} {fact}"
    if not field.where:
        return f"signed_within {name} {fact}"
    if field.other.zeros:
        return f"displacement_within ({field.where} op) {name} {fact}"
    return f"{'compared_below' if kind == 'Number' else 'signed_within'} {name} {fact}"


def facts_of(layout, operands):
    """The proofs that the values fit operands in text, as a tuple."""
    fields, facts = {f.name: f for f in layout.fields}, []
    for kind, name in map(read_operand, operands):
        chosen = fields[name].where in layout.text.where
        fact = fact_of(fields[name], kind, chosen)
        facts.append(f"({fact}, f_ra)" if is_displacement(kind) else fact)
    return nested(facts, "tt")


def fit_clause(table, layout):
    """The values of a form fit its operands."""
    start, vs = f"values_fit {insn_pattern(layout)} {facts_pattern(layout)} =", f"({spec_of_values(layout)})"
    usual = facts_of(layout, layout.text.usual)
    if not layout.has_op:
        return f"{start} {usual}"
    if layout.text.where:
        test = " || ".join(test_of(table, name, " op") for name in layout.text.where)
        usual = f"(chosen _ _ ({test}) {vs} (λ e. {facts_of(layout, layout.text.other)}) (λ e. {usual}))"
    return f"{start} subst (λ which. FitKinds (layout_texts which op) {vs}) (sym same) {usual}"


def fit_proof(table):
    """The lemma that the values of a form fit its operands."""
    clauses = [fit_clause(table, layout) for layout in table.layouts]
    classes = sorted(c.name for c in table.classes if any(f"{c.name} op" in clause for clause in clauses))
    return [
        "-- The values of each form fit its operands in text.",
        "use Rattle.std.proofs.Common.{◌∷◌, [], sym, subst, arith}",
        "use Rattle.std.specs.Prelude.{pos, ◌||◌}",
        "use Rattle.std.specs.Int.{from_bool}",
        "use Rattle.ppc_ops.specs.declared.insn.Insn.{Insn}",
        "use Rattle.ppc_ops.specs.declared.insn.Insn.TheVariants as insn",
        f"use Rattle.ppc_ops.specs.Classes.{{{', '.join(classes)}}}",
        "use Rattle.ppc_ops.specs.Fitting.{FitsFields}",
        "use Rattle.operand_texts.specs.Operands.{operand_texts, layout_texts, is_rlwnm}",
        "use Rattle.ppc_disasm.specs.Forms.{mnemonic_of, values_of}",
        "use Rattle.ppc_disasm.proofs.Fitting.{FitKinds, chosen, number_below, flag_below, distance_below, compared_below, "
        "signed_within, displacement_within, branch_within, jump_within}",
        "",
        "pub values_fit : (i : Insn) → FitsFields i → FitKinds (operand_texts (mnemonic_of i).op) (values_of i)",
        *clauses,
    ]


def insn_text_files(table):
    """The files of `ppc_disasm` that repeat the table."""
    return {
        f"{DISASM}/specs/Forms.antt": forms_spec(table),
        f"{DISASM}/src/forms.rt": forms_file(table),
        f"{DISASM}/proofs/LayoutsFit.antt": fit_proof(table),
    }
