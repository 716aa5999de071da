"""Writes the lemmas of `text_laws` that the values of each form make the form, and that the operands of each word fit."""

from insn_texts import mark_fields, spec_of_mnemonic, spec_of_values, value_fields
from operand_fields import spec_of_number
from operand_texts import test_of
from round_trip import facts_pattern
from word_fields import insn_pattern

LAWS = "crates/text_laws"


def fact_of(layout, field):
    """What says that the operand fits its field, where the facts go by the text's class."""
    return f"(rw e at f_{field.name})" if field.where in layout.text.where else f"f_{field.name}"


def reading_of(layout, field, is_other):
    """The proof that a field takes its value. `is_other` says that the text is that of the class."""
    name, reading, fact = field.name, field.reading, fact_of(layout, field)
    by_text = field.where in layout.text.where
    test = ("true" if is_other else "false") if by_text else f"({field.where} op)"
    if field.type == "bool":
        return f"flag_unless_read {test} {name} {fact}" if field.where else f"flag_read {name}"
    if not reading.signed:
        if not field.where:
            return f"number_read {reading.width()} {name} {fact}"
        if not by_text:
            return f"number_read (cond {test} {field.other.width()} {reading.width()}) {name} {fact}"
        if is_other and not field.other:
            return f"zero_read {name} {fact}"
        return f"number_read {(field.other if is_other else reading).width()} {name} {fact}"
    if reading.zeros:
        return f"{ {16: 'branch', 26: 'jump'}[reading.width()] }_read {name} {fact}"
    if not field.where:
        return f"signed_read {name} {fact}"
    return f"{'displacement' if field.other.zeros else 'compared'}_read {test} {name} {fact}"


def term_of(layout, is_other=False, first=""):
    """The proof that the values are read, by the fields in the order in which the form takes them."""
    readings = [reading_of(layout, f, is_other) for f in layout.fields if f in value_fields(layout)]
    steps = ([first] if first else []) + readings
    if not steps:
        return "refl"
    return f"rw {steps[0] if len(steps) == 1 and ' ' not in steps[0] else '(' + ', '.join(steps) + ')'} refl"


def read_clause(table, layout):
    """The values of a form make the form."""
    insn, m, vs = insn_pattern(layout), spec_of_mnemonic(layout), spec_of_values(layout)
    start = f"values_read {insn} {facts_pattern(layout)} ="
    term = term_of(layout)
    if layout.text.where:
        test = " || ".join(test_of(table, name, " op") for name in layout.text.where)
        term = f"either ({test}) (λ e. {term_of(layout, True, 'e')}) (λ e. {term_of(layout, False, 'e')})"
    if not layout.has_op:
        return f"{start} {term}"
    return f"{start} subst (λ which. form_by which ({m}) (shown_values (layout_texts which op) ({vs})) ≡ Some {insn}) (sym same) ({term})"


def marks_clause(layout):
    """The name of a form's operation takes its marks."""
    start = f"marks_taken {insn_pattern(layout)} {facts_pattern(layout)} ="
    marks = mark_fields(layout)
    if not marks:
        return f"{start} refl"
    term = f"rw ({', '.join(f'or_true (not {name})' for name in marks)}) refl"
    if not layout.has_op:
        return f"{start} {term}"
    tests = {"oe": "has_overflow", "rc": "has_record", "lk": "has_link", "aa": "has_absolute"}
    whole = " && ".join(f"(not {name if name in marks else 'false'} || {test} which)" for name, test in tests.items())
    return f"{start} subst (λ which. ({whole}) ≡ true) (sym same) ({term})"


def reading_proof(table):
    """The lemmas on the values and the marks of each form."""
    clauses = [read_clause(table, layout) for layout in table.layouts]
    marks = [marks_clause(layout) for layout in table.layouts]
    classes = sorted(c.name for c in table.classes if any(f"{c.name} op" in clause for clause in clauses))
    singles = sorted({layout.operations[0].variant() for layout in table.layouts if not layout.has_op})
    singles = [name for name in singles if any(f"marked {name} " in clause or f"unmarked {name}" in clause for clause in clauses)]
    return [
        "-- The values of each form make the form, and its name takes its marks.",
        "use Rattle.std.proofs.Common.{◌≡◌, ◌∷◌, [], true, false, cond, Some, refl, sym, subst}",
        "use Rattle.std.specs.Prelude.{pos, not, ◌&&◌, ◌||◌}",
        "use Rattle.std.specs.Int.{from_bool}",
        "use Rattle.ppc_ops.specs.declared.insn.Insn.{Insn}",
        "use Rattle.ppc_ops.specs.declared.insn.Insn.TheVariants as insn",
        f"use Rattle.ppc_ops.specs.Classes.{{{', '.join(classes)}}}",
        "use Rattle.ppc_ops.specs.Fitting.{FitsFields}",
        "use Rattle.operand_texts.specs.Marks.{has_overflow, has_record, has_link, has_absolute}",
        "use Rattle.operand_texts.specs.Mnemonics.{marked, unmarked, takes_marks}",
        "use Rattle.operand_texts.specs.Operands.{operand_texts, layout_texts, is_rlwnm}",
        "use Rattle.asm_forms.specs.Layouts.{form_by}",
        "use Rattle.asm_forms.specs.Values.{value_at}",
        "use Rattle.asm_forms.specs.Words.{form_of}",
        "use Rattle.ppc_disasm.specs.Forms.{mnemonic_of, values_of}",
        "use Rattle.text_laws.proofs.Shapes.{shown_values}",
        "use Rattle.text_laws.proofs.FieldsRead.{either, or_true, number_read, zero_read, flag_read, flag_unless_read, signed_read, "
        "displacement_read, compared_read, branch_read, jump_read}",
        "",
        "pub values_read : (i : Insn) → FitsFields i → form_of (mnemonic_of i) (shown_values (operand_texts (mnemonic_of i).op) (values_of i)) ≡ Some i",
        "unfolding value_at",
        *clauses,
        "",
        "pub marks_taken : (i : Insn) → FitsFields i → takes_marks (mnemonic_of i) ≡ true",
        *marks,
    ]


def fit_of(field):
    """The proof that what stands in a word for an operand fits its field, or None where the operand's type says it."""
    reading, test = field.reading, f"({field.where} op)"
    if field.type == "bool":
        return f"two_fits {test} word" if field.where else None
    if not reading.signed:
        if not field.where:
            return "omega arith"
        return f"{'distance' if field.other else 'source'}_fits {test} word"
    if not field.where:
        if reading.zeros:
            first, last = reading.ranges[0]
            return f"{ {16: 'branch', 26: 'jump'}[reading.width()] }_fits (bits word {first} {last}) (omega arith)"
        return f"half_fits ({spec_of_number(reading)}) (omega arith)"
    return f"{'displacement' if field.other.zeros else 'compared'}_fits {test} word"


def word_clause(layout):
    """The operands that stand in a word for a layout fit."""
    parts = ["same"] if layout.has_op else []
    parts += [part for part in map(fit_of, layout.fields) if part]
    if not parts:
        return f"words_fit layout.{layout.name} op word same = tt"
    whole = ", ".join(parts)
    return f"words_fit layout.{layout.name} op word same = {f'({whole})' if len(parts) > 1 else whole}"


def word_proof(table):
    """The lemma that the operands that stand in a word fit."""
    clauses = [word_clause(layout) for layout in table.layouts]
    classes = sorted(c.name for c in table.classes if any(f"({c.name} op" in clause for clause in clauses))
    return [
        "-- The operands that stand in a word for each layout fit their fields.",
        "use Rattle.std.proofs.Common.{◌≡◌, ℕ, arith}",
        "use Rattle.ppc_ops.specs.declared.op.Op.{Op}",
        "use Rattle.ppc_ops.specs.declared.insn.Layout.{Layout}",
        "use Rattle.ppc_ops.specs.declared.insn.Layout.TheVariants as layout",
        f"use Rattle.ppc_ops.specs.Classes.{{{', '.join(classes)}}}",
        "use Rattle.ppc_ops.specs.Fitting.{FitsFields}",
        "use Rattle.ppc_ops.specs.Table.{layout_of}",
        "use Rattle.word_decoder.specs.Operands.{bits, followed, operands_of}",
        "use Rattle.text_laws.proofs.BitsFit.{source_fits, distance_fits, two_fits, half_fits, branch_fits, jump_fits, "
        "displacement_fits, compared_fits}",
        "",
        "pub words_fit : (l : Layout) (op : Op) (word : ℕ) → layout_of op ≡ l → FitsFields (operands_of l op word)",
        *clauses,
    ]


def reading_files(table):
    """The files of `text_laws` that repeat the table."""
    return {
        f"{LAWS}/proofs/LayoutsRead.antt": reading_proof(table),
        f"{LAWS}/proofs/WordsFit.antt": word_proof(table),
    }
