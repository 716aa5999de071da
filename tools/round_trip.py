"""Writes the lemmas on the fields of each layout: what is read from a word stands there, and what stands there is read."""

from dataclasses import dataclass
from typing import List

from operand_fields import fit_of_field, used_classes
from word_fields import ENCODE, insn_pattern, is_split, kind_of

# The lemmas of proofs/Parts.antt on an operand, by its type and class or by its kind: first on all of its fields of the
# word, which end the layout's list of fields, then on the one field that it has.
ENDINGS = {
    "u8 has_one_source": "source",
    "u8 shifts_words": "distance",
    "u8 turns_by_register": "distance",
    "bool seeks_any_byte": "two",
    "i16 scales_displacement": "displacement",
    "i16 16:25 11:15 31:31": "split",
}
NUMBERS = {
    "i16 16:31": "immediate",
    "i32 16:31": "compared",
    "i32 16:29 00": "branch",
    "i32 6:29 00": "jump",
}


def ending_of(field):
    """The lemmas on an operand whose fields end the list, or None."""
    return ENDINGS.get(f"{field.type} {field.where}") or ENDINGS.get(kind_of(field))


def test_of(field):
    """The argument that says of which class the operation is."""
    return f" ({field.where} op)" if field.where else ""


def nested(parts, end):
    """A tuple of the first part and a tuple of the rest, and so on."""
    return "".join(f"({part}, " for part in parts) + end + ")" * len(parts)


def in_brackets(text):
    """An argument of a call."""
    return f"({text})" if " " in text else text


@dataclass
class Proofs:
    """What is proved of one operand: of each of its fields of the word, or of all of them where they end the list."""

    own: List[str]  # the word has what is read from it
    fits: List[str]  # what stands there fits
    back: str  # the operand is read back
    read: List[str]  # the names of the facts that the word has the fields


def proofs_of(field, number):
    """What is proved of an operand of a layout, the fields of which have numbers from this one on."""
    name, fact, reading = field.name, f"f_{field.name}", field.reading
    names = [f"r{number + i}" for i in range(len(reading.ranges))]
    at = [f"(bits word {a} {b})" for a, b in reading.ranges]
    ending, number_kind, test = ending_of(field), NUMBERS.get(kind_of(field)), test_of(field)
    if ending:
        (read,) = names = names[:1]
        own, fits = f"{ending}_own{test} word", f"{ending}_fits{test} {name}"
        fits += f" {fact}" if field.where else ""
        return Proofs([own], [fits], f"{ending}_back{test} {name} word {fact} {read}", names)
    if field.type == "bool":
        shifted = f"(word / 2 ^ {31 - reading.ranges[0][0]})"
        return Proofs([f"flag_own {shifted}"], [f"flag_fits {name}"], f"flag_back {name} {at[0]} {names[0]}", names)
    if number_kind:
        fits = "branch_fits" if reading.zeros else "modulo_16_fits"
        fits = "jump_fits" if number_kind == "jump" else fits
        back = f"{number_kind}_back{test} {name} {at[0]} {fact} {names[0]}"
        return Proofs([f"{number_kind}_own{test} word"], [f"{fits} {name}"], back, names)
    if len(names) == 1:
        return Proofs(["refl"], [fact], names[0], names)
    low = f"(word / 2 ^ {31 - reading.ranges[1][1]})"
    high = "half" if reading.width() > 6 else "high"
    return Proofs(
        [f"high_own {at[0]} {low}", f"low_own {at[0]} {low}"],
        [f"{high}_fits {name} {fact}", f"low_fits {name}"],
        f"parts_back {name} {at[0]} {at[1]} {names[0]} {names[1]}",
        names,
    )


def proofs_of_layout(layout):
    """What is proved of each operand, in the order of the operands."""
    proofs, number = [], 1
    for field in layout.fields:
        proofs.append(proofs_of(field, number))
        number += len(field.reading.ranges)
    return proofs


def in_list_order(layout, proofs):
    """The proofs of a layout's operands in the order of the list of fields, and the one that ends it, if there is one."""
    pairs = list(zip(layout.fields, proofs))
    endings = [proof for field, proof in pairs if ending_of(field)]
    return [proof for field, proof in pairs if not ending_of(field)], endings[0] if endings else None


def joined(layout, part, end="tt"):
    """One part of what is proved of each operand, as a tuple over the list of fields."""
    proofs, ending = in_list_order(layout, proofs_of_layout(layout))
    parts = [text for proof in proofs for text in getattr(proof, part)]
    return nested(parts, getattr(ending, part)[0] if ending else end)


def own_clause(layout):
    """A word has what is read from it."""
    places = "refl"
    for field in filter(is_split, layout.fields):
        places = last_places(layout, field)
    return f"own layout.{layout.name} op word = (refl, {places}, {joined(layout, 'own')})"


def last_places(layout, field):
    """The fields of the word are the same whatever the operand is that ends the list."""
    front = [reading for f in layout.fields if f is not field for reading in f.reading.ranges]
    masks = [f"mask (at {first} {last} 0)" for first, last in front]
    return f"ap (λ ms. {' ∷ '.join(masks + ['ms'])}) ({ending_of(field)}_places{test_of(field)} _ _)"


def facts_pattern(layout):
    """The parts of what says that an instruction of a layout fits."""
    parts = ["same"] if layout.has_op else []
    parts += [f"f_{f.name}" for f in layout.fields if fit_of_field(f)]
    if len(parts) == 1:
        return parts[0]
    return f"({', '.join(parts)})" if parts else "none"


def places_clause(layout):
    """The fields of a form are those of its operation."""
    start = f"places {insn_pattern(layout)} {facts_pattern(layout)} ="
    if not layout.has_op:
        return f"{start} refl"
    steps = [last_places(layout, field) for field in layout.fields if is_split(field)]
    return " ".join([start, " ∙ ".join(steps + ["ap (λ l. masks (fields_of (operands_of l op 0))) (sym same)"])])


def fits_clause(layout):
    """What stands in the fields of a form fits them."""
    return f"fits {insn_pattern(layout)} {facts_pattern(layout)} = {joined(layout, 'fits')}"


def back_clause(layout):
    """A form is read from a word that has its fields."""
    start = f"back {insn_pattern(layout)} {facts_pattern(layout)} word {joined(layout, 'read', 'end')} ="
    term = f"λ {' '.join(f.name for f in layout.fields)}. {insn_pattern(layout)[1:-1]}"
    for place, proof in enumerate(proofs_of_layout(layout)):
        term = f"{'with' if place else 'ap'} ({term}) {in_brackets(proof.back)}"
    if not layout.has_op:
        return f"{start} {term if layout.fields else 'refl'}"
    return f"{start} ap (λ l. operands_of l op word) same ∙ {term}"


def round_trip_proof(table):
    """The lemmas on each layout's fields."""
    kinds = list(dict.fromkeys(ENDINGS.values()))
    places = [f"{kind}_places" for kind in kinds if kind != "split"]
    parts = [f"{kind}_{part}" for kind in kinds for part in ["fits", "back", "own"]]
    numbers = [f"{kind}_{part}" for kind in NUMBERS.values() for part in ["back", "own"]]
    others = ["with", "flag_fits", "flag_back", "flag_own", "modulo_16_fits", "branch_fits", "jump_fits"]
    others += ["high_fits", "half_fits", "low_fits", "parts_back", "high_own", "low_own"]
    return [
        "-- The fields of each layout: what is read from a word stands there, and what stands there is read.",
        "use Rattle.std.proofs.Common.{◌≡◌, ℕ, ◌/◌, ◌^◌, ◌∷◌, refl, sym, ap, ◌∙◌}",
        "use Rattle.ppc_ops.specs.declared.op.Op.{Op}",
        "use Rattle.ppc_ops.specs.declared.insn.Insn.{Insn}",
        "use Rattle.ppc_ops.specs.declared.insn.Insn.TheVariants as insn",
        "use Rattle.ppc_ops.specs.declared.insn.Layout.{Layout}",
        "use Rattle.ppc_ops.specs.declared.insn.Layout.TheVariants as layout",
        f"use Rattle.ppc_ops.specs.Classes.{{{', '.join(used_classes(table))}}}",
        "use Rattle.ppc_ops.specs.Fitting.{FitsFields}",
        "use Rattle.ppc_ops.specs.Rows.{at}",
        "use Rattle.ppc_ops.specs.Table.{layout_of}",
        "use Rattle.word_decoder.specs.Operands.{bits, operands_of}",
        "use Rattle.ppc_decode.specs.Encode.{insn_op, fields_of}",
        "use Rattle.ppc_decode.proofs.Sums.{Fitted, Reads, mask, masks}",
        f"use Rattle.ppc_decode.proofs.Parts.{{{', '.join(others + numbers + parts + places)}}}",
        "",
        "-- a word has what is read from it, in fields that are the same for all words",
        "pub own : (l : Layout) (op : Op) (word : ℕ) → (insn_op (operands_of l op word) ≡ insn_op (operands_of l op 0)) × (masks (fields_of (operands_of l op word)) ≡ masks (fields_of (operands_of l op 0))) × Reads word (fields_of (operands_of l op word))",
        *map(own_clause, table.layouts),
        "",
        "-- the fields of a form are those of its operation",
        "pub places : (i : Insn) → FitsFields i → masks (fields_of i) ≡ masks (fields_of (operands_of (layout_of (insn_op i)) (insn_op i) 0))",
        *map(places_clause, table.layouts),
        "",
        "-- what stands in the fields of a form fits them",
        "pub fits : (i : Insn) → FitsFields i → Fitted (fields_of i)",
        *map(fits_clause, table.layouts),
        "",
        "-- a form is read from a word that has its fields",
        "pub back : (i : Insn) → FitsFields i → (word : ℕ) → Reads word (fields_of i) → operands_of (layout_of (insn_op i)) (insn_op i) word ≡ i",
        *map(back_clause, table.layouts),
    ]


def round_trip_files(table):
    """The file of these lemmas."""
    return {f"{ENCODE}/proofs/RoundTrip.antt": round_trip_proof(table)}
