"""Writes the files of `storage_ops` that say what each load and store moves, as the instruction table's meanings say it."""

STORAGE = "crates/storage_ops"
BYTES = {"byte": 1, "halfword": 2, "word": 4, "doubleword": 8}


def moved_bytes(meaning):
    """How many bytes an operation moves: `RT = the word at ..`, `stores RT's low word at ..` or `stores RT at ..`."""
    words = meaning.split(" at ")[0].split()
    return BYTES.get(words[-1], 8)


def makers(operation):
    """The makers that give an operation's form, the innermost one last."""
    meaning = operation.meaning
    kind = "stores" if meaning.startswith("stores ") else "loads"
    outer = []
    if "; RA = the address" in meaning:
        outer.append("with_update")
    if ", signed" in meaning:
        outer.append("with_sign")
    if "its bytes reversed" in meaning:
        outer.append("in_reverse")
    if "caching inhibited" in meaning:
        outer.append("past_caches")
    if "reservation" in meaning:
        outer.append("with_reservation")
    return outer, f"{kind}", moved_bytes(meaning)


def moves(table):
    """The operations that move bytes between a register and storage."""
    return [o for o in table.operations() if o.layout in ("Access", "AccessX")]


def code_of(operation):
    """A form in the code."""
    outer, kind, size = makers(operation)
    text = f"{kind}({size})"
    for maker in reversed(outer):
        text = f"{maker}({text})"
    return text


def spec_of(operation):
    """A form in the definitions."""
    outer, kind, size = makers(operation)
    text = f"({kind} {size})"
    for maker in reversed(outer):
        text = f"({maker} {text})"
    return text


def table_file(table):
    """The table as code."""
    lines = [
        "//! What each load and store moves.",
        "",
        "ghost use Rattle.std.specs.Prelude.{◌≡◌, IfSome, true};",
        "ghost use Rattle.storage_ops.specs.AccessTable as table;",
        "ghost use Rattle.ppc_bus.specs.Holding.{is_size};",
        "",
        "use crate::forms::{",
        "    AccessForm, in_reverse, loads, past_caches, stores, with_reservation, with_sign, with_update,",
        "};",
        "use ppc_ops::Op;",
        "",
        "/// What an operation moves between a register and storage, or `None` where it is no load or store of a register.",
        "pub fn access_form(op: Op) -> Option<AccessForm>",
        "    ensures form { result ≡ table.access_form op }",
        "    ensures size { IfSome result (λ form. is_size form.size ≡ true) }",
        "{",
        "    let form = match op {",
    ]
    for o in moves(table):
        lines.append(f"        Op::{o.variant()} => {code_of(o)},")
    return lines + ["        _ => return None,", "    };", "    Some(form)", "}"]


def table_spec(table):
    """The table as a definition."""
    variants = ", ".join(o.variant() for o in moves(table))
    lines = [
        "-- What each load and store moves (Power ISA, Book I, 3.3.2, 3.3.3 and 3.3.5; Book II, 4; Book III for those past the caches).",
        "use Rattle.std.specs.Prelude.{Option, Some, None}",
        "use Rattle.ppc_ops.specs.declared.op.Op.{Op}",
        f"use Rattle.ppc_ops.specs.declared.op.Op.TheVariants.{{{variants}}}",
        "use Rattle.storage_ops.specs.declared.forms.AccessForm.{AccessForm}",
        "use Rattle.storage_ops.specs.Forms.{loads, stores, with_sign, in_reverse, with_update, past_caches, with_reservation}",
        "",
        "-- what an operation moves between a register and storage, or None where it is no load or store of a register",
        "abbrev pub access_form : Op → Option AccessForm",
    ]
    lines += [f"access_form {o.variant()} = Some {spec_of(o)}" for o in moves(table)]
    return lines + ["access_form other = None"]


def access_files(table):
    """The files of `storage_ops` that repeat the table."""
    return {
        f"{STORAGE}/src/access_table.rt": table_file(table),
        f"{STORAGE}/specs/AccessTable.antt": table_spec(table),
    }
