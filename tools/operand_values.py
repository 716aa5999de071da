"""Writes the files of `asm_forms` that say which form the values of a layout's operands in text make."""

from operand_fields import SINGLE_LINE, import_lines, snake, used_classes
from operand_texts import MARKS, is_displacement, read_operand

FORMS = "crates/asm_forms"
FIXED = "fixed_point"
OTHERS = "other_units"
FIRST_OF_OTHERS = "TrapImm"  # the first layout whose function stands in the second file


def fields_in_order(operands):
    """The fields of operands in text, each at the place of its value: a displacement's register has the next one."""
    fields = []
    for kind, name in map(read_operand, operands):
        fields += [name, "ra"] if is_displacement(kind) else [name]
    return fields


def place_of(layout, field):
    """The place of a field's value."""
    return fields_in_order(layout.text.usual).index(field.name)


def check_places(layout):
    """Ends the script where a field has not one place in both texts, or one that a text leaves out is not 0 and last."""
    usual, other = fields_in_order(layout.text.usual), fields_in_order(layout.text.other)
    assert sorted(usual) == sorted(f.name for f in layout.fields if f.name not in MARKS), layout.name
    if layout.text.where:
        left_out = usual[len(other) :]
        assert usual == other + left_out, layout.name
        zeros = [f.name for f in layout.fields if [f.where] == layout.text.where and f.other is None]
        assert all(name in zeros for name in left_out), layout.name


def other_width(field):
    """The width of a number's field in the operations of its class."""
    return field.other.width() if field.other else 0


def width_of(field):
    """The width of a number's field, in the words of the specs."""
    if not field.where:
        return str(field.reading.width())
    return f"(if {field.where} m.op then {other_width(field)} else {field.reading.width()})"


def spec_of_layout(layout):
    """The form of a layout, in the words of the specs."""
    operands = [f for f in layout.fields if f.name not in MARKS]
    values = [f"{spec_of_reading(f)} (value_at vs {place_of(layout, f)}) >>= λ {f.name}. " for f in operands]
    parts = ["m.op"] if layout.has_op else []
    parts += [f"m.{f.name}" if f.name in MARKS else f.name for f in layout.fields]
    insn = " ".join([f"insn.{layout.name}"] + parts)
    return f"{''.join(values)}Some {f'({insn})' if parts else insn}"


def spec_of_reading(field):
    """How a field takes a value, in the words of the specs."""
    reading = field.reading
    if field.type == "bool":
        return f"flag_unless ({field.where} m.op)" if field.where else "flag"
    if not reading.signed:
        return f"number_of {width_of(field)}"
    if reading.zeros:
        return f"signed_multiple {reading.width()}"
    assert reading.width() == 16, field.name
    if not field.where:
        return "signed_number 16"
    return f"{'displacement' if field.other.zeros else 'compared'} ({field.where} m.op)"


def form_spec(table):
    """The definition of the form that the values make."""
    classes = ", ".join(used_classes(table))
    lines = [
        "-- The form of each layout that marks and the values of operands in text make.",
        "use Rattle.std.specs.Prelude.{ℤ, List, Option, Some, if◌then◌else◌}",
        "use Rattle.ppc_ops.specs.declared.insn.Insn.{Insn}",
        "use Rattle.ppc_ops.specs.declared.insn.Insn.TheVariants as insn",
        "use Rattle.ppc_ops.specs.declared.insn.Layout.{Layout}",
        "use Rattle.ppc_ops.specs.declared.insn.Layout.TheVariants as layout",
        f"use Rattle.ppc_ops.specs.Classes.{{{classes}}}",
        "use Rattle.operand_texts.specs.declared.mnemonic.Mnemonic.{Mnemonic}",
        "use Rattle.asm_forms.specs.Values.{"
        + "value_at, number_of, signed_number, signed_multiple, displacement, compared, flag, flag_unless, ◌>>=◌}",
        "",
        "-- the form of this layout, with the value of each field in the place where the field stands in text",
        "abbrev pub form_by : Layout → Mnemonic → List ℤ → Option Insn",
    ]
    lines += [f"form_by layout.{layout.name} m vs = {spec_of_layout(layout)}" for layout in table.layouts]
    return lines


def code_of_width(field):
    """The width of a number's field in the code, which is a variable where it goes by a class."""
    return f"{field.name}_bits" if field.where else str(field.reading.width())


def code_of_reading(field, place):
    """The call that takes a field's value."""
    reading = field.reading
    where = f", {field.where}(mnemonic.op)" if field.where else ""
    if field.type == "bool":
        return f"flag_unless({place}{where})" if where else f"flag({place})"
    if not reading.signed:
        return f"{'number' if field.type == 'u8' else 'half'}({place}, {code_of_width(field)})"
    if reading.zeros:
        return f"{ {16: 'branch', 26: 'jump'}[reading.width()] }_distance({place})"
    if not where:
        return f"signed({place})"
    return f"{'displacement' if field.other.zeros else 'compared'}({place}{where})"


def code_of_field(layout, field):
    """The line of one field of the form."""
    if field.name in MARKS:
        return f"        {field.name}: mnemonic.{field.name},"
    return f"        {field.name}: values.{code_of_reading(field, place_of(layout, field))}?,"


def width_lines(layout):
    """The widths that go by a class."""
    lines = []
    for field in layout.fields:
        if field.type == "u8" and field.where:
            whole = f"if {field.where}(mnemonic.op) {{ {other_width(field)} }} else {{ {field.reading.width()} }}"
            assert len(whole) <= SINGLE_LINE, whole
            lines.append(f"    let {field.name}_bits = {whole};")
    return lines


def takes_mnemonic(layout):
    """Whether the form has the operation or a mark."""
    return layout.has_op or any(f.name in MARKS for f in layout.fields)


def layout_function(layout):
    """The function that makes the form of one layout."""
    given, name = "mnemonic: Mnemonic, ", "mnemonic"
    if not takes_mnemonic(layout):
        given, name = "", f"(unmarked {layout.operations[0].variant()})"
    return [
        "",
        f"pub(crate) fn {snake(layout.name)}({given}values: &Values) -> Option<Insn>",
        *([f"    requires {{ layout_of mnemonic.op ≡ layouts.{layout.name} }}"] if layout.has_op else []),
        f"    ensures form {{ result ≡ form_by layouts.{layout.name} {name} values.now }}",
        "    ensures fits { IfSome result (λ i. FitsFields i) }",
        "{",
        *width_lines(layout),
        f"    Some(Insn::{layout.name} {{",
        *(["        op: mnemonic.op,"] if layout.has_op else []),
        *[code_of_field(layout, field) for field in layout.fields],
        "    })",
        "}",
    ]


def has_function(layout):
    """Whether the layout has a function of its own."""
    return layout.has_op or bool(layout.fields)


def functions_file(title, layouts):
    """The functions of some layouts."""
    layouts = [layout for layout in layouts if has_function(layout)]
    classes = sorted({f.where for layout in layouts for f in layout.fields if f.where})
    alone = [layout.operations[0].variant() for layout in layouts if not takes_mnemonic(layout)]
    lines = [
        f"//! {title}",
        "",
        "ghost use Rattle.std.specs.Prelude.{◌≡◌, IfSome};",
        "ghost use Rattle.ppc_ops.specs.declared.insn.Layout.TheVariants as layouts;",
        f"ghost use Rattle.ppc_ops.specs.declared.op.Op.TheVariants.{{{', '.join(alone)}}};",
        "ghost use Rattle.ppc_ops.specs.Table.{layout_of};",
        "ghost use Rattle.ppc_ops.specs.Fitting.{FitsFields};",
        "ghost use Rattle.operand_texts.specs.Mnemonics.{unmarked};",
        "ghost use Rattle.asm_forms.specs.Layouts.{form_by};",
        "",
        "use crate::values::Values;",
        "use operand_texts::Mnemonic;",
        *import_lines("ppc_ops", ["Insn"] + classes),
    ]
    for layout in layouts:
        lines += layout_function(layout)
    return lines


def layout_arm(layout):
    """The arm of one layout in the match of `form`."""
    if not has_function(layout):
        return f"        Layout::{layout.name} => Some(Insn::{layout.name}),"
    given = "mnemonic, " if takes_mnemonic(layout) else ""
    return f"        Layout::{layout.name} => {snake(layout.name)}({given}values),"


def form_file(table, fixed, others):
    """The function `form`."""
    return [
        "//! Forms from the values of their operands.",
        "",
        "ghost use Rattle.std.specs.Prelude.{◌≡◌, IfSome};",
        "ghost use Rattle.ppc_ops.specs.Fitting.{FitsFields};",
        "ghost use Rattle.asm_forms.specs.Words.{form_of};",
        "",
        *import_lines(f"crate::{FIXED}", sorted(snake(l.name) for l in filter(has_function, fixed))),
        *import_lines(f"crate::{OTHERS}", sorted(snake(l.name) for l in filter(has_function, others))),
        "use crate::values::Values;",
        "use operand_texts::Mnemonic;",
        "use ppc_ops::{Insn, Layout, layout};",
        "",
        "/// The form that an operation with marks and the values of its operands make.",
        "pub(crate) fn form(mnemonic: Mnemonic, values: &Values) -> Option<Insn>",
        "    ensures form { result ≡ form_of mnemonic values.now }",
        "    ensures fits { IfSome result (λ i. FitsFields i) }",
        "{",
        "    match layout(mnemonic.op) {",
        *[layout_arm(layout) for layout in table.layouts],
        "    }",
        "}",
    ]


def value_files(table):
    """The files of `asm_forms` that repeat the table."""
    for layout in table.layouts:
        check_places(layout)
    first = [layout.name for layout in table.layouts].index(FIRST_OF_OTHERS)
    fixed, others = table.layouts[:first], table.layouts[first:]
    return {
        f"{FORMS}/specs/Layouts.antt": form_spec(table),
        f"{FORMS}/src/forms.rt": form_file(table, fixed, others),
        f"{FORMS}/src/{FIXED}.rt": functions_file("Forms of fixed-point operations.", fixed),
        f"{FORMS}/src/{OTHERS}.rt": functions_file("Forms of traps, branches, accesses and operations of the system.", others),
    }
