"""Writes the branches on opcodes by which the decoder finds a row, and the proofs that they find the row of the table."""

WORDS = "crates/word_decoder"
BLOCK = 256  # how many keys of opcode 31 one proof computes

# Primary opcodes with extended ones, and the last bits of a word that these stand in: how many, and how many follow.
EXTENDED = {4: (6, 0), 17: (1, 1), 19: (10, 1), 30: (4, 1), 58: (2, 0), 62: (2, 0)}
SPLIT = 31


def find(table, word):
    """The operation of the row whose fixed bits a word has, or None."""
    return next((o for o in table.operations() if word & o.mask() == o.value()), None)


class Branch:
    """A function from a key to an operation: its name, its doc, and the operation of each key that has one."""

    def __init__(self, name, doc, choose, keys):
        self.name = name
        self.doc = doc
        self.pairs = [(key, choose(key)) for key in range(keys) if choose(key)]

    def function(self):
        """The function in the code."""
        return [
            "",
            f"/// {self.doc}",
            f"fn {self.name}(key: u64) -> Option<Op>",
            f"    ensures {{ result ≡ branches.{self.name} key }}",
            "{",
            "    match key {",
            *[f"        {key} => Some(Op::{o.variant()})," for key, o in self.pairs],
            "        _ => None,",
            "    }",
            "}",
        ]

    def spec(self):
        """The definition of what it answers."""
        lines = ["", f"-- {self.doc[0].lower()}{self.doc[1:].rstrip('.')}", f"abbrev pub {self.name} : ℕ → Option Op"]
        lines.append(f"{self.name} = chosen (")
        lines += [f"    ({key}, {o.variant()}) ∷" for key, o in self.pairs]
        return lines + ["    [])"]


def position(primary):
    """The bits of the extended opcode, for people."""
    count, after = EXTENDED[primary]
    first, last = 32 - after - count, 31 - after
    return f"bit {first}" if first == last else f"bits {first} to {last}"


def plain_branch(table):
    """The branch on primary opcodes alone."""
    special = [*EXTENDED, SPLIT]
    doc = "The operation of a primary opcode that has no extended one."
    return Branch("plain", doc, lambda p: None if p in special else find(table, p << 26), 64)


def extended_branch(table, primary):
    """The branch on the extended opcodes of one primary opcode."""
    count, after = EXTENDED[primary]
    doc = f"The operation of primary opcode {primary}, by {position(primary)}."
    return Branch(f"extended_{primary}", doc, lambda x: find(table, primary << 26 | x << after), 1 << count)


def ending_branches(table):
    """The branches on extended opcodes of primary opcode 31, by their last five bits. Bit 11 counts as 0, bit 31 as 1."""
    branches = []
    for low in range(32):
        doc = f"The operation of primary opcode 31 whose extended opcode ends in {low}, by its upper half."
        branch = Branch(f"ending_{low}", doc, lambda x: find(table, SPLIT << 26 | (x * 32 + low) << 1 | 1), 32)
        if branch.pairs:
            branches.append((low, branch))
    return branches


def one_field(table):
    """Operations of primary opcode 31 with bit 11 fixed to 1, after those that have it 0 and the same extended opcode."""
    ones = [o for o in table.operations() if (11, 11, 1) in o.fixed]
    return [(find(table, o.value() & ~(1 << 20)), o) for o in ones]


def with_last_bit(table):
    """Operations of primary opcode 31 whose last bit is fixed to 1."""
    return [o for o in table.operations() if o.primary() == SPLIT and (31, 31, 1) in o.fixed]


def opcodes_file(table):
    """The code."""
    endings = ending_branches(table)
    lines = [
        "//! Branches on opcodes.",
        "",
        "ghost use Rattle.std.specs.Prelude.{◌≡◌, ◌<◌, ◌^◌};",
        "ghost use Rattle.word_decoder.specs.Find.{op_at};",
        "ghost use Rattle.word_decoder.specs.Opcodes as branches;",
        "",
        "use ppc_bits::field;",
        "use ppc_ops::Op;",
    ]
    for branch in [plain_branch(table)] + [extended_branch(table, p) for p in EXTENDED] + [b for _, b in endings]:
        lines += branch.function()
    lines += [
        "",
        "/// The operation of primary opcode 31, by the last five bits of its extended opcode and by its upper half.",
        "fn by_ending(low: u64, high: u64) -> Option<Op>",
        "    ensures { result ≡ branches.by_ending low high }",
        "{",
        "    match low {",
        *[f"        {low} => {branch.name}(high)," for low, branch in endings],
        "        _ => None,",
        "    }",
        "}",
        "",
        "/// The operation with regard to bit 11, which parts the moves of the whole condition register from those of one",
        "/// field, and to bit 31, which a conditional store has.",
        "fn adjust(one_field: u64, last: u64, found: Option<Op>) -> Option<Op>",
        "    ensures { result ≡ branches.adjusted one_field last found }",
        "{",
        "    match found {",
    ]
    for whole, one in one_field(table):
        lines.append(f"        Some(Op::{whole.variant()}) if one_field != 0 => Some(Op::{one.variant()}),")
    for o in with_last_bit(table):
        lines.append(f"        Some(Op::{o.variant()}) if last == 0 => None,")
    lines += [
        "        other => other,",
        "    }",
        "}",
        "",
        "/// The operation of primary opcode 31, by bit 11 and by bits 21 to 31.",
        "fn extended_31(one_field: u64, key: u64) -> Option<Op>",
        "    ensures { result ≡ branches.extended_31 one_field key }",
        "{",
        "    adjust(one_field, key % 2, by_ending(key / 2 % 32, key / 64))",
        "}",
        "",
        "/// The operation of the row whose fixed bits the word has.",
        "pub(crate) fn op_of(word: u64) -> Option<Op>",
        "    requires { word < 2 ^ 32 }",
        "    ensures { result ≡ op_at word }",
        "{",
        "    let primary = field(word, 32, 0, 5);",
        "    match primary {",
    ]
    for primary, (count, after) in sorted([*EXTENDED.items(), (SPLIT, (11, 0))]):
        key = f"field(word, 32, {32 - after - count}, {31 - after})"
        if primary == SPLIT:
            key = f"field(word, 32, 11, 11), {key}"
        lines.append(f"        {primary} => extended_{primary}({key}),")
    return lines + ["        _ => plain(primary),", "    }", "}"]


def opcodes_spec(table):
    """The definitions of what the branches answer."""
    endings = ending_branches(table)
    variants = [o.variant() for o in table.operations()]
    lines = [
        "-- What the decoder's branches on opcodes answer. No promise is made in these words: they are the parts of the one",
        "-- function whose contract is the row of the table.",
        "use Rattle.std.specs.Prelude.{ℕ, ◌/◌, ◌%◌, ◌==◌, if◌then◌else◌, List, [], ◌∷◌, Option, Some, None}",
        "use Rattle.ppc_ops.specs.declared.op.Op.{Op}",
        f"use Rattle.ppc_ops.specs.declared.op.Op.TheVariants.{{{', '.join(variants)}}}",
        "",
        "-- the operation beside a key",
        "abbrev pub chosen : List (ℕ × Op) → ℕ → Option Op",
        "chosen [] key = None",
        "chosen ((k, op) ∷ rest) key = if key == k then Some op else chosen rest key",
    ]
    for branch in [plain_branch(table)] + [extended_branch(table, p) for p in EXTENDED] + [b for _, b in endings]:
        lines += branch.spec()
    lines += [
        "",
        "-- the operation of primary opcode 31, by the last five bits of its extended opcode and by its upper half",
        "abbrev pub by_ending : ℕ → ℕ → Option Op",
        "by_ending low high =",
        *[f"    if low == {low} then {branch.name} high else (" for low, branch in endings],
        "    None" + ")" * len(endings),
        "",
        "-- bit 11 parts the moves of the whole condition register from those of one field, and a conditional store has bit 31",
        "abbrev pub adjusted : ℕ → ℕ → Option Op → Option Op",
    ]
    for whole, one in one_field(table):
        name = whole.variant()
        lines.append(f"adjusted one_field last (Some {name}) = if one_field == 0 then Some {name} else Some {one.variant()}")
    for o in with_last_bit(table):
        lines.append(f"adjusted one_field last (Some {o.variant()}) = if last == 0 then None else Some {o.variant()}")
    return lines + [
        "adjusted one_field last other = other",
        "",
        "-- the operation of primary opcode 31, by bit 11 and by bits 21 to 31",
        "abbrev pub extended_31 : ℕ → ℕ → Option Op",
        "extended_31 one_field key = adjusted one_field (key % 2) (by_ending (key / 2 % 32) (key / 64))",
    ]


def extended_proof(primary):
    """That the branch on the extended opcodes of a primary opcode finds the row."""
    count, after = EXTENDED[primary]
    p, ones = primary, ((1 << count) - 1) << after
    here, inside = f"word / 2 ^ {after} % 2 ^ {count}", f"word % 2 ^ 26 / 2 ^ {after} % 2 ^ {count}"
    return f"""
at_{p} : values extended_{p} {1 << count} ≡ values (λ x. find_op (of_primary {p} rows) ({p} * 2 ^ 26 + x * 2 ^ {after})) {1 << count}
unfolding rows find_op
at_{p} = refl

keys_{p} : masks_in (63 * 2 ^ 26 + {ones}) (of_primary {p} rows) ≡ true
unfolding rows
keys_{p} = refl

pub case_{p} : (word : ℕ) → word < 2 ^ 32 → word / 2 ^ 26 ≡ {p} → extended_{p} ({here}) ≡ op_at word
case_{p} word f e =
    same_below extended_{p} (λ x. find_op (of_primary {p} rows) ({p} * 2 ^ 26 + x * 2 ^ {after})) {1 << count} at_{p} ({here}) (omega arith)
    ∙ ap (find_op (of_primary {p} rows)) (same word ∙ sym (field_key word {p} {count} {after} e (omega arith) (omega arith)))
    ∙ sym (op_in_primary {p} (63 * 2 ^ 26 + {ones}) word f e keys_{p})
  where
    same : (word : ℕ) → {p} * 2 ^ 26 + ({here}) * 2 ^ {after} ≡ {p} * 2 ^ 26 + ({inside}) * 2 ^ {after}
    same word = omega arith""".splitlines()


def block_proof(start):
    """That the branches of primary opcode 31 find the row for one more block of keys."""
    below = f"to_{start}" if start else "none_31"
    return f"""
to_{start + BLOCK} : (n : ℕ) → n < {start + BLOCK} → by_code n ≡ by_rows n
unfolding rows find_op
to_{start + BLOCK} = further by_code by_rows {start} {below} refl""".splitlines()


def branches_proof():
    """The proofs of the branches that have an extended opcode."""
    functions = ", ".join(f"extended_{p}" for p in sorted([*EXTENDED, SPLIT]))
    lines = [
        "-- The decoder's branches on extended opcodes find the row of the table, by computing both for each key.",
        "use Rattle.std.proofs.Common.{◌≡◌, ℕ, ◌+◌, ◌*◌, ◌/◌, ◌%◌, ◌^◌, ◌<◌, true, Option, refl, sym, ap, ◌∙◌, arith}",
        "use Rattle.ppc_ops.specs.declared.op.Op.{Op}",
        "use Rattle.ppc_ops.specs.Table.{rows}",
        "use Rattle.word_decoder.specs.Find.{find_op, op_at}",
        f"use Rattle.word_decoder.specs.Opcodes.{{{functions}}}",
        "use Rattle.word_decoder.proofs.Keys.{of_primary, masks_in, op_in_primary, values, same_below, further, field_key, word_key, two_parts}",
    ]
    for primary in EXTENDED:
        lines += extended_proof(primary)
    lines += """
-- primary opcode 31: a key is bit 11 followed by the last eleven bits
abbrev by_code : ℕ → Option Op
by_code n = extended_31 (n / 2048) (n % 2048)

abbrev by_rows : ℕ → Option Op
by_rows n = find_op (of_primary 31 rows) (31 * 2 ^ 26 + (n / 2048 * 2 ^ 20 + n % 2048))

none_31 : (n : ℕ) → n < 0 → by_code n ≡ by_rows n
none_31 n h = absurd (omega arith)""".splitlines()
    for start in range(0, 4096, BLOCK):
        lines += block_proof(start)
    return lines + """
keys_31 : masks_in (63 * 2 ^ 26 + (2 ^ 20 + 2047)) (of_primary 31 rows) ≡ true
unfolding rows
keys_31 = refl

pub case_31 : (word : ℕ) → word < 2 ^ 32 → word / 2 ^ 26 ≡ 31 → extended_31 (word / 2 ^ 20 % 2 ^ 1) (word / 2 ^ 0 % 2 ^ 11) ≡ op_at word
case_31 word f e =
    let eleven : (word / 2 ^ 20 % 2 * 2048 + word % 2048) / 2048 ≡ word / 2 ^ 20 % 2 ^ 1 = omega arith in
    let key : (word / 2 ^ 20 % 2 * 2048 + word % 2048) % 2048 ≡ word / 2 ^ 0 % 2 ^ 11 = omega arith in
    let there : by_code (word / 2 ^ 20 % 2 * 2048 + word % 2048) ≡ by_rows (word / 2 ^ 20 % 2 * 2048 + word % 2048) = to_4096 (word / 2 ^ 20 % 2 * 2048 + word % 2048) (omega arith) in
    ap (λ x. extended_31 x (word / 2 ^ 0 % 2 ^ 11)) (sym eleven)
    ∙ ap (extended_31 ((word / 2 ^ 20 % 2 * 2048 + word % 2048) / 2048)) (sym key)
    ∙ there
    ∙ ap (find_op (of_primary 31 rows)) (same word ∙ ap (λ n. 31 * 2 ^ 26 + n) (sym (two_parts (word % 2 ^ 26))) ∙ sym (word_key word 31 (2 ^ 20 + 2047) e (omega arith) (omega arith)))
    ∙ sym (op_in_primary 31 (63 * 2 ^ 26 + (2 ^ 20 + 2047)) word f e keys_31)
  where
    same : (word : ℕ) → 31 * 2 ^ 26 + ((word / 2 ^ 20 % 2 * 2048 + word % 2048) / 2048 * 2 ^ 20 + (word / 2 ^ 20 % 2 * 2048 + word % 2048) % 2048) ≡ 31 * 2 ^ 26 + (word % 2 ^ 26 / 2 ^ 20 % 2 * 2 ^ 20 + word % 2 ^ 26 % 2 ^ 11)
    same word = omega arith""".splitlines()


def branch_files(table):
    """All files on the branches."""
    return {
        f"{WORDS}/src/opcodes.rt": opcodes_file(table),
        f"{WORDS}/specs/Opcodes.antt": opcodes_spec(table),
        f"{WORDS}/proofs/Branches.antt": branches_proof(),
    }
