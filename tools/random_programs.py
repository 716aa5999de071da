"""Makes random programs of the operations of docs/INSTRUCTIONS.md that problem state may use.

A program is a block: registers and what they begin with, and a body of pieces. A piece is a few words that belong together: an instruction
that was drawn, and what it needs before and behind it. What an instruction needs is written here once for each layout, in `Drawer.piece`.

Some registers of a block are known: their numbers are known at each word, since nothing but a load or store with update writes them, and none of
these stands in a loop or where a branch may jump over it. Addresses of loads and stores, and traps that are not taken, are made of known registers.
"""

import dataclasses
from typing import Dict, List, Optional

from access_forms import moved_bytes
from check_isa import INVALID_FORMS, ONE_BIT
from check_text import place, random_bits, readings
from instruction_table import WORD_BITS

ALL_BITS = 2 ** 64 - 1
XER_BITS = 0xE00C0000  # SO, OV, CA, OV32, CA32
XER, LR, CTR, SPRG3, TB, TAR = 1, 8, 9, 259, 268, 815
TO_COUNT = 0b00100  # the bit of bo that is 0 where CTR falls

FRESH_CHANCE = 0.3  # that a number is loaded before a piece
OBSERVED_CHANCE = 0.4  # that XER and CR are observed behind a piece
IGNORED_CHANCE = 0.2  # that ignored bits are set

# Where loads and stores go: 512 bytes around the beginning of a page.
DATA, DATA_SIZE, PAGE = 0x6F00, 512, 0x7000

# The operations that are not drawn, by the beginning of their section or by their name, and why.
NOT_FOR_PROBLEM_STATE = "Book III"
NOT_RUN = {
    "Book II, Load And Reserve and Store Conditional": "the machine stops there by name (docs/MACHINE.md, \"Stops\")",
    "Book I, 2.6": "a system call is that of another system there (docs/MACHINE.md, \"Privilege and system forms\")",
}

# The register that each layout writes, by the name of its field.
WRITTEN = {
    "rt": "AddImm AddPc Arith MulHigh Modulo MulAdd Select SetB MfCr MfOneCr MfSpr MfTb Access AccessX".split(),
    "ra": "LogicImm Logic Unary Count Bytes ShiftImm RotWord RotDouble".split(),
}

# Layouts whose words may stand in a loop or be jumped over.
PLAIN = WRITTEN["ra"] + """AddImm AddPc Arith MulHigh Modulo MulAdd Select SetB MfCr MfOneCr Cmp CmpImm CmpByte CrBit CrMove MoveXer
    MtCr MtOneCr Trap TrapImm Sync Eieio Isync Block""".split()

# The quotient that there is not exactly where the remainder is undefined.
QUOTIENT_OF = {"modsw": "divw", "moduw": "divwu", "modsd": "divd", "modud": "divdu"}


@dataclasses.dataclass
class Word:
    """An instruction. `target` is the place that it has to do with, in words from itself on: a branch has it whole (`near`), or the
    immediate of a sum or an `or` has its high or low half. `is_drawn` is false for what another instruction needs."""

    name: str
    values: Dict[str, int]
    target: Optional[int] = None
    part: str = "near"
    ignored: int = 0
    is_drawn: bool = False
    is_end: bool = False  # behind it nothing is undefined, so that a program may be cut there


@dataclasses.dataclass
class Piece:
    """Words that belong together. A loop has its words once more for each time that they run, for `unrolled`."""

    words: List[Word]
    again: Optional[List[Word]] = None

    def unrolled(self):
        return self.words if self.again is None else self.again


class Shapes:
    """What the table says of each operation, as the drawer uses it."""

    def __init__(self, table):
        self.layouts = {layout.name: layout for layout in table.layouts}
        self.operations = {it.name: it for it in table.operations()}
        self.groups = {name: [it.name for it in table.classes if name in it.operations] for name in self.operations}
        self.fields = {name: readings(self.layouts[it.layout], self.groups[name]) for name, it in self.operations.items()}

    def runs(self, operation):
        """Whether the operation is one for problem state that both emulators run."""
        return not operation.section.startswith(NOT_FOR_PROBLEM_STATE) and operation.section not in NOT_RUN

    def drawn_names(self):
        """The operations that are drawn, in their order."""
        return [it.name for it in self.operations.values() if self.runs(it)]

    def is_store(self, name):
        return self.operations[name].meaning.startswith("stores ")

    def has_update(self, name):
        return any(it in ("loads_with_update", "stores_with_update") for it in self.groups[name])

    def ignored_bits(self, name):
        """The bits that neither the row nor a field of its layout has."""
        used = self.operations[name].mask()
        for _, reading in self.fields[name]:
            used |= place(reading, (1 << WORD_BITS) - 1)
        return ~used & ((1 << WORD_BITS) - 1)

    def digits(self, word, values):
        """The number of an instruction whose fields have these bits."""
        number = self.operations[word.name].value() | word.ignored
        return number | sum(place(reading, values.get(field.name, 0)) for field, reading in self.fields[word.name])

    def is_invalid(self, name, values):
        return any(INVALID_FORMS[it](values) for it in [name, *self.groups[name]] if it in INVALID_FORMS)


def telling_number(source):
    """A number of 64 bits that shows mistakes: an edge of 8, 16, 32 or 64 bits, one bit, a small one, or any."""
    kind = source.randrange(8)
    if kind == 0:
        return source.choice([0, 1, ALL_BITS, ALL_BITS - 1, 2])
    if kind == 1:
        half = 1 << (source.choice([8, 16, 32, 64]) - 1)
        return source.choice([half, half - 1, -half, 2 * half - 1, 2 * half, -half - 1]) & ALL_BITS
    if kind == 2:
        return 1 << source.randrange(64)
    if kind == 3:
        return source.randrange(130)
    if kind == 4:
        return source.getrandbits(32)
    if kind == 5:
        return (source.getrandbits(32) << 32) | source.choice([0, 1, 0x7FFFFFFF, 0x80000000, 0xFFFFFFFF])
    return source.getrandbits(64)


class Drawer:
    """Draws the pieces of one block."""

    def __init__(self, shapes, source, accepted, names):
        self.shapes = shapes
        self.source = source
        self.accepted = accepted  # of each operation the ignored bits that may be set
        self.names = names
        far = telling_number(source)
        numbers = [source.randrange(PAGE - 64, PAGE + 64), source.randrange(64), -source.randrange(1, 64) & ALL_BITS, far,
                   (PAGE + source.randrange(-32, 32) - far) & ALL_BITS, XER_BITS]
        self.known = dict(zip(source.sample(range(32), len(numbers)), numbers))
        self.mask = list(self.known)[-1]
        self.witness, *self.free = source.sample([it for it in range(32) if it not in self.known], 32 - len(numbers))
        self.begin = [self.known.get(it, telling_number(source)) for it in range(32)]

    # Words that others need.

    def number(self, register, value):
        """Puts a number of 16 bits, signed, into a register."""
        return Word("addi", {"rt": register, "ra": 0, "si": value & 0xFFFF})

    def place_of(self, register, target):
        """Puts the address of the word that is `target` words behind the first of these two into a register."""
        high = Word("addis", {"rt": register, "ra": 0}, target, "high")
        return [high, Word("ori", {"ra": register, "rs": register}, target - 1, "low")]

    def fresh_number(self):
        """Loads a number from the data area, so that not all registers become 0 in the end."""
        place = DATA + 4 * self.source.randrange(DATA_SIZE // 4 - 1)
        return Word("ld", {"rt": self.free_register(), "ra": 0, "disp": place >> 2}, is_end=True)

    def observation(self):
        """Adds XER and CR to the witness, which nothing else writes. So what is soon overwritten in them is not lost."""
        spare = self.free_register()
        turned = Word("rldicl", {"ra": self.witness, "rs": self.witness, "by": 7, "edge": 0})
        add = Word("add", {"rt": self.witness, "ra": self.witness, "rb": spare})
        words = [Word("mfspr", {"rt": spare, "spr": XER}), Word("and", {"ra": spare, "rs": spare, "rb": self.mask}), turned, add]
        return Piece(words + [Word("mfcr", {"rt": spare}), dataclasses.replace(add, is_end=True)])

    def to_special(self, number, register):
        return Word("mtspr", {"rs": register, "spr": number})

    def no_upper(self, register):
        """Clears the upper word."""
        return Word("rldicl", {"ra": register, "rs": register, "by": 0, "edge": 32})

    def zero_where(self, register, bit):
        """Puts 0 into the register where the bit of CR is 1."""
        return Word("isel", {"rt": register, "ra": 0, "rb": register, "bit": bit})

    # Fields.

    def random_values(self, name):
        return {field.name: random_bits(field, reading, self.source) for field, reading in self.shapes.fields[name]}

    def free_register(self, *without):
        return self.source.choice([it for it in self.free if it not in without])

    def drawn(self, name, **values):
        """An instruction with random fields, but for these, and for the register that it writes, which is a free one."""
        layout = self.shapes.operations[name].layout
        found = self.random_values(name)
        for field, layouts in WRITTEN.items():
            if layout in layouts and not self.shapes.is_store(name):
                found[field] = self.free_register()
        found.update(values)
        ignored = self.accepted.get(name, 0)
        if self.source.random() >= IGNORED_CHANCE:
            ignored = 0
        return Word(name, found, ignored=ignored & self.source.getrandbits(WORD_BITS), is_drawn=True)

    # Pieces by layout.

    def piece(self, name):
        """A piece for an operation."""
        layout = self.shapes.operations[name].layout
        special = {
            "Arith": self.arith, "MulHigh": self.high_product, "Modulo": self.remainder, "Trap": self.trap, "TrapImm": self.trap,
            "Jump": self.jump, "Branch": self.branch, "BranchReg": self.branch_to_register, "Access": self.access,
            "AccessX": self.access, "Block": self.block, "MfOneCr": self.one_field, "MtOneCr": self.one_field, "Sync": self.sync,
            "MfSpr": self.from_special, "MfTb": self.time, "MtSpr": self.into_special,
        }
        piece = special.get(layout, lambda it: Piece([self.drawn(it)]))(name)
        piece.words[-1].is_end = True
        piece.unrolled()[-1].is_end = True
        return piece

    def plain_words(self, count):
        """Words that may stand in a loop or be jumped over."""
        usual = [it for it in self.names if self.shapes.operations[it].layout in PLAIN or self.is_plain_access(it)]
        chosen = [self.source.choice(usual) for _ in range(count)] if usual else []
        return [word for it in chosen for word in self.piece(it).words]

    def is_plain_access(self, name):
        return self.shapes.operations[name].layout in ("Access", "AccessX") and not self.shapes.has_update(name)

    def arith(self, name):
        """Sums and products as they are. A quotient that there is not, or the part of one that is undefined, becomes 0."""
        word = self.drawn(name)
        if not name.startswith("div"):
            return Piece([word])
        return Piece(self.defined_quotient(word, name))

    def defined_quotient(self, word, name):
        field = self.source.randrange(1, 8)
        target, values = word.values["rt"], word.values
        words = self.keep_small(word) if name == "divde" else []
        if values["oe"]:
            words += [word, Word("mcrxrx", {"bf": field}), self.zero_where(target, 4 * field)]
        else:
            words += self.overflow_of(name, values, field) + [word, self.zero_where(target, 4 * field)]
        is_word = name.startswith("divw")
        if is_word:
            words.append(self.no_upper(target))
        if values["rc"]:
            words += self.undefined_record(4 * field if not is_word else None)
        return words

    def keep_small(self, word):
        """Gives a quotient that would be of a size from 2^63 to 2^64 a divisor of 0: the size is that of the unsigned quotient."""
        number, divisor = word.values["ra"], word.values["rb"]
        spare, one, other, new = self.source.sample([it for it in self.free if it not in (number, divisor)], 4)
        first, second = self.source.sample(range(1, 8), 2)
        words = []
        for register, size in ((number, one), (divisor, other)):
            words += [Word("sradi", {"ra": spare, "rs": register, "sh": 63}), Word("xor", {"ra": size, "rs": register, "rb": spare}),
                      Word("subf", {"rt": size, "ra": spare, "rb": size})]
        word.values["rb"] = new
        return words + [
            Word("divdeu", {"rt": spare, "ra": one, "rb": other}),
            Word("cmpl", {"bf": first, "wide": 1, "ra": one, "rb": other}),
            Word("cmpi", {"bf": second, "wide": 1, "ra": spare}),
            Word("crand", {"bt": 4 * first, "ba": 4 * first, "bb": 4 * second}),
            Word("mcrf", {"bf": second, "bfa": first}),
            Word("isel", {"rt": new, "ra": 0, "rb": divisor, "bit": 4 * first}),
            self.number(spare, 1)]

    def overflow_of(self, name, values, field):
        """Puts whether there is no such quotient into the first bit of a field of CR; a register is written and then set."""
        spare = self.free_register(values["ra"], values["rb"])
        quotient = Word(name, {"rt": spare, "ra": values["ra"], "rb": values["rb"], "oe": 1, "rc": 0})
        return [quotient, Word("mcrxrx", {"bf": field}), self.number(spare, self.source.getrandbits(16))]

    def undefined_record(self, bit):
        """Clears less, greater and equal of CR0: where the bit of CR is 1, or always."""
        if bit is None:
            return [Word("crxor", {"bt": it, "ba": it, "bb": it}) for it in range(3)]
        return [Word("crandc", {"bt": it, "ba": it, "bb": bit}) for it in range(3)]

    def high_product(self, name):
        """The upper half of a word's product is undefined, and so is its record."""
        word = self.drawn(name)
        words = [word]
        if name.startswith("mulhw"):
            words.append(self.no_upper(word.values["rt"]))
            words += self.undefined_record(None) if word.values["rc"] else []
        return Piece(words)

    def remainder(self, name):
        word = self.drawn(name)
        field = self.source.randrange(1, 8)
        target = word.values["rt"]
        words = self.overflow_of(QUOTIENT_OF[name], word.values, field) + [word, self.zero_where(target, 4 * field)]
        return Piece(words + ([self.no_upper(target)] if name.endswith("w") else []))

    def trap(self, name):
        """A trap of known numbers that asks for nothing that holds."""
        first, second = (self.source.choice(list(self.known)) for _ in range(2))
        word = self.drawn(name, ra=first)
        if "rb" in word.values:
            word.values["rb"] = second
            other = self.known[second]
        else:
            if self.source.random() < 0.3:
                word.values["si"] = self.known[first] & 0xFFFF
            other = word.values["si"] - (word.values["si"] >> 15 << 16)
        word.values["to"] &= ~asked(self.known[first], other, 64 if name.startswith("td") else 32)
        return Piece([word])

    def one_field(self, name):
        return Piece([self.drawn(name, fxm=self.source.choice(ONE_BIT))])

    def sync(self, name):
        return Piece([self.drawn(name, l=self.source.randrange(3))])

    # Special registers.

    def from_special(self, name):
        """A special register. The bits of XER that are not the five are cleared, and the time is not kept."""
        number = self.source.choice([XER, LR, CTR, SPRG3, TB, TAR])
        word = self.drawn(name, spr=number)
        target = word.values["rt"]
        if number == TB:
            return Piece([word, self.number(target, self.source.getrandbits(16))])
        if number == XER:
            return Piece([word, Word("and", {"ra": target, "rs": target, "rb": self.mask})])
        return Piece([word])

    def time(self, name):
        word = self.drawn(name, spr=TB)
        return Piece([word, self.number(word.values["rt"], self.source.getrandbits(16))])

    def into_special(self, name):
        return Piece([self.drawn(name, spr=self.source.choice([XER, LR, CTR, TAR]))])

    # Branches.

    def jump(self, name):
        skipped = self.plain_words(self.source.randrange(4))
        word = self.drawn(name)
        word.target, word.is_end = 1 + len(skipped), True
        return Piece([word] + skipped)

    def branch(self, name):
        if self.source.random() < 0.3:
            return self.loop(name)
        return self.jump(name)

    def loop(self, name):
        """A loop that runs a few times, at most as often as the number that it begins with."""
        count = self.source.randrange(1, 6)
        register = self.free_register()
        begin = [self.number(register, count), self.to_special(CTR, register)]
        body = self.plain_words(self.source.randrange(1, 4))
        word = self.drawn(name, bo=self.source.choice([0, 8, 16, 24, 25, 17]))
        word.target = -len(body)
        last = dataclasses.replace(word, target=1)
        return Piece(begin + body + [word], begin + (body + [last]) * count)

    def branch_to_register(self, name):
        """A branch to a special register, which is set before it, perhaps with its two lowest bits."""
        while True:
            word = self.drawn(name)
            if not self.shapes.is_invalid(name, word.values):
                break
        word.is_end = True
        skipped = self.plain_words(self.source.randrange(4))
        register = self.free_register()
        low = Word("ori", {"ra": register, "rs": register, "ui": self.source.randrange(4)})
        special = {"bclr": LR, "bcctr": CTR, "bctar": TAR}[name]
        return Piece(self.place_of(register, 5 + len(skipped)) + [low, self.to_special(special, register), word] + skipped)

    # Storage.

    def random_address(self, size, multiple=1):
        """An address in the data area, from time to time across the page."""
        if self.source.random() < 0.2:
            first = PAGE - self.source.randrange(size + 1)
        else:
            first = DATA + self.source.randrange(DATA_SIZE - size + 1)
        return first // multiple * multiple

    def access(self, name):
        size = moved_bytes(self.shapes.operations[name].meaning)
        make = self.displaced if self.shapes.operations[name].layout == "Access" else self.indexed
        return make(name, size, self.shapes.has_update(name))

    def begin_of(self, register, is_update):
        """What the field RA means for an address."""
        return self.known[register] if register or is_update else 0

    def displaced(self, name, size, is_update):
        scaled = "scales_displacement" in self.shapes.groups[name]
        first = self.random_address(size)
        bases = [it for it in self.known if it] + ([] if is_update else [0])
        near = [it for it in bases if -2 ** 15 <= first - self.begin_of(it, is_update) < 2 ** 15 - 4]
        if not near or (not is_update and self.source.random() < 0.15):
            return self.own_base(name, first, is_update)
        base = self.source.choice(near)
        distance = first - self.begin_of(base, is_update)
        if scaled:
            distance -= distance % 4
            if self.begin_of(base, is_update) + distance < DATA:
                distance += 4
        word = self.drawn(name, ra=base, disp=self.displacement(name, distance))
        if is_update:
            self.known[base] += distance
        return Piece([word])

    def displacement(self, name, distance):
        """The bits of a displacement's field."""
        return distance >> 2 & 0x3FFF if "scales_displacement" in self.shapes.groups[name] else distance & 0xFFFF

    def own_base(self, name, first, is_update):
        """An access whose base is set before it; one without update may load the base itself."""
        base = self.free_register(0)
        word = self.drawn(name, ra=base, disp=0)
        if is_update and word.values["rt"] == base:
            word.values["rt"] = self.free_register(base)
        elif self.source.random() < 0.3 and not is_update:
            word.values["rt"] = base
        return Piece([self.number(base, first), word])

    def indexed(self, name, size, is_update):
        sums = self.pairs(size, is_update)
        if not sums or self.source.random() < 0.1:
            return self.own_index(name, size, is_update)
        base, index = self.source.choice(sums)
        word = self.drawn(name, ra=base, rb=index)
        if is_update:
            self.known[base] = (self.known[base] + self.known[index]) & ALL_BITS
        return Piece([word])

    def pairs(self, size, is_update):
        """The pairs of known registers whose sum is an address in the data area."""
        bases = [it for it in self.known if it] + ([] if is_update else [0])
        tops = range(DATA, DATA + DATA_SIZE - size + 1)
        return [(a, b) for a in bases for b in self.known if (self.begin_of(a, is_update) + self.known[b]) & ALL_BITS in tops]

    def own_index(self, name, size, is_update):
        """An access whose index is set before it, and whose base is 0 or a register that is 0."""
        base, index = self.free_register(0), self.free_register()
        while index == base:
            index = self.free_register()
        words = [self.number(base, 0), self.number(index, self.random_address(size))]
        word = self.drawn(name, ra=base, rb=index)
        while is_update and word.values["rt"] == base:
            word.values["rt"] = self.free_register()
        if not is_update and self.source.random() < 0.5:
            word.values["ra"] = 0
        return Piece(words + [word])

    def block(self, name):
        """A hint may have any address; the others go to the data area."""
        if name in ("dcbt", "dcbtst"):
            return Piece([self.drawn(name)])
        return self.indexed(name, 1, False)


def asked(first, second, bits):
    """The bits of TO, highest first, that hold for two numbers: signed less and greater, equal, unsigned less and greater."""
    top = 1 << bits
    first, second = first % top, second % top
    signed_first, signed_second = ((it + top // 2) % top - top // 2 for it in (first, second))
    tests = [signed_first < signed_second, signed_first > signed_second, first == second, first < second, first > second]
    return sum(16 >> i for i, test in enumerate(tests) if test)


@dataclasses.dataclass
class Block:
    """A program: what its registers begin with, and the pieces of its body."""

    registers: List[int]
    special: Dict[int, int]
    cr: int
    pieces: List[Piece]

    def words(self):
        return [word for it in self.pieces for word in it.words]

    def unrolled(self):
        return [word for it in self.pieces for word in it.unrolled()]


def random_block(shapes, source, accepted, deck, names, length):
    """A block of so many drawn instructions, or a few more. `deck` has the operations that come next, and is filled with `names`."""
    drawer = Drawer(shapes, source, accepted, names)
    pieces, drawn = [], 0
    while drawn < length:
        if not deck:
            deck.extend(source.sample(names, len(names)))
        if source.random() < FRESH_CHANCE:
            pieces.append(Piece([drawer.fresh_number()]))
        pieces.append(drawer.piece(deck.pop()))
        drawn += sum(it.is_drawn for it in pieces[-1].words)
        if source.random() < OBSERVED_CHANCE:
            pieces.append(drawer.observation())
    special = {XER: source.getrandbits(64) & XER_BITS, LR: telling_number(source), CTR: telling_number(source), TAR: telling_number(source)}
    return Block(drawer.begin, special, source.getrandbits(32), pieces)
