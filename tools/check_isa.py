#!/usr/bin/env python3
"""Compares the instruction table of docs/INSTRUCTIONS.md with GNU binutils.

Three comparisons, with random words of a fixed seed:
  1. words of each row of the table are disassembled, and the text is compared with the row's;
  2. text of each row is assembled, and the word is compared with the row's;
  3. words over the whole space of opcodes are disassembled: those of a row are compared as in 1, also with bits that
     the row ignores; those of no row must be unknown to binutils or stand in one of the lists of what is absent.
What differs and stands neither in PROFILE nor in these lists is printed, and the exit status is then 1. Before them the operands
in text that the table has are compared with those of SYNTAX.
"""

import argparse
import collections
import os
import random
import re
import subprocess
import sys
import tempfile

TABLE_FILE = os.path.join(os.path.dirname(os.path.dirname(os.path.abspath(__file__))), 'docs', 'INSTRUCTIONS.md')
ASSEMBLER = 'powerpc64le-linux-gnu-as'
DISASSEMBLER = 'powerpc64le-linux-gnu-objdump'
FILE_OF_WORDS = ['-b', 'binary', '-m', 'powerpc:common64', '-EL']
MACHINE = 'power9'
# Operations that GNU knows for other machines alone. For its POWER9 it writes mftb as mfspr.
MACHINE_OF_OPERATION = {'mftb': 'ppc64'}
UNKNOWN = '.long'  # what objdump prints for a word that it does not know
REFUSED = 'refused'  # stands for the answer where the assembler refuses a line
WORD_BITS = 32
WORD_BYTES = 4

# How often the third comparison takes each value of bits 0:5 with 21:31. Opcodes 19 and 31 hold most operations.
SWEEPS = 1
SWEEPS_OF_OPCODE = {19: 40, 31: 40}

# How GNU writes the operands, in its order: first of a layout, then of operations that it writes in another way than
# the rest of their layout. A field is written as a number unless a kind follows it:
#   :r   register                          :z  register, and 0 where it is 0
#   :cr  condition register field          :bit  condition register bit
#   :target  branch target: an address, which is relative to the instruction unless `aa` is set
# {word:19:20} stands for bits that this machine ignores and that are an operand for GNU.
SYNTAX = {
    'AddImm': '{rt:r},{ra:r},{si}',
    'AddPc': '{rt:r},{d}',
    'Arith MulHigh Modulo': '{rt:r},{ra:r},{rb:r}',
    'MulAdd': '{rt:r},{ra:r},{rb:r},{third:r}',
    'LogicImm': '{ra:r},{rs:r},{ui}',
    'Logic Bytes': '{ra:r},{rs:r},{rb:r}',
    'Unary Count': '{ra:r},{rs:r}',
    'ShiftImm': '{ra:r},{rs:r},{sh}',
    'RotWord': '{ra:r},{rs:r},{by},{mb},{me}',
    'RotDouble': '{ra:r},{rs:r},{by},{edge}',
    'Select': '{rt:r},{ra:z},{rb:r},{bit:bit}',
    'CmpImm': '{bf:cr},{wide},{ra:r},{value}',
    'Cmp': '{bf:cr},{wide},{ra:r},{rb:r}',
    'CmpByte': '{bf:cr},{two},{ra:r},{rb:r}',
    'SetB': '{rt:r},{bfa:cr}',
    'TrapImm': '{to},{ra:r},{si}',
    'Trap': '{to},{ra:r},{rb:r}',
    'Jump': '{li:target}',
    'Branch': '{bo},{bi:bit},{bd:target}',
    'BranchReg': '{bo},{bi:bit},{word:19:20}',  # GNU's last operand is the hint BH
    'CrBit': '{bt:bit},{ba:bit},{bb:bit}',
    'CrMove': '{bf:cr},{bfa:cr}',
    'MoveXer': '{bf:cr}',
    'MfCr MfMsr': '{rt:r}',
    'MfOneCr': '{rt:r},{fxm}',
    'MtCr MtOneCr': '{fxm},{rs:r}',  # GNU writes the mask first
    'Access': '{rt:r},{disp}({ra:z})',
    'AccessX': '{rt:r},{ra:z},{rb:r}',
    'Block': '{ra:z},{rb:r}',
    'MfSpr MfTb': '{rt:r},{spr}',
    'MtSpr': '{spr},{rs:r}',
    'MtMsr': '{rs:r},{l}',
    'Sync': '{l}',
    'Inval': '{rb:r},{rs:r},{ric},{prs},{r}',
    'Message': '{rb:r}',
    'Sc': '{lev}',
    'Eieio TlbSync Isync Rfid Hrfid': '',
    'addi addis': '{rt:r},{ra:z},{si}',
    'neg addme addze subfme subfze': '{rt:r},{ra:r}',
    'rldcl rldcr': '{ra:r},{rs:r},{by:r},{edge}',
    'rlwnm': '{ra:r},{rs:r},{by:r},{mb},{me}',
    'cmpeqb': '{bf:cr},{ra:r},{rb:r}',  # GNU has no operand for `two`, which is 0
    'lbarx lharx lwarx ldarx': '{rt:r},{ra:z},{rb:r},{word:31}',  # the hint EH
    'dcbf': '{ra:z},{rb:r},{word:9:10}',  # the level L
    'dcbt dcbtst': '{ra:z},{rb:r},{word:6:10}',  # the hint TH
}
TEMPLATES = {name: template for names, template in SYNTAX.items() for name in names.split()}

# Operations whose operands the table writes in another order than GNU, or with one more.
OWN_TEXTS = ['mtcrf', 'mtocrf', 'cmpeqb']

# How an operand of the table's text is one of SYNTAX: the first form that fits. A displacement is two operands.
OPERAND_FORMS = [
    (r'r([A-Z]+)\|0', '{%s:z}'),
    (r'r([A-Z]+)', '{%s:r}'),
    (r'\.±([A-Z]+)', '{%s:target}'),
    (r'±([A-Z]+)', '{%s}'),
    (r'([A-Z]+)', '{%s}'),
]

# Letters after the mnemonic, by the field that asks for them, in their order.
SUFFIXES = [('oe', 'o'), ('rc', '.'), ('lk', 'l'), ('aa', 'a')]

# Random fields have, by this chance, one of these values or an edge: 0, all bits 1 or the first bit 1.
SPECIAL_CHANCE = 0.5
SPECIAL_VALUES = {'spr': [268, 269]}

ONE_BIT = [1 << bit for bit in range(8)]

# Forms that this machine calls invalid, by an operation or a class of the table. They are left out.
INVALID_FORMS = {
    'loads_with_update': lambda values: values['ra'] in (0, values['rt']),
    'stores_with_update': lambda values: values['ra'] == 0,
    'branches_to_count': lambda values: values['bo'] & 0b00100 == 0,
    'mfocrf': lambda values: values['fxm'] not in ONE_BIT,
    'mtocrf': lambda values: values['fxm'] not in ONE_BIT,
    'sync': lambda values: values['l'] == 3,
}

# The values of bo that the architecture reserves.
RESERVED_BO = (1, 3, 5, 9, 11, 13, 17, 19, 21, 22, 23, 28, 29, 30, 31)

Difference = collections.namedtuple('Difference', 'operations meant answers reason')

# Differences that this machine means to have: the operations (all where none is named), which words of theirs, by
# the fields' values and the ignored bits, how binutils answers (a mnemonic, UNKNOWN or REFUSED), and why.
PROFILE = [
    Difference([], lambda values, ignored: ignored, [UNKNOWN],
               'bits that no fixed range and no field names are ignored; GNU takes them as reserved'),
    Difference(['sc'], lambda values, ignored: ignored, ['sc'],
               'lev is bit 26 alone; GNU reads bits 20:26'),
    Difference(['dcbz'], lambda values, ignored: ignored, ['dcbzl'],
               'dcbz with bit 10 is dcbz; GNU has the name dcbzl of older machines for it'),
    Difference(['bc', 'bclr', 'bcctr', 'bctar'], lambda values, ignored: values['bo'] in RESERVED_BO,
               [UNKNOWN, REFUSED], 'reserved values of bo are run by the rule of the others; GNU refuses them'),
    Difference(['mftb'], lambda values, ignored: values['spr'] not in (268, 269), [UNKNOWN, REFUSED],
               'mftb may have any number; GNU knows 268 and 269'),
    Difference(['mtcrf'], lambda values, ignored: values['fxm'] in ONE_BIT, ['mtocrf'],
               'mtcrf and mtocrf are told apart by bit 11; GNU assembles mtcrf of one field as mtocrf'),
]

# Whole facilities that this machine leaves out, with their mnemonics as regular expressions.
ABSENT_FACILITIES = {
    'floating point': r'f.*|lf.*|stf.*|mffs.*|mtfs.*|mcrfs',
    'decimal numbers': r'd(add|cffix|cmp|ct|dedpd|div|enbcd|iex|mul|qua|rdpq|rint|rrnd|rsp|scli|scri|sub|tst|xex).*'
                       r'|bcd.*|addg6s|cbcdtd|cdtbcd',
    'vectors and their data streams': r'v.*|lv.*|stv.*|m[ft]vscr|dss(all)?|dst(st)?t?',
    'vector-scalar operations': r'x[svx].*|lx.*|stx[sv].*|m[ft]vsr.*',
}

# Operations of fixed-point, branch and system kind that this machine leaves out, by reason.
ABSENT_OPERATIONS = {
    'accesses of quadwords': 'lq lqarx stq stqcx.',
    'accesses of several registers': 'lmw lswi lswx stmw stswi stswx',
    'atomic memory operations': 'ldat lwat stdat stwat',
    'copy and paste': 'copy cpabort paste. pbt.',
    'transactional memory':
        'tabort. tabortdc. tabortdci. tabortwc. tabortwci. tbegin. tcheck tend. tendall. trechkpt. treclaim. tsr.',
    'segment table and segment buffer': 'slbfee. slbia slbiag slbie slbieg slbmfee slbmfev slbmte slbsync',
    'translation of older machines': 'mtsrd mtsrdin tlbia tlbld tlbli',
    'doorbells to threads of one core, and order of doorbells': 'msgclrp msgsndp msgsync',
    'ultravisor': 'msgclru msgsndu urfid',
    'vectored system calls': 'rfscv scv',
    'event-based branches and branch history': 'clrbhrb mfbhrbe rfebb',
    'power saving and waiting': 'stop wait',
    'addition with carry in OV, and random numbers': 'addex darn',
    'operations of other machines':
        'attn dcbi eciwx ecowx hashchk hashchkp hashst hashstp icbt icswx icswx. mtsle rfi rmieg',
}


def parse_range(text):
    """The first and last bit of `6:10` or of `31`."""
    first, _, last = text.partition(':')
    return int(first), int(last or first)


def take_bits(word, first, last):
    """The word's bits from first to last as a number, where bit 0 is the highest."""
    return word >> (WORD_BITS - 1 - last) & ((1 << (last - first + 1)) - 1)


def place_bits(first, last, value):
    """A word with the value in its bits from first to last."""
    return (value & ((1 << (last - first + 1)) - 1)) << (WORD_BITS - 1 - last)


def write_target(value, absolute, address):
    """A branch target as objdump prints it at the address, or, without one, as the assembler reads it."""
    if address is None:
        return str(value) if absolute else '.%+d' % value
    return hex(value % (1 << 32) if absolute else (address + value) % (1 << 64))


def write_operand(kind, value):
    """A field's value in GNU's syntax, by the kinds that stand before SYNTAX."""
    if kind == 'z':
        return 'r%d' % value if value else '0'
    if kind == 'bit':
        bit = ('lt', 'gt', 'eq', 'so')[value % 4]
        return '4*cr%d+%s' % (value // 4, bit) if value // 4 else bit
    return kind + str(value)


class Field:
    """A field: its places in a word, the most significant first, and how its bits make a number."""

    def __init__(self, name, places):
        """Reads places like `signed bits 16:29, 00`, where the zeros follow the field's bits."""
        self.name = name
        self.signed = places.startswith('signed ')
        parts = re.sub('^(signed )?bits? ', '', places).split(', ')
        self.zeros = len(parts.pop()) if parts[-1] == '00' else 0
        self.ranges = [parse_range(part) for part in parts]
        self.width = sum(last - first + 1 for first, last in self.ranges)

    def random_bits(self, source):
        """The field's bits for a random word."""
        if source.random() < SPECIAL_CHANCE:
            edges = [0, (1 << self.width) - 1, 1 << (self.width - 1)]
            return source.choice(edges + SPECIAL_VALUES.get(self.name, []))
        return source.getrandbits(self.width)

    def place(self, bits):
        """A word with the field's bits at their places."""
        word = 0
        for first, last in reversed(self.ranges):
            word |= place_bits(first, last, bits)
            bits >>= last - first + 1
        return word

    def value(self, word):
        """The number that stands in the word's field."""
        bits = 0
        for first, last in self.ranges:
            bits = bits << (last - first + 1) | take_bits(word, first, last)
        if self.signed and bits >> (self.width - 1):
            bits -= 1 << self.width
        return bits << self.zeros


class Operation:
    """One row of the table, with the fields of its layout as they stand for this row."""

    def __init__(self, name, layout, fixed, fields, groups):
        self.name = name
        self.fields = fields
        self.template = TEMPLATES.get(name, TEMPLATES[layout])
        self.invalid_forms = [INVALID_FORMS[group] for group in [name] + groups if group in INVALID_FORMS]
        self.mask = self.pattern = 0
        for part in fixed.split(', '):
            bits, value = part.split(' = ')
            self.mask |= place_bits(*parse_range(bits), -1)
            self.pattern |= place_bits(*parse_range(bits), int(value))

    def values(self, word):
        """The values of the fields in the word, by name."""
        return {field.name: field.value(word) for field in self.fields}

    def ignored_bits(self, word):
        """The bits of the word that no fixed range and no field names."""
        for field in self.fields:
            word &= ~field.place(-1)
        return word & ~self.mask

    def is_invalid(self, word):
        return any(is_invalid(self.values(word)) for is_invalid in self.invalid_forms)

    def text(self, word, address=None):
        """The word as objdump prints it at the address, or, without one, as the assembler reads it."""
        values = self.values(word)

        def operand(match):
            name, kind = match.groups()
            if name == 'word':
                return str(take_bits(word, *parse_range(kind)))
            if kind == 'target':
                return write_target(values[name], values['aa'], address)
            return write_operand(kind, values[name])

        mnemonic = self.name + ''.join(letter for name, letter in SUFFIXES if values.get(name))
        return (mnemonic + ' ' + re.sub(r'{(\w+):?([\w:]*)}', operand, self.template)).strip()

    def random_word(self, source):
        """A random word of the row that is no invalid form, with 0 in every bit that the row ignores."""
        while True:
            word = self.pattern
            for field in self.fields:
                word |= field.place(field.random_bits(source))
            if not self.is_invalid(word):
                return word


def parse_field(name, text, groups):
    """A row's field from text like `bits 16:20; where `class`: 0`. None where the row has no bits of it."""
    places, *exceptions = text.split('; ')
    for exception in exceptions:
        group, other_places = re.fullmatch(r'where `(\w+)`: (.*)', exception).groups()
        places = other_places if group in groups else places
    return Field(name, places) if 'bit' in places else None


def check_fields(operation):
    """Ends the check where SYNTAX and SUFFIXES do not write exactly the row's fields."""
    names = {field.name for field in operation.fields}
    written = set(re.findall(r'{(\w+)', operation.template)) - {'word'} | names & {name for name, _ in SUFFIXES}
    if names != written:
        sys.exit('check_isa: %s has the fields %s, but %s are compared' % (operation.name, names, written))


def template_of(text):
    """A text of the table as one of SYNTAX."""
    def operand(match):
        for form, template in OPERAND_FORMS:
            whole = re.fullmatch(form, match[0])
            if whole:
                return template % whole[1].lower()
        sys.exit('check_isa: the text %s has no known operand in %s' % (text, match[0]))

    return re.sub(r'[^,()]+', operand, text)


def check_text(operation, line, groups):
    """Ends the check where the table writes a row's operands otherwise than SYNTAX, or a row of OWN_TEXTS likewise.

    GNU's hints are no operands here, fields and bits of the condition register are numbers, and RA of a form with update is
    never 0.
    """
    usual, names, other = re.fullmatch(r'- text `(.*?)`(?:; where (.*): `(.*)`)?\n', line).groups() if line else ('', '', '')
    is_other = set(re.findall(r'`(\w+)`', names or '')) & set([operation.name] + groups)
    wanted = re.sub(r',{word:.*?}', '', re.sub(':(cr|bit)}', '}', operation.template))
    if any(group.endswith('_with_update') for group in groups):
        wanted = wanted.replace(':z}', ':r}')
    if (template_of(other if is_other else usual) == wanted) == (operation.name in OWN_TEXTS):
        sys.exit('check_isa: the table writes the operands of %s as %s' % (operation.name, other if is_other else usual))


def read_table(path):
    """The operations of the table."""
    with open(path, encoding='utf-8') as file:
        lines = file.readlines()
    classes = {}
    field_lines = collections.defaultdict(list)
    text_lines = {}
    operations = []
    for line in lines:
        class_line = re.match(r'- `(\w+)` \((.*?)\):', line)
        layout_line = re.match(r'### `(\w+)`', line)
        field_line = re.match(r'- `(\w+): \w+` (.*)', line)
        row = re.match(r'\| `([a-z.]+)` \| ([^|]*) \|', line)
        if class_line:
            classes[class_line[1]] = re.findall(r'`([^`]+)`', class_line[2])
        elif layout_line:
            layout = layout_line[1]
        elif field_line:
            field_lines[layout].append(field_line.groups())
        elif line.startswith('- text '):
            text_lines[layout] = line
        elif row:
            groups = [group for group, members in classes.items() if row[1] in members]
            fields = [parse_field(name, text, groups) for name, text in field_lines[layout]]
            operations.append(Operation(row[1], layout, row[2], list(filter(None, fields)), groups))
            check_fields(operations[-1])
            check_text(operations[-1], text_lines.get(layout), groups)
    return operations


def run(command):
    """Runs a program. Gives its result, with the output as text and in English."""
    return subprocess.run(command, stdout=subprocess.PIPE, stderr=subprocess.PIPE, universal_newlines=True,
                          env={**os.environ, 'LC_ALL': 'C'})


def disassemble(path, machine, options):
    """The words of a file, each with objdump's text: the base mnemonic and all operands."""
    # With `raw` it prints `addi`, not `li`.
    result = run([DISASSEMBLER, '-M', machine + ',raw', '-D', '--disassemble-zeroes', *options, path])
    if result.returncode != 0:
        sys.exit('check_isa: objdump failed: ' + result.stderr)
    instructions = []
    for octets, text in re.findall(r'^ *[0-9a-f]+:\t(.. .. .. ..) \t(.*)', result.stdout, re.MULTILINE):
        # With `raw` it prints the mask that mfocrf has with mfcr too, as -1.
        text = re.sub('^(mfcr .*),-1$', r'\1', ' '.join(text.split()))
        instructions.append((int.from_bytes(bytes.fromhex(octets), 'little'), text))
    return instructions


def disassemble_words(words, machine, directory):
    """objdump's text of each word, the first at address 0."""
    path = os.path.join(directory, 'words')
    with open(path, 'wb') as file:
        file.write(b''.join(word.to_bytes(WORD_BYTES, 'little') for word in words))
    instructions = disassemble(path, machine, FILE_OF_WORDS)
    assert [word for word, _ in instructions] == words
    return [text for _, text in instructions]


def assemble(lines, machine, directory):
    """The word that the assembler makes of each line, with objdump's text; 0 with REFUSED where it makes none."""
    source = os.path.join(directory, 'lines.s')
    object_file = os.path.join(directory, 'lines.o')
    refusals = {}
    for _ in range(2):  # again without the lines that were refused
        with open(source, 'w', encoding='ascii') as file:
            file.writelines(('.long 0' if index in refusals else line) + '\n' for index, line in enumerate(lines))
        result = run([ASSEMBLER, '-m' + machine, '-mregnames', '-o', object_file, source])
        for number, message in re.findall(r':(\d+): Error: (.*)', result.stderr):
            refusals[int(number) - 1] = message
    if result.returncode != 0:
        sys.exit('check_isa: the assembler failed: ' + result.stderr)
    instructions = disassemble(object_file, machine, ['-j', '.text'])
    assert len(instructions) == len(lines)
    for index, message in refusals.items():
        instructions[index] = (0, '%s: %s' % (REFUSED, message))
    return instructions


class Report:
    """Prints the differences, and counts them and those that are meant."""

    def __init__(self):
        self.differences = 0
        self.meant = [0] * len(PROFILE)

    def difference(self, name, word, table_says, tool_says):
        print('%s %08x: the table says `%s`, binutils says `%s`' % (name, word, table_says, tool_says))
        self.differences += 1

    def difference_of_row(self, operation, word, table_says, tool_says):
        """A difference in a word of a row, which PROFILE may mean."""
        answer = re.match('[^ :]*', tool_says)[0]
        for index, entry in enumerate(PROFILE):
            named = not entry.operations or operation.name in entry.operations
            if named and answer in entry.answers and entry.meant(operation.values(word), operation.ignored_bits(word)):
                self.meant[index] += 1
                return
        self.difference(operation.name, word, table_says, tool_says)


def random_samples(operations, count, source):
    """Random words of each operation, by the machine that GNU knows the operation for."""
    samples = collections.defaultdict(list)
    for operation in operations:
        machine = MACHINE_OF_OPERATION.get(operation.name, MACHINE)
        samples[machine] += [(operation, operation.random_word(source)) for _ in range(count)]
    return samples


def compare_text(operation, word, address, text, report):
    """Compares objdump's text of a word with its row's."""
    expected = operation.text(word, address)
    if text != expected:
        report.difference_of_row(operation, word, expected, text)


def compare_disassembly(samples, machine, directory, report):
    """The first comparison."""
    texts = disassemble_words([word for _, word in samples], machine, directory)
    for index, ((operation, word), text) in enumerate(zip(samples, texts)):
        compare_text(operation, word, index * WORD_BYTES, text, report)


def compare_assembly(samples, machine, directory, report):
    """The second comparison."""
    lines = [operation.text(word) for operation, word in samples]
    for (operation, word), line, (found, text) in zip(samples, lines, assemble(lines, machine, directory)):
        if found != word:
            report.difference_of_row(operation, word, line, '%s (%08x)' % (text, found))


def sweep_words(source):
    """Words over the whole space of opcodes. Bits 6:20 are random in groups of five, each of which is as often 0."""
    for opcode in range(1 << 6):
        for low_bits in range(1 << 11):
            for _ in range(SWEEPS_OF_OPCODE.get(opcode, SWEEPS)):
                operands = sum(place_bits(first, first + 4, source.getrandbits(5))
                               for first in (6, 11, 16) if source.getrandbits(1))
                yield place_bits(0, 5, opcode) | operands | low_bits


def compare_sweep(operations, words, directory, report):
    """The third comparison. Gives how many words no row has, and of these one of each mnemonic."""
    absent_words = 0
    mnemonics = {}
    by_opcode = collections.defaultdict(list)
    for operation in operations:
        by_opcode[take_bits(operation.pattern, 0, 5)].append(operation)
    for index, (word, text) in enumerate(zip(words, disassemble_words(words, MACHINE, directory))):
        rows = [row for row in by_opcode[take_bits(word, 0, 5)] if word & row.mask == row.pattern]
        if not rows:
            absent_words += 1
            mnemonics.setdefault(text.split()[0], word)
        elif len(rows) > 1:
            report.difference(rows[0].name, word, ' and '.join(row.name for row in rows), text)
        elif rows[0].name not in MACHINE_OF_OPERATION and not rows[0].is_invalid(word):
            compare_text(rows[0], word, index * WORD_BYTES, text, report)
    del mnemonics[UNKNOWN]
    return absent_words, mnemonics


def check_absent(mnemonics, report):
    """Reports the mnemonics that no list of absences has. Gives those of ABSENT_OPERATIONS with a word of each."""
    listed = ' '.join(ABSENT_OPERATIONS.values()).split()
    facilities = '|'.join(ABSENT_FACILITIES.values())
    for mnemonic, word in mnemonics.items():
        if mnemonic not in listed and not re.fullmatch(facilities, mnemonic):
            report.difference(mnemonic, word, 'nothing', mnemonic)
    return sorted((mnemonic, word) for mnemonic, word in mnemonics.items() if mnemonic in listed)


def main():
    parser = argparse.ArgumentParser(description='Compares docs/INSTRUCTIONS.md with GNU binutils.')
    parser.add_argument('--words', type=int, default=64, help='random words of each operation (64)')
    parser.add_argument('--seed', type=int, default=1, help='seed of the random words (1)')
    parser.add_argument('--list', action='store_true', help='list the differences and absences that are meant')
    arguments = parser.parse_args()

    source = random.Random(arguments.seed)
    operations = read_table(TABLE_FILE)
    report = Report()
    with tempfile.TemporaryDirectory() as directory:
        for compare in (compare_disassembly, compare_assembly):
            for machine, samples in random_samples(operations, arguments.words, source).items():
                compare(samples, machine, directory, report)
        absent_words, mnemonics = compare_sweep(operations, list(sweep_words(source)), directory, report)
    absent = check_absent(mnemonics, report)

    if arguments.list:
        for entry, count in zip(PROFILE, report.meant):
            print('meant: %s: %s (%d words)' % (' '.join(entry.operations) or 'all', entry.reason, count))
        for mnemonic, word in absent:
            print('absent: %-9s %08x' % (mnemonic, word))
    words = len(operations) * arguments.words
    print('check_isa: %d operations, %d words disassembled, %d assembled, %d of no row, %d differences meant, '
          '%d differences' % (len(operations), words, words, absent_words, sum(report.meant), report.differences))
    sys.exit(1 if report.differences else 0)


if __name__ == '__main__':
    main()
