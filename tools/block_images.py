"""The images in which blocks of random_programs.py run: their source in the assembler's language, and the records that they leave.

One image runs in the machine and in qemu-ppc64le alike. It is one segment, whose address has the same low 12 bits as the place of its bytes in
the file, as QEMU asks. Each block sets its registers, runs its body, and leaves a record: the 32 general registers, CR, XER, LR, CTR, TAR and a sum over
the data area, which is then as it was in the beginning. In the end all records are shown: on the console of the machine, whose register 1 begins
as 0, or by a system call.
"""

import dataclasses
import re
import struct
from typing import Dict, List

from random_programs import CTR, DATA, DATA_SIZE, LR, TAR, XER, XER_BITS

BEGIN = 0x1078  # behind the headers, which have 0x78 bytes
SAVED, POINTER, FIRST = 0x6000, 0x6200, 0x6208
DATA_COPY, HARNESS, BLOCKS = 0x8000, 0x9000, 0x9400
NAMES = [f"r{it}" for it in range(32)] + ["cr", "xer", "lr", "ctr", "tar", "the sum over the data"]
PLACE = {name: SAVED + 8 * i for i, name in enumerate(NAMES)}
RECORD = 8 * len(NAMES)

# Shared code. `leave` puts the record of a block behind the others, and the data area back.
HARNESS_TEXT = f"""
begin:  std r1,{FIRST}(0)
        addis r3,0,records@ha
        addi r3,r3,records@l
        std r3,{POINTER}(0)
        b blocks
leave:  {{saves}}
        mfcr r0
        std r0,{PLACE["cr"]}(0)
        mfspr r0,{XER}
        std r0,{PLACE["xer"]}(0)
        mfspr r0,{CTR}
        std r0,{PLACE["ctr"]}(0)
        mfspr r0,{TAR}
        std r0,{PLACE["tar"]}(0)
        addi r5,0,{DATA}
        addis r6,0,copy@ha
        addi r6,r6,copy@l
        addi r7,0,{DATA_SIZE // 8}
        mtspr {CTR},r7
        addi r8,0,0
sum:    ld r9,0(r5)
        rldicl r8,r8,7,0
        add r8,r8,r9
        ld r9,0(r6)
        std r9,0(r5)
        addi r5,r5,8
        addi r6,r6,8
        bc 16,0,sum
        std r8,{PLACE[NAMES[-1]]}(0)
        ld r3,{POINTER}(0)
        addi r5,0,{SAVED}
        addi r7,0,{len(NAMES)}
        mtspr {CTR},r7
record: ld r9,0(r5)
        std r9,0(r3)
        addi r5,r5,8
        addi r3,r3,8
        bc 16,0,record
        std r3,{POINTER}(0)
        bclr 20,0
finish: addis r4,0,records@ha
        addi r4,r4,records@l
        addis r5,0,size@ha
        addi r5,r5,size@l
        ld r1,{FIRST}(0)
        cmpi 0,1,r1,0
        bc 12,2,show
        addi r0,0,4                     # a write to standard output, and an end
        addi r3,0,1
        sc 0
        addi r0,0,234
        addi r3,0,0
        sc 0
show:   mtspr {CTR},r5
        addis r5,0,0x1000               # the console, and behind it what stops the machine
        addi r4,r4,-1
shown:  lbzu r6,1(r4)
        stb r6,0(r5)
        bc 16,0,shown
        stb r6,0x1000(r5)
"""
BRANCH = 0x48000000


@dataclasses.dataclass
class Body:
    """What stands in a block of an image: registers to begin with, and instructions. Only the first `length` of these are run."""

    registers: List[int]
    special: Dict[int, int]
    cr: int
    words: list
    length: int


def rendered(shapes, word, address, pads):
    """The number of an instruction at an address. A `bc` that has its address whole goes by a branch in low memory."""
    values = dict(word.values)
    if word.target is not None:
        target = address + 4 * word.target
        if word.part == "high":
            values["si"] = target >> 16
        elif word.part == "low":
            values["ui"] = target & 0xFFFF
        elif word.name == "b":
            values["li"] = (target if values["aa"] else 4 * word.target) >> 2 & 0xFFFFFF
        elif values["aa"]:
            pads.append(target)
            values["bd"] = (BEGIN + 4 * len(pads)) >> 2
        else:
            values["bd"] = word.target & 0x3FFF
    return shapes.digits(word, values)


def body_words(shapes, body, address, pads):
    """The numbers of a body's words. Those that are not run are branches to the end."""
    count = len(body.words)
    words = [rendered(shapes, it, address + 4 * i, pads) for i, it in enumerate(body.words[:body.length])]
    return words + [BRANCH | 4 * (count - i) for i in range(body.length, count)]


def begin_lines(body, number):
    """Sets the registers of a block, register 31 last."""
    lines = [f"addis r31,0,table{number}@ha", f"addi r31,r31,table{number}@l", "ld r0,256(r31)", "mtcrf r0,255"]
    for i, spr in enumerate([XER, LR, CTR, TAR], 33):
        lines += [f"ld r0,{8 * i}(r31)", f"mtspr {spr},r0"]
    return lines + [f"ld r{it},{8 * it}(r31)" for it in range(32)]


def end_lines():
    return [f"std r0,{PLACE['r0']}(0)", f"mfspr r0,{LR}", f"std r0,{PLACE['lr']}(0)", "bl leave"]


def word_lines(words):
    """Words as directives, two in each, since a source has at most 65,536 lines."""
    pairs = [f".dword {low | high << 32}" for low, high in zip(words[::2], words[1::2])]
    return pairs + [f".word {it}" for it in words[2 * len(pairs):]]


class Image:
    """The source of an image with these bodies and these bytes in its data area."""

    def __init__(self, shapes, bodies, data):
        self.pads = []
        self.lines = []
        self.address = BLOCKS
        for number, body in enumerate(bodies):
            self.add_block(shapes, body, number)
        self.count = len(bodies)
        self.data = [f".dword {it}" for it in struct.unpack(f"<{DATA_SIZE // 8}Q", data)]

    def add_block(self, shapes, body, number):
        begin, end = begin_lines(body, number), end_lines()
        words = body_words(shapes, body, self.address + 4 * len(begin), self.pads)
        code = len(begin) + len(words) + len(end) + 1
        odd = code % 2
        table = body.registers + [body.cr] + [body.special[it] for it in (XER, LR, CTR, TAR)]
        self.lines += begin + word_lines(words) + end + [f"b block{number + 1}"] + [".word 0"] * odd
        self.lines.append(f"table{number}:")
        self.lines += [f".dword {it}" for it in table]
        self.lines.append(f"block{number + 1}:")
        self.address += 4 * (code + odd) + 8 * len(table)

    def source(self):
        """The text."""
        if BEGIN + 4 * len(self.pads) >= SAVED:
            raise ValueError("more branches to absolute addresses than low memory has room for")
        saves = "\n".join(f"std r{it},{PLACE[f'r{it}']}(0)" for it in range(1, 32))
        pads = [f"b {target}" for target in self.pads]
        lines = [f".equ size,{RECORD * self.count}", f".seg {BEGIN}", "entry: b begin", *pads, f".space {DATA}-.", *self.data,
                 f".space {DATA_COPY}-.", "copy:", *self.data, f".space {HARNESS}-.", HARNESS_TEXT.format(saves=saves),
                 f".space {BLOCKS}-.", "blocks:", *self.lines, "b finish", ".align 8", f"records: .space {RECORD * self.count}", ".entry entry"]
        return "\n".join(lines) + "\n"


def records(data):
    """The records in bytes that were shown: of each block the number of each name."""
    found = []
    for place in range(0, len(data), RECORD):
        record = dict(zip(NAMES, struct.unpack_from(f"<{len(NAMES)}Q", data, place)))
        record["xer"] &= XER_BITS
        found.append(record)
    return found


def console_bytes(text):
    """The bytes of a console's line, as docs/FORMATS.md says."""
    def byte(match):
        shown = match.group(1)
        return {"\\": "\\", "n": "\n"}.get(shown) or chr(int(shown[1:], 16))
    return re.sub(r"\\(\\|n|x[0-9a-f]{2})", byte, text).encode("latin-1")
