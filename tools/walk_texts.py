"""The text that `--walks` adds to a report, worked out from the rules of walks (table_walks.py) and of the text (docs/FORMATS.md).

Three programs of examples/guest/ have their asks here: what each step after the seventeen of the hypervisor's start asks of the tables.
"""

from table_walks import Ask, Memory, bits, walk_ask
from walk_rows import GUEST, PTCR, RAM, deep_tables, generated_image

PAGE_BITS = 12  # an entry of an ask is for 4 KiB, in a greater page too


def guest_ask(access, ea):
    """An ask of process 1 of partition 1, with relocation on."""
    return Ask(access, ea, GUEST, 1, 1, PTCR)


def without_a_leaf():
    """The tables of the generated image, without the entry of partition 1 for the guest's page at 10000."""
    return {**generated_image(), 0x102080: 0}


# The tables, and for each ask its step.
PROGRAMS = {
    "first_load": (
        generated_image,
        [
            (17, guest_ask("Fetch", 0x5000)), (17, guest_ask("Load", 0x10000)),
            (18, guest_ask("Fetch", 0x5004)), (18, guest_ask("Load", 0x10000)),
        ],
    ),
    "missing": (without_a_leaf, [(17, guest_ask("Fetch", 0x5000)), (17, guest_ask("Load", 0x10000))]),
    "largest": (deep_tables, [(17, guest_ask("Fetch", 0x5000))]),
}


def read_line(number, reading):
    """The line of a reading: its fields as in table_walks.py, with each x16 filled up to sixteen digits."""
    role, lpid, pid, sought, level, left, at, value, moment = reading.split()
    return f"r {number} {role} {lpid} {pid} {sought:0>16} {level} {left} {at:0>16} {value:0>16} {moment}"


def fill_line(number, thread, ask, readings, first, moment):
    """The line of the entry that a walk to a page leaves, whose readings have the numbers from `first` on."""
    place = ask.place()
    if place[0] == "Space":
        kind, leaf, lpid, pid, address = "trans", "pleaf", place[1], place[2], bits(ask.ea, 2, 63)
    else:
        kind, leaf, lpid, pid, address = "gpage", "gleaf", place[1], 0, place[2]
    level = [it.split()[4] for it in readings if it.split()[0] == leaf][-1]
    numbers = " ".join(str(first + place) for place in range(len(readings)))
    page = address >> PAGE_BITS
    return f"f {number} {thread} {kind} {lpid} {pid} {PAGE_BITS} {page:016x} {level} {moment} {len(readings)} {numbers}"


def text_of_walks(memory, asks, thread=0):
    """The lines of all readings, and then those of all entries, of the asks of a thread, each with its step."""
    reads, fills = [], []
    for moment, ask in asks:
        outcome, readings = walk_ask(memory, ask, moment)
        name = outcome.split()[0]
        if name == "Page":
            fills.append(fill_line(len(fills), thread, ask, readings, len(reads), moment))
        if name not in ("NoStorage", "HashedPartition"):  # a stop leaves nothing of its walk
            reads += [read_line(len(reads) + number, it) for number, it in enumerate(readings)]
    return "".join(f"{line}\n" for line in reads + fills)


def walks_text(name):
    """The text of a program."""
    tables, asks = PROGRAMS[name]
    return text_of_walks(Memory(RAM, tables()), asks)
