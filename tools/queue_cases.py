#!/usr/bin/env python3
"""Writes the cases of pending invalidations: crates/inval_queue/src/tests/cases.rt.

What is expected is worked out here from two sentences over the steps that were made, and from no queue: what pends of a thread is what it
issued and no step of it completed; and a step completes, oldest first, for `sync 2` what is local and what was issued before a
`tlbsync` of the thread, and for an issue with 64 pending all of these.

With `--check` it writes nothing, and fails where the file is not what it would write.
"""

import os

from case_files import write_or_check

TOP = os.path.dirname(os.path.dirname(os.path.abspath(__file__)))
CASES = os.path.join(TOP, "crates/inval_queue/src/tests/cases.rt")
LISTS, LONG, PER_LINE = 2000, 40, 5


class Numbers:
    """A sequence of numbers that look like chance."""

    def __init__(self, seed):
        self.state = seed

    def below(self, n):
        self.state = (self.state * 6364136223846793005 + 1442695040888963407) % 2**64
        return (self.state >> 33) % n


def pending(deeds, completed, thread):
    """The steps of a thread that issued what no step completed, oldest first."""
    done = {step for steps in completed for step in steps}
    return [step for step, (whose, what) in enumerate(deeds) if whose == thread and what in "il" and step not in done]


def answers(deeds):
    """The steps whose operations each step completes."""
    completed = []
    for step, (thread, what) in enumerate(deeds):
        before = pending(deeds[:step], completed, thread)
        syncs = [s for s in range(step) if deeds[s] == (thread, "s")]
        if what == "p":
            completed.append([i for i in before if deeds[i][1] == "l" or any(i < s for s in syncs)])
        elif what in "il" and len(before) == 64:
            completed.append(before)
        else:
            completed.append([])
    return completed


def case(deeds):
    """A list of deeds and its answers. Operations are numbered from 1 in the order of their issue."""
    issues = [step for step, (_, what) in enumerate(deeds) if what in "il"]
    number = {step: str(n + 1) for n, step in enumerate(issues)}
    texts = [",".join(number[step] for step in steps) for steps in answers(deeds)]
    return ".".join(f"{thread}{what}" for thread, what in deeds) + " " + ".".join(texts)


def short_list(numbers):
    """Some deeds of four threads."""
    return [((0, 0, 0, 0, 1, 1, 2, 3)[numbers.below(8)], "iilspsp"[numbers.below(7)]) for _ in range(6 + numbers.below(17))]


def long_list(numbers):
    """Deeds of two threads, mostly issues, so that 64 pend."""
    rare = 20 + numbers.below(60)
    return [(numbers.below(3) // 2, "sp"[numbers.below(2)] if numbers.below(rare) == 0 else "iil"[numbers.below(3)]) for _ in range(150)]


def cases():
    """The file."""
    numbers = Numbers(1)
    lists = [case(long_list(numbers)) for _ in range(LONG)] + [case(short_list(numbers)) for _ in range(LISTS - LONG)]
    lines = ["|".join(lists[i : i + PER_LINE]) for i in range(0, LISTS, PER_LINE)]
    parts = ["//! Deeds and what they complete, as tools/queue_cases.py works it out.", ""]
    parts += ["/// Lists with a bar between, five a line. A list has deeds and, behind a blank, what each completes, all with a dot between. A deed is a"]
    parts += ["/// thread and i for tlbie, l for tlbiel, s for tlbsync or p for `sync 2`; operations are numbered from 1 in the order of their issue."]
    parts += ['pub(crate) const LISTS: &str = "\\', *lines, '";']
    return "\n".join(parts + [""])


def examples():
    """Some lists by hand."""
    def of(text):
        return case([(int(deed[0]), deed[1]) for deed in text.split()]).split(" ")[1].split(".")[-1]

    assert of("0i 0s 0p") == "1" and of("0i 0p") == "" and of("0s 0i 0p") == "" and of("0i 1s 0p") == ""
    assert of("0l 0i 0s 0i 0l 0p") == "1,2,4" and of("0i 0s 1p") == ""
    assert of("0i " * 64 + "0i") == ",".join(str(n) for n in range(1, 65))


def main():
    examples()
    write_or_check(CASES, cases())


if __name__ == "__main__":
    main()
