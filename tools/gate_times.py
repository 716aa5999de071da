#!/usr/bin/env python3
"""Times the proofs of each crate from nothing, and writes the table "Check times" of docs/ARCHITECTURE.md.

    tools/gate_times.py             times every crate, one after the other, and writes the table
    tools/gate_times.py CRATE..     times these crates, and writes their rows; the other rows stay
    tools/gate_times.py --edits CRATE..     prints the seconds of each must-fail edit of these crates alone, and writes nothing
    tools/gate_times.py --worst     prints the table's three crates with the most minutes for 1,000 lines, and times nothing

It works in a copy of the repository, where the crates below are built first. For each crate it then times `rt check`,
`rt must-fail` over what that kept, and `rt test`, the first and the last from nothing. Times are those of the processor, so that
other work beside changes them little.
"""

import os
import re
import resource
import shutil
import subprocess
import sys
import tempfile
import time

TOP = os.path.dirname(os.path.dirname(os.path.abspath(__file__)))
PAGE = os.path.join(TOP, "docs", "ARCHITECTURE.md")
TITLE = "## Check times"
ROW = re.compile(r"\| `(\w+)` \| (\d+) \| (\d+) \| (\d+) \| (\d+) \| ([\d.]+) \|$")


def crates():
    """The crates in the order of crates.txt, lowest first."""
    with open(os.path.join(TOP, "crates.txt"), encoding="utf-8") as lines:
        return [line.split(":")[0].split()[0] for line in lines if re.match(r"[a-z]", line)]


def is_test(path):
    """Whether a source is one of a crate's tests."""
    return path.endswith("/src/tests.rt") or "/src/tests/" in path


def line_count(crate):
    """The lines of a crate's src without tests, of its specs and of its proofs."""
    count = 0
    for part in ("src", "specs", "proofs"):
        for folder, _, names in os.walk(os.path.join(TOP, "crates", crate, part)):
            paths = [os.path.join(folder, name) for name in names if name.endswith((".rt", ".antt"))]
            for path in paths:
                if not is_test(path):
                    with open(path, "rb") as text:
                        count += text.read().count(b"\n")
    return count


def copy_repository(to):
    """Copies what the crates are made of, and nothing that was built."""
    shutil.copytree(os.path.join(TOP, "crates"), os.path.join(to, "crates"), ignore=shutil.ignore_patterns("out"))
    for name in ("crates.txt", "HANDLES"):
        shutil.copy(os.path.join(TOP, name), to)
    os.mkdir(os.path.join(to, ".git"))


def processor_seconds(command, folder):
    """The seconds that a command took of the processor. Ends the script where the command fails."""
    before = resource.getrusage(resource.RUSAGE_CHILDREN)
    ran = subprocess.run(command, cwd=folder, stdout=subprocess.PIPE, stderr=subprocess.STDOUT, stdin=subprocess.DEVNULL, text=True)
    after = resource.getrusage(resource.RUSAGE_CHILDREN)
    if ran.returncode != 0:
        sys.exit(f"{ran.stdout}\ngate_times: {' '.join(command)} failed in {folder}")
    return after.ru_utime + after.ru_stime - before.ru_utime - before.ru_stime


def forget(folder):
    """Has the next check of a crate begin from nothing: where its kept work is an empty folder, and its text is new, `rt` takes no other."""
    kept = os.path.join(folder, "out", "incremental")
    shutil.rmtree(kept, ignore_errors=True)
    os.makedirs(kept)


def make_new(folder):
    """Adds a comment that no earlier text of the crate had, so that nothing that was proved or refused before is known again."""
    for name in ("main.rt", "lib.rt"):
        path = os.path.join(folder, "src", name)
        if os.path.isfile(path):
            with open(path, "a", encoding="utf-8") as text:
                text.write(f"// Timed at {time.time_ns()}.\n")


def check_anew(crate, copy):
    """The processor seconds of a crate's check from nothing."""
    folder = os.path.join(copy, "crates", crate)
    make_new(folder)
    forget(folder)
    return processor_seconds(["rt", "check"], folder)


def time_crate(crate, copy):
    """The processor seconds of a crate's check, tests and edits."""
    folder = os.path.join(copy, "crates", crate)
    check = check_anew(crate, copy)
    edits = 0
    if os.path.isdir(os.path.join(folder, "must-fail")):
        edits = processor_seconds(["rt", "must-fail", crate], copy)
    forget(folder)
    tests = processor_seconds(["rt", "test"], folder)
    return check, tests, edits


def print_edits(crate, copy, room):
    """Prints the processor seconds of each edit of a crate alone."""
    print(f"{crate}: check {check_anew(crate, copy):.0f} s", flush=True)
    folder = os.path.join(copy, "crates", crate, "must-fail")
    aside = os.path.join(room, f"{crate}-edits")
    os.rename(folder, aside)
    for name in sorted(os.listdir(aside)):
        os.mkdir(folder)
        shutil.copy(os.path.join(aside, name), folder)
        print(f"{crate}: {name} {processor_seconds(['rt', 'must-fail', crate], copy):.0f} s", flush=True)
        shutil.rmtree(folder)


def build_below(copy, name):
    """Builds the libraries below a crate, which is not timed."""
    folder = os.path.join(copy, "crates", name)
    subprocess.run(["rt", "check", "--only", "no such function"], cwd=folder, stdout=subprocess.DEVNULL, stderr=subprocess.DEVNULL, stdin=subprocess.DEVNULL)


def read_rows():
    """The rows that the page has, by crate: the seconds of check, tests and edits."""
    rows = {}
    with open(PAGE, encoding="utf-8") as page:
        for line in page:
            found = ROW.match(line.rstrip("\n"))
            if found:
                rows[found[1]] = tuple(int(found[k]) for k in (2, 3, 4))
    return rows


def rate(crate, times):
    """The minutes for 1,000 lines."""
    return sum(times) / 60 / (line_count(crate) / 1000)


def section(rows):
    """The text of the table."""
    kit = subprocess.run(["rt", "version"], stdout=subprocess.PIPE, text=True).stdout.strip()
    lines = [
        TITLE,
        "",
        "`tools/gate_times.py` wrote this table. It has processor seconds of `rt check` and `rt test` of each crate, from nothing, with the",
        "crates below it built already, and of `rt must-fail` over what the check kept. Lines are those of `src` without tests, of `specs` and",
        f"of `proofs`. The kit was `{kit}`. A crate without a row has not been timed, and one that has grown since takes",
        "longer than its row says.",
        "",
        "| Crate | Check | Tests | Edits | Lines | Minutes for 1,000 lines |",
        "|---|---|---|---|---|---|",
    ]
    known = [crate for crate in crates() if crate in rows]
    for crate in known:
        check, tests, edits = (round(it) for it in rows[crate])
        lines.append(f"| `{crate}` | {check} | {tests} | {edits} | {line_count(crate)} | {rate(crate, rows[crate]):.1f} |")
    sums = [round(sum(rows[crate][k] for crate in known)) for k in range(3)]
    all_lines = sum(line_count(crate) for crate in known)
    if all_lines:
        lines.append(f"| all | {sums[0]} | {sums[1]} | {sums[2]} | {all_lines} | {sum(sums) / 60 / (all_lines / 1000):.1f} |")
    return "\n".join(lines) + "\n"


def write_rows(rows):
    """Puts the table in the place of the page's section."""
    with open(PAGE, encoding="utf-8") as page:
        text = page.read()
    start = text.index(TITLE)
    end = text.find("\n## ", start + 1)
    rest = "" if end < 0 else text[end:]
    with open(PAGE, "w", encoding="utf-8") as page:
        page.write(text[:start] + section(rows) + rest)


def print_worst():
    """Prints the three crates of the table that take longest for their lines."""
    rows = read_rows()
    worst = sorted(rows, key=lambda it: -rate(it, rows[it]))[:3]
    if not worst:
        print("gate times: docs/ARCHITECTURE.md has no table; tools/gate_times.py writes it")
        return
    said = ", ".join(f"{it} {rate(it, rows[it]):.1f}" for it in worst)
    print(f"gate times: the most minutes for 1,000 lines, from the table of docs/ARCHITECTURE.md: {said}")


def main():
    if sys.argv[1:] == ["--worst"]:
        print_worst()
        return
    only_edits = sys.argv[1:2] == ["--edits"]
    wanted = sys.argv[2:] if only_edits else sys.argv[1:] or crates()
    unknown = [it for it in wanted if it not in crates()]
    if unknown:
        sys.exit(f"gate_times: crates.txt has no crate {unknown[0]}")
    rows = read_rows() if sys.argv[1:] else {}
    with tempfile.TemporaryDirectory(prefix="gate-times-") as room:
        copy = os.path.join(room, "repository")
        os.mkdir(copy)
        copy_repository(copy)
        for crate in [it for it in crates() if it in wanted]:
            build_below(copy, crate)
            if only_edits:
                print_edits(crate, copy, room)
                continue
            rows[crate] = time_crate(crate, copy)
            check, tests, edits = rows[crate]
            print(f"{crate}: check {check:.0f} s, tests {tests:.0f} s, edits {edits:.0f} s", flush=True)
            write_rows(rows)


main()
