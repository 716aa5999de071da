#!/usr/bin/env python3
"""Looks up each back-quoted name of README.md, docs/ and examples/ in the tree, and fails where one is not there.

A name is a word of letters, digits and _, or several joined by `::`, or the path of a file. It is there where a source, a script or
crates.txt has each of its words, where a file or a folder has the name, or where the pages say that it is a word of the Power ISA, of
binutils or of the kit (OUTSIDE). Other back-quoted texts, such as numbers, commands and lines of a report, are passed over.
"""

import os
import re
import sys

TOP = os.path.dirname(os.path.dirname(os.path.abspath(__file__)))
PAGES = ("README.md", "docs", "examples")
SOURCES = ("crates", "tools", "tests", "bench", ".ci", "radix", "crates.txt", "HANDLES", "docs/INSTRUCTIONS.md")
SUFFIXES = (".rt", ".antt", ".py", ".sh", ".edit", ".txt", ".md", ".sched", ".elf", ".report", ".stdout")
NAME = re.compile(r"[A-Za-z_]\w*(::[A-Za-z_]\w*)*(\(\))?$")
PATH = re.compile(r"\.?[\w.-]+(/[\w.-]+)*/?$")
WORD = re.compile(r"\w+")

# Words that are not the repository's own: extended mnemonics, names of the C library, of GNU binutils and of other programs.
OUTSIDE = frozenset("li bdnz mfsrr0 mfsrr1 mtsrr0 mtctr mfctr mtlr mflr GLIBC_TUNABLES objdump AllocError std readelf".split())


def files_below(path):
    """The files at or below a path, without what was built."""
    if os.path.isfile(path):
        yield path
    for folder, folders, names in os.walk(path):
        folders[:] = sorted(it for it in folders if it not in ("out", "__pycache__"))
        for name in sorted(names):
            yield os.path.join(folder, name)


def known_words():
    """All words of the sources, and all names of files and folders."""
    words = set()
    for source in SOURCES:
        for path in files_below(os.path.join(TOP, source)):
            words.update(os.path.relpath(path, TOP).split("/"))
            words.add(os.path.splitext(os.path.basename(path))[0])
            if path.endswith(SUFFIXES) or "." not in os.path.basename(path):
                with open(path, encoding="utf-8", errors="replace") as text:
                    words.update(WORD.findall(text.read()))
    return words


def is_path(text):
    """Whether a back-quoted text is meant as a path of this repository. One with NAME in it stands for many."""
    if PATH.match(text) is None or "NAME" in text or not re.search(r"\w", text):
        return False
    return re.search(r"\w\.(rt|antt|py|sh|edit|txt|md|sched|elf|report)$", text) is not None or re.search(r"\w/", text) is not None


def is_number(text):
    """Whether a text is a number in hexadecimal."""
    return re.match(r"[0-9a-fA-F]+$", text) is not None and (re.search(r"\d", text) is not None or len(text) >= 8)


def planned_crates():
    """The crates that docs/ARCHITECTURE.md lists as to come."""
    with open(os.path.join(TOP, "docs", "ARCHITECTURE.md"), encoding="utf-8") as page:
        part = page.read().partition("## Planned crates")[2].partition("\n## ")[0]
    return set(re.findall(r"^\| `(\w+)` \|", part, re.MULTILINE))


def is_known(name, words):
    """Whether a name is there; one that ends in _ is the beginning of others."""
    return name in words or name in OUTSIDE or (name.endswith("_") and any(it.startswith(name) for it in words))


def has_path(text, paths):
    """Whether a file or folder has this path, or ends in it."""
    wanted = text.rstrip("/")
    wanted = wanted[2:] if wanted.startswith("./") else wanted
    return any(it == wanted or it.endswith("/" + wanted) for it in paths)


def all_paths():
    """The paths of all files and folders, from the top of the repository on."""
    paths = set()
    for path in files_below(TOP):
        inside = os.path.relpath(path, TOP)
        while inside and not inside.startswith(".git/"):
            paths.add(inside)
            inside = os.path.dirname(inside)
    return paths


def quoted(text):
    """The back-quoted texts outside blocks, with the numbers of their lines."""
    for number, line in enumerate(text.split("\n"), 1):
        if not line.startswith("    "):
            for found in re.findall(r"`([^`]+)`", line):
                yield number, found


def main():
    words, paths, lost, count = known_words() | planned_crates(), all_paths(), [], 0
    for page in PAGES:
        for path in files_below(os.path.join(TOP, page)):
            if not path.endswith(".md"):
                continue
            with open(path, encoding="utf-8") as text:
                for number, name in quoted(text.read()):
                    if is_path(name):
                        count += 1
                        is_there = has_path(name, paths) or "out/" in name
                    elif NAME.match(name) and not is_number(name):
                        count += 1
                        is_there = all(is_known(it, words) for it in WORD.findall(name))
                    else:
                        continue
                    if not is_there:
                        lost.append(f"{os.path.relpath(path, TOP)}:{number}: `{name}` is not in the tree")
    for line in lost:
        print(line)
    if lost:
        sys.stdout.flush()
        sys.exit(f"check_names: {len(lost)} of {count} names are not in the tree")
    print(f"check_names: all {count} names are in the tree")


main()
