#!/usr/bin/env python3
"""The counts that pages state of what is in the sources: each must be what is counted here.

    tests/docs/counts.py     prints each count, with its page and what is counted
"""

import glob
import os
import re
import sys

from sources import TOP, sources_of, text_of

sys.path.append(os.path.join(TOP, "tools"))

from trees import crates_below, libraries_of  # noqa: E402

WORDS = "no one two three four five six seven eight nine ten eleven twelve thirteen fourteen fifteen".split()
AXIOMS = "docs/audit/TRUSTED.md"
BODIES = "tools/wrong_bodies.txt"
FUNCTION = re.compile(r"^\s*(?:(?:pub(?:\(\w+\))?|const|unsafe|extern \"C\") )*fn \w+", re.MULTILINE)


def crates():
    """The crates of the program."""
    return crates_below(libraries_of(TOP), "cdb")


def plain_crates():
    """The crates that are not crates of tests."""
    return [it for it in libraries_of(TOP) if not it.endswith("_tests")]


def functions():
    """How many functions are written in the crates of the program."""
    texts = (text_of(path) for crate in crates() for path in sources_of(crate))
    return sum(len(FUNCTION.findall(it)) for it in texts)


def bodies(gate=""):
    """How many wrong bodies the list has, or those of it that the gate tries."""
    lines = [line.split() for line in text_of(BODIES).splitlines() if not line.startswith("#")]
    return sum(gate in ("", it[1]) for it in lines)


def shown():
    """How many wrong bodies a test shows."""
    return len(glob.glob("crates/*/must-fail/*.test", root_dir=TOP))


def axioms():
    """The axioms that the table of the page has: each name of its first column."""
    rows = re.findall(r"^\| (`[^|]*) \|", text_of(AXIOMS).split("\n## The axioms\n")[1], re.MULTILINE)
    return sum(len(re.findall(r"`\w+`", it)) for it in rows)


def said_axioms():
    """The axioms that the page counts, by whose they are."""
    return sum(int(it) for it in re.search(r"(\d+) of the C library and (\d+) of the", text_of(AXIOMS)).groups())


def lines(path):
    """How many lines a file has."""
    return text_of(path).count("\n")


# A page, the place of a count in it, and what it must be.
COUNTS = [
    ("README.md", r"functions that are written in the program's (\w+) crates", "crates of the program", lambda: len(crates())),
    ("README.md", r"proves the ([\d,]+) functions that are written", "functions of the program", functions),
    ("README.md", r"\[(\d+) axioms\]", "axioms", said_axioms),
    ("README.md", r"there are (\d+) \[planted bugs\]", "wrong bodies", bodies),
    ("README.md", r"`make test` tries \d+ of the (\d+)", "wrong bodies", bodies),
    ("README.md", r"`make test` tries (\d+)", "wrong bodies of the gate", lambda: bodies("gate")),
    ("README.md", r"for (\d+) a test shows the bug too", "wrong bodies with a test", shown),
    ("docs/DECISIONS.md", r"There are (\w+) crates, and crates of tests", "crates without tests", lambda: len(plain_crates())),
    ("CONTRIBUTING.md", r"the (\w+) crates below it", "crates below the program", lambda: len(crates()) - 1),
    (AXIOMS, r"It counts (\d+) that", "axioms", said_axioms),
    (AXIOMS, r"`bin/cdb.o`, calls (\d+)", "axioms of the table", axioms),
    ("tools/floors.txt", r"^wrong bodies (\d+)", "wrong bodies of the gate", lambda: bodies("gate")),
    *(("docs/C.md", rf"`clib/{it}.c`, (\d+)", f"lines of clib/{it}.c", lambda it=it: lines(f"clib/{it}.c")) for it in ("libcdb", "hashing", "seeking", "making")),
]


def said():
    """Each count: its page, what the page says, what is counted, and how many there are."""
    for page, pattern, what, count in COUNTS:
        found = re.search(pattern, text_of(page), re.MULTILINE)
        yield page, found[1].replace(",", "") if found else "nothing", what, count()


def wrong_counts():
    """The counts that are not those of the sources."""
    for page, number, what, count in said():
        if number.lower() not in (str(count), *WORDS[count : count + 1]):
            yield f"{page}: says {number} for {count} {what}"


if __name__ == "__main__":
    for place, number, kind, counted in said():
        print(f"{place}: {counted} {kind} (says {number})")
