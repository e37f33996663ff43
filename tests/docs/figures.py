#!/usr/bin/env python3
"""The figures that README.md and docs/GUIDE.md repeat: each must be the one of its source.

    tests/docs/figures.py     prints each figure with its page and what it must begin

A row of a table that begins as one of docs/PERFORMANCE.md repeats its cells, each up to what the cell there adds. A
figure in the text is one of TIMES or SIZES. No other time or size may be on these pages.
"""

import re

from sources import text_of

PERFORMANCE = "docs/PERFORMANCE.md"
BUILD = "tools/build.py"
README = "README.md"
PAGES = (README, "docs/GUIDE.md")
# Where README.md says how long something takes, and the row of it.
TIMES = {
    r"^make try +# (.*?):": "`make try`, 4 cores",
    r"^make quick +# (.*?):": "`make quick`, 4 cores",
    r"^make +# (.*?):": "`make`, 4 cores",
    r"^make test +# (.*?):": "`make test`, 4 cores",
}
# Where README.md says what a machine must have, and how many of a check's memory, of the disk, and of what the gate
# takes more that is.
SIZES = {
    r"For `make`, (\S+ GB) of memory": (1, 0, 0),
    r"of memory and (\S+ GB) of free disk": (0, 1, 0),
    r"With (\S+ GB) of memory it proves crates side by side": (2, 0, 0),
    r"For `make test`, (\S+ GB) of free disk": (0, 1, 1),
}
# Sizes that are of the format.
OTHER = ("4 GiB",)
FIGURE = re.compile(r"\b\d[\d.,]*(?: to \d+)? (?:minutes?|seconds?|hours?|[KMG]i?B|ms|s)\b")


def rows_of(page):
    """The rows of the tables of a page, each as its cells."""
    lines = re.findall(r"^\| (.*) \|$", text_of(page), re.M)
    return [[it.strip() for it in line.split(" | ")] for line in lines]


def said_in(page, pattern):
    """What a page says at a place, or an empty text."""
    found = re.search(pattern, text_of(page), re.M)
    return found[1] if found else ""


def size_of(checks, disks, more):
    """A size, as README.md says it, by the numbers of tools/build.py."""
    memory, disk, gate = (int(said_in(BUILD, it)) for it in (
        r"^CHECK_MEMORY = (\d+) \* GIB", r"^DISK = ([\d_]+)$", r"^GATE_DISK = ([\d_]+)$",
    ))
    return f"{checks * memory} GB" if checks else f"{(disks * disk + more * gate) / 1e9:.1f} GB"


def repeated():
    """Each figure that is repeated: its page, the figure, and what it must begin."""
    known = {row[0]: row for row in rows_of(PERFORMANCE)}
    for pattern, row in TIMES.items():
        yield README, said_in(README, pattern), known[row][1]
    for pattern, counted in SIZES.items():
        yield README, said_in(README, pattern), size_of(*counted)
    for page in PAGES:
        for row in rows_of(page):
            for said, cell in zip(row, known.get(row[0], ())):
                if re.search(r"\d", said):
                    yield page, said, cell


def wrong_figures():
    """The figures that are not those of their source, and the others."""
    found = {page: set() for page in PAGES}
    for page, said, cell in repeated():
        found[page].add(said)
        if not said or not re.match(rf"{re.escape(said)}(?![\d.])", cell):
            yield f"{page}: says {said or 'nothing'} for {cell}"
    for page in PAGES:
        for figure in FIGURE.findall(text_of(page)):
            if figure not in OTHER and not any(figure in said for said in found[page]):
                yield f"{page}: {figure} is no figure of {PERFORMANCE} or {BUILD}"


if __name__ == "__main__":
    for place, figure, of in repeated():
        print(f"{place}: {figure} ({of})")
