#!/usr/bin/env python3
"""Closes standard streams of a create that warns, where nothing can be opened to hold their places.

    tests/faults/closed.py PROGRAM LIBRARY

The library is refuse.c, built to be loaded ahead of the C library. The first calls of the program open
`/`, then the current folder, then the null device; so many of them are refused, and those that follow.
The database must be the old one or the new one, whatever the streams: a file that got the number of a
stream would have the warnings in it.
"""

import itertools
import os
import sys
import tempfile

import commands  # noqa: F401, which makes the files of tests/cli known
from files import TWO_FILE, file_of, text_of
from refusing import Refusing

PUT = [(b"a", b"1"), (b"b", b"2"), (b"a", b"3")]
OLD, NEW, MADE = TWO_FILE, file_of(PUT), file_of(PUT[:2])
# `/` and the current folder, of which one is enough to hold a place; and most opens that are refused.
FOLDERS = 2
MOST = 5
LAST = 2**63 - 1
# Each set of standard streams.
CLOSED = [it for count in range(4) for it in itertools.combinations(range(3), count)]
WARNING = b"cdb: input 1: record 3: duplicate key\n"
NO_FILE = b"cdb: file cannot be opened\n"
# How many bytes an input is read at once.
WINDOW = 65536
NO_INPUT = b"cdb: input 1: cannot be read\n"


def left_by(program, closed, refused):
    """The status, the lines, the database and the names that a create leaves."""
    with tempfile.TemporaryDirectory() as folder:
        path = os.path.join(folder, "x")
        with open(path, "wb") as file:
            file.write(OLD)
        done, _ = program.run(["-cw", "x"], text_of(PUT), 1, refused, folder, closed)
        with open(path, "rb") as file:
            return done.returncode, done.stderr, file.read(), os.listdir(folder)


def made_by(program, closed, refused):
    """The status, the lines, the database and the names that a create of a file without duplicates leaves."""
    with tempfile.TemporaryDirectory() as folder:
        for name, what in (("x", OLD), ("in", text_of(PUT[:2]))):
            with open(os.path.join(folder, name), "wb") as file:
                file.write(what)
        done, _ = program.run(["-c", "x", "in"], b"", 1, refused, folder, closed)
        with open(os.path.join(folder, "x"), "rb") as file:
            return done.returncode, done.stderr, file.read(), sorted(os.listdir(folder))


def is_made(closed, refused, made):
    """Whether that create may leave this: the new database, whatever is closed, or the old one if no place
    could be held."""
    if refused <= FOLDERS or made[0] == 0:
        return made == (0, b"", MADE, ["in", "x"])
    status, lines, *files = made
    is_told = lines == b"" if 2 in closed else lines.startswith(b"cdb: ") and lines.count(b"\n") == 1
    return status == 111 and is_told and files == [OLD, ["in", "x"]]


def wanted(closed):
    """What is to be left: without its text, or a place for its warning, the old database."""
    if 2 in closed:
        return 111, b"", OLD, ["x"]
    return (111, NO_INPUT, OLD, ["x"]) if 0 in closed else (0, WARNING, NEW, ["x"])


def is_right(closed, refused, left):
    """Whether a create may leave this. If no place could be held, it may end by any fault."""
    if refused <= FOLDERS or left[0] == 0:
        return left == wanted(closed)
    status, lines, *files = left
    is_told = lines == b"" if 2 in closed else lines.startswith(b"cdb: ") and lines.count(b"\n") == 1
    return status == 111 and is_told and files == [OLD, ["x"]]


def is_given_up(program):
    """Whether an input that got the number of standard input, which is closed, is given up: else what is
    behind its first text would be read as standard input."""
    with tempfile.TemporaryDirectory() as folder:
        text = text_of(PUT).ljust(WINDOW, b"#") + text_of(PUT)
        for name, what in (("x", OLD), ("in", text)):
            with open(os.path.join(folder, name), "wb") as file:
                file.write(what)
        done, _ = program.run(["-c", "x", "in", "-"], b"", 1, FOLDERS + 1, folder, (0,))
        with open(os.path.join(folder, "x"), "rb") as file:
            return (done.returncode, done.stderr, file.read()) == (111, NO_FILE, OLD)


def is_held(path, library, closed):
    """Whether the current folder holds the places of the streams that are closed if `/` cannot be opened: a folder is neither
    read nor written, as they are. The null device is not opened."""
    with tempfile.TemporaryDirectory() as folder:
        refusing = Refusing(path, library, "calls", ONLY="open", NAME="/")
        _, calls = refusing.trace(["-V"], b"", 1, LAST, folder, closed=closed)
    opens = [(it.name, it.answer) for it in calls if it.what == "open"]
    folders = [(".", number) for number in closed]
    return [it for it in opens if it[0] != "/"][: len(closed)] == folders and {name for name, _ in opens} == {"/", "."}


def main():
    if len(sys.argv) != 3:
        sys.exit(__doc__)
    path, library = map(os.path.abspath, sys.argv[1:])
    program = Refusing(path, library, "calls", ONLY="open")
    passed = failed = 0
    for closed, refused in itertools.product(CLOSED, range(MOST + 1)):
        left = left_by(program, closed, refused)
        if is_right(closed, refused, left):
            passed += 1
        else:
            failed += 1
            print(f"closed {closed}, {refused} opens refused: {left!r:.200}")
        made = made_by(program, closed, refused)
        if is_made(closed, refused, made):
            passed += 1
        else:
            failed += 1
            print(f"closed {closed}, {refused} opens refused, a file's records: {made!r:.200}")
    rows = {"an input is not read as standard input": is_given_up(program)}
    for closed in CLOSED:
        rows[f"closed {closed}, and / cannot be opened"] = is_held(path, library, closed)
    for what in (what for what, holds in rows.items() if not holds):
        print(f"not so: {what}")
    passed, failed = passed + sum(rows.values()), failed + len(rows) - sum(rows.values())
    print(f"{passed} passed, {failed} failed")
    sys.exit(1 if failed else 0)


if __name__ == "__main__":
    main()
