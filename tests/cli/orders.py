#!/usr/bin/env python3
"""Runs two creates of one database in each order of their calls on its names, with up to three switches.

    tests/cli/orders.py PROGRAM ORDERS

The second program is orders.c, which says what each order is to leave; it stops the creates at these
calls. Both are made with no temporary file there before, beside an old one, a whole database, and in place;
and one in place beside one that replaces the database, each of them first.
"""

import os
import subprocess
import sys
import tempfile

from files import file_of, text_of

RECORDS = {"old": [(b"old", b"database")], "one": [(b"one", b"1" * 100)], "two": [(b"two", b"2" * 1000)]}
# How each of two creates makes the database, and the file that has the temporary name before.
PAIRS = {
    "no temporary file": ["rr"],
    "an old temporary file": ["rr", "old.cdb"],
    "in place": ["ii"],
    "one in place, and one that replaces it": ["ir"],
    "one that replaces it, and one in place": ["ri"],
}


def fill(folder):
    """Writes the texts and the databases."""
    for name, records in RECORDS.items():
        for ending, what in ((".txt", text_of(records)), (".cdb", file_of(records))):
            with open(os.path.join(folder, name + ending), "wb") as file:
                file.write(what)


def begun(words, part, of, rest):
    """A part of the orders, in a folder of its own."""
    folder = tempfile.TemporaryDirectory()
    fill(folder.name)
    program, orders = words
    given = [orders, program, str(part), str(of), *rest]
    return folder, subprocess.Popen(given, cwd=folder.name, stdout=subprocess.PIPE, text=True)


def counted(words, rest):
    """How many orders passed and failed, and whether each part came to its end."""
    of = len(os.sched_getaffinity(0))
    passed = failed = 0
    for folder, running in [begun(words, part, of, rest) for part in range(1, of + 1)]:
        output, _ = running.communicate()
        lines = output.splitlines()
        for line in lines[:-1]:
            print(line)
        # A part that ends early has failed.
        ends = lines[-1].split() if lines and lines[-1].endswith(" failed") else ["0", "", "1"]
        passed += int(ends[0])
        failed += int(ends[2]) or int(running.returncode != 0)
        folder.cleanup()
    return passed, failed


def main():
    if len(sys.argv) != 3:
        sys.exit(__doc__)
    words = [os.path.abspath(it) for it in sys.argv[1:]]
    passed = failed = 0
    for name, rest in PAIRS.items():
        good, bad = counted(words, rest)
        print(f"{name}: {good + bad} orders, {bad} of them wrong")
        passed, failed = passed + good, failed + bad
    print(f"{passed} passed, {failed} failed")
    sys.exit(1 if failed else 0)


if __name__ == "__main__":
    main()
