#!/usr/bin/env python3
"""Looks at what a create syncs, and when.

    tests/faults/syncs.py PROGRAM LIBRARY

The library is refuse.c, built to be loaded ahead of the C library, which notes each call. A create
writes the temporary file, and once it is whole gives it its permissions, syncs it with these, renames it,
and then syncs the folder of the database's name and no other. If its owner may not write it then, it is
synced before too. In place it writes the file, and then syncs it. It makes no more of these calls.
"""

import os
import sys
import tempfile

import commands  # noqa: F401, which makes the files of tests/cli known
from files import TWO_FILE, TWO_TEXT
from refusing import Refusing

CHANGES = ("pwrite", "write", "cut")
CALLS = (*CHANGES, "allow", "sync", "datasync", "rename")
MASK = 0o022
# With this one a new file is for this user alone, as the temporary file is.
PRIVATE_MASK = 0o077
# With this one its owner may not write it.
READ_MASK = 0o222

# The words of each create, with the database and its folder; the text is on standard input.
CREATES = {
    "a name": (["-c", "x"], "x", "."),
    "a name in a folder": (["-c", "one/x"], "one/x", "one"),
    "a name in a folder of a folder": (["-c", "one/in/x"], "one/in/x", "one/in"),
    "a temporary file in another folder": (["-c", "-t", "two/y", "one/x"], "one/x", "one"),
    "a temporary file in the folder above": (["-c", "-t", "y", "one/x"], "one/x", "one"),
    "a database in the folder above": (["-c", "-t", "one/y", "x"], "x", "."),
}


def traced(program, words, folder, mask):
    """The status of a create, and its calls that change a file or its name: which it was, and the
    file's number."""
    done, calls = program.trace(words, TWO_TEXT, folder=folder, mask=mask)
    made = [(it.what, it.file) for it in calls if it.answer >= 0 and it.what in CALLS]
    return done.returncode, made


def wrong_with(program, words, database, folder_of, mask):
    """What is wrong with a create, or None."""
    with tempfile.TemporaryDirectory() as folder:
        for name in ("one", "two", "one/in"):
            os.mkdir(os.path.join(folder, name))
        status, calls = traced(program, words, folder, mask)
        path = os.path.join(folder, database)
        with open(path, "rb") as file:
            if status != 0 or file.read() != TWO_FILE:
                return f"status {status}, or another file"
        new, around = os.stat(path).st_ino, os.stat(os.path.join(folder, folder_of)).st_ino
    is_in_place = "-t" in words and "-" in words
    sealed = [("sync", new)]
    if not is_in_place:
        before = [("sync", new)] if mask == READ_MASK else []
        sealed = [*before, ("allow", new), ("sync", new), ("rename", new), ("sync", around)]
    begin = len(calls) - len(sealed)
    changes = [it for it in calls[:begin] if it[0] not in CHANGES or it[1] != new]
    if changes or calls[begin:] != sealed or begin <= 0:
        return f"{calls} and not at last {sealed}"
    return None


def main():
    if len(sys.argv) != 3:
        sys.exit(__doc__)
    program = Refusing(*map(os.path.abspath, sys.argv[1:]))
    creates = [(name, *it, MASK) for name, it in CREATES.items()]
    creates += [(f"{name}, for this user alone", *it, PRIVATE_MASK) for name, it in CREATES.items()]
    creates += [(f"{name}, which nobody may write", *it, READ_MASK) for name, it in CREATES.items()]
    creates.append(("in place", ["-c", "-t", "-", "x"], "x", ".", MASK))
    wrong = 0
    for name, words, database, folder, mask in creates:
        fault = wrong_with(program, words, database, folder, mask)
        wrong += fault is not None
        if fault is not None:
            print(f"{name}: {fault}")
    print(f"{len(creates) - wrong} passed, {wrong} failed")
    sys.exit(1 if wrong else 0)


if __name__ == "__main__":
    main()
