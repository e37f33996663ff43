#!/usr/bin/env python3
"""Kills a create once each of its calls of the system is made, and looks at what it leaves.

    tests/faults/killed.py PROGRAM LIBRARY

The library is refuse.c, built to be loaded ahead of the C library. The database is the old one with its
permissions, or the new one with those that it is to have. A temporary file is open to this user alone
until it is whole; if there was no database, an empty one may show the permissions of a new one. A create that
follows leaves the new database, and no other file.
"""

import os
import signal
import tempfile

import commands  # noqa: F401, which makes the files of tests/cli known
from files import HUGE, ONE_FILE, file_of, text_of
from refusing import Refusing, try_each

TEXT, FILE = text_of(HUGE), file_of(HUGE)
PRIVATE = 0o600
MODES = (0o600, 0o640, 0o644, 0o444)
MASKS = (0o022, 0o027, 0o077)


def states():
    """The permissions of the old database, or None, the mask, and what has the temporary name."""
    return [(mode, 0o022, None) for mode in MODES] + [(0o640, 0o022, b"old")] + [(None, mask, None) for mask in MASKS]


def read(path):
    """The bytes of a file and its permissions, or None if it is not there."""
    if not os.path.lexists(path):
        return None
    with open(path, "rb") as file:
        return file.read(), os.lstat(path).st_mode & 0o777


def place(folder, mode, temporary):
    """Makes what is there before, and gives what the database is then."""
    name = os.path.join(folder, "x")
    for path, what in ((name, ONE_FILE if mode is not None else None), (name + ".tmp", temporary)):
        if what is not None:
            with open(path, "wb") as file:
                file.write(what)
    if mode is not None:
        os.chmod(name, mode)
    return read(name)


def run(path, library, state, number):
    """What is wrong with what a create leaves that is killed after a call, or None, and whether it was."""
    mode, mask, temporary = state
    new = FILE, 0o666 & ~mask if mode is None else mode
    with tempfile.TemporaryDirectory() as folder:
        name = os.path.join(folder, "x")
        old = place(folder, mode, temporary)
        killing = Refusing(path, library, "calls", ACT="kill")
        done, _ = killing.trace(["-c", "x"], TEXT, number, number, folder, mask)
        left, beside = read(name), read(name + ".tmp")
        following, _ = Refusing(path, library, "calls").trace(["-c", "x"], TEXT, folder=folder, mask=mask)
        after, names = read(name), os.listdir(folder)
    is_killed = done.returncode == -signal.SIGKILL
    if left not in (old, new) or not is_killed and (done.returncode != 0 or left != new):
        return f"the database is {told(left)}, status {done.returncode}", is_killed
    shows = (b"", new[1]) if mode is None else None
    if beside is not None and beside[0] != temporary and beside[1] != PRIVATE and beside not in (new, shows):
        return f"the temporary file is {told(beside)}", is_killed
    if (following.returncode, after, names) != (0, new, ["x"]):
        return f"the next create answers {following.returncode}, and leaves {names}", is_killed
    return None, is_killed


def told(file):
    """A file in a few words: how long it is, and its permissions."""
    return "not there" if file is None else f"{len(file[0])} bytes of mode {file[1]:o}"


def kill_each(path, library, state):
    """How many kills there were, and what is wrong of each. The last run comes to its end."""
    wrong, number, is_killed = [], 0, True
    while is_killed:
        number += 1
        fault, is_killed = run(path, library, state, number)
        if fault is not None:
            wrong.append(f"after call {number}: {fault}")
    return number, wrong


def line_of(state, count, wrong):
    """How many kills there were of a create, and how many are wrong."""
    mode, mask, temporary = state
    old = "no old database" if mode is None else f"an old one of mode {mode:o}"
    beside = "" if temporary is None else ", beside a temporary file"
    return f"{old}, by {mask:o}{beside}: {count} kills, {wrong} wrong"


def main():
    try_each(__doc__, kill_each, states(), line_of)


if __name__ == "__main__":
    main()
