#!/usr/bin/env python3
"""Takes the file that it builds in away from a create that waits for its text, as another create does; or makes
another file beside it.

    tests/cli/taken.py PROGRAM

Without its file the create is to end with `database cannot be renamed`: the old database stays, if there is one,
and so does what has the temporary name now. A fault of the text is to leave both as well. So is a create in place
to end whose file loses its name, and with `-v` it says so; what has the name then stays. What comes under any
other name stays, and the create is done.
"""

import os
import subprocess
import sys
import tempfile

from files import TWO_FILE, TWO_TEXT
from rows import HANGS
from waiting import waits

RENAME = b"cdb: database cannot be renamed\n"
WHY = RENAME + b"cdb: x: its file was replaced or removed\n"
WHY_REPLACED = RENAME + b"cdb: x: its temporary file was replaced\n"
WHY_REMOVED = RENAME + b"cdb: x: its temporary file was removed\n"
FAULT = b"cdb: input 1: byte 34: not a record\n"
OTHER = b"the file of another create"
BAD_TEXT = TWO_TEXT[:-1] + b"*"
APART = ["-c", "x"]
IN_PLACE = ["-c", "-t", "-", "x"]


def write(path, what):
    """Makes a new file of some bytes under a name."""
    with open(path, "xb") as file:
        file.write(what)


def left_by(program, words, text, takes, old):
    """What a create leaves from which the file that it builds in is taken once it is made, beside an old database or
    none."""
    with tempfile.TemporaryDirectory() as folder:
        built = os.path.join(folder, "x" if "-t" in words else "x.tmp")
        if old is not None:
            write(os.path.join(folder, "x"), old)
        how = dict(cwd=folder, stdin=subprocess.PIPE, stderr=subprocess.PIPE)
        with subprocess.Popen([program, *words], **how) as process:
            if not waits(process, built):
                process.kill()
                return None
            takes(built)
            _, errors = process.communicate(text, timeout=HANGS)
        files = {}
        for it in sorted(os.listdir(folder)):
            with open(os.path.join(folder, it), "rb") as file:
                files[it] = file.read()
    return process.returncode, errors, files


def replaced(path):
    """Another create removes the file and makes its own."""
    os.remove(path)
    write(path, OTHER)


def joined(path):
    """Another program makes a file beside it, whose name begins as the database's."""
    write(path.replace(".tmp", ".bit"), OTHER)


def stays(_):
    """Nothing is taken."""


def cases():
    """What each create is called, its words and text, what is taken, the old database, and what is to be left."""
    rows = [
        ("a file that is not taken", TWO_TEXT, stays, 0, b"", {"x": TWO_FILE}),
        ("a file in place of it", TWO_TEXT, replaced, 111, RENAME, {"x.tmp": OTHER}),
        ("no file in place of it", TWO_TEXT, os.remove, 111, RENAME, {}),
        ("a fault, and a file in place of it", BAD_TEXT, replaced, 111, FAULT, {"x.tmp": OTHER}),
        ("a file beside it", TWO_TEXT, joined, 0, b"", {"x": TWO_FILE, "x.bit": OTHER}),
    ]
    for old in (None, b"old"):
        before = {} if old is None else {"x": old}
        for name, text, takes, status, line, left in rows:
            yield f"{name}, over {old}", APART, text, takes, old, (status, line, {**before, **left})
    explained = ["-v", *APART]
    yield "another file, with -v", explained, TWO_TEXT, replaced, b"old", (111, WHY_REPLACED, {"x": b"old", "x.tmp": OTHER})
    yield "no file, with -v", explained, TWO_TEXT, os.remove, b"old", (111, WHY_REMOVED, {"x": b"old"})
    by_name, other = ["-c", "-t", "x", "x"], {"x": OTHER}
    yield "in place", IN_PLACE, TWO_TEXT, stays, b"old", (0, b"", {"x": TWO_FILE})
    yield "in place, another file has the name", IN_PLACE, TWO_TEXT, replaced, b"old", (111, RENAME, other)
    yield "in place, nothing has the name", IN_PLACE, TWO_TEXT, os.remove, b"old", (111, RENAME, {})
    yield "in place, a fault, and another file", IN_PLACE, BAD_TEXT, replaced, b"old", (111, FAULT, other)
    yield "in place by its name", by_name, TWO_TEXT, replaced, b"old", (111, RENAME, other)
    yield "in place, with -v", ["-v", *IN_PLACE], TWO_TEXT, replaced, b"old", (111, WHY, other)


def main():
    if len(sys.argv) != 2:
        sys.exit(__doc__)
    program = os.path.abspath(sys.argv[1])
    passed = failed = 0
    for name, words, text, takes, old, wanted in cases():
        left = left_by(program, words, text, takes, old)
        passed, failed = passed + (left == wanted), failed + (left != wanted)
        if left != wanted:
            print(f"{name}: {left!r:.300}")
    print(f"{passed} passed, {failed} failed")
    sys.exit(1 if failed else 0)


if __name__ == "__main__":
    main()
