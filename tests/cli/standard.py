#!/usr/bin/env python3
"""Makes databases where a standard stream is a file that the create would lose.

    tests/cli/standard.py PROGRAM

Standard input that is the file of the database in place, or that of the temporary name, is not emptied or
removed. A link to a standard stream, as `/dev/stdout` is one, is not replaced. Of a terminal that goes on after its
end nothing more is read.
"""

import os
import pty
import subprocess
import sys
import tempfile

from files import ONE_FILE, TWO_FILE, TWO_TEXT
from rows import HANGS

OPEN = b"cdb: file cannot be opened\n"
RENAME = b"cdb: database cannot be renamed\n"
IN_PLACE = ["-c", "-t", "-", "x"]


def run(program, folder, words, given):
    """The status and the line of a create that reads a file, or a text through a pipe."""
    how = dict(cwd=folder, stderr=subprocess.PIPE, timeout=HANGS, check=False)
    if isinstance(given, bytes):
        done = subprocess.run([program, *words], input=given, **how)
    else:
        with open(os.path.join(folder, given), "rb") as file:
            done = subprocess.run([program, *words], stdin=file, **how)
    return done.returncode, done.stderr


def left_by(program, files, words, given):
    """The status and the line of a create, and the files that it leaves."""
    with tempfile.TemporaryDirectory() as folder:
        for name, what in files.items():
            with open(os.path.join(folder, name), "wb") as file:
                file.write(what)
        status, line = run(program, folder, words, given)
        left = {}
        for name in os.listdir(folder):
            with open(os.path.join(folder, name), "rb") as file:
                left[name] = file.read()
    return status, line, left


def linked(program, target):
    """The status and the line of a create in place of a link, what it leads to then, and what standard output
    has, which is a file."""
    with tempfile.TemporaryDirectory() as folder:
        path = os.path.join(folder, "x")
        os.symlink(target, path)
        with tempfile.TemporaryFile() as output:
            how = dict(cwd=folder, input=TWO_TEXT, stdout=output, stderr=subprocess.PIPE, timeout=HANGS, check=False)
            done = subprocess.run([program, "-c", "x"], **how)
            output.seek(0)
            written = output.read()
        found = os.readlink(path) if os.path.islink(path) else None
        names = os.listdir(folder)
    return done.returncode, done.stderr, found, written, names


def typed(program, keys):
    """The status and the line of a create of two maps of a terminal on which keys are pressed, and the map that it
    leaves."""
    with tempfile.TemporaryDirectory() as folder:
        terminal, stream = pty.openpty()
        try:
            os.write(terminal, keys)
            how = dict(cwd=folder, stdin=stream, stderr=subprocess.PIPE, timeout=HANGS, check=False)
            done = subprocess.run([program, "-c", "-m", "x", "-", "-"], **how)
        finally:
            os.close(stream)
            os.close(terminal)
        dump = subprocess.run([program, "-d", "-m", "x"], cwd=folder, capture_output=True, timeout=HANGS, check=False)
    return done.returncode, done.stderr, dump.stdout


def rows(program):
    """Each row: its name, what came, and what is wanted."""
    old, kept = {"x": ONE_FILE}, {"x": TWO_TEXT}
    lost = {"x": ONE_FILE, "x.tmp": TWO_TEXT}
    cases = [
        ("in place, the file itself", kept, IN_PLACE, "x", (111, OPEN, kept)),
        ("in place, the file itself by -", kept, [*IN_PLACE, "-"], "x", (111, OPEN, kept)),
        ("in place, the file itself, which is not read", {**kept, "in": TWO_TEXT}, [*IN_PLACE, "in"], "x",
         (0, b"", {"x": TWO_FILE, "in": TWO_TEXT})),
        ("in place, another file", {**old, "in": TWO_TEXT}, IN_PLACE, "in", (0, b"", {"x": TWO_FILE, "in": TWO_TEXT})),
        ("in place, a pipe", old, IN_PLACE, TWO_TEXT, (0, b"", {"x": TWO_FILE})),
        ("the file of the temporary name", lost, ["-c", "x"], "x.tmp", (111, OPEN, lost)),
        ("the file of the temporary name by -", lost, ["-c", "x", "-"], "x.tmp", (111, OPEN, lost)),
        ("the file of the temporary name, which is not read", {**lost, "in": TWO_TEXT}, ["-c", "x", "in"], "x.tmp",
         (0, b"", {"x": TWO_FILE, "in": TWO_TEXT})),
        ("the old database", kept, ["-c", "x"], "x", (0, b"", {"x": TWO_FILE})),
        ("a pipe beside an old temporary file", lost, ["-c", "x"], TWO_TEXT, (0, b"", {"x": TWO_FILE})),
    ]
    for name, files, words, given, wanted in cases:
        yield name, left_by(program, files, words, given), wanted
    for number in (0, 1, 2):
        target = f"/proc/self/fd/{number}"
        yield f"a link to {target}", linked(program, target), (111, RENAME, target, b"", ["x"])
    yield "a link to a link to standard output", linked(program, "/dev/stdout"), (111, RENAME, "/dev/stdout", b"", ["x"])
    yield "a link to nothing", linked(program, "y"), (0, b"", None, b"", ["x"])
    yield "a terminal that goes on", typed(program, b"one 1\n\x04two 2\n\x04"), (0, b"", b"one 1\n")


def main():
    if len(sys.argv) != 2:
        sys.exit(__doc__)
    program = os.path.abspath(sys.argv[1])
    wrong = 0
    came = list(rows(program))
    for name, got, wanted in came:
        if got != wanted:
            wrong += 1
            print(f"{name}: {got!r:.300}")
    print(f"{len(came) - wrong} passed, {wrong} failed")
    sys.exit(1 if wrong else 0)


if __name__ == "__main__":
    main()
