#!/usr/bin/env python3
"""Kills a create of 200,000 records at ten moments, and looks at what it leaves; then one that amends
the database of as many other records.

    tests/cli/kills.py PROGRAM

At each moment one more tenth of the text was taken. The old database is to stand as it was; at the
last moment, when all of the text was taken, it is the old one or the new one. A create that follows
is to leave the new one, and no other file.
"""

import os
import signal
import subprocess
import sys
import tempfile

from files import TWO_FILE, file_of, text_of
from rows import HANGS

MOMENTS = 10
RECORDS = [(b"key%d" % n, b"value %d" % n) for n in range(200_000)]


def kill_after(words, folder, text):
    """Kills a create that has taken a text whose end has not come."""
    with subprocess.Popen(words, cwd=folder, stdin=subprocess.PIPE) as process:
        process.stdin.write(text)
        process.stdin.flush()
        process.send_signal(signal.SIGKILL)
        process.wait()


def read(folder, name):
    """The bytes of a file."""
    with open(os.path.join(folder, name), "rb") as file:
        return file.read()


def kill_each(words, old, new, text):
    """How many of the moments, and of the create that follows, left something else."""
    failed = 0
    with tempfile.TemporaryDirectory() as folder:
        for moment in range(1, MOMENTS + 1):
            with open(os.path.join(folder, "x"), "wb") as file:
                file.write(old)
            kill_after(words, folder, text[: len(text) * moment // MOMENTS])
            left = read(folder, "x")
            if left != old and (moment < MOMENTS or left != new):
                failed += 1
                print(f"moment {moment}: {len(left)} bytes that are neither database")
        with open(os.path.join(folder, "x"), "wb") as file:
            file.write(old)
        done = subprocess.run(words, cwd=folder, input=text, timeout=HANGS)
        if done.returncode != 0 or read(folder, "x") != new or os.listdir(folder) != ["x"]:
            failed += 1
            print("a create after the killed ones left something else")
    return failed


def main():
    if len(sys.argv) != 2:
        sys.exit(__doc__)
    program = os.path.abspath(sys.argv[1])
    text = text_of(RECORDS)
    base = [(b"base%d" % n, value) for n, (_, value) in enumerate(RECORDS)]
    failed = kill_each([program, "-c", "x"], TWO_FILE, file_of(RECORDS), text)
    amended = file_of([*base, *RECORDS])
    failed += kill_each([program, "-c", "-b", "x", "x"], file_of(base), amended, text)
    passed = 2 * (MOMENTS + 1) - failed
    print(f"{passed} passed, {failed} failed")
    sys.exit(1 if failed else 0)


if __name__ == "__main__":
    main()
