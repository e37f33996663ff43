#!/usr/bin/env python3
"""Runs the commands that read no value on databases with one of more than 1 GB, and of nearly 4 GiB, looks
all keys of files of 60 MB up in little memory, and creates a database with a value of 64 MiB, of a text and of a
base, in no more.

    tests/cli/large.py PROGRAM

The files of one value are sparse: it is of zeros, which take no room. The peak of memory is the one that the
system shows of a program that waits for its output to be read, shortly before its end.
"""

import os
import random
import subprocess
import sys
import tempfile
import time

from cases import statistics
from files import file_of, hash_of, text_of, words
from rows import HANGS

KEY = b"one"
HASH = hash_of(KEY)
# The greatest has its table's end at the greatest place.
SIZES = (1_200_000_000, 2**32 - 1 - 16 - 2048 - 8 - len(KEY))
# How many records two more files have, how long a value is, and the most memory that a run may take.
RECORDS, LENGTH = 30_000, 2_000
PEAK = 4 << 20
# More than a pipe and the program's buffer hold, so that the program still waits.
LEFT = 1 << 20
# How many bytes the value of a create has.
LONG = 64 << 20


def make(path, size):
    """Makes a database of the key with a value of so many zeros."""
    table = 2048 + 8 + len(KEY) + size
    head = [words(table + 16 if number > HASH % 256 else table, 2 if number == HASH % 256 else 0) for number in range(256)]
    slots = [words(0, 0), words(0, 0)]
    slots[(HASH >> 8) % 2] = words(HASH, 2048)
    with open(path, "wb") as file:
        file.write(b"".join(head) + words(len(KEY), size) + KEY)
        file.seek(table)
        file.write(b"".join(slots))


def left_by(program, given, folder):
    """The status, the output and the lines of a command."""
    done = subprocess.run([program, *given], cwd=folder, capture_output=True, timeout=HANGS, check=False)
    return done.returncode, done.stdout, done.stderr


def commands_of(size):
    """The commands, with what they are to answer."""
    lengths = f"{size}/{size}/{size}"
    return {
        ("-k", "x"): (0, b"", b""),
        ("-s", "x"): (0, statistics(1, "3/3/3", lengths, "1/1/0", "2/2/2", [1]), b""),
        ("-q", "-n", "2", "x", "one"): (100, b"", b""),
        ("-q", "x", "two"): (100, b"", b""),
    }


def records(letter):
    """Records whose values have this letter."""
    return [(b"key %05d" % number, letter * LENGTH) for number in range(RECORDS)]


def make_many(folder):
    """Makes two databases of many records with other values, and a list of their keys in no order. Answers
    the commands that look all of them up, with how many bytes they write."""
    keys = [key for key, _ in records(b"")]
    removals = b"".join(b"-%d:%s\n" % (len(key), key) for key in keys)
    random.Random(1).shuffle(keys)
    asked = b"".join(b"+%d:%s\n" % (len(key), key) for key in keys) + b"\n"
    files = {"x": file_of(records(b"a")), "y": file_of(records(b"b")), "keys": asked}
    for name, what in files.items():
        with open(os.path.join(folder, name), "wb") as file:
            file.write(what)
    text = len(text_of(records(b"a")))
    return {("-q", "-i", "x", "keys"): text, ("-D", "x", "y"): len(removals) + text}


def size_of(path):
    """The size of a file, 0 if there is none."""
    return os.path.getsize(path) if os.path.exists(path) else 0


def peak_so_far(running):
    """The peak of memory of a program that has not ended."""
    with open(f"/proc/{running.pid}/status", encoding="ascii") as status:
        return next(int(line.split()[1]) << 10 for line in status if line.startswith("VmHWM:"))


def peak_of(program, given, folder, size):
    """How a command that writes so many bytes ended, how many it wrote, and its peak of memory."""
    with subprocess.Popen([program, *given], cwd=folder, stdout=subprocess.PIPE) as running:
        written = len(running.stdout.read(size - LEFT))
        peak = peak_so_far(running)
        written += len(running.stdout.read())
    return running.returncode, written, peak


def looks_within(program):
    """Whether each command that looks many keys up writes all, in as much memory as it may take."""
    with tempfile.TemporaryDirectory() as folder:
        for given, size in make_many(folder).items():
            status, written, peak = peak_of(program, given, folder, size)
            print(f"{' '.join(given)} takes {peak >> 10} KiB")
            yield (status, written) == (0, size) and peak <= PEAK


def creates_within(program):
    """Whether a create whose input is a pipe takes little memory for a value of many bytes."""
    with tempfile.TemporaryDirectory() as folder:
        with subprocess.Popen([program, "-c", "x"], cwd=folder, stdin=subprocess.PIPE) as running:
            running.stdin.write(b"+3,%d:one->" % LONG)
            for _ in range(LONG // LEFT):
                running.stdin.write(bytes(LEFT))
            running.stdin.flush()
            peak = peak_so_far(running)
            running.stdin.write(b"\n\n")
        print(f"a create takes {peak >> 10} KiB")
        made = os.path.getsize(os.path.join(folder, "x"))
    return (running.returncode, made) == (0, 2048 + 8 + len(KEY) + LONG + 16) and peak <= PEAK


def amends_within(program):
    """Whether a create takes little memory for a value of many bytes of its base."""
    with tempfile.TemporaryDirectory() as folder:
        make(os.path.join(folder, "x"), LONG)
        made = os.path.join(folder, "y")
        with subprocess.Popen([program, "-c", "-b", "x", "y"], cwd=folder, stdin=subprocess.PIPE) as running:
            until = time.monotonic() + HANGS
            # The base is copied before the input is read.
            while size_of(made + ".tmp") < LONG - LEFT and time.monotonic() < until:
                time.sleep(0.01)
            peak = peak_so_far(running)
            running.stdin.write(b"\n")
        print(f"a create of a base takes {peak >> 10} KiB")
        return (running.returncode, size_of(made)) == (0, size_of(os.path.join(folder, "x"))) and peak <= PEAK


def main():
    if len(sys.argv) != 2:
        sys.exit(__doc__)
    program = os.path.abspath(sys.argv[1])
    passed = failed = 0
    for size in SIZES:
        with tempfile.TemporaryDirectory() as folder:
            make(os.path.join(folder, "x"), size)
            for given, wanted in commands_of(size).items():
                left = left_by(program, given, folder)
                passed, failed = passed + (left == wanted), failed + (left != wanted)
                if left != wanted:
                    print(f"a value of {size} bytes, {' '.join(given)}: {left!r:.300}")
    for held in (*looks_within(program), creates_within(program), amends_within(program)):
        passed, failed = passed + held, failed + (not held)
    print(f"{passed} passed, {failed} failed")
    sys.exit(1 if failed else 0)


if __name__ == "__main__":
    main()
