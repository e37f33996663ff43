#!/usr/bin/env python3
"""Counts the asks of the program for memory, and their bytes.

    tests/faults/memory.py PROGRAM LIBRARY

The library is refuse.c, built to be loaded ahead of the C library; it refuses nothing here. The two
runs in a row of ALIKE make as many asks, of as many bytes. Each run of BOUNDED makes no more asks and
asks for no more bytes than its row says. A vector that grows asks for twice as much each time, so
all its asks together are for less than four times what it holds in the end. Of the two runs in a row
of FURTHER the second goes on where the first ends, and asks for no more bytes than the row says for
what it does there. Each run of LIMITED succeeds with no more memory at once than its row says.
"""

import os
import resource
import subprocess
import sys
import tempfile

from commands import Command
from refusing import Refusing

from files import file_of, text_of
from rows import HANGS

MILLION = 1_000_000
LONG = 64 * MILLION
# Two windows of 64 KiB, and what the program asks for before it does anything.
SMALL = MILLION


def with_value(size):
    """A database with a value of so many bytes."""
    return file_of([(b"key", b"v" * size), (b"one", b"Hello")])


def records(count):
    """So many records, with keys and values of the same lengths."""
    return [(b"key %07d" % n, b"v" * 100) for n in range(count)]


def words(command, *names):
    """A command on the file x, with names behind it."""
    return [command, "x", *names]


def of_file(given, file):
    """A run that reads the file x."""
    return Command(given, b"", {"x": file})


def of_keys(count, file):
    """A query of the keys of the first records of the file x."""
    return Command(["-q", "-i", "x"], b"".join(b"+%d:%s\n" % (len(key), key) for key, _ in records(count)) + b"\n", {"x": file})


def of_others(count):
    """A difference of two files of so many records, each of which has another value in the second."""
    others = [(key, value + b"w") for key, value in records(count)]
    return Command(["-D", "x", "y"], b"", {"x": file_of(records(count)), "y": file_of(others)})


def of_two(file):
    """A difference of a file and an equal one."""
    return Command(["-D", "x", "y"], b"", {"x": file, "y": file})


# A window is as long as the first number says until a read fills it, and then as the second says. It goes with its input:
# all at once would be 13 million bytes.
FIRST, WINDOW = 4096, 65536
INPUTS = [f"input{n}" for n in range(200)]
FILLING = text_of([(b"key", b"v" * 2 * FIRST)])
SHORT_VALUE, LONG_VALUE = with_value(1), with_value(LONG)
FEW, MANY, MORE = file_of(records(2_000)), file_of(records(20_000)), file_of(records(100_000))
# What does not depend on the length of a value, or on how many records there are.
ALIKE = {
    "a list reads no value": [of_file(words("-l"), it) for it in (SHORT_VALUE, LONG_VALUE)],
    "a list of standard input": [Command(["-l"], it) for it in (SHORT_VALUE, LONG_VALUE)],
    "a check keeps no value": [of_file(words("-k"), it) for it in (SHORT_VALUE, LONG_VALUE)],
    "statistics keep nothing": [of_file(words("-s"), it) for it in (SHORT_VALUE, LONG_VALUE)],
    "a query copies its value": [of_file(words("-q", "key"), it) for it in (SHORT_VALUE, LONG_VALUE)],
    "a dump keeps one record": [of_file(words("-d"), it) for it in (FEW, MANY)],
    "a list keeps one key": [of_file(words("-l"), it) for it in (FEW, MANY)],
    "a difference keeps no value": [of_two(it) for it in (SHORT_VALUE, LONG_VALUE)],
    "a difference of many records": [of_two(it) for it in (FEW, MANY)],
    "statistics of many records": [of_file(words("-s"), it) for it in (FEW, MANY)],
    "a few keys of a file": [of_keys(10, it) for it in (FEW, MORE)],
    "many keys of a file": [of_keys(2_000, it) for it in (FEW, MORE)],
    "a difference of other values": [of_others(it) for it in (200, 20_000)],
}
# A roll grows by a quarter, so that all that it asks for is so many times as much as it has in the end.
GROWN = 7
# A run, the most asks, and the most bytes.
BOUNDED = {
    "a list": (of_file(words("-l"), LONG_VALUE), 200, SMALL),
    "a dump of a long value": (of_file(words("-d"), LONG_VALUE), 200, 4 * LONG + SMALL),
    "a check of many records": (of_file(words("-k"), MANY), 10_000, 4 * 13 * 20_000 + SMALL),
    "a query of many keys": (of_keys(2_000, FEW), 200, 3 * WINDOW),
    "a load of a short database": (Command(["-s"], SHORT_VALUE), 200, SMALL),
    "a load of a long database": (Command(["-s"], LONG_VALUE), 200, 4 * LONG + SMALL),
    "a create of many records": (Command(["-c", "x"], text_of(records(300_000))), 10_000, GROWN * 17 * 300_000 + SMALL),
    "a create that looks for keys": (Command(["-cu", "x"], text_of(records(20_000))), 10_000, 4 * 20 * 20_000 + 2 * SMALL),
    "a create of many inputs": (Command(["-c", "x", *INPUTS], b"", dict.fromkeys(INPUTS, b"\n")), 10_000, FIRST * len(INPUTS) + SMALL),
}
# A run that ends by a fault, one that goes on there, and the most bytes that it asks for behind it. A
# finish has room for the slots of one table, here 374 of 32 bytes, and not for all 40,000; and for the
# entries of 32 tables, an eighth of all, of 8 bytes.
FURTHER = {
    "the finish of a create": (
        Command(["-c", "x"], text_of(records(20_000))[:-1]),
        Command(["-c", "x"], text_of(records(20_000))),
        40_000,
    ),
}
# A run, and the most memory that it may have at once, the program and its library too.
LIMITED = {
    "a create of many inputs": (Command(["-c", "x", *INPUTS], b"", dict.fromkeys(INPUTS, FILLING)), 8 * MILLION),
}


def fill(folder, command):
    """Writes the files of a command."""
    for name, what in command.files.items():
        with open(os.path.join(folder, name), "wb") as file:
            file.write(what)


def measure(program, command, status=0):
    """How many asks a run makes, of how many bytes, or how else it ended than by this status."""
    with tempfile.TemporaryDirectory() as folder:
        fill(folder, command)
        done, asks, size = program.measure(command.words, command.stdin, folder=folder)
    if done.returncode != status:
        return done.returncode, done.stderr
    return asks, size


def compare(program, name):
    """Says what both runs of a row ask for, and whether it is the same."""
    before, after = [measure(program, command) for command in ALIKE[name]]
    print(f"{name}: {before[0]} asks of {before[1]} bytes, and {after[0]} of {after[1]}")
    return before == after and before[0] > 0


def bound(program, name):
    """Says what a run asks for, and whether that is no more than its row says."""
    command, most_asks, most_bytes = BOUNDED[name]
    asks, size = measure(program, command)
    print(f"{name}: {asks} asks of {size} bytes, at most {most_asks} of {most_bytes}")
    return isinstance(size, int) and asks <= most_asks and size <= most_bytes


def further(program, name):
    """Says what the second run of a row asks for beyond the first, and whether that is no more than
    its row says."""
    before, after, most_bytes = FURTHER[name]
    _, ended = measure(program, before, 111)
    _, size = measure(program, after)
    print(f"{name}: {ended} bytes before it, and {size} with it, at most {most_bytes} more")
    return isinstance(ended, int) and isinstance(size, int) and size - ended <= most_bytes


def within(path, name):
    """Says whether a run succeeds with no more memory at once than its row says."""
    command, most_bytes = LIMITED[name]
    with tempfile.TemporaryDirectory() as folder:
        fill(folder, command)
        done = subprocess.run(
            [path, *command.words],
            cwd=folder,
            input=command.stdin,
            capture_output=True,
            preexec_fn=lambda: resource.setrlimit(resource.RLIMIT_AS, (most_bytes, most_bytes)),
            timeout=HANGS,
        )
    print(f"{name}: status {done.returncode} in {most_bytes} bytes at once")
    return done.returncode == 0


def main():
    if len(sys.argv) != 3:
        sys.exit(__doc__)
    # A crash is to leave no file.
    resource.setrlimit(resource.RLIMIT_CORE, (0, 0))
    program = Refusing(os.path.abspath(sys.argv[1]), os.path.abspath(sys.argv[2]))
    passed = [compare(program, name) for name in ALIKE] + [bound(program, name) for name in BOUNDED]
    passed += [further(program, name) for name in FURTHER]
    passed += [within(program.program, name) for name in LIMITED]
    print(f"{sum(passed)} passed, {len(passed) - sum(passed)} failed")
    sys.exit(0 if all(passed) else 1)


if __name__ == "__main__":
    main()
