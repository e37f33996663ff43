#!/usr/bin/env python3
"""Lets reads and writes take a part of their bytes, and interrupts each of them.

    tests/faults/parts.py PROGRAM LIBRARY

The library is refuse.c, built to be loaded ahead of the C library. Each run of commands.py must leave
the same as with whole reads and writes: its status, its output and its lines, and its files. A call on a database that is
interrupted 1000 times in a row is made again, and one more time fails the run.
"""

import errno
import os
import tempfile

from commands import COMMANDS, KEPT, Command
from refusing import Refusing, try_each

from files import FOUR_FILE, TWO_FILE, TWO_TEXT

CALLS = "read,write,pread,pwrite"
MOST = 4096
# Runs of few bytes, whose reads and writes take one byte each.
SMALL = {
    "a small create": Command(["-c", "x"], TWO_TEXT, KEPT),
    "a small create on output": Command(["-c", "-"], TWO_TEXT),
    "a small create with a warning": Command(["-cw", "x"], TWO_TEXT[:-1] + TWO_TEXT, KEPT),
    "a small create in place": Command(["-c", "-t", "-", "x"], TWO_TEXT, KEPT),
    "a small amending": Command(["-c", "-b", "base", "x"], b"-3:one\n\n", {**KEPT, "base": TWO_FILE}),
    "a small query": Command(["-q", "x", "a"], b"", {"x": FOUR_FILE}),
    "a small query of keys": Command(["-q", "-i", "x"], b"+1:a\n+1:c\n\n", {"x": FOUR_FILE}),
    "a small dump": Command(["-d"], TWO_FILE),
    "a small list": Command(["-l", "x"], b"", {"x": TWO_FILE}),
    "small statistics": Command(["-s"], FOUR_FILE),
    "a small difference": Command(["-D", "x", "y"], b"", {"x": TWO_FILE, "y": FOUR_FILE}),
    "a small check": Command(["-k", "x"], b"", {"x": FOUR_FILE}),
    "a faulty text": Command(["-c", "x"], TWO_TEXT[:-1] + b"*", KEPT),
    "help": COMMANDS["help"],
    "version": COMMANDS["version"],
    "bad words": COMMANDS["bad words"],
}
RUNS = COMMANDS | SMALL
# How often in a row a call on a database may be interrupted, and a run whose first such call is.
PATIENCE = 1000
PATIENT = {"pwrite": "a small create", "pread": "a small query"}
GIVEN_UP = (111, b"", b"cdb: database cannot be read or written\n")


def left_by(program, command, first=0, last=0):
    """What a run leaves, and how many of the calls it made."""
    with tempfile.TemporaryDirectory() as folder:
        for name, what in command.files.items():
            with open(os.path.join(folder, name), "wb") as file:
                file.write(what)
        done, calls = program.run(command.words, command.stdin, first, last, folder)
        files = {}
        for name in os.listdir(folder):
            with open(os.path.join(folder, name), "rb") as file:
                files[name] = file.read()
    return (done.returncode, done.stdout, done.stderr, files), calls


def run_each(path, library, name):
    """Takes parts of the calls of a run, and interrupts each of them."""
    command = RUNS[name]
    interrupting = Refusing(path, library, "calls", ONLY=CALLS, ERROR=errno.EINTR)
    free, calls = left_by(interrupting, command)
    most = 1 if name in SMALL else MOST
    ways = {f"{most} bytes at once": (Refusing(path, library, "calls", ONLY=CALLS, SHORT=most), 0)}
    ways |= {f"call {number} interrupted": (interrupting, number) for number in range(1, calls + 1)}
    wrong = []
    for how, (program, number) in ways.items():
        left, made = left_by(program, command, number, number)
        # A run that ends early, or reads little, may not need more calls where they take less.
        is_more = made > calls or number == 0 and most == MOST
        if left != free or not is_more:
            wrong.append(f"{name}: {how}: status {left[0]}, {left[2]!r:.200}, {sorted(left[3])}, {made} calls")
    return len(ways), wrong


def interrupt_long(path, library, call):
    """Interrupts the first call of a kind as often as it is made again, and once more."""
    command = RUNS[PATIENT[call]]
    program = Refusing(path, library, "calls", ONLY=call, ERROR=errno.EINTR)
    free, calls = left_by(program, command)
    wrong = []
    for times, wanted in ((PATIENCE, (free, PATIENCE + calls)), (PATIENCE + 1, ((*GIVEN_UP, command.files), PATIENCE + 1))):
        came = left_by(program, command, 1, times)
        if came != wanted:
            wrong.append(f"{call} interrupted {times} times: status {came[0][0]}, {came[0][2]!r:.200}, {sorted(came[0][3])}, {came[1]} calls")
    return 2, wrong


def try_run(path, library, name):
    """How often a run was made, and what is wrong of it."""
    return (interrupt_long if name in PATIENT else run_each)(path, library, name)


def main():
    try_each(__doc__, try_run, [*PATIENT, *RUNS])


if __name__ == "__main__":
    main()
