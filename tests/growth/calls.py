#!/usr/bin/env python3
"""Shows that no command makes more calls of the system than its bytes and its looks into a file need.

    tests/growth/calls.py PROGRAM LIBRARY

The library is tests/faults/refuse.c, built to be loaded ahead of the C library, which notes each call. No
contract says how many calls a command makes: one that reads or writes byte by byte would be proved too. A row of
run.py is run on some records and on 8 times as many. Of each kind of call the second run makes at most as many more
as its further bytes and records need, and a few. Some rows are run once more with standard input, a pipe, in place of
their last file. No count hangs on the machine, so a call that takes half as much as it could fails.

A call takes 64 KiB of a text, of a base, of what a text is written of, and of what is written; of a database that is
looked into a page, and of lines of duplicates as many bytes. A base is looked at after each read of it. A create that
takes records out may write once more what it took.
"""

import contextlib
import os
import subprocess
import sys
import tempfile
import threading
from collections import Counter

sys.path.append(os.path.join(os.path.dirname(os.path.abspath(__file__)), "..", "faults"))

from refusing import Refusing, try_each
from run import ROWS, TIMES, Place, Wrong

FEWER = 8_000
# So many more calls of a kind are no fault: a buffer is not full at the end, or a window is short at first.
FEW = 8
# A run is killed at so many calls, to which no other comes near.
MOST = 1_000_000
PIECE = 65536
PAGE = 4096
# What a call takes where that is not what it takes in other rows.
TAKEN = {
    "-c, written on standard output": {"write": 2 * PIECE},
    "-d of one long record": {"write": 2 * PIECE},
    "-D of one long record": {"pread": 2 * PAGE},
    "-b, removals before one long record": {"pread": PAGE, "look": PAGE},
    "-b -r before one long record": {"pread": PAGE, "look": PAGE},
}
# How many looks into a file there are for each record, rounded up, and in which rows.
LOOKS = {
    0.003: ("-q of values of one key",),
    0.005: ("-r of 20 keys",),
    0.105: ("-u", "-u -W", "-w", "-w -v", "-u of one hash", "-w of one hash", "-b"),
    0.205: ("-r", "-r of one hash", "-b -r"),
    0.65: ("-D",),
    1: ("-b, removals of one hash", "-b, removals of one hash after a long record"),
    1.04: ("-b, removals", "-b, removal of the one key", "-b, removals before one long record", "-b -r before one long record"),
    1.1: ("-b -u of one hash", "-b -u of one hash after a long record"),
    1.21: ("-b -r of one hash",),
    2.01: ("-q -i", "-q -i -m"),
    3.05: ("-D of values of one key",),
    6.1: ("-D in another order",),
}
# The rows whose last file is tried as standard input too.
PIPED = ("-c", "-c -m", "-c of one long record", "-u", "-b -r of one key", "-d", "-d -m", "-d of one long record", "-l", "-s", "-k", "-q -i", "-q -i -m")


class Piped(Refusing):
    """A program whose standard input is a pipe. All is written at once, so each read finds the pipe full."""

    @contextlib.contextmanager
    def given(self, stdin):
        end, into = os.pipe()

        def feed():
            with os.fdopen(into, "wb", buffering=0) as pipe, contextlib.suppress(BrokenPipeError):
                rest = memoryview(stdin)
                while rest:
                    rest = rest[pipe.write(rest) :]

        feeding = threading.Thread(target=feed)
        feeding.start()
        try:
            yield end
        finally:
            os.close(end)
            feeding.join()


def measure(path, library, name, is_piped, count):
    """The words of a run, how many calls it makes of each kind, and the size of each file and stream."""
    with tempfile.TemporaryDirectory() as folder:
        words = ROWS[name](Place(path, folder), count)
        given, program = b"", Refusing
        if is_piped:
            with open(os.path.join(folder, words.pop()), "rb") as file:
                given, program = file.read(), Piped
        done, calls = program(path, library, "calls", ACT="kill").trace(words, given, MOST, MOST, folder)
        if done.returncode != 0:
            raise Wrong(f"`{' '.join(words)}` ended with {done.returncode}")
        sizes = Counter({it: os.path.getsize(os.path.join(folder, it)) for it in os.listdir(folder)})
    sizes.update(output=len(done.stdout), errors=len(done.stderr))
    return words, Counter(it.what for it in calls), sizes


def needed(name, is_piped, words, grown, records):
    """How many more calls of each kind so many more bytes of each file and so many more records need."""
    given = sum(grown[it] for it in ("text", "changes", "keys"))
    base = sum(grown[it] for it in ("base", "old", "new"))
    made = grown["made"]
    letter, is_amending = words[0][1], "-b" in words
    if letter in "dl" or (is_piped and letter in "sk"):
        given, base = given + base, 0
    if is_amending or "r" in words[0]:
        made += given + base
    piece = {"read": PIECE, "write": PIECE, "pwrite": PIECE, "look": PIECE, "pread": PIECE if is_amending else PAGE}
    piece |= TAKEN.get(name, {})
    looks = records * next((each for each, names in LOOKS.items() if name in names), 0)
    return {
        "read": given / piece["read"],
        "write": grown["output"] / piece["write"] + grown["errors"] / PAGE,
        "pwrite": made / piece["pwrite"],
        "pread": base / piece["pread"] + looks,
        "look": base / piece["look"] if is_amending else 0,
    }


def attempt(path, library, row):
    """Runs a row on both numbers of records, and answers what is wrong."""
    name, is_piped = row
    called = f"{name}, by a pipe" if is_piped else name
    try:
        _, few, first = measure(path, library, name, is_piped, FEWER)
        words, many, second = measure(path, library, name, is_piped, TIMES * FEWER)
    except (Wrong, subprocess.TimeoutExpired) as error:
        return 1, [f"{called}: {error}"]
    grown = Counter({it: second[it] - first[it] for it in second})
    need = needed(name, is_piped, words, grown, (TIMES - 1) * FEWER)
    wrong = [
        f"{it} {many[it] - few[it]} times more, and {need.get(it, 0):.0f} are needed"
        for it in many
        if many[it] - few[it] > need.get(it, 0) + FEW
    ]
    return 1, [f"{called}: {', '.join(wrong)}"] * bool(wrong)


if __name__ == "__main__":
    try_each(__doc__, attempt, [(name, False) for name in ROWS] + [(name, True) for name in PIPED])
