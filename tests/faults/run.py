#!/usr/bin/env python3
"""Refuses memory, or calls of the system, to the program in turn, and looks at how it ends.

    tests/faults/run.py PROGRAM LIBRARY memory
    tests/faults/run.py PROGRAM LIBRARY calls

The library is refuse.c, built to be loaded ahead of the C library. Each run of commands.py is made
once with nothing refused, which counts its asks. Then it is made twice for each of them: with that
ask refused alone, and with that one and all later ones. It must end as with nothing refused, where
the ask was not needed, as a read in turn and a write or a cut of a file always are; or else by the status 111 and the line of a fault,
with a front of its output and of its lines, the old database as it was unless it is made in place, and
no temporary file, unless that could not be removed or locked. The line of an ask that is refused alone
is one of its own kind. Where the writing of a line is refused, the line may be missing.
"""

import os
import resource
import sys
import tempfile
from concurrent.futures import ProcessPoolExecutor

from commands import COMMANDS
from refusing import READ, Refusing, marked

NO_MEMORY = b"cdb: no memory\n"
NO_FILE = b"cdb: file cannot be opened\n"
NO_DATABASE = b"cdb: database cannot be read or written\n"
NO_OLD = b"cdb: old database: database cannot be read or written\n"
NO_NEW = b"cdb: new database: database cannot be read or written\n"
NO_NAME = b"cdb: database cannot be renamed\n"
NO_OUTPUT = b"cdb: output cannot be written\n"
NO_INPUTS = {b"cdb: input %d: cannot be read\n" % number for number in (1, 2, 3)}
# The lines that a call of the system which fails can leave.
CALL_LINES = {
    "open": {NO_FILE},
    "look": {NO_FILE, NO_NAME},
    READ: {NO_DATABASE},
    "lock": {NO_FILE},
    "allow": {NO_FILE},
    "remove": {NO_FILE},
    "read": {NO_DATABASE, *NO_INPUTS},
    "pread": {NO_DATABASE, NO_OLD, NO_NEW},
    "write": {NO_OUTPUT},
    "pwrite": {NO_DATABASE},
    "cut": {NO_DATABASE},
    "sync": {NO_DATABASE},
    "rename": {NO_NAME},
}
EACH_LINE = set().union(*CALL_LINES.values())
STATUS = 111
# What may come of a refusal.
TOLD = "told"
DONE = "done without"
LAST = 2**63 - 1


class Left:
    """What a run left."""

    def __init__(self, done, files, asks, calls):
        self.status, self.output, self.errors = done.returncode, done.stdout, done.stderr
        self.files = files
        self.asks = asks
        # Which calls of the system it made, if they are what it asks.
        self.calls = calls

    def is_as(self, other):
        """Whether another run left the same."""
        made = {"asks": 0, "calls": []}
        return vars(self) | made == vars(other) | made


def run(program, command, first=0, last=0):
    """What a run left with some asks refused."""
    with tempfile.TemporaryDirectory() as folder:
        for name, what in command.files.items():
            with open(os.path.join(folder, name), "wb") as file:
                file.write(what)
        if program.what == "calls":
            done, calls = program.trace(command.words, command.stdin, first, last, folder)
            asks = len(calls)
        else:
            done, asks = program.run(command.words, command.stdin, first, last, folder)
            calls = []
        files = {}
        for name in os.listdir(folder):
            with open(os.path.join(folder, name), "rb") as file:
                files[name] = file.read()
    return Left(done, files, asks, [it.what for it in marked(calls)])


def lines_of(command, left, first, last):
    """The lines that can tell a refusal: that of memory has its line alone. A file that is made in place and
    cannot be emptied is none that was opened."""
    if not left.calls:
        return {NO_MEMORY}
    if command.is_in_place() and last == first and left.calls[:first].count("cut") == 1 and left.calls[first - 1] == "cut":
        return {NO_FILE}
    return CALL_LINES[left.calls[first - 1]] if last == first else EACH_LINE


def tells(lines, errors, free):
    """Whether standard error has a front of the lines of a run, and the line of a fault."""
    return any(errors.startswith(free[:end]) and errors[end:] in lines for end in range(len(free) + 1))


def is_silenced(what, errors, free):
    """Whether standard error lacks some of the lines of a run, whose writing was refused."""
    lines = set(free.splitlines())
    return what == "calls" and (free.startswith(errors) or set(errors.splitlines()) <= lines)


def stays(command, left, may_stay):
    """Whether a fault left the files as they were. A temporary file that was there before may be
    removed, and one may stay whose removal or lock was refused. A database that is made in place may be any."""
    before, after = dict(command.files), dict(left.files)
    if command.is_in_place():
        before.pop("x"), after.pop("x")
    old, temporary = before.pop("x.tmp", None), after.pop("x.tmp", None)
    return after == before and (may_stay or temporary in (None, old))


def came_of(what, command, left, free, first, last):
    """What came of a refusal, or what is wrong."""
    if left.is_as(free):
        # The program reads in turn, writes to a file and cuts it only as it needs; of a file at places it may read more at once.
        is_needed = what == "calls" and last == first and left.calls[first - 1] in ("read", "pwrite", "cut")
        return "a call that failed was passed over" if is_needed else DONE
    is_told = tells(lines_of(command, left, first, last), left.errors, free.errors)
    is_silenced_here = is_silenced(what, left.errors, free.errors)
    # The same answer, of which a line was not written, or a removal not done.
    if is_silenced_here and (left.status, left.output) == (free.status, free.output):
        if left.files == free.files or free.status != 0 and stays(command, left, True):
            return DONE
    ends = left.status == STATUS and free.output.startswith(left.output)
    may_stay = what == "calls" and (last != first or left.calls[first - 1] == "lock")
    if ends and (is_told or is_silenced_here) and stays(command, left, may_stay):
        return TOLD
    return f"{left.status} {left.output!r:.100} {left.errors!r:.200} {sorted(left.files)}"


def refuse_each(program, name):
    """For each refusal to a run how it was made, and what came of it: TOLD, DONE, or what is wrong."""
    command = COMMANDS[name]
    free = run(program, command)
    came = []
    for first in range(1, free.asks + 1):
        for how, last in ((f"ask {first}", first), (f"each ask from {first} on", LAST)):
            left = run(program, command, first, last)
            if left.asks < first:
                came.append((how, f"only {left.asks} asks were made"))
            else:
                came.append((how, came_of(program.what, command, left, free, first, last)))
    return came


def tell(name, came):
    """Says what came of the refusals of a run, and how many of them passed and failed."""
    told = sum(1 for _, it in came if it == TOLD)
    done = sum(1 for _, it in came if it == DONE)
    wrong = [f"{name}: {how}: {it}" for how, it in came if it not in (TOLD, DONE)]
    for line in wrong[:5]:
        print(line)
    print(f"{name}: {len(came)} refusals: {told} {TOLD}, {done} {DONE}, {len(wrong)} wrong")
    if not came:
        print(f"{name}: no ask was made")
    return told + done, len(wrong) + (not came)


def main():
    if len(sys.argv) != 4 or sys.argv[3] not in ("memory", "calls"):
        sys.exit(__doc__)
    # A crash is to leave no file.
    resource.setrlimit(resource.RLIMIT_CORE, (0, 0))
    program = Refusing(os.path.abspath(sys.argv[1]), os.path.abspath(sys.argv[2]), sys.argv[3])
    passed = failed = 0
    # The runs have nothing in common, so each processor gets some.
    with ProcessPoolExecutor(len(os.sched_getaffinity(0))) as processors:
        ended = processors.map(refuse_each, [program] * len(COMMANDS), COMMANDS)
        for name, came in zip(COMMANDS, ended):
            good, bad = tell(name, came)
            passed, failed = passed + good, failed + bad
    print(f"{passed} passed, {failed} failed")
    sys.exit(1 if failed else 0)


if __name__ == "__main__":
    main()
