#!/usr/bin/env python3
"""Refuses two calls of the system to a create, or one, and kills it a little later; by drawn pairs.

    tests/faults/pairs.py PROGRAM LIBRARY

The library is refuse.c, built to be loaded ahead of the C library. Each call of each create of CREATES is refused
alone, by each error of ERRORS, and with it more that comes after it: each removal or each close is refused, or each
look from some one on, or one call of any kind, or this and all later ones; or the program is killed there. The create
ends by the status 0 or 111. With 0 the database is the new one, else the old or the new one, whole and with
permissions that it may have; only one that is made in place may be any. The inputs are as they were, and no other
name is there but the temporary one, whose file is for this user alone until it has the permissions of the database. A
create that follows succeeds, and leaves no other file.
"""

import errno
import os
import random
import signal
import subprocess
import tempfile
from dataclasses import dataclass, field

import commands  # noqa: F401, which makes the files of tests/cli known
from files import file_of, text_of
from names import MADE, MODE, PRIVATE, found_in, place, told
from refusing import Refusing, try_each

CALLS = "look,open,lock,allow,remove,rename,sync,read,write,pread,pwrite,cut"
LAST = 2**63 - 1
# So many second faults are drawn for each first one.
DRAWN = 3
# Which call after the refused one a second fault is drawn of, most often one of the next, by which a create ends; and
# the latest look.
NUMBERS = [*range(1, 9)] * 4 + [*range(9, 31)]
LATEST_LOOK = 12
# In how many parts the pairs of a create are tried.
PARTS = 6
LONG = [(b"k%d" % n, b"v" * 300) for n in range(600)]
SHORT = [(b"o%d" % n, b"w" * 50) for n in range(50)]
CHANGE = [(b"new", b"1")]
INPUTS = {"in": text_of(LONG), "change": text_of(CHANGE)}
OLD = {**INPUTS, "x": file_of(SHORT)}
BASE = {**OLD, "base": file_of(LONG)}


@dataclass
class Create:
    """A create of the database x, what is there before it, and what x is to be."""

    words: list
    files: dict = field(default_factory=dict)
    made: bytes = file_of(LONG)
    temporary: str = "x.tmp"


CREATES = {
    "a first one": Create(["-c", "x", "in"], INPUTS),
    "one over a database": Create(["-c", "x", "in"], OLD),
    "one beside an old temporary file": Create(["-c", "x", "in"], {**OLD, "x.tmp": b"old"}),
    "one with a base": Create(["-c", "-b", "base", "x", "change"], BASE, file_of(LONG + CHANGE)),
    "one that amends the database": Create(["-cr", "-b", "x", "x", "change"], OLD, file_of(SHORT + CHANGE)),
    "one by another temporary name": Create(["-cr", "-t", "y", "x", "in"], OLD, temporary="y"),
    "one that replaces each record": Create(["-cr", "x", "in", "in"], OLD),
    "one in place": Create(["-c", "-t", "-", "x", "in"], OLD, temporary=""),
}
ERRORS = {"lock": (errno.EAGAIN, errno.EIO), "look": (errno.EIO, errno.EACCES)}
OTHERS = (errno.EIO, errno.ENOSPC)


@dataclass
class Second:
    """What more is refused once a call was: calls of some kinds, from the first to the last of these; or the program is
    killed before the first."""

    calls: str
    first: int
    last: int
    kills: bool = False

    def settings(self):
        """What refuse.c reads of it."""
        how = {"ALSO": self.calls, "ALSO_FIRST": self.first, "ALSO_LAST": self.last}
        return how | {"ALSO_KILL": 1} if self.kills else how

    def __str__(self):
        what = f"{self.calls}" if self.calls != CALLS else "any call"
        many = "" if self.last == self.first else " and later ones"
        return f"{'killed before' if self.kills else 'refused'} {what} {self.first}{many}"


def seconds():
    """Each second fault."""
    found = [Second("remove", 1, LAST), Second("close", 1, LAST)]
    found += [Second("remove", number, number, True) for number in (1, 2)]
    found += [Second("look", number, LAST) for number in range(1, LATEST_LOOK + 1)]
    for number in NUMBERS:
        found += [Second(CALLS, number, number), Second(CALLS, number, LAST), Second(CALLS, number, number, True)]
    return found


def run(program, create, folder, first=0):
    """What a create left to which a call is refused, and its calls."""
    return program.trace(create.words, b"", first, first, folder)


def pairs(path, library, create):
    """The drawn pairs of a create: the number of the call that is refused, its error, and the second fault."""
    with tempfile.TemporaryDirectory() as folder:
        place(folder, create.files)
        _, calls = run(Refusing(path, library, "calls", ONLY=CALLS), create, folder)
    chosen = random.Random(46)
    for number, call in enumerate(calls, 1):
        for error in ERRORS.get(call.what, OTHERS):
            for second in chosen.sample(seconds(), DRAWN):
                yield number, error, second


def is_kept(create, status, before, left):
    """Whether a create left what it may leave."""
    left = dict(left)
    temporary, database = left.pop(create.temporary, None), left.pop("x", None)
    old = before.get("x")
    modes = {PRIVATE, MADE} if old is None else {old[1]}
    is_new = database is not None and database[0] == create.made and database[1] in modes
    if status == 0 and not is_new or status != 0 and not is_new and database != old and create.temporary:
        return False
    if temporary not in (None, before.get(create.temporary)) and temporary[1] not in {PRIVATE, *modes}:
        return False
    return left == {name: it for name, it in before.items() if name not in ("x", create.temporary)}


def wrong_with(path, library, create, pair):
    """What is wrong with a create to which a pair happens, or None."""
    number, error, second = pair
    # A flush to a file system in memory takes no time.
    where = "/dev/shm" if os.access("/dev/shm", os.W_OK) else None
    with tempfile.TemporaryDirectory(dir=where) as folder:
        place(folder, create.files)
        before = found_in(folder)
        program = Refusing(path, library, "calls", ONLY=CALLS, ERROR=error, **second.settings())
        try:
            done, _ = run(program, create, folder, number)
        except subprocess.TimeoutExpired:
            return "it does not end"
        left = found_in(folder)
        following, _ = Refusing(path, library, "calls").trace(create.words, b"", folder=folder)
        after = found_in(folder)
    if done.returncode not in (0, 111) and not (second.kills and done.returncode == -signal.SIGKILL):
        return f"status {done.returncode}, {done.stderr}"
    if not is_kept(create, done.returncode, before, left):
        return f"status {done.returncode}, left {told(left)}"
    if following.returncode != 0 or not is_kept(create, 0, before, after) or set(after) - {*before, "x"}:
        return f"the next create {following.returncode} {following.stderr}, {told(after)}"
    return None


def try_part(path, library, part):
    """For a part of the pairs of a create how many there were, and what is wrong of each."""
    name, number = part
    create = CREATES[name]
    chosen = list(pairs(path, library, create))[number::PARTS]
    wrong = []
    for pair in chosen:
        fault = wrong_with(path, library, create, pair)
        if fault is not None:
            call, error, second = pair
            wrong.append(f"{name}: call {call} refused by {errno.errorcode[error]}, then {second}: {fault:.300}")
    return len(chosen), wrong


def main():
    try_each(__doc__, try_part, [(name, number) for name in CREATES for number in range(PARTS)])


if __name__ == "__main__":
    main()
