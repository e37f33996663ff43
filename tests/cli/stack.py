#!/usr/bin/env python3
"""Runs each command with a small stack, and creates with little memory in all.

    tests/cli/stack.py PROGRAM [--least]

With --least it prints how much stack each command needs, and tries nothing. With a stack of STACK KiB each command of COMMANDS ends as with a usual one, and writes and leaves the same. Creates
that remove most records of a large base run under forty limits of the memory that they may have, from where a program
hardly starts to where all is done: each ends by the status 0, or by 111 and `no memory`, never by a signal. After a
fault the old database is whole and no temporary file is there. What the system puts at the top of a stack at random
is left out if it allows that, and so is the environment.
"""

import contextlib
import ctypes
import os
import random
import resource
import subprocess
import sys
import tempfile

from files import TWO_FILE, file_of, text_of
from rows import HANGS

KIB = 1024
STACK = 96
# A page of memory, in KiB.
PAGE = 4
LIMITS = [KIB * (2200 + 2992 * number // 39) for number in range(40)]
NO_MEMORY = b"cdb: no memory\n"
# What personality(2) calls the flag by which addresses are not random.
ADDR_NO_RANDOMIZE = 0x0040000
KEYS = 20_000


def later_texts():
    """A text that gives many keys of the base another value, some of them twice, and a list of its keys."""
    chosen = random.Random(2)
    keys = [b"k%d" % chosen.randrange(KEYS) for _ in range(KEYS)]
    return text_of([(key, b"second") for key in keys]), b"".join(b"+%d:%s\n" % (len(key), key) for key in keys) + b"\n"


BASE = [(b"k%d" % number, b"first") for number in range(KEYS)]
LATER, LIST = later_texts()
FILES = {
    "base": file_of(BASE),
    "later": file_of([*BASE[5:], (b"new", b"1")]),
    "text": LATER,
    "map": b"".join(b"k%d value %d\n" % (number % 3000, number) for number in range(6000)),
    "keys": LIST,
    "lines": b"k1\nk2\n",
    "changes": b"-2:k5\n+2,3:k7->new\n\n",
    "x": TWO_FILE,
}
# The words of each command, and the file that is its standard input.
COMMANDS = {
    "a create": ("-c x text", None),
    "a create of standard input": ("-c x", "text"),
    "a create of three inputs, which explains": ("-cv -t y x text changes text", None),
    "a create of a map": ("-c -m x map", None),
    "a create with warnings": ("-c -w -v x text", None),
    "a create that keeps the first": ("-c -u x text", None),
    "a create that stops": ("-c -e -v x text", None),
    "a create that replaces": ("-c -r x text", None),
    "a wide create": ("-c -W x text", None),
    "a create in place": ("-c -t - x text", None),
    "a create in place that replaces": ("-c -r -t - x text", None),
    "a create on output": ("-c -", "text"),
    "an amending": ("-c -b base x changes", None),
    "an amending that replaces": ("-c -r -b base x text", None),
    "an amending of the database": ("-c -r -b x x text", None),
    "an amending that replaces and explains": ("-c -r -w -v -b base x text", None),
    "an amending on output": ("-c -r -b base -", "text"),
    "a query": ("-q base k77", None),
    "a query of a line": ("-q -m -n 1 base k77", None),
    "a query of many keys": ("-q -i base keys", None),
    "a query of lines": ("-q -i -m base lines", None),
    "a dump": ("-d base", None),
    "a dump as a map": ("-d -m base", None),
    "a dump of standard input": ("-d", "base"),
    "a list": ("-l base", None),
    "statistics": ("-s base", None),
    "a check": ("-k base", None),
    "a check of standard input": ("-k", "base"),
    "a difference": ("-D base later", None),
    "a damaged file": ("-k -v text", None),
    "no file": ("-c -v x none", None),
    "help": ("-h", None),
    "a version": ("-V", None),
    "bad words": ("-v -Z", None),
}
AMENDING = ["-c", "-r", "-b", "base", "x", "text"]


def fill(folder):
    """Writes the files."""
    for name, what in FILES.items():
        with open(os.path.join(folder, name), "wb") as file:
            file.write(what)


def found_in(folder):
    """The bytes of each file of a folder."""
    found = {}
    for name in os.listdir(folder):
        with open(os.path.join(folder, name), "rb") as file:
            found[name] = file.read()
    return found


def run(program, words, given=None, limits=()):
    """The status, the output, the lines and the files of a command under limits."""
    personality = ctypes.CDLL(None).personality

    def prepare():
        personality(ADDR_NO_RANDOMIZE)
        # A crash is to leave no file.
        for limit, size in ((resource.RLIMIT_CORE, 0), *limits):
            resource.setrlimit(limit, (size, size))

    # A flush to a file system in memory takes no time.
    where = "/dev/shm" if os.access("/dev/shm", os.W_OK) else None
    with tempfile.TemporaryDirectory(dir=where) as folder, contextlib.ExitStack() as opened:
        fill(folder)
        stdin = opened.enter_context(open(os.path.join(folder, given), "rb")) if given else subprocess.DEVNULL
        how = dict(cwd=folder, env={}, stdin=stdin, capture_output=True, timeout=HANGS, check=False)
        done = subprocess.run([program, *words], preexec_fn=prepare, **how)
        return done.returncode, done.stdout, done.stderr, found_in(folder)


def with_stack(program, row, size):
    """What a command leaves with so many KiB of stack, or with the usual one."""
    words, given = row
    return run(program, words.split(), given, [(resource.RLIMIT_STACK, size * KIB)] if size else [])


def small(program, row):
    """What is wrong with a command with a small stack, or None."""
    usual, left = with_stack(program, row, None), with_stack(program, row, STACK)
    return None if left == usual else f"status {left[0]} and not {usual[0]}, {left[2]!r:.100}, {sorted(left[3])}"


def limited(program, size):
    """What is wrong with a create with so many bytes of memory, or None."""
    status, _, lines, left = run(program, AMENDING, None, [(resource.RLIMIT_AS, size)])
    wanted = run(program, AMENDING)[3] if status == 0 else FILES
    is_right = (status, lines) in ((0, b""), (111, NO_MEMORY)) and left == wanted
    return None if is_right else f"status {status}, {lines!r:.100}, {sorted(left)}"


def least(program, row):
    """With how many KiB of stack a command ends as with a usual one: so many pages as it needs."""
    usual = with_stack(program, row, None)
    few, enough = 0, 2 * STACK // PAGE
    while enough - few > 1:
        pages = (few + enough) // 2
        few, enough = (few, pages) if with_stack(program, row, PAGE * pages) == usual else (pages, enough)
    return PAGE * enough


def checks():
    """Each check: its name, its function, and what that is given."""
    yield from ((f"{name}, with {STACK} KiB of stack", small, row) for name, row in COMMANDS.items())
    yield from ((f"an amending with {size // KIB} KiB of memory", limited, size) for size in LIMITS)


def main():
    if len(sys.argv) != 2 and sys.argv[2:] != ["--least"]:
        sys.exit(__doc__)
    program = os.path.abspath(sys.argv[1])
    if sys.argv[2:]:
        for name, row in COMMANDS.items():
            print(f"{least(program, row):4} KiB: {name}", flush=True)
        return
    passed = failed = 0
    for name, check, given in checks():
        fault = check(program, given)
        passed, failed = passed + (fault is None), failed + (fault is not None)
        if fault is not None:
            print(f"{name}: {fault}")
    print(f"{passed} passed, {failed} failed")
    sys.exit(1 if failed else 0)


if __name__ == "__main__":
    main()
