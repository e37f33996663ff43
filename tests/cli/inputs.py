#!/usr/bin/env python3
"""Runs commands whose inputs change as they are read, or are the file into which standard output goes; and starts the
program by a path that is no text.

    tests/cli/inputs.py PROGRAM

A create opens its base and then waits for an input, a pipe. If another program changes the base meanwhile, in its
place, the create ends with 111 and leaves all as it was; if another file got the base's name, or the base other
permissions, it makes its database of the base that it opened. A query of many keys does not read the file into which
its output goes, by whatever name; a command that writes elsewhere does.
"""

import os
import subprocess
import sys
import tempfile

from files import EMPTY_FILE, ONE_FILE, TWO_FILE, TWO_TEXT, file_of
from rows import HANGS
from waiting import is_asleep

UNREAD = b"cdb: database cannot be read or written\n"
CHANGED = UNREAD + b"cdb: base: changed while it was read\n"
OPEN = b"cdb: file cannot be opened\n"
OWN = OPEN + b"cdb: %s: is the output\n"
OWN_INPUT = b"cdb: input 1: cannot be read\ncdb: standard input: is the output\n"
OTHER_FILE = file_of([(b"one", b"other"), (b"three", b"new")])
# A base of more than a window, so that the create reads it by several calls.
LONG = [(b"k%d" % it, b"v" * 1000) for it in range(200)]
LONG_FILE = file_of(LONG)
KEYS = b"one\ntwo\n" * 3000


def write(path, what, how="wb"):
    """Writes bytes to a file, in its place."""
    with open(path, how) as file:
        file.write(what)


def found_in(folder):
    """The bytes of each file in a folder, but for pipes."""
    found = {}
    for name in os.listdir(folder):
        path = os.path.join(folder, name)
        if os.path.isfile(path):
            with open(path, "rb") as file:
                found[name] = file.read()
    return found


def in_place(_, path):
    """Another program writes other bytes into the file."""
    write(path, OTHER_FILE)


def by_create(program, path):
    """Another create makes it anew in its place."""
    subprocess.run([program, "-c", "-t", "-", path], input=TWO_TEXT, check=True, timeout=HANGS)


def longer(_, path):
    """Another program appends to it."""
    write(path, b"more", "ab")


def renamed(_, path):
    """Another file gets its name."""
    write(path + ".new", OTHER_FILE)
    os.rename(path + ".new", path)


def removed(_, path):
    """Its name is removed."""
    os.remove(path)


def permitted(_, path):
    """It gets other permissions."""
    os.chmod(path, 0o600)


def stays(_, path):
    """Nothing happens to it."""
    os.stat(path)


# What happens to the base, and whether the create ends with 111 then.
CHANGES = {in_place: True, by_create: True, longer: True, renamed: False, removed: False, permitted: False, stays: False}


def amended(program, words, base, change):
    """What a create of a base leaves that changes while the create waits for its input."""
    with tempfile.TemporaryDirectory() as folder:
        write(os.path.join(folder, "x"), ONE_FILE)
        write(os.path.join(folder, "base"), base)
        pipe = os.path.join(folder, "pipe")
        os.mkfifo(pipe)
        command = [program, "-v", "-c", *words, "-b", "base", "x", "pipe"]
        with subprocess.Popen(command, cwd=folder, stderr=subprocess.PIPE) as process:
            # A process that may write to the pipe lets the create go on, which has opened the base before.
            waiting = waits_with(process, os.path.join(folder, "base"))
            if waiting:
                change(program, os.path.join(folder, "base"))
            text = os.open(pipe, os.O_RDWR)
            os.write(text, b"\n")
            errors = process.communicate(timeout=HANGS)[1]
            os.close(text)
        return waiting, process.returncode, errors, found_in(folder)


def waits_with(process, path):
    """Whether a process comes to wait while it has a file open, before it ends."""
    files = f"/proc/{process.pid}/fd"
    while process.poll() is None:
        try:
            is_open = any(os.path.samefile(os.path.join(files, it), path) for it in os.listdir(files))
            if is_open and is_asleep(process):
                return True
        except OSError:
            pass
    return False


def base_rows(program):
    """For each create whose base changes: its name, what it leaves, and what it is to leave."""
    for kind, base, made in (("short", TWO_FILE, TWO_FILE), ("long", LONG_FILE, LONG_FILE)):
        for words in ([], ["-r"], ["-t", "y"]):
            for change, ends in CHANGES.items():
                waiting, status, errors, left = amended(program, words, base, change)
                wanted = (111, CHANGED, ONE_FILE) if ends else (0, b"", made)
                stray = sorted(set(left) - {"x", "base"})
                name = f"{kind} base, {' '.join(words)}, {change.__name__}"
                yield name, (waiting, status, errors, left.get("x"), stray), (True, *wanted, [])


def looked_up(program, words, appends, reads=None, link=None):
    """What a query of many keys leaves whose output goes to the end of a file."""
    with tempfile.TemporaryDirectory() as folder:
        write(os.path.join(folder, "x"), TWO_FILE)
        write(os.path.join(folder, "keys"), KEYS)
        if link:
            link(os.path.join(folder, "keys"), os.path.join(folder, "other"))
        with open(os.path.join(folder, appends), "ab") as output:
            with open(os.path.join(folder, reads or "/dev/null"), "rb") as keys:
                done = subprocess.run([program, *words], cwd=folder, stdin=keys, stdout=output,
                                      stderr=subprocess.PIPE, timeout=HANGS, check=False)
        left = found_in(folder)
    return done.returncode, done.stderr, left["keys"] == KEYS, left.get(appends, b"")[: len(KEYS)] == KEYS


def output_rows(program):
    """For each query whose output goes to a file: its name, what it leaves, and what it is to leave."""
    many = ["-v", "-q", "-i", "-m", "x"]
    refused = (111, OWN % b"keys", True, True)
    yield "its keys", looked_up(program, [*many, "keys"], "keys"), refused
    yield "the second of its keys", looked_up(program, [*many, "x", "keys"], "keys"), refused
    yield "standard input", looked_up(program, many, "keys", "keys"), (111, OWN_INPUT, True, True)
    for link in (os.symlink, os.link):
        yield "its keys by another name", looked_up(program, [*many, "other"], "keys", link=link), (111, OWN % b"other", True, True)
    yield "another file", looked_up(program, [*many, "keys"], "output"), (0, b"", True, False)
    yield "its database", looked_up(program, [*many, "keys"], "x")[:3], (0, b"", True)
    create = ["-v", "-c", "-m", "-e", "y", "keys"]
    lines = b"cdb: input 1: record 3: duplicate key\ncdb: keys: line 3: key one\ncdb: stopped at a duplicate key\n"
    yield "a create, which writes no output", looked_up(program, create, "keys"), (111, lines, True, True)


def path_rows(program):
    """For each command of a program in a folder whose name is no text: its name, what comes, and what is to come."""
    with tempfile.TemporaryDirectory() as folder:
        name = os.path.join(os.fsencode(folder), b"jos\xe9")
        os.mkdir(name)
        own = os.path.join(name, b"cdb")
        os.symlink(os.path.abspath(program), own)
        usual = {it: subprocess.run([program, it], capture_output=True, timeout=HANGS, check=True).stdout for it in ("-V", "-h")}
        for word, stdout in usual.items():
            done = subprocess.run([own, word], capture_output=True, timeout=HANGS, check=False)
            yield f"{word} by a path that is no text", (done.returncode, done.stdout, done.stderr), (0, stdout, b"")
        done = subprocess.run([own, "-c", "-"], input=b"\n", capture_output=True, timeout=HANGS, check=False)
        yield "a create by it", (done.returncode, done.stdout, done.stderr), (0, EMPTY_FILE, b"")
        done = subprocess.run([own, "-q", "x", b"\xe9"], capture_output=True, timeout=HANGS, check=False)
        line = b"cdb: bad command line, see cdb -h\n"
        yield "a key that is no text", (done.returncode, done.stdout, done.stderr), (2, b"", line)


def main():
    if len(sys.argv) != 2:
        sys.exit(__doc__)
    program = os.path.abspath(sys.argv[1])
    passed = failed = 0
    for rows in (base_rows, output_rows, path_rows):
        for name, left, wanted in rows(program):
            passed, failed = passed + (left == wanted), failed + (left != wanted)
            if left != wanted:
                print(f"{name}: {left!r:.300} and not {wanted!r:.300}")
    print(f"{passed} passed, {failed} failed")
    sys.exit(1 if failed else 0)


if __name__ == "__main__":
    main()
