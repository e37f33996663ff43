#!/usr/bin/env python3
"""Runs several creates of one database at once, and kills some.

    tests/cli/locked.py PROGRAM

A create that finds the temporary file of another that is still at work is to end with `file cannot be
opened` and touch nothing; with `-v` it says that another is at work, whichever call of it meets the other.
The file of one that was killed is removed. Whatever is killed, the database is one of the whole files, and of
a create that answered 0 it was the file; in every other round there is none before. A create in place that
finds another at work in the file is to end so too. The file of a create that has another name stays.
"""

import os
import random
import signal
import subprocess
import sys
import tempfile
import time

from files import TWO_FILE, TWO_TEXT, file_of, text_of
from rows import HANGS
from waiting import waits

OPEN = b"cdb: file cannot be opened\n"
WHY = OPEN + b"cdb: %s: another create is at work on it\n"
# In its last sync a create's file has its permissions.
WHOLE = OPEN + b"cdb: %s: locked by another process\n"
OLD = file_of([(b"old", b"database")])
IN_PLACE = ["-c", "-t", "-", "x"]
ROUNDS = 200
CREATES = 3
# How many creates are begun at once, and how often.
CROWD = 60
CROWDS = 5
# How long the creates of a round are left alone at most before one is killed, in seconds.
LONGEST = 0.02
PIPED = dict(stdin=subprocess.PIPE, stderr=subprocess.PIPE)


def read(path):
    """The bytes of a file, or None if it is not there."""
    try:
        with open(path, "rb") as file:
            return file.read()
    except FileNotFoundError:
        return None


def started(program, folder):
    """A create that waits for its text, once its temporary file is there and locked."""
    process = subprocess.Popen([program, "-c", "x"], cwd=folder, **PIPED)
    if waits(process, os.path.join(folder, "x.tmp")):
        return process
    process.kill()
    raise TimeoutError("no temporary file")


def created(program, folder, text, letters=()):
    """The status and the errors of a create."""
    words = [program, *letters, "-c", "x"]
    done = subprocess.run(words, cwd=folder, input=text, stderr=subprocess.PIPE, timeout=HANGS, check=False)
    return done.returncode, done.stderr


def ended(process, text):
    """The status and the errors of a create that gets its text."""
    _, errors = process.communicate(text, timeout=HANGS)
    return process.returncode, errors


def in_folder(what):
    """Calls it with a folder that has an old database, which all may read."""
    with tempfile.TemporaryDirectory() as folder:
        path = os.path.join(folder, "x")
        with open(path, "wb") as file:
            file.write(OLD)
        os.chmod(path, 0o644)
        return what(folder, lambda name: read(os.path.join(folder, name)))


def second_is_refused(program, text):
    """A second create, of a whole text or of a cut one, while the first waits for its own."""

    def run(folder, read_file):
        first = started(program, folder)
        second = created(program, folder, text), created(program, folder, text, ["-v"])
        between = read_file("x"), read_file("x.tmp") is not None
        answer = ended(first, TWO_TEXT)
        return second, between, answer, read_file("x"), read_file("x.tmp")

    refused = (111, OPEN), (111, WHY % b"x.tmp")
    wanted = (refused, (OLD, True), (0, b""), TWO_FILE, None)
    return in_folder(run) == wanted


def second_is_killed(program):
    """A second create that is killed takes nothing from the first."""

    def run(folder, read_file):
        first = started(program, folder)
        second = subprocess.Popen([program, "-c", "x"], cwd=folder, **PIPED)
        second.kill()
        second.communicate()
        return ended(first, TWO_TEXT), read_file("x"), read_file("x.tmp")

    return in_folder(run) == ((0, b""), TWO_FILE, None)


def first_is_killed(program):
    """The file of a create that was killed is removed by the next."""

    def run(folder, read_file):
        first = started(program, folder)
        first.kill()
        first.communicate()
        is_left = read_file("x.tmp") is not None
        return is_left, created(program, folder, TWO_TEXT), read_file("x"), read_file("x.tmp")

    return in_folder(run) == (True, (0, b""), TWO_FILE, None)


def in_place_is_refused(program, words, lines=OPEN):
    """A second create while the first is at work in place, which has emptied the file by then and written a head
    of ones."""

    def run(folder, read_file):
        first = subprocess.Popen([program, *IN_PLACE], cwd=folder, **PIPED)
        if not waits(first, os.path.join(folder, "x")):
            first.kill()
            return None
        how = dict(cwd=folder, input=TWO_TEXT, stderr=subprocess.PIPE, timeout=HANGS, check=False)
        second = subprocess.run([program, *words], **how)
        between = read_file("x")
        return (second.returncode, second.stderr), between, ended(first, TWO_TEXT), read_file("x")

    return in_folder(run) == ((111, lines), b"\xff" * 2048, (0, b""), TWO_FILE)


def in_place_is_killed(program):
    """A create in place after one that was killed."""

    def run(folder, read_file):
        first = subprocess.Popen([program, *IN_PLACE], cwd=folder, **PIPED)
        if not waits(first, os.path.join(folder, "x")):
            return None
        first.kill()
        first.communicate()
        how = dict(cwd=folder, input=TWO_TEXT, stderr=subprocess.PIPE, timeout=HANGS, check=False)
        second = subprocess.run([program, *IN_PLACE], **how)
        return second.returncode, second.stderr, read_file("x")

    return in_folder(run) == (0, b"", TWO_FILE)


def other_file_is_kept(program):
    """A first create beside one of another database, whose temporary file's name begins as its own."""

    def run(folder, read_file):
        os.remove(os.path.join(folder, "x"))
        first = subprocess.Popen([program, "-c", "-t", "x.bit", "y"], cwd=folder, **PIPED)
        if not waits(first, os.path.join(folder, "x.bit")):
            first.kill()
            return None
        second = created(program, folder, TWO_TEXT)
        return second, ended(first, TWO_TEXT), {name: read_file(name) for name in os.listdir(folder)}

    return in_folder(run) == ((0, b""), (0, b""), {"x": TWO_FILE, "y": TWO_FILE})


def begun(program, folder, text):
    """A create of some text, which it reads from a file."""
    given = tempfile.TemporaryFile()
    given.write(text)
    given.seek(0)
    with given:
        how = dict(stdin=given, stderr=subprocess.DEVNULL)
        return subprocess.Popen([program, "-c", "x"], cwd=folder, **how)


def crowd_is_right(program, has_old):
    """Of creates that begin at once each makes the database or says that another is at work on it, or holds the whole
    file."""

    def run(folder, read_file):
        if not has_old:
            os.remove(os.path.join(folder, "x"))
        how = dict(cwd=folder, stdin=subprocess.DEVNULL, stderr=subprocess.PIPE)
        with open(os.path.join(folder, "text"), "wb") as text:
            text.write(TWO_TEXT)
        running = [subprocess.Popen([program, "-vc", "x", "text"], **how) for _ in range(CROWD)]
        answers = {(it.returncode, lines) for it in running for _, lines in [it.communicate(timeout=HANGS)]}
        wanted = {(0, b""), (111, WHY % b"x.tmp"), (111, WHOLE % b"x.tmp")}
        return answers <= wanted and (0, b"") in answers and read_file("x") == TWO_FILE and read_file("x.tmp") is None

    return in_folder(run)


def round_is_right(program, chosen, is_first):
    """Whether creates at once, some of them killed, leave a file that one of them published, beside an old one or
    none."""
    texts = [[(b"key%d" % n, chosen.randbytes(chosen.randint(0, 100_000)))] for n in range(CREATES)]
    files = [file_of(records) for records in texts]

    def run(folder, read_file):
        if is_first:
            os.remove(os.path.join(folder, "x"))
        running = [begun(program, folder, text_of(records)) for records in texts]
        time.sleep(chosen.uniform(0, LONGEST))
        killed = chosen.sample(range(CREATES), chosen.randint(0, 2))
        for n in killed:
            running[n].kill()
        statuses = [process.wait(timeout=HANGS) for process in running]
        published = [files[n] for n in range(CREATES) if statuses[n] == 0]
        # One that was killed may have come to the rename.
        unknown = [files[n] for n in range(CREATES) if statuses[n] == -signal.SIGKILL]
        found = read_file("x")
        return found in published + unknown or (not published and found == (None if is_first else OLD))

    return in_folder(run)


def main():
    if len(sys.argv) != 2:
        sys.exit(__doc__)
    program = os.path.abspath(sys.argv[1])
    os.umask(0o022)
    chosen = random.Random(39)
    held = {
        "a second create of a whole text": second_is_refused(program, TWO_TEXT),
        "a second create of a cut text": second_is_refused(program, TWO_TEXT[:-3]),
        "a second create that is killed": second_is_killed(program),
        "a first create that is killed": first_is_killed(program),
        "a create of another database": other_file_is_kept(program),
        "a second create in place": in_place_is_refused(program, IN_PLACE),
        "a second create in place, by the name itself": in_place_is_refused(program, ["-c", "-t", "x", "x"]),
        "a second create in place, with -v": in_place_is_refused(program, ["-v", *IN_PLACE], WHY % b"x"),
        "a create in place after one that was killed": in_place_is_killed(program),
    }
    for n in range(CROWDS):
        held[f"crowd {n}"] = crowd_is_right(program, True)
        held[f"crowd {n} with no database"] = crowd_is_right(program, False)
    for n in range(ROUNDS):
        held[f"round {n}"] = round_is_right(program, chosen, n % 2 == 1)
    wrong = [name for name, holds in held.items() if not holds]
    for name in wrong[:5]:
        print(name)
    print(f"{len(held) - len(wrong)} passed, {len(wrong)} failed")
    sys.exit(1 if wrong else 0)


if __name__ == "__main__":
    main()
