#!/usr/bin/env python3
"""Looks at what another user of the machine does to creates in a folder that he may read and not write.

    tests/faults/strangers.py PROGRAM LIBRARY

The library is refuse.c, built to be loaded ahead of the C library. Two processes of his open the temporary name
again and again and lock what they get: none of some hundred first creates fails, nor one over his own file. Creates
are killed once one of their calls is made. The file that is built he cannot open until it has its permissions, and
the next create succeeds. What is left from then on, and an empty file that shows permissions, he may lock if these
let him read it: each create fails and says so while he does, and succeeds once he is gone. His lock of the database
itself stops a create in place and no other. This takes root: without it that lock is another process's of the same
user, and all other rows are left out, which is said.
"""

import contextlib
import fcntl
import os
import signal
import subprocess
import sys
import tempfile

import commands  # noqa: F401, which makes the files of tests/cli known
from files import ONE_FILE, TWO_FILE, TWO_TEXT
from refusing import Refusing
from rows import HANGS, leave_out

STRANGER = 1001
ATTACKERS = 2
CREATES = 300
# The most files that one of them keeps locked.
KEPT_OPEN = 500
MASK = 0o022
OPEN = b"cdb: file cannot be opened\n"
# Of a temporary file that others may read, and of a database that is made in place.
HELD = OPEN + b"cdb: x.tmp: locked by another process\n"
AT_WORK = OPEN + b"cdb: x: another create is at work on it\n"
MADE = (0, b"")
CREATE = ["-cv", "x", "in"]
# Once which call a create is killed, of those on the temporary name and on open files, how many of these there were
# then, the mask, and whether a stranger may open the file that is left.
KILLS = {
    "once the file that shows permissions is made": ("open", 1, MASK, True),
    "once its own file is made": ("open", 2, MASK, False),
    "once its file is locked": ("lock", 1, MASK, False),
    "once its file is whole": ("pwrite", 3, MASK, False),
    "once it has its permissions": ("allow", 1, MASK, True),
    "once it is synced": ("sync", 1, MASK, True),
    "once it has its permissions, for this user alone": ("allow", 1, 0o077, False),
    "once it is synced, for this user alone": ("sync", 1, 0o077, False),
}


def become_stranger():
    """Takes root's rights from this process, if it has them."""
    if os.getuid() != 0:
        return
    os.setgroups([])
    os.setgid(STRANGER)
    os.setuid(STRANGER)


@contextlib.contextmanager
def folder_of(mode, files):
    """A folder with these permissions and files, which all may read."""
    # A flush to a file system in memory takes no time.
    where = "/dev/shm" if os.access("/dev/shm", os.W_OK) else None
    with tempfile.TemporaryDirectory(dir=where) as folder:
        os.chmod(folder, mode)
        for name, what in files.items():
            with open(os.path.join(folder, name), "wb") as file:
                file.write(what)
            os.chmod(os.path.join(folder, name), 0o644)
        yield folder


def spin(path, told):
    """Opens a name for ever, locks what has it, and keeps that. A byte is told for each lock."""
    kept = []
    while True:
        try:
            kept.append(os.open(path, os.O_RDONLY))
            fcntl.flock(kept[-1], fcntl.LOCK_SH | fcntl.LOCK_NB)
            os.write(told, b"*")
        except OSError:
            continue
        finally:
            if len(kept) > KEPT_OPEN:
                os.close(kept.pop(0))


@contextlib.contextmanager
def strangers(what, *given):
    """Has processes of the stranger do something for ever. What they told is counted in the end."""
    ends = os.pipe2(os.O_NONBLOCK)
    running = []
    for _ in range(ATTACKERS):
        process = os.fork()
        if process == 0:
            try:
                become_stranger()
                what(*given, ends[1])
            finally:
                os._exit(1)
        running.append(process)
    count = []
    try:
        yield count
    finally:
        for process in running:
            os.kill(process, signal.SIGKILL)
            os.waitpid(process, 0)
        os.close(ends[1])
        with open(ends[0], "rb") as told:
            count.append(len(told.read()))


@contextlib.contextmanager
def locked(path):
    """Has a process of the stranger hold the lock of a file, and gives whether it could open that."""
    ends = os.pipe()
    process = os.fork()
    if process == 0:
        try:
            become_stranger()
            file = os.open(path, os.O_RDONLY)
            fcntl.flock(file, fcntl.LOCK_SH | fcntl.LOCK_NB)
            os.write(ends[1], b"*")
            signal.pause()
        finally:
            os._exit(1)
    os.close(ends[1])
    with open(ends[0], "rb") as told:
        yield told.read(1) == b"*"
        os.kill(process, signal.SIGKILL)
        os.waitpid(process, 0)


def created(program, folder, words=CREATE, mask=MASK):
    """The status and the lines of a create."""
    how = dict(cwd=folder, stdin=subprocess.DEVNULL, stderr=subprocess.PIPE, timeout=HANGS, check=False)
    done = subprocess.run([program, *words], preexec_fn=lambda: os.umask(mask) and None, **how)
    return done.returncode, done.stderr


def left_in(folder):
    """What a folder has but for the text."""
    left = {}
    for name in set(os.listdir(folder)) - {"in"}:
        with open(os.path.join(folder, name), "rb") as file:
            left[name] = file.read()
    return left


def beside_reader(program, _, is_over):
    """What is wrong with creates beside a reader who locks what has the temporary name, or None: each of a name
    that has nothing, or the stranger's own file."""
    with folder_of(0o755, {"in": TWO_TEXT}) as folder:
        path = os.path.join(folder, "x")
        with strangers(spin, path + ".tmp") as count:
            for number in range(1, CREATES + 1):
                if is_over:
                    with open(path, "wb") as file:
                        os.fchown(file.fileno(), STRANGER, STRANGER)
                answer, left = created(program, folder), left_in(folder)
                if answer != MADE or left != {"x": TWO_FILE}:
                    return f"create {number}: {answer}, {sorted(left)}"
                os.remove(path)
        print(f"a reader locked {count[0]} files of {CREATES} creates")
    return None


def after_kill(program, library, row):
    """What is wrong with what a create leaves that was killed, or None."""
    call, number, mask, may_open = row
    with folder_of(0o755, {"in": TWO_TEXT}) as folder:
        killing = Refusing(program, library, "calls", ACT="kill", ONLY=call, NAME="x.tmp")
        done, _ = killing.trace(CREATE, b"", number, number, folder, mask)
        path = os.path.join(folder, "x.tmp")
        if done.returncode != -signal.SIGKILL or set(left_in(folder)) != {"x.tmp"}:
            return f"status {done.returncode}, {sorted(left_in(folder))}"
        with locked(path) as is_held:
            if is_held != may_open:
                return f"a stranger {'opens' if is_held else 'cannot open'} a file of mode {os.stat(path).st_mode:o}"
            answers = [created(program, folder, mask=mask) for _ in range(3 if is_held else 0)]
            if answers != [(111, HELD)] * len(answers):
                return f"beside the stranger {answers}"
        answer, left = created(program, folder, mask=mask), left_in(folder)
    return None if (answer, left) == (MADE, {"x": TWO_FILE}) else f"the next create {answer}, {sorted(left)}"


def beside_lock(program, _, words):
    """What is wrong with a create of a database that a stranger holds the lock of, or None."""
    in_place = "-t" in words
    with folder_of(0o755, {"x": ONE_FILE, "in": TWO_TEXT}) as folder:
        with locked(os.path.join(folder, "x")) as is_held:
            answer, left = created(program, folder, words), left_in(folder)
        wanted = ((111, AT_WORK), {"x": ONE_FILE}) if in_place else (MADE, {"x": TWO_FILE})
        if not is_held or (answer, left) != wanted:
            return f"{answer}, {sorted(left)}"
        answer, left = created(program, folder, words), left_in(folder)
    return None if (answer, left) == (MADE, {"x": TWO_FILE}) else f"the next create {answer}, {sorted(left)}"


def checks():
    """Each check: its name, its function, and what that is given."""
    yield "first creates beside a reader who locks", beside_reader, False
    yield "creates over a stranger's file beside a reader who locks", beside_reader, True
    yield from ((f"a create that is killed {name}", after_kill, row) for name, row in KILLS.items())
    yield "a database that a stranger locks, replaced", beside_lock, CREATE
    yield "a database that a stranger locks, in place", beside_lock, ["-cv", "-t", "-", "x", "in"]


def main():
    if len(sys.argv) != 3:
        sys.exit(__doc__)
    program, library = map(os.path.abspath, sys.argv[1:])
    rows, wrong = list(checks()), 0
    if os.getuid() != 0:
        for name, _, _ in (it for it in rows if it[1] != beside_lock):
            leave_out(name, "root")
        rows = [it for it in rows if it[1] == beside_lock]
    for name, check, given in rows:
        fault = check(program, library, given)
        wrong += fault is not None
        if fault is not None:
            print(f"{name}: {fault:.300}")
    print(f"{len(rows) - wrong} passed, {wrong} failed")
    sys.exit(1 if wrong else 0)


if __name__ == "__main__":
    main()
