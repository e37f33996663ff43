#!/usr/bin/env python3
"""Looks at what a create does as other programs change a name beside it, and as the system knows no
locks, or locks of another kind.

    tests/faults/others.py PROGRAM LIBRARY

The library is refuse.c, built to be loaded ahead of the C library. In the rows of MEETS another program
puts something in place of a name just before one call of the create. It must stay, and the create must
end by the status 111 and its line, with the database as it was. A reader who locks the file that shows
permissions stops nothing. With the errors of HELD the lock of an old file is refused: it may be another
create's, and stays. With those of FREE there are no locks, and the database is made. What the system does not say is not
taken for a yes or a no: an old file of which it is not known whether it is standard input stays, and so does the create's own
where no look shows that it still has its name. A call that would have to wait is no call that a signal interrupted.
"""

import errno
import fcntl
import os
import stat
import subprocess
import sys
import tempfile

import commands
from files import ONE_FILE, TWO_FILE, TWO_TEXT
from names import CREATES, LAST, MADE, MODE, NO_DATABASE, NO_FILE, NO_NAME, PRIVATE, found_in, made_of, place, run, told
from places import Link
from refusing import Refusing

OTHER = b"another's"
KEPT = {"x": ONE_FILE, "y": b"kept"}
STALE = {**KEPT, "x.tmp": b"old"}
# No database is there, so a first temporary file shows the permissions of a new one.
FIRST = {"y": b"kept"}
PLAIN = ["-c", "x"]
IN_PLACE = ["-c", "-t", "-", "x"]
# What there is before, the words, what another program does before which call on which name, the line
# of the create, and what has the name then.
MEETS = {
    "a pipe, as the old file is opened": (STALE, PLAIN, "pipe", "open", 1, "x.tmp", NO_FILE),
    "a link, as the old file is opened": (STALE, PLAIN, "link", "open", 1, "x.tmp", NO_FILE),
    "a file, as the old file is opened": (STALE, PLAIN, "take", "lock", 1, "x.tmp", NO_FILE),
    "a file, as the old file is removed": (STALE, PLAIN, "take", "open", 2, "x.tmp", NO_FILE),
    "a file, as the new one is made": (KEPT, PLAIN, "take", "open", 1, "x.tmp", NO_FILE),
    "a link, as the new one is made": (KEPT, PLAIN, "link", "open", 1, "x.tmp", NO_FILE),
    "a file, as the new one is locked": (KEPT, PLAIN, "take", "lock", 1, "x.tmp", NO_FILE),
    "a link, as the new one is locked": (KEPT, PLAIN, "link", "lock", 1, "x.tmp", NO_FILE),
    "a file, as the new one is locked after an old one": (STALE, PLAIN, "take", "lock", 2, "x.tmp", NO_FILE),
    "a file, as the new one gets its permissions": (KEPT, PLAIN, "take", "allow", 1, "x.tmp", NO_NAME),
    "a file, as the new one is synced": (KEPT, PLAIN, "take", "sync", 1, "x.tmp", NO_NAME),
    "a link, as the new one is synced": (KEPT, PLAIN, "link", "sync", 1, "x.tmp", NO_NAME),
    "a link, as a database in place is opened": (KEPT, IN_PLACE, "link", "open", 2, "x", NO_FILE),
    "a file, as the one that shows permissions is made": (FIRST, PLAIN, "take", "open", 1, "x.tmp", NO_FILE),
    "a link, as the one that shows permissions is made": (FIRST, PLAIN, "link", "open", 1, "x.tmp", NO_FILE),
    "a file, as the new one is made after that": (FIRST, PLAIN, "take", "open", 2, "x.tmp", NO_FILE),
    "a pipe, as the new one is made after that": (FIRST, PLAIN, "pipe", "open", 2, "x.tmp", NO_FILE),
    "a file, as the new one is locked after that": (FIRST, PLAIN, "take", "lock", 1, "x.tmp", NO_FILE),
    "a link, as the first one is synced": (FIRST, PLAIN, "link", "sync", 1, "x.tmp", NO_NAME),
    "a file, as a database in place is locked": (KEPT, IN_PLACE, "take", "lock", 1, "x", NO_NAME),
    "a link, as a database in place is locked": (KEPT, IN_PLACE, "link", "lock", 1, "x", NO_NAME),
    "a file, as a database in place is emptied": (KEPT, IN_PLACE, "take", "cut", 1, "x", NO_NAME),
    "a file, as a database in place is synced": (KEPT, IN_PLACE, "take", "sync", 1, "x", NO_NAME),
    "a pipe, as a database in place is synced": (KEPT, IN_PLACE, "pipe", "sync", 1, "x", NO_NAME),
}
# Before which call of a first create, among those on the temporary name and on open files, a reader locks the file
# that shows permissions; and the one that is built, which nobody else can open.
READ = {"looked at": ("look", 3), "looked at by its name": ("look", 4), "removed": ("remove", 1)}
BUILT = ("lock", 1)
# The folder of the database, the one that holds the place of a closed stream, what leads to standard input, and
# those whose links are not replaced.
SYSTEM = (".", "/", "/proc/self/fd/0", "/dev", "/proc")
FREE = (errno.ENOTSUP, errno.ENOSYS, errno.ENOLCK)
HELD = (errno.EBADF, errno.EAGAIN, errno.EIO, errno.EINVAL, errno.ENOMEM, errno.EACCES, errno.EPERM)
# What a command is that makes a call which answers 0, its output and its line.
IDLE = {
    "a write of a file": (PLAIN, "pwrite", b"", NO_DATABASE),
    "a read of a file": (["-q", "x", "one"], "pread", b"", NO_DATABASE),
    "a write of the output": (["-q", "x", "one"], "write", b"Hello", b"cdb: output cannot be written\n"),
}
# Creates that are done, each with its files.
DONE = {name: it for name, it in CREATES.items() if it.made is not None}


def has(path, act):
    """Whether a name has what another program put there."""
    mode = os.lstat(path).st_mode if os.path.lexists(path) else 0
    if act == "pipe":
        return stat.S_ISFIFO(mode)
    if act == "link":
        return stat.S_ISLNK(mode) and os.readlink(path) == "y"
    if not stat.S_ISREG(mode):
        return False
    with open(path, "rb") as file:
        return file.read() == OTHER


def meets(path, library, row):
    """What is wrong as another program meets the create of a row, or None."""
    files, words, act, call, number, name, line = row
    with tempfile.TemporaryDirectory() as folder:
        place(folder, files)
        meeting = Refusing(path, library, "calls", ACT=act, ONLY=call, NAME=name)
        done, _ = meeting.trace(words, TWO_TEXT, number, number, folder)
        if not has(os.path.join(folder, name), act):
            return f"what another program put there is gone, status {done.returncode}"
        os.remove(os.path.join(folder, name))
        left = {name: what[0] for name, what in found_in(folder).items()}
    kept = {it: what for it, what in files.items() if it not in (name, "x.tmp")}
    if (done.returncode, done.stderr, left) != (111, line, kept):
        return f"{done.returncode} {done.stderr}, {sorted(left)}"
    return None


def refused(path, library, files, error, first, last):
    """What a create leaves to which these locks are refused by an error: its status, its line and the files."""
    with tempfile.TemporaryDirectory() as folder:
        place(folder, files)
        before = found_in(folder)
        locking = Refusing(path, library, "calls", ONLY="lock", ERROR=error)
        done, _ = locking.trace(PLAIN, TWO_TEXT, first, last, folder)
        return done.returncode, done.stderr, found_in(folder), before


def held(path, library, error):
    """What is wrong with a create to which the lock of an old file is refused, or None: the old file may be
    that of another create."""
    status, line, left, before = refused(path, library, STALE, error, 1, 1)
    return None if (status, line, left) == (111, NO_FILE, before) else f"{status} {line}, {sorted(left)}"


def free(path, library, error):
    """What is wrong with a create of a file system that knows no locks, or None."""
    status, line, left, before = refused(path, library, STALE, error, 1, LAST)
    made = {**before, "x": (TWO_FILE, before["x"][1])}
    del made["x.tmp"]
    return None if (status, line, left) == (0, b"", made) else f"{status} {line}, {sorted(left)}"


def remote(path, library, is_held):
    """What is wrong with a create beside an old file, which another may hold, where a file must be opened to
    write to be locked."""
    with tempfile.TemporaryDirectory() as folder:
        place(folder, STALE)
        with open(os.path.join(folder, "x.tmp"), "r+b") as file:
            if is_held:
                fcntl.flock(file, fcntl.LOCK_EX)
            done, _ = Refusing(path, library, "calls", REMOTE=1).trace(PLAIN, TWO_TEXT, folder=folder)
        left = {name: what[0] for name, what in found_in(folder).items()}
    wanted = (111, NO_FILE, STALE) if is_held else (0, b"", {**KEPT, "x": TWO_FILE})
    return None if (done.returncode, done.stderr, left) == wanted else f"{done.returncode} {done.stderr}, {sorted(left)}"


def emptied(path, library, call):
    """What is wrong with a create in place whose name another program takes just before a call, or None: the file under its
    other name is not emptied."""
    with tempfile.TemporaryDirectory() as folder:
        place(folder, KEPT)
        os.link(os.path.join(folder, "x"), os.path.join(folder, "z"))
        taking = Refusing(path, library, "calls", ACT="take", ONLY=call, NAME="x")
        done, _ = taking.trace(IN_PLACE, TWO_TEXT, 1, 1, folder)
        left = {name: what[0] for name, what in found_in(folder).items()}
    is_right = (done.returncode, done.stderr, left) == (111, NO_NAME, {**KEPT, "x": OTHER, "z": ONE_FILE})
    return None if is_right else f"{done.returncode} {done.stderr}, {left!r:.100}"


def followed(path, library, words):
    """What is wrong with a create in place of a link whose file has the link's inode on another device, or None: a link is not
    followed."""
    with tempfile.TemporaryDirectory() as folder:
        place(folder, {**KEPT, "x": Link("y")})
        before = found_in(folder)
        done, _ = Refusing(path, library, "calls", ALIKE=1).trace(words, TWO_TEXT, folder=folder)
        left = found_in(folder)
    is_right = (done.returncode, done.stderr, left) == (111, NO_FILE, before)
    return None if is_right else f"{done.returncode} {done.stderr}, {told(left)}"


def read_by(path, library, row):
    """The status and the line of a first create before one of whose calls a reader locks the temporary file, whether he
    got the lock, and what is left."""
    call, number = row
    with tempfile.TemporaryDirectory() as folder:
        place(folder, FIRST)
        reading = Refusing(path, library, "calls", ACT="hold", ONLY=call, NAME="x.tmp")
        done, calls = reading.trace(PLAIN, TWO_TEXT, number, number, folder)
        has_lock = [it.answer for it in calls if it.what == "hold"] == [0]
        return done.returncode, done.stderr, has_lock, found_in(folder)


def unstopped(path, library, row):
    """What is wrong with a first create the file of which that shows permissions is locked by a reader, or None."""
    status, line, has_lock, left = read_by(path, library, row)
    is_right = (status, line, has_lock) == (0, b"", True) and left.pop("x", None) == (TWO_FILE, MADE)
    return None if is_right and left == {"y": (b"kept", MODE)} else f"{status} {line}, {has_lock}, {told(left)}"


def stopped(path, library, row):
    """What is wrong with a first create whose file is locked once it is made, or None: it may be another's, and stays."""
    status, line, has_lock, left = read_by(path, library, row)
    wanted = {"y": (b"kept", MODE), "x.tmp": (b"", PRIVATE)}
    is_right = (status, line, has_lock, left) == (111, NO_FILE, True, wanted)
    return None if is_right else f"{status} {line}, {has_lock}, {told(left)}"


def longer(path, library, call):
    """What is wrong with a create to whose file another program adds a byte just before a call, or None."""
    with tempfile.TemporaryDirectory() as folder:
        place(folder, KEPT)
        before = found_in(folder)
        growing = Refusing(path, library, "calls", ACT="grow", ONLY=call, NAME="x.tmp")
        done, _ = growing.trace(PLAIN, TWO_TEXT, 1, 1, folder)
        left = found_in(folder)
    is_right = (done.returncode, done.stderr, left) == (111, NO_NAME, before)
    return None if is_right else f"{done.returncode} {done.stderr}, {sorted(left)}"


def idle(path, library, row):
    """What is wrong with a command one of whose calls answers that it took no byte, or None."""
    words, call, output, line = row
    with tempfile.TemporaryDirectory() as folder:
        place(folder, KEPT)
        before = found_in(folder)
        taking = Refusing(path, library, "calls", ACT="none", ONLY=call)
        done, _ = taking.trace(words, TWO_TEXT, 1, 1, folder)
        left = found_in(folder)
    # The program may try once more as it ends.
    is_right = (done.returncode, done.stderr, left) == (111, line, before) and output.startswith(done.stdout)
    return None if is_right else f"{done.returncode} {done.stderr}, {sorted(left)}"


def unready(path, library, row):
    """What is wrong with a command one of whose calls would have to wait, or None: it is not made again."""
    words, call, output, line = row
    with tempfile.TemporaryDirectory() as folder:
        place(folder, KEPT)
        before = found_in(folder)
        waiting = Refusing(path, library, "calls", ONLY=call, ERROR=errno.EAGAIN)
        done, _ = waiting.trace(words, TWO_TEXT, 1, 1, folder)
        left = found_in(folder)
    is_right = (done.returncode, done.stderr, left) == (111, line, before) and output.startswith(done.stdout)
    return None if is_right else f"{done.returncode} {done.stderr}, {sorted(left)}"


def unknown_input(path, library, _):
    """What is wrong with a create that does not learn whether the old file is its standard input, or None: the file stays."""
    with tempfile.TemporaryDirectory() as folder:
        place(folder, STALE)
        before = found_in(folder)
        looking = Refusing(path, library, "calls", ONLY="look", NAME="/proc/self/fd/0")
        done, calls = looking.trace(PLAIN, TWO_TEXT, 1, 1, folder)
        left = found_in(folder)
    is_right = (done.returncode, done.stderr, left) == (111, NO_FILE, before) and "/proc/self/fd/0" in [it.name for it in calls]
    return None if is_right else f"{done.returncode} {done.stderr}, {told(left)}"


def unknown_own(path, library, _):
    """What is wrong with a create that fails and does not learn whether its file still has its name, or None: the name is not
    removed."""
    with tempfile.TemporaryDirectory() as folder:
        place(folder, KEPT)
        before = found_in(folder)
        looking = Refusing(path, library, "calls", ONLY="sync", ALSO="look", ALSO_FIRST=1, ALSO_LAST=LAST)
        done, _ = looking.trace(PLAIN, TWO_TEXT, 1, 1, folder)
        left = found_in(folder)
    is_right = (done.returncode, done.stderr) == (111, NO_DATABASE) and left == {**before, "x.tmp": (TWO_FILE, MODE)}
    return None if is_right else f"{done.returncode} {done.stderr}, {told(left)}"


def unshown(path, library, error):
    """What is wrong with a create of a new database where the file that shows the permissions of a new one
    cannot be made, or None."""
    with tempfile.TemporaryDirectory() as folder:
        hiding = Refusing(path, library, "calls", ONLY="open", NAME="x.tmp", ERROR=error)
        done, calls = hiding.trace(PLAIN, TWO_TEXT, 1, 1, folder)
        left = found_in(folder)
    # Nothing was built: no call on any file followed.
    is_early = calls[-1].name == "2" and not any(it.what == "pwrite" for it in calls)
    is_right = (done.returncode, done.stderr, left) == (111, NO_FILE, {}) and is_early
    return None if is_right else f"{done.returncode} {done.stderr}, {told(left)}"


def touched(path, library, create):
    """What is wrong with the names that a create calls on, or None: none but those of the line, the temporary
    one, the folder of the database, and what the system has."""
    with tempfile.TemporaryDirectory() as folder:
        place(folder, create.files)
        _, calls = Refusing(path, library, "calls").trace(["-c", *create.words], b"", folder=folder)
    others = {it.name for it in calls if not it.name.isdigit()} - {*create.words, *create.files, "x.tmp", *SYSTEM}
    return f"calls on {sorted(others)}" if others else None


def kept(path, library, row):
    """What is wrong with a create whose permissions the system refuses or ignores, or None: it goes on if no
    old database had others, and its own are no wider than those of a new file."""
    old, how = row
    with tempfile.TemporaryDirectory() as folder:
        if old is not None:
            place(folder, {"x": ONE_FILE})
            os.chmod(os.path.join(folder, "x"), old)
        before = found_in(folder)
        done, _ = Refusing(path, library, "calls", ONLY="allow", **how).trace(PLAIN, TWO_TEXT, 1, LAST, folder)
        left = found_in(folder)
    is_made = old in (None, PRIVATE)
    wanted = (0, b"", {"x": (TWO_FILE, PRIVATE)}) if is_made else (111, NO_FILE, before)
    return None if (done.returncode, done.stderr, left) == wanted else f"{done.returncode} {done.stderr}, {told(left)}"


def unopened(path, library, target):
    """What is wrong with a create whose temporary name has a link, or None. What it leads to is not opened."""
    files = {**KEPT, "x.tmp": Link(target)}
    with tempfile.TemporaryDirectory() as folder:
        place(folder, files)
        before = found_in(folder)
        done, calls = Refusing(path, library, "calls").trace(PLAIN, TWO_TEXT, folder=folder)
        is_same = (done.returncode, done.stderr, found_in(folder)) == (111, NO_FILE, before)
    opens = [it.name for it in calls if it.what == "open" and it.name == "x.tmp"]
    return None if is_same and not opens else f"{done.returncode} {done.stderr}, opened: {opens}"


def alike(path, library, create):
    """What is wrong with a create all whose files have one inode, each on a device of its own, or None."""
    before, done, _, left = run(Refusing(path, library, "calls", ALIKE=1), create)
    return None if (done.returncode, left) == (0, made_of(create, before)) else f"{done.returncode} {done.stderr}"


def flags(path, library, command):
    """What is wrong with how a command opens its files, or None. No program that it became would have them;
    it waits for a pipe's writer; and it empties none and makes none that is there."""
    with tempfile.TemporaryDirectory() as folder:
        place(folder, command.files)
        _, calls = Refusing(path, library, "calls").trace(command.words, command.stdin, folder=folder)
    opens = [it for it in calls if it.what == "open"]
    for it in opens:
        is_made = it.detail & os.O_CREAT
        if not it.detail & os.O_CLOEXEC or it.detail & (os.O_NONBLOCK | os.O_TRUNC | os.O_APPEND):
            return f"{it.name} is opened by {it.detail:o}"
        if is_made and not it.detail & os.O_EXCL:
            return f"{it.name} is made by {it.detail:o}"
    return None if opens else "nothing is opened"


def checks():
    """Each check: its name, its function, and what that is given."""
    yield from ((name, meets, row) for name, row in MEETS.items())
    yield from ((f"a lock refused by {errno.errorcode[it]}", held, it) for it in HELD)
    yield from ((f"each lock refused by {errno.errorcode[it]}", free, it) for it in FREE)
    yield from ((f"a reader's lock, as the file that shows permissions is {it}", unstopped, row) for it, row in READ.items())
    yield "a lock of another's, as the new one is made", stopped, BUILT
    yield "a file that has another name too, as a database in place is locked", emptied, "lock"
    yield "a link with the inode of its file, in place", followed, IN_PLACE
    yield "a link with the inode of its file, in place by its name", followed, ["-c", "-t", "x", "x"]
    yield "a byte more, before its permissions are given", longer, "allow"
    yield "a byte more, before it is synced", longer, "sync"
    yield from ((f"{name} that takes no byte", idle, row) for name, row in IDLE.items())
    yield from ((f"{name} that would have to wait", unready, row) for name, row in IDLE.items())
    yield "standard input that is not looked at, beside an old file", unknown_input, None
    yield "a temporary file that is not looked at, as it is to be removed", unknown_own, None
    for error in (errno.ENAMETOOLONG, errno.EIO, errno.EACCES, errno.ENOSPC, errno.EEXIST):
        yield f"a file that shows permissions, refused by {errno.errorcode[error]}", unshown, error
    yield from ((f"{name}, its names", touched, it) for name, it in CREATES.items())
    for old in (None, PRIVATE, 0o640, 0o400, 0o666):
        beside = "no database" if old is None else f"a database of {old:o}"
        yield f"permissions that are refused, {beside}", kept, (old, {"ERROR": errno.EPERM})
        yield f"permissions that are ignored, {beside}", kept, (old, {"ACT": "none"})
    yield "a link to a file", unopened, "y"
    yield "a link to the database", unopened, "x"
    yield "an old file over NFS", remote, False
    yield "the file of another create over NFS", remote, True
    yield from ((f"{name}, inodes alike", alike, it) for name, it in DONE.items())
    yield from ((f"{name}, its opens", flags, it) for name, it in commands.COMMANDS.items())
    yield from ((f"{name}, its opens", flags, command_of(it)) for name, it in CREATES.items())


def command_of(create):
    """A create as a command."""
    return commands.Command(["-c", *create.words], b"", create.files)


def main():
    if len(sys.argv) != 3:
        sys.exit(__doc__)
    path, library = map(os.path.abspath, sys.argv[1:])
    passed = failed = 0
    for name, check, given in checks():
        try:
            fault = check(path, library, given)
        except subprocess.TimeoutExpired:
            fault = "it does not end"
        passed, failed = passed + (fault is None), failed + (fault is not None)
        if fault is not None:
            print(f"{name}: {fault:.300}")
    print(f"{passed} passed, {failed} failed")
    sys.exit(1 if failed else 0)


if __name__ == "__main__":
    main()
