#!/usr/bin/env python3
"""Refuses each call on a name or on an open file's name, lock, permissions or sync to creates in turn.

    tests/faults/names.py PROGRAM LIBRARY

The library is refuse.c, built to be loaded ahead of the C library. Each create of CREATES is made once
with nothing refused, which lists its calls. Then each of them is refused, alone and with all later
ones, by each error of ERRORS. The status and the line must be those of that call. With status 0 the
new database is whole, has its permissions, and nothing else has changed. If permissions are refused that
no old database had, it is for this user alone. A look before a removal is made once more. Else the database,
the inputs and the base are as they were, and so are their permissions; a database that is made in place is as
it was unless its sync or the look after that was refused, or one at the base while it is read. A temporary file may be left, for this user alone until it is whole; or an
empty one with the permissions of a new database, if no old one has any.
"""

import errno
import os
import stat
import tempfile
from dataclasses import dataclass, field

import commands  # noqa: F401, which makes the files of tests/cli known
from files import ONE_FILE, TWO_FILE, TWO_TEXT
from places import FOLDER, Link
from refusing import READ, Refusing, marked, try_each

ERRORS = (errno.EIO, errno.EACCES, errno.ENOMEM, errno.ELOOP)
CALLS = "look,open,lock,allow,remove,rename,sync"
NO_FILE = b"cdb: file cannot be opened\n"
NO_NAME = b"cdb: database cannot be renamed\n"
NO_DATABASE = b"cdb: database cannot be read or written\n"
NO_MEMORY = b"cdb: no memory\n"
LINES = (NO_FILE, NO_NAME, NO_DATABASE)
LAST = 2**63 - 1
MASK = 0o022
MADE = 0o644
# The permissions of what is there before, and of a temporary file that is left.
MODE = 0o640
PRIVATE = 0o600


@dataclass
class Create:
    """A create of the database x, with what is there before it."""

    words: list
    files: dict = field(default_factory=dict)
    # What x is to be, or None: the create is refused.
    made: object = TWO_FILE
    temporary: str = "x.tmp"


OLD = {"x": ONE_FILE, "in": TWO_TEXT}
CREATES = {
    "plain": Create(["x", "in"], OLD),
    "no old database": Create(["x", "in"], {"in": TWO_TEXT}),
    "an old temporary file": Create(["x", "in"], {**OLD, "x.tmp": b"old"}),
    "its temporary file spelled otherwise": Create(["-t", "./x.tmp", "x", "in"], OLD),
    "an old one spelled otherwise": Create(["-t", "./x.tmp", "x", "in"], {**OLD, "x.tmp": b"old"}),
    "a temporary file in a folder": Create(["-t", "sub/y", "x", "in"], {**OLD, "sub": FOLDER}, temporary="sub/y"),
    "the database spelled otherwise": Create(["-t", "./x", "x", "in"], OLD, None),
    "the same, with no database": Create(["-t", "./x", "x", "in"], {"in": TWO_TEXT}, None, "x"),
    "the input": Create(["-t", "in", "x", "in"], OLD, None),
    "the input spelled otherwise": Create(["-t", "./in", "x", "in"], OLD, None),
    "an input that is a link to the temporary file": Create(
        ["x", "in"], {"x": ONE_FILE, "in": Link("x.tmp"), "x.tmp": TWO_TEXT}, None
    ),
    "a link to the input": Create(["x", "in"], {**OLD, "x.tmp": Link("in")}, None),
    "a database that is a link": Create(["x", "in"], {"x": Link("y"), "y": ONE_FILE, "in": TWO_TEXT}),
    "a base": Create(["-b", "base", "x", "in"], {"x": ONE_FILE, "base": TWO_FILE, "in": b"\n"}),
    "a base that is the database": Create(["-b", "x", "x", "in"], {"x": TWO_FILE, "in": b"\n"}),
    "a base that is the temporary file": Create(
        ["-b", "./x.tmp", "x", "in"], {"x": ONE_FILE, "x.tmp": TWO_FILE, "in": b"\n"}, None
    ),
    "a base that is a link to the temporary file": Create(
        ["-b", "base", "x", "in"], {"x": ONE_FILE, "base": Link("x.tmp"), "x.tmp": TWO_FILE, "in": b"\n"}, None
    ),
    "in place": Create(["-t", "-", "x", "in"], OLD),
    "in place, by its name": Create(["-t", "x", "x", "in"], OLD),
    "in place, with no old database": Create(["-t", "-", "x", "in"], {"in": TWO_TEXT}),
    "in place, the input spelled otherwise": Create(["-t", "-", "in", "./in"], {"in": TWO_TEXT}, None),
    "in place, an input that is a link to it": Create(
        ["-t", "-", "x", "in"], {"x": TWO_TEXT, "in": Link("x")}, None
    ),
    "in place, beside a base": Create(
        ["-t", "x", "-b", "base", "x", "in"], {"x": ONE_FILE, "base": TWO_FILE, "in": b"\n"}
    ),
}


def is_in_place(create):
    """Whether a create makes its database in place."""
    return create.words[:1] == ["-t"] and create.words[1] in ("-", "x")


def place(folder, files):
    """Makes what is there before."""
    for name, what in files.items():
        path = os.path.join(folder, name)
        if what is FOLDER:
            os.mkdir(path)
        elif isinstance(what, Link):
            os.symlink(what.target, path)
        else:
            with open(path, "wb") as file:
                file.write(what)
            os.chmod(path, MODE)


def found_in(folder, inner=""):
    """All that is in a folder and in those below it: bytes with permissions, or a link."""
    found = {}
    for name in os.listdir(os.path.join(folder, inner)):
        name = os.path.join(inner, name)
        path = os.path.join(folder, name)
        mode = os.lstat(path).st_mode
        if stat.S_ISLNK(mode):
            found[name] = Link(os.readlink(path))
        elif stat.S_ISDIR(mode):
            found.update(found_in(folder, name))
        else:
            with open(path, "rb") as file:
                found[name] = file.read(), mode & 0o777
    return found


def run(program, create, first=0, last=0):
    """What was there before, the status and lines, the calls on names, and what is left."""
    with tempfile.TemporaryDirectory() as folder:
        place(folder, create.files)
        before = found_in(folder)
        done, calls = program.trace(["-c", *create.words], b"", first, last, folder, MASK)
        return before, done, [it for it in marked(calls) if it.what in (*CALLS.split(","), READ)], found_in(folder)


def new(create, before, made=MADE):
    """The new database. In place of a link the umask decides, as if nothing were there."""
    old = before.get("x")
    return create.made, old[1] if isinstance(old, tuple) else made


def made_of(create, before, made=MADE):
    """What a create that is done leaves of what was there."""
    left = {name: it for name, it in before.items() if name != create.temporary}
    return {**left, "x": new(create, before, made)}


def may_be_left(create, before, left, is_begun, may_stay):
    """Whether a create that is not done may have left this."""
    wanted, found = dict(before), dict(left)
    if is_in_place(create) and create.made is not None:
        old, now = wanted.pop("x", None), found.pop("x", None)
        begun = old is None or is_begun
        is_new = begun and now is not None and now[1] == new(create, before)[1]
        return wanted == found and (now == old or is_new)
    if create.made is not None or create.temporary not in before:
        old, now = wanted.pop(create.temporary, None), found.pop(create.temporary, None)
        # It has its permissions once it is whole.
        is_own = now is not None and (now[1] == PRIVATE or now == new(create, before) or now == shown(before))
        if now not in (old, None) and not (may_stay and is_own):
            return False
    return wanted == found


def shown(before):
    """The file that shows the permissions of a new database, which is made if no old one has any; or None."""
    return None if isinstance(before.get("x"), tuple) else (b"", MADE)


def line_of(call, error, is_naming):
    """The line of a call that is refused, or None: nothing comes of it."""
    if call.what == "open" and (call.name in ("/", ".") or os.path.isdir(call.name)):
        return None
    if error == errno.ENOMEM and call.what in ("open", "rename"):
        return NO_MEMORY
    if call.what == "rename" or call.what == "look" and is_naming:
        return NO_NAME
    return NO_DATABASE if call.what in ("sync", READ) else NO_FILE


def is_naming(create, calls, number):
    """Whether a look is one by which a create sees that its file has its name: before the rename; in place the
    first two after the lock, and those after the sync."""
    before = [it.what for it in calls[: number - 1]]
    if is_in_place(create):
        return "sync" in before or before[-1:] == ["lock"] or before[-2:] == ["lock", "look"]
    return before.count("sync") == 1


def is_of_open(create, calls, number):
    """Whether a call is a look at a file that was just opened, which is a part of its open; or in place at one
    that is about to be emptied."""
    before = [it.what for it in calls[: number - 1] if it.what not in ("look", READ)]
    is_late = is_in_place(create) and before[-1:] == ["lock"] and not is_naming(create, calls, number)
    return calls[number - 1].what == "look" and (before[-1:] == ["open"] or is_late)


def is_repeated(calls, number):
    """Whether a call is one of the two looks before a removal, which are made once more if one fails."""
    after = [it.what for it in calls[number - 1 : number + 2]]
    return after[:2] == ["look", "remove"] or after == ["look", "look", "remove"]


def told(files):
    """What is in a folder, in a few words: how long each file is, and its permissions."""
    return {name: (len(it[0]), oct(it[1])) if isinstance(it, tuple) else it for name, it in files.items()}


def wrong_with(create, number, error, is_lasting, freely, refused):
    """What is wrong with a create to which a call was refused, or None. Without a fault it came as it did
    freely."""
    free, free_calls = freely
    before, done, calls, left = refused
    if len(calls) < number:
        return f"only {len(calls)} calls"
    call = calls[number - 1]
    names = [it.what for it in calls[: number - 1]]
    made = MADE
    if call.what == "sync" and "rename" in names or is_repeated(free_calls, number):
        line = None
    elif call.what == "allow" and not isinstance(before.get("x"), tuple):
        line, made = None, PRIVATE
    else:
        line = line_of(call, error, is_naming(create, calls, number))
    lines = {line} if not is_lasting else {*LINES, NO_MEMORY if error == errno.ENOMEM else NO_FILE}
    if error == errno.ENOMEM and is_of_open(create, calls, number):
        lines |= {NO_MEMORY}
    if done.returncode == 0:
        if free.returncode or line is not None and not is_lasting or done.stderr or left != made_of(create, before, made):
            return f"status 0, and {told(left)}"
        return None if not is_lasting or "rename" in names or is_in_place(create) and call.what != "sync" else "status 0"
    if line is None and not is_lasting and free.returncode == 0:
        return f"{done.returncode}, {done.stderr}"
    if free.returncode:
        lines |= {free.stderr}
    if done.returncode != 111 or done.stderr not in lines:
        return f"status {done.returncode}, {done.stderr} and not {lines}"
    may_stay = is_lasting or call.what == "lock" or free.returncode and call.what in ("look", "remove")
    # One that shows permissions, and is not removed, is in the way of the one that is built.
    may_stay = may_stay or call.what == "remove" and shown(before) is not None
    # One that is made in place is begun by then.
    is_begun = "sync" in (*names, call.what) or call.what == READ and "lock" in names
    if not may_be_left(create, before, left, is_begun, may_stay):
        return f"left {told(left)} of {told(before)}"
    return None


def refuse_each(path, library, name):
    """For a create how often a call was refused, and what is wrong of it."""
    create = CREATES[name]
    free = run(Refusing(path, library, "calls", ONLY=CALLS), create)
    before, done, calls, left = free
    wanted = (0, b"", made_of(create, before)) if create.made is not None else (111, NO_FILE, before)
    wrong = [] if (done.returncode, done.stderr, left) == wanted else [f"{name}: {done}, {told(left)}"]
    count = 1
    for error in ERRORS:
        program = Refusing(path, library, "calls", ONLY=CALLS, ERROR=error)
        for number in range(1, len(calls) + 1):
            for last in (number, LAST):
                fault = wrong_with(
                    create, number, error, last == LAST, (done, calls), run(program, create, number, last)
                )
                count += 1
                if fault is not None:
                    call = calls[number - 1]
                    how = "alone" if last == number else "and all later ones"
                    call = f"call {number}, {call.what} {call.name}"
                    wrong.append(f"{name}: {call}, {how}, {errno.errorcode[error]}: {fault:.300}")
    return count, wrong


def main():
    try_each(__doc__, refuse_each, list(CREATES), lambda name, count, wrong: f"{name}: {count} runs, {wrong} wrong")


if __name__ == "__main__":
    main()
