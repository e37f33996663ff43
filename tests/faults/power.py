#!/usr/bin/env python3
"""Loses the power after each call of a create that changes a file or a name, and looks at what the disk may have then.

    tests/faults/power.py PROGRAM LIBRARY

The library is refuse.c, built to be loaded ahead of the C library, which notes each change with its bytes. A change since the
last sync of its file, or of the folder of its name, is on the disk or not, each for itself: all choices of a few changes are
tried, and of many none, all, one, all but one, and some that are drawn. In each the database is the old one whole or the new
one whole, with its permissions, and after the last call the new one; only one that is made in place may be any before that.
The inputs are as they were, and no other name is there but the temporary one. From each of these folders in which other names
have other lengths or permissions a create succeeds, and leaves no other file.

Each create is also tried as if its syncs of files were none, and as if those of folders were: this must lose the database.
"""

import os
import random
import tempfile
from dataclasses import dataclass, field

import commands  # noqa: F401, which makes the files of tests/cli known
from choices import choices
from names import MADE, found_in, place
from pairs import CREATES, is_kept
from refusing import Refusing, try_each


@dataclass
class Change:
    """A change of a file or of names, or a sync."""

    what: str
    file: object = None
    # A place in the file, or its mode.
    at: int = 0
    data: bytes = b""
    # Which file each name has then.
    names: dict = field(default_factory=dict)


class Traced:
    """The changes of a create, of a folder with these files before. A file has a number of its own, other than that of one
    that is gone."""

    def __init__(self, path, library, create):
        self.create, self.changes = create, []
        with tempfile.TemporaryDirectory() as folder, tempfile.NamedTemporaryFile() as noted:
            place(folder, create.files)
            self.before, self.folder = found_in(folder), os.stat(folder).st_ino
            self.now = {os.stat(os.path.join(folder, it)).st_ino: it for it in self.before}
            self.names, self.files = {name: name for name in self.before}, dict(self.before)
            program = Refusing(path, library, "calls", CHANGES=noted.name)
            done, _ = program.trace(create.words, b"", folder=folder)
            self.status, self.left = done.returncode, found_in(folder)
            self.take(noted.read())

    def take(self, notes):
        """Takes the changes that refuse.c noted."""
        at = 0
        while at < len(notes):
            end = notes.index(b"\n", at)
            what, number, place_of, size, name = notes[at:end].decode().split(" ", 4)
            at = end + 1 + int(size)
            self.add(what, int(number), int(place_of), notes[end + 1 : at], name)

    def add(self, what, number, at, data, name):
        """Adds a change. A file that is made is empty and has its mode whenever it has a name."""
        if what == "open":
            self.now[number] = f"made by change {len(self.changes)}"
            self.files[self.now[number]] = b"", at
        file = self.folder if number == self.folder else self.now[number]
        names = {"open": {name: file}, "remove": {name: None}, "rename": {name: None, os.fsdecode(data): file}}
        self.changes.append(Change("names", names=names[what]) if what in names else Change(what, file, at, data))

    def is_made_sure(self, change, by):
        """Whether a sync makes a change sure: of a file its own, of names that of the folder."""
        return by.file == (self.folder if change.names else change.file)

    def after(self, changes):
        """What each name has once these were made."""
        files, names = dict(self.files), dict(self.names)
        for it in (one for one in changes if one.what != "sync"):
            if it.names:
                names |= it.names
                continue
            data, mode = files[it.file]
            if it.what == "pwrite":
                data = data[: it.at].ljust(it.at, b"\0") + it.data + data[it.at + len(it.data) :]
            elif it.what == "cut":
                data = data[: it.at].ljust(it.at, b"\0")
            files[it.file] = data, it.at if it.what == "allow" else mode
        return {name: files[it] for name, it in names.items() if it is not None}

    def moments(self, syncs=lambda change: True):
        """After each change those that are sure, and the others; of the syncs those count that `syncs` holds of."""
        sure, loose = [], []
        for it in self.changes:
            if it.what != "sync":
                loose.append(it)
            elif syncs(it):
                sure += [one for one in loose if self.is_made_sure(one, it)]
                loose = [one for one in loose if not self.is_made_sure(one, it)]
            yield list(sure), list(loose)

    def states(self, **how):
        """What each name may have: after each change, and whether it was the last."""
        chance = random.Random(8)
        for number, (sure, loose) in enumerate(self.moments(**how), 1):
            for chosen in choices(loose, chance):
                yield number == len(self.changes), self.after(sure + chosen)

    def is_well(self, is_last, left):
        """Whether a disk has what it is to have."""
        old, database = self.before.get("x"), left.get("x")
        new = self.create.made, old[1] if old else MADE
        return is_kept(self.create, 0 if is_last else 111, self.before, left) and (
            database == new or not is_last and (database == old or not self.create.temporary)
        )


def follows(path, library, create, left):
    """What is wrong with a create from what a loss of power left, or None."""
    with tempfile.TemporaryDirectory() as folder:
        for name, (data, mode) in left.items():
            with open(os.path.join(folder, name), "wb") as file:
                file.write(data)
            os.chmod(os.path.join(folder, name), mode)
        before = found_in(folder)
        done, _ = Refusing(path, library, "calls").trace(create.words, b"", folder=folder)
        after = found_in(folder)
    is_well = done.returncode == 0 and is_kept(create, 0, before, after) and not set(after) - {*before, "x"}
    return None if is_well else f"the next create {done.returncode} {done.stderr}, {sorted(after)}"


def seen_without(traced, syncs):
    """Whether a loss of the database is seen if only these syncs were made."""
    return not all(traced.is_well(*it) for it in traced.states(syncs=syncs))


def attempt(path, library, name):
    """For a create how many cases there were, and what is wrong of each."""
    create = CREATES[name]
    traced = Traced(path, library, create)
    if traced.status != 0 or traced.after(traced.changes) != traced.left:
        return 1, [f"{name}: status {traced.status}, or the changes do not give what is there"]
    count, wrong, kinds = 0, [], {}
    for is_last, left in traced.states():
        count += 1
        if not traced.is_well(is_last, left):
            wrong.append(f"{name}: {({it: (len(data), oct(mode)) for it, (data, mode) in left.items()})}")
        elif create.temporary or is_last:
            kinds[repr({it: (len(data), mode) for it, (data, mode) in left.items()})] = left
    faults = [follows(path, library, create, it) for it in kinds.values()]
    wrong += [f"{name}: {it}" for it in faults if it is not None]
    unseen = {"files": lambda it: it.file == traced.folder, "folders": lambda it: it.file != traced.folder}
    if not create.temporary:
        del unseen["folders"]
    wrong += [f"{name}: no sync of {what} is missed" for what, syncs in unseen.items() if not seen_without(traced, syncs)]
    return count + len(kinds) + len(unseen), wrong


def line_of(name, count, wrong):
    """How many cases there were of a create, and how many are wrong."""
    return f"{name}: {count} cases, {wrong} wrong"


if __name__ == "__main__":
    try_each(__doc__, attempt, list(CREATES), line_of)
