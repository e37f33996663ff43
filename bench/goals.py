#!/usr/bin/env python3
"""Times each command of `cdb` that has a goal, and says which fall short of it.

A goal is a part of the processor time of another program in the same run: tinycdb, or freecdb for a
dump. Some rows compare `cdb` with itself, or give its peak memory. Programs run in turns, and of each
the median counts. A row whose other program is not installed has no goal.

    bench/goals.py [--records N] [--rounds N] [--cdb PATH]
"""

import argparse
import itertools
import os
import shutil
import statistics
import subprocess
import tempfile

from jobs import pairs, spelled, write_again, write_same
from run import run, tinycdb, write_large_text, write_text


def write_map(path, records):
    """Writes a map of records."""
    with open(path, "wb") as out:
        out.writelines(b"%s %s\n" % pair for pair in pairs(records))


def write_colliding(path, records):
    """Writes a text of keys that all have one hash: joins of `bC` and `cb`, which have the same."""
    with open(path, "wb") as out:
        for key in itertools.islice(itertools.product((b"bC", b"cb"), repeat=records.bit_length()), records):
            out.write(spelled(b"".join(key), b"value"))
        out.write(b"\n")


def write_changes(path, keys, is_removal):
    """Writes a text that replaces the records of some keys, or removes them."""
    with open(path, "wb") as out:
        for key in keys:
            out.write(b"-%d:%s\n" % (len(key), key) if is_removal else spelled(key, b"changed"))
        out.write(b"\n")


def write_later(path, records):
    """Writes the text of some records, one in a thousand with another value."""
    with open(path, "wb") as out:
        for number, (key, value) in enumerate(pairs(records)):
            out.write(spelled(key, value if number % 1000 else b"changed"))
        out.write(b"\n")


class Goals:
    """The programs, a folder for their files, and how many rows are at their goals."""

    def __init__(self, ours, rounds, folder):
        self.ours, self.tiny = ours, tinycdb()
        self.rounds, self.folder = rounds, folder
        self.met, self.missed = 0, 0

    def path(self, name):
        """A file of the bench."""
        return os.path.join(self.folder, name)

    def measured(self, programs, stdin=os.devnull, piped=False):
        """The median seconds and the peak MiB of each program, which run in turns."""
        seconds, peaks = [[] for _ in programs], [0] * len(programs)
        for turn in range(self.rounds):
            for number in range(len(programs)):
                at = (turn + number) % len(programs)
                used, peak = run(programs[at], stdin, self.path("out"), piped)
                seconds[at].append(used)
                peaks[at] = max(peaks[at], peak / 1024)
        return [statistics.median(each) for each in seconds], peaks

    def say(self, job, figure, unit, goal):
        """Prints a row."""
        short = figure > goal
        self.met, self.missed = self.met + (not short), self.missed + short
        print(f"{job:52} {figure:7.2f} {unit:4} goal {goal}{'  falls short' if short else ''}", flush=True)

    def beside(self, job, goal, words, other, **how):
        """A job beside another program's."""
        if other is None or other[0] is None:
            print(f"{job:52} the other program is not here")
            return
        (mine, theirs), _ = self.measured([[self.ours, *words], other], **how)
        self.say(f"{job} ({mine:.3f} s)", mine / theirs, "", goal)

    def creates(self, records):
        """Creates of many records, beside tinycdb."""
        x, text, again, lines = self.path("x"), self.path("text"), self.path("again"), self.path("map")
        write_text(text, records)
        write_again(again, records)
        write_map(lines, records)
        for job, letters, given, goal in [
            ("create", "-c", text, 0.8),
            ("create from a map", "-cm", lines, 0.8),
            ("-w, every tenth key again", "-cw", again, 0.1),
            ("-u, every tenth key again", "-cu", again, 0.1),
        ]:
            self.beside(f"{job}, {records}", goal, [letters, x, given], [self.tiny, letters, x, given])
        for letters, given in (("-c", text), ("-cw", again)):
            _, peaks = self.measured([[self.ours, letters, x, given]])
            self.say(f"peak memory of {letters}, {records}", peaks[0], "MiB", 30)

    def goes(self, records):
        """Records that are replaced or removed, beside jobs in which none is."""
        x, text, again, changes = self.path("x"), self.path("text"), self.path("again"), self.path("changes")
        with open(text, "wb") as out:
            out.writelines(spelled(*pair) for pair in pairs(records))
            out.write(b"\n")
        self.make(text)
        keys = write_again(again, records)
        (replaced, kept), peaks = self.measured([[self.ours, letters, x, again] for letters in ("-cr", "-cu")])
        self.say(f"-r, every tenth key again, {records}, to -u ({replaced:.3f} s)", replaced / kept, "", 1.3)
        self.say("peak memory of it, a record", peaks[0] * 2**20 / (records + len(keys)), "B", 26)
        for job, some, is_removal, goal in [
            ("10 changes", keys[:: max(1, len(keys) // 10)], False, 0.6),
            (f"{len(keys)} changes", keys, False, 1.5),
            (f"{len(keys)} removals", keys, True, 1.5),
        ]:
            write_changes(changes, some, is_removal)
            amend = [self.ours, "-cr", "-b", f"{text}.cdb", x, changes]
            (amended, made), _ = self.measured([amend, [self.ours, "-c", x, again]])
            self.say(f"{job} to {records}, to a create ({amended:.3f} s)", amended / made, "", goal)

    def grows(self, job, goal, letters, write, few, many, per_record):
        """A job of many records beside the same of few, by the record or in all."""
        texts = self.path("few"), self.path("many")
        for path, records in zip(texts, (few, many)):
            write(path, records)
        less, more = (self.measured([[self.ours, letters, self.path("x"), text]])[0][0] for text in texts)
        self.say(job, more / less / (many / few if per_record else 1), "", goal)

    def chosen(self):
        """Keys that somebody chose."""
        x, same, colliding, values = (self.path(name) for name in ("x", "same", "colliding", "values"))
        write_same(same, 200_000)
        write_colliding(colliding, 4_000)
        write_same(values, 1_000_000)
        self.beside("create of 200000 records of one key", 0.5, ["-c", x, same], [self.tiny, "-c", x, same])
        self.beside("-u of 4000 keys of one hash", 0.5, ["-cu", x, colliding], [self.tiny, "-cu", x, colliding])
        self.make(values)
        query = ["-q", f"{values}.cdb", "same"]
        self.beside("query of a key with 1000000 values", 0.5, query, [self.tiny, *query])

    def make(self, text):
        """Makes a database of a text."""
        subprocess.run([self.ours, "-c", f"{text}.cdb", text], check=True)

    def dump(self, records):
        """A dump, beside freecdb's."""
        text = self.path("text")
        write_text(text, records)
        self.make(text)
        free = shutil.which("cdbdump")
        if free is None:
            print("dump: freecdb is not here")
            return
        (mine, theirs), _ = self.measured([[self.ours, "-d"], [free]], stdin=f"{text}.cdb")
        self.say(f"dump, {records}, beside freecdb ({mine:.3f} s)", mine / theirs, "", 0.5)

    def differs(self, records):
        """What changed between two databases, beside dumps of both, and beside dumps and `diff`."""
        old, new = self.path("old"), self.path("new")
        write_text(old, records)
        write_later(new, records)
        for text in (old, new):
            self.make(text)
        dumps = [f"{self.ours} -d {text}.cdb" for text in (old, new)]
        kept = [f"{dump} > {text}" for dump, text in zip(dumps, (old, new))]
        (mine, dumped, compared), _ = self.measured([
            [self.ours, "-D", f"{old}.cdb", f"{new}.cdb"],
            ["sh", "-c", " && ".join(dumps)],
            ["sh", "-c", f"{' && '.join(kept)}; diff {old} {new} || true"],
        ])
        job = f"difference, one in 1000 of {records}"
        self.say(f"{job}, to two dumps ({mine:.3f} s)", mine / dumped, "", 3)
        self.say(f"{job}, to two dumps and diff", mine / compared, "", 0.2)

    def large(self):
        """Long records that come through a pipe."""
        large, x = self.path("large"), self.path("x")
        write_large_text(large, 60)
        self.beside("create of 60 x 5 MB", 1.2, ["-c", x], [self.tiny, "-c", x], stdin=large, piped=True)
        os.remove(large)


def main():
    here = os.path.dirname(os.path.abspath(__file__))
    parser = argparse.ArgumentParser()
    parser.add_argument("--records", type=int, default=1_000_000)
    parser.add_argument("--rounds", type=int, default=3)
    parser.add_argument("--cdb", default=os.path.join(here, "..", "bin", "cdb"))
    options = parser.parse_args()
    with tempfile.TemporaryDirectory() as folder:
        goals = Goals(os.path.abspath(options.cdb), options.rounds, folder)
        goals.creates(options.records)
        few, many = options.records, 4 * options.records
        goals.grows(f"-u, none again, time a record, {many} to {few}", 1.5, "-cu", write_text, few, many, True)
        goals.goes(options.records)
        goals.grows(f"-r, every tenth key again, {many} to {few}", 4.8, "-cr", write_again, few, many, False)
        goals.dump(options.records)
        for records in (options.records // 10, options.records):
            goals.differs(records)
        goals.chosen()
        goals.grows("create of one key, 200000 to 100000", 3, "-c", write_same, 100_000, 200_000, False)
        goals.large()
    print(f"{goals.met} of {goals.met + goals.missed} jobs are at their goals")


if __name__ == "__main__":
    main()
