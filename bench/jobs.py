#!/usr/bin/env python3
"""Times each command of `cdb` on files, beside tinycdb's and freecdb's, where they are installed.

The inputs are made from a fixed seed, as in run.py: records with keys of 10 bytes and values of 20 to
100. Where duplicates are looked for, every tenth key comes again at the end. Programs run in turns;
what counts is the processor time of each run, of which the median is told.

    bench/jobs.py [--records N] [--replaced N] [--large N] [--same N] [--queries N] [--rounds N]
                  [--cdb PATH]
"""

import argparse
import itertools
import os
import random
import shutil
import sys
import tempfile

from run import ALPHABET, LARGE_VALUE, SEED, compare, tinycdb, write_large_text, write_text


def pairs(count):
    """Records of a fixed seed."""
    chosen = random.Random(SEED)
    for _ in range(count):
        key = bytes(chosen.choices(ALPHABET, k=10))
        yield key, bytes(chosen.choices(ALPHABET, k=chosen.randint(20, 100)))


def spelled(key, value):
    """A record of a native text."""
    return b"+%d,%d:%s->%s\n" % (len(key), len(value), key, value)


def write_again(path, records):
    """Writes a text in which every tenth key comes again at the end."""
    again = []
    with open(path, "wb") as out:
        for number, (key, value) in enumerate(pairs(records)):
            out.write(spelled(key, value))
            if number % 10 == 0:
                again.append(key)
        for key in again:
            out.write(spelled(key, b"again"))
        out.write(b"\n")
    return again


def write_same(path, records):
    """Writes a text of one key alone."""
    with open(path, "wb") as out:
        for number in range(records):
            out.write(spelled(b"same", b"%d" % number))
        out.write(b"\n")


def write_changes(path, keys):
    """Writes an amending text that removes half of some keys, and puts others in place of the rest."""
    with open(path, "wb") as out:
        for number, key in enumerate(keys):
            if number % 2 == 0:
                out.write(b"-%d:%s\n" % (len(key), key))
            else:
                out.write(spelled(key[::-1], b"new"))
        out.write(b"\n")


class Bench:
    """The programs, and a folder for their files."""

    def __init__(self, ours, rounds, folder):
        self.ours, self.tiny = ours, tinycdb()
        self.rounds, self.folder = rounds, folder

    def path(self, name):
        """A file of the bench."""
        return os.path.join(self.folder, name)

    def compare(self, title, words, tiny=None, free=None, stdin=os.devnull, rounds=None, **how):
        """Compares ours with tinycdb's program, which takes other words, and one of freecdb's."""
        out = self.path("out")
        programs = [(f"cdb {words[0]}", [self.ours, *words], stdin, out)]
        if tiny and self.tiny:
            programs.append((f"tinycdb {tiny[0]}", [self.tiny, *tiny], stdin, out))
        if free and shutil.which(free[0][0]):
            words, given = free
            programs.append((f"freecdb {words[0]}", words, given, out))
        compare(title, programs, rounds or self.rounds, **how)

    def creates(self, options):
        """Databases under their names."""
        text, again, few = self.path("text"), self.path("again"), self.path("few")
        write_text(text, options.records)
        write_again(again, options.records)
        write_again(few, options.replaced)
        ours, tiny = self.path("ours.cdb"), self.path("tiny.cdb")
        self.compare(
            f"create of {options.records}",
            ["-c", ours, text],
            ["-c", tiny, text],
            (["cdbmake", self.path("free.cdb"), self.path("free.tmp")], text),
        )
        for letters in ("-cu", "-cw"):
            self.compare(
                f"{letters} of {options.records}", [letters, ours, again], [letters, tiny, again], rounds=2
            )
        self.compare(f"-cr of {options.replaced}", ["-cr", ours, few], ["-cr", tiny, few], rounds=3)

    def amends(self, options):
        """A database amended by ten changes, beside all of it made again: of a text, and by a pipe."""
        text, changes, base = self.path("text"), self.path("changes"), self.path("base.cdb")
        keys = [key for key, _ in itertools.islice(pairs(options.records), 0, options.records, options.records // 10)]
        write_changes(changes, keys)
        self.make(base, text)
        ours, tiny, out = self.path("ours.cdb"), self.path("tiny.cdb"), self.path("out")
        script = "".join("/^+10,[0-9]*:%s->/d;" % key.decode() for key in keys[::2])
        pipe = '"$0" -d "$1" | sed "$2" | "$0" -c "$3"'
        programs = [
            ("cdb -c -b", [self.ours, "-c", "-b", base, ours, changes], os.devnull, out),
            ("cdb -c of the text", [self.ours, "-c", ours, text], os.devnull, out),
        ]
        if self.tiny:
            words = ["sh", "-c", pipe, self.tiny, base, script, tiny]
            programs.append(("tinycdb -d, sed, -c", words, os.devnull, out))
        compare(f"ten changes of {options.records}", programs, self.rounds)

    def creates_large(self, records):
        """A database of long records that come through a pipe."""
        large = self.path("large")
        write_large_text(large, records)
        self.compare(
            f"create of {records} x {LARGE_VALUE} bytes",
            ["-c", self.path("ours.cdb")],
            ["-c", self.path("tiny.cdb")],
            stdin=large,
            piped=True,
        )
        os.remove(large)

    def reads(self, options):
        """What is read of a file."""
        file, text = self.path("x.cdb"), self.path("text")
        self.make(file, text)
        self.compare("dump", ["-d", file], ["-d", file], (["cdbdump"], file))
        self.compare("list", ["-l", file], ["-l", file])
        self.compare("statistics", ["-s", file], ["-s", file], (["cdbstats"], file))
        self.compare("check, beside statistics", ["-k", file], ["-s", file])
        self.queries(file, options.queries)

    def queries(self, file, count):
        """One process a query."""
        loop = "for n in $(seq %d); do \"$0\" -q \"$1\" key$n; done; true" % count
        out = self.path("out")
        programs = [("cdb -q", ["sh", "-c", loop, self.ours, file], os.devnull, out)]
        if self.tiny:
            programs.append(("tinycdb -q", ["sh", "-c", loop, self.tiny, file], os.devnull, out))
        compare(f"{count} queries, a process each", programs, self.rounds)

    def same(self, records):
        """A file of one key, beside one of as many keys."""
        same, other = self.path("same"), self.path("other")
        write_same(same, records)
        write_text(other, records)
        for text in (same, other):
            self.make(f"{text}.cdb", text)
        for letter in ("-s", "-k"):
            programs = [
                (f"cdb {letter}, {name}", [self.ours, letter, f"{text}.cdb"], os.devnull, self.path("out"))
                for name, text in (("one key", same), ("as many keys", other))
            ]
            compare(f"{letter} of {records} records", programs, self.rounds)

    def make(self, file, text):
        """Makes a database."""
        if os.spawnv(os.P_WAIT, self.ours, [self.ours, "-c", file, text]) != 0:
            sys.exit(f"{file} was not made")


def main():
    here = os.path.dirname(os.path.abspath(__file__))
    parser = argparse.ArgumentParser()
    parser.add_argument("--records", type=int, default=1_000_000)
    parser.add_argument("--replaced", type=int, default=50_000)
    parser.add_argument("--large", type=int, default=60)
    parser.add_argument("--same", type=int, default=200_000)
    parser.add_argument("--queries", type=int, default=1000)
    parser.add_argument("--rounds", type=int, default=9)
    parser.add_argument("--cdb", default=os.path.join(here, "..", "bin", "cdb"))
    options = parser.parse_args()
    with tempfile.TemporaryDirectory() as folder:
        bench = Bench(os.path.abspath(options.cdb), options.rounds, folder)
        bench.creates(options)
        bench.amends(options)
        bench.reads(options)
        bench.same(options.same)
        if options.large:
            bench.creates_large(options.large)


if __name__ == "__main__":
    main()
