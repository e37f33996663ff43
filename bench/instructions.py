#!/usr/bin/env python3
"""Counts the instructions of each command of `cdb`, beside those of the faster of its peers.

A count is the same in each run and on each machine of a kind, so it shows what a change costs. It is
that of the process alone, without the system's part. valgrind counts, tinycdb and freecdb are the
peers. Each row has its goal, as a part of the peer's count, and says if it falls short of it.

    bench/instructions.py [--records N] [--same N] [--unusual N] [--cdb PATH] [--last | --keep]

With --last it counts no peer. A row that takes more than a hundredth more than at the last release, by the table
bench/instructions.txt, fails. With --keep it writes that table anew.
"""

import argparse
import os
import random
import re
import shutil
import subprocess
import sys
import tempfile

from jobs import pairs, spelled, write_again, write_same
from run import ALPHABET, SEED, tinycdb, write_text

# A row: its name, the words, what is read from standard input, and the goal.
CREATES = [
    ("create", ["-c", "x", "text"], None, 0.45),
    ("create from a map", ["-cm", "x", "map"], None, 0.6),
    ("create by a pipe", ["-c", "x"], "text", 0.45),
    ("-w, every tenth key again", ["-cw", "x", "again"], None, 0.25),
    ("-u, the same", ["-cu", "x", "again"], None, 0.25),
    ("records of one key", ["-c", "x", "same"], None, 0.75),
    ("the same with -r", ["-cr", "x", "same"], None, 1.0),
    ("the empty database", ["-c", "x", "none"], None, 1.5),
]
READS = [
    ("dump", ["-d", "db"], None, 0.25),
    ("dump of a map", ["-dm", "db"], None, 0.3),
    ("list", ["-l", "db"], None, 0.2),
    ("list of a map", ["-lm", "db"], None, 0.3),
    ("statistics", ["-s", "db"], None, 0.15),
    ("one query", ["-q", "db", "KEY"], None, 1.3),
]
# Records that are not of the usual kind: how long a key and a value are, and if they are of any bytes.
KINDS = [
    ("keys of 200 bytes", 200, 60, False),
    ("values of 1 byte", 10, 1, False),
    ("values of 2000 bytes", 10, 2000, False),
    ("binary values", 10, 60, True),
]
COLLECTED = re.compile(rb"Collected : (\d+)")
# The instructions of each row at the last release, how many times as many are no fault, and how many more: a start
# reads the environment, of any length.
LAST = os.path.join(os.path.dirname(os.path.abspath(__file__)), "instructions.txt")
MOST, MORE = 1.01, 10_000


def write_inputs(folder, options):
    """Writes what the commands read, and answers a key that is there."""
    write_text(os.path.join(folder, "text"), options.records)
    write_again(os.path.join(folder, "again"), options.records)
    write_same(os.path.join(folder, "same"), options.same)
    first = next(pairs(1))[0]
    with open(os.path.join(folder, "map"), "wb") as out:
        out.writelines(b"%s %s\n" % pair for pair in pairs(options.records))
    with open(os.path.join(folder, "none"), "wb") as out:
        out.write(b"\n")
    return first.decode()


def write_kind(folder, kind, records):
    """Writes a text and a map of records of a kind."""
    _, key_length, value_length, binary = kind
    chosen = random.Random(SEED)
    with open(os.path.join(folder, "text"), "wb") as text, open(os.path.join(folder, "map"), "wb") as lines:
        for _ in range(records):
            key = bytes(chosen.choices(ALPHABET, k=key_length))
            value = chosen.randbytes(value_length) if binary else bytes(chosen.choices(ALPHABET, k=value_length))
            text.write(spelled(key, value))
            lines.write(b"%s %s\n" % (key, value))
        text.write(b"\n")


def show_kind(folder, ours, tiny, kind, records, counts):
    """Prints the rows of a kind, and answers for each if it takes no more than the peer."""
    write_kind(folder, kind, records)
    subprocess.run([ours, "-c", "db", "text"], cwd=folder, check=True)
    rows = [("create", ["-c", "x", "text"]), ("dump", ["-d", "db"])]
    if not kind[3]:
        rows += [("create from a map", ["-cm", "x", "map"]), ("dump of a map", ["-dm", "db"])]
    return [show(folder, ours, tiny, (f"{name}, {kind[0]}", words, None, 1.0), counts) for name, words in rows]


def count(folder, words, stdin):
    """The instructions of a run."""
    given = open(os.path.join(folder, stdin), "rb") if stdin else subprocess.DEVNULL
    counter = ["valgrind", "--tool=callgrind", f"--callgrind-out-file={folder}/counted"]
    done = subprocess.run([*counter, *words], cwd=folder, stdin=given, stdout=subprocess.DEVNULL, stderr=subprocess.PIPE)
    counted = COLLECTED.search(done.stderr)
    if counted is None:
        sys.exit(f"{' '.join(words)} was not counted")
    return int(counted[1])


def show(folder, ours, tiny, row, counts):
    """Prints a row, keeps its count, and answers whether it is at its goal."""
    name, words, stdin, goal = row
    mine = counts[name] = count(folder, [ours, *words], stdin)
    if tiny is None:
        print(f"{name:36} {mine / 1e6:8.2f} M")
        return True
    other = count(folder, [tiny, *words], stdin)
    if name.startswith("dump") and "-d" in words and shutil.which("cdbdump"):
        other = min(other, count(folder, ["cdbdump"], "db"))
    short = mine > goal * other
    print(f"{name:36} {mine / 1e6:8.2f} M {other / 1e6:8.2f} M {mine / other:6.2f}  goal {goal}{'  falls short' if short else ''}")
    return not short


def dearer(counts):
    """The rows that take more than at the last release, and what is wrong with the table."""
    with open(LAST, encoding="ascii") as file:
        last = {name: int(number) for number, name in (line.rstrip("\n").split(" ", 1) for line in file)}
    yield from (f"{it}: it is a row, or in the table, and not both" for it in sorted(counts.keys() ^ last.keys()))
    for name in counts.keys() & last.keys():
        if counts[name] > MOST * last[name] + MORE:
            yield f"{name}: {counts[name] / last[name] - 1:.1%} more than at the last release"


def main():
    parser = argparse.ArgumentParser()
    parser.add_argument("--records", type=int, default=100_000)
    parser.add_argument("--same", type=int, default=3_000)
    parser.add_argument("--unusual", type=int, default=20_000)
    parser.add_argument("--cdb", default="bin/cdb")
    how = parser.add_mutually_exclusive_group()
    how.add_argument("--last", action="store_true")
    how.add_argument("--keep", action="store_true")
    options = parser.parse_args()
    if not shutil.which("valgrind"):
        print("instructions: valgrind is not here")
        return
    ours, tiny = os.path.abspath(options.cdb), None if options.last or options.keep else tinycdb()
    counts = {}
    with tempfile.TemporaryDirectory() as folder:
        key = write_inputs(folder, options)
        subprocess.run([ours, "-c", "db", "text"], cwd=folder, check=True)
        rows = [(name, [key if word == "KEY" else word for word in words], stdin, goal) for name, words, stdin, goal in CREATES + READS]
        good = [show(folder, ours, tiny, row, counts) for row in rows]
        for kind in KINDS:
            good += show_kind(folder, ours, tiny, kind, options.unusual, counts)
    if options.keep:
        with open(LAST, "w", encoding="ascii") as file:
            file.writelines(f"{number} {name}\n" for name, number in counts.items())
    elif options.last:
        failed = list(dearer(counts))
        print(*failed, f"{len(counts) - len(failed)} passed, {len(failed)} failed", sep="\n")
        sys.exit(1 if failed else 0)
    else:
        print(f"{sum(good)} of {len(good)} jobs are at their goals")


if __name__ == "__main__":
    main()
