#!/usr/bin/env python3
"""Shows that the time of each command grows with its input, and not with the square of it.

    tests/growth/run.py PROGRAM

No contract says how long a call takes: a maker that compares each key with all others would be proved too. A
row runs a command on some records and on 8 times as many. The processor time of the second run is at most 24
times that of the first: 8 times if it grows with the input, 64 times with the square. If it is more than 16
times, so is the run of 64 times as many records beside that.

No time is compared with a fixed one, or with that of another program. The number of records is doubled until a
run takes long enough to be measured, so its figure differs from machine to machine. The first time is the mean
of several runs. If the second is past the bound, the run is tried again, and the least time counts.

Left out are `-D` and `-q -i` of keys of one hash, whose time does grow with the square: a look-up goes through the
file's table, where they are in one run of slots.
"""

import contextlib
import itertools
import math
import os
import random
import resource
import signal
import subprocess
import sys
import tempfile

TIMES = 8
BOUND = 24
# Beyond so many times, 8 times as many records are tried once more: a small part that grows with the square shows there.
DOUBTFUL = 2 * TIMES
# The fewer records are so many that a run takes so many seconds, or else the most.
LEAST = 0.006
FEWEST = 1_000
MOST = 128_000
# So many seconds the runs of them take together.
TOGETHER = 0.06
# So often the run of more records is tried.
TRIES = 3
# No other run comes near to so many seconds, after which it is ended, so that a slow program ends the part too.
LONGEST = 20


def key_of(number):
    """The key of a record: keys of other numbers below 2^32 are other keys, and in no order."""
    return b"%08x" % (number * 2654435761 % 2**32)


def distinct(count):
    """Records with keys of their own."""
    return [(key_of(n), b"value of %d" % n) for n in range(count)]


def again(count):
    """The same, and every tenth key again."""
    return distinct(count) + [(key_of(n), b"again") for n in range(0, count, 10)]


def altered(count):
    """The same records, every tenth with another value."""
    return [(key, value if n % 10 else b"other") for n, (key, value) in enumerate(distinct(count))]


def mixed(records):
    """Records in no order."""
    random.Random(1).shuffle(records)
    return records


def same(count):
    """Records of one key."""
    return [(b"same", b"%d" % n) for n in range(count)]


def few_keys(count):
    """Records of 20 keys."""
    return [(b"key%d" % (n * n % 71 % 20), b"%d" % n) for n in range(count)]


def alike(count):
    """Records whose keys have one hash: joins of `bC` and `cb`, which do the same to it."""
    keys = itertools.product((b"bC", b"cb"), repeat=count.bit_length())
    return [(b"".join(key), b"%d" % n) for n, key in enumerate(itertools.islice(keys, count))]


def alike_again(count):
    """The same, and every tenth key again."""
    records = alike(count)
    return records + records[::10]


def long_one(count):
    """One record with as many bytes as some have."""
    return [(b"long", b"v" * (100 * count))]


def after_long(count):
    """Records of one hash, and one before them that has no room in the window in which a base is read."""
    return [(b"long", b"v" * 100_000), *alike(count)]


def before_long(count):
    """Records, and a long one after them."""
    return distinct(count) + long_one(count)


def spelled(records):
    """Records as lines of a text. Those without a value are removals."""
    for key, value in records:
        if value is None:
            yield b"-%d:%s\n" % (len(key), key)
        else:
            yield b"+%d,%d:%s->%s\n" % (len(key), len(value), key, value)


def removals(records):
    """The removals of some records' keys."""
    return [(key, None) for key, _ in records]


def changes(count):
    """Changes of every tenth record: some are removed, and the others get another value."""
    return [(key_of(n), b"changed" if n % 20 else None) for n in range(0, count, 10)]


class Wrong(Exception):
    """A run that ended otherwise than it should."""


class Place:
    """A folder with the files of a row, and the program."""

    def __init__(self, program, folder):
        self.program, self.folder = program, folder

    def write(self, name, lines, end=b"\n"):
        """Writes a text."""
        with open(os.path.join(self.folder, name), "wb") as file:
            file.write(b"".join(lines) + end)

    def make(self, name, records):
        """Makes a database."""
        self.write("records", spelled(records))
        self.time_of(["-c", name, "records"])

    def seconds(self, words, most):
        """The processor time of a run, or infinity if it is more than so many seconds."""
        child = subprocess.Popen(
            [self.program, *words],
            cwd=self.folder,
            stdin=subprocess.DEVNULL,
            stdout=subprocess.DEVNULL,
            stderr=subprocess.DEVNULL,
        )
        with contextlib.suppress(ProcessLookupError):
            resource.prlimit(child.pid, resource.RLIMIT_CPU, (most, most))
        _, status, used = os.wait4(child.pid, 0)
        child.returncode = os.waitstatus_to_exitcode(status)
        if child.returncode == -signal.SIGKILL:
            return math.inf
        if child.returncode != 0:
            raise Wrong(f"`{' '.join(words)}` ended with {child.returncode}")
        return used.ru_utime + used.ru_stime

    def time_of(self, words):
        """The processor time of a run that is not to be ended."""
        used = self.seconds(words, LONGEST)
        if math.isinf(used):
            raise Wrong(f"`{' '.join(words)}` took more than {LONGEST} s")
        return used


# What makes the files of a row for a number of records, and gives the words of the command.


def creates(letters, records_of, name="made"):
    """A create."""

    def place(here, count):
        here.write("text", spelled(records_of(count)))
        return [letters, name, "text"]

    return place


def creates_map(here, count):
    """A create from a map."""
    here.write("text", (b"%s %s\n" % it for it in distinct(count)), b"")
    return ["-cm", "made", "text"]


def amends(letters, base_of, changes_of):
    """A create over a base."""

    def place(here, count):
        here.make("base", base_of(count))
        here.write("changes", spelled(changes_of(count)))
        return [letters, "-b", "base", "made", "changes"]

    return place


def reads(letters, records_of, *words):
    """A command on a database."""

    def place(here, count):
        here.make("base", records_of(count))
        return [letters, "base", *words]

    return place


def asks(letters, line, end):
    """The query of keys that are drawn."""

    def place(here, count):
        here.make("base", distinct(count))
        chosen = random.Random(1)
        keys = [key_of(chosen.randrange(count)) for _ in range(count)]
        here.write("keys", (line(key) for key in keys), end)
        return [letters, "base", "keys"]

    return place


def last_value(here, count):
    """The query of the last value of a key."""
    return ["-q", "-n", str(count), *reads("-q", same)(here, count)[1:], "same"]


def differs(old_of, new_of):
    """What changed between two databases."""

    def place(here, count):
        here.make("old", old_of(count))
        here.make("new", new_of(count))
        return ["-D", "old", "new"]

    return place


ROWS = {
    "-c": creates("-c", distinct),
    "-c -m": creates_map,
    "-c, written on standard output": creates("-c", distinct, "-"),
    "-c of one long record": creates("-c", long_one),
    "-e": creates("-ce", distinct),
    "-u": creates("-cu", again),
    "-u -W": creates("-cuW", again),
    "-w": creates("-cw", again),
    "-w -v": creates("-cwv", again),
    "-r": creates("-cr", again),
    "-r of 20 keys": creates("-cr", few_keys),
    "-c of one key": creates("-c", same),
    "-u of one key": creates("-cu", same),
    "-w of one key": creates("-cw", same),
    "-r of one key": creates("-cr", same),
    "-c of one hash": creates("-c", alike),
    "-u of one hash": creates("-cu", alike_again),
    "-w of one hash": creates("-cw", alike_again),
    "-r of one hash": creates("-cr", alike_again),
    "-b": amends("-c", distinct, changes),
    "-b -r": amends("-cr", distinct, changes),
    "-b -r of one key": amends("-cr", distinct, same),
    "-b, removals": amends("-c", distinct, lambda count: removals(distinct(count))),
    "-b, removals before one long record": amends("-c", before_long, lambda count: removals(distinct(count))),
    "-b -r before one long record": amends("-cr", before_long, distinct),
    "-b -u of one hash": amends("-cu", alike, alike_again),
    "-b -r of one hash": amends("-cr", alike, alike_again),
    "-b, removal of the one key": amends("-c", same, lambda _: removals(same(1))),
    "-b, removals of one hash": amends("-c", alike, lambda count: removals(alike(count))),
    "-b -u of one hash after a long record": amends("-cu", after_long, alike_again),
    "-b, removals of one hash after a long record": amends("-c", after_long, lambda count: removals(alike(count))),
    "-d": reads("-d", distinct),
    "-d -m": reads("-dm", distinct),
    "-d of one long record": reads("-d", long_one),
    "-l": reads("-l", distinct),
    "-l -m": reads("-lm", distinct),
    "-s": reads("-s", distinct),
    "-s of one hash": reads("-s", alike),
    "-k": reads("-k", distinct),
    "-k of one key": reads("-k", same),
    "-k of one hash": reads("-k", alike),
    "-D": differs(distinct, altered),
    "-D in another order": differs(distinct, lambda count: mixed(altered(count))),
    "-D of values of one key": differs(same, lambda count: same(count)[::2]),
    "-D of one long record": differs(long_one, lambda count: [(b"long", long_one(count)[0][1] + b"?")]),
    "-q -i": asks("-qi", lambda key: b"+%d:%s\n" % (len(key), key), b"\n"),
    "-q -i -m": asks("-qim", lambda key: key + b"\n", b""),
    "-q of values of one key": reads("-q", same, "same"),
    "-q -n of the last value of one key": last_value,
}


def fewer(here, place):
    """The number of records of which a run can be measured, and the mean time of several such runs."""
    count = FEWEST
    while True:
        words = place(here, count)
        times = [here.time_of(words) for _ in range(2)]
        if min(times) >= LEAST or count >= MOST:
            break
        count *= 2
    while sum(times) < TOGETHER:
        times.append(here.time_of(words))
    return count, sum(times) / len(times)


def more(here, words, bound):
    """The least time of some runs, until one is within the bound."""
    least = math.inf
    for _ in range(TRIES):
        least = min(least, here.seconds(words, int(bound) + 1))
        if least <= bound:
            break
    return least


def grows(here, name, place):
    """Runs a row, prints it, and answers whether its ratio is within the bound."""
    try:
        count, first = fewer(here, place)
        times = [first, more(here, place(here, TIMES * count), BOUND * first)]
        if DOUBTFUL * first < times[1] <= BOUND * first:
            times.append(more(here, place(here, TIMES * TIMES * count), BOUND * times[1]))
    except Wrong as error:
        print(f"{name}: {error}, failed", flush=True)
        return False
    grown = [(it, it / before) for before, it in zip(times, times[1:])]
    holds = all(ratio <= BOUND for _, ratio in grown)
    said = "".join(f", {TIMES} times as many {1000 * it:.0f} ms, {ratio:.1f} times" for it, ratio in grown)
    print(f"{name}: {count} records {1000 * first:.1f} ms{said}{'' if holds else ', failed'}", flush=True)
    return holds


def main():
    if len(sys.argv) != 2:
        sys.exit(__doc__)
    program = os.path.abspath(sys.argv[1])
    passed = 0
    for name, place in ROWS.items():
        with tempfile.TemporaryDirectory() as folder:
            passed += grows(Place(program, folder), name, place)
    failed = len(ROWS) - passed
    print(f"{passed} passed, {failed} failed")
    sys.exit(1 if failed else 0)


if __name__ == "__main__":
    main()
