#!/usr/bin/env python3
"""Amends bases by drawn changes, and compares each database with one that is made here from scratch.

    tests/cli/amends.py PROGRAM

The model is a plain list of records. The bases are made here too: some as `cdb` lays a file out, some
as other programs may, with the tables in another order and unused bytes between them. After the drawn
cases each byte of a small base is changed in turn, it is cut at each byte, with and without the sizes of its
tables, and so is a text of changes. Then come bases of several windows of 64 KiB, with records that end at the window's end, next to it, and
that have no room in one.
"""

import os
import random
import subprocess
import sys
import tempfile

from files import TWO_FILE, file_of, hash_of, table_of, text_of, wide_words, words
from rows import HANGS

CASES = 5000
KEYS = [b"a", b"bc", b"cB", b"", b"one"]
ADD, WARN, INSERT, REPLACE = "", "-w", "-u", "-r"
CHANGES = b"-3:one\n+3,5:one->Again\n\n"
NO_TABLES = (111, b"cdb: base database: no tables before its records\n", b"old")
SHORT = (111, b"cdb: database shorter than its head\n", b"old")
WINDOW = 65536


def foreign_file_of(chosen, records):
    """A database of some records with its tables in a drawn order, larger than needed, and apart."""
    parts, lists, place = [], [[] for _ in range(256)], 2048
    for key, value in records:
        lists[hash_of(key) % 256].append((hash_of(key), place))
        parts += [words(len(key), len(value)), key, value]
        place += 8 + len(key) + len(value)
    head = [words(7, 0)] * 256
    order = [n for n in range(256) if lists[n]]
    chosen.shuffle(order)
    for n in order:
        count = len(lists[n]) + chosen.randint(0, 3)
        table = table_of(lists[n], words, count)
        head[n] = words(place, count)
        parts += [table, chosen.randbytes(chosen.randint(0, 9))]
        place += len(table) + len(parts[-1])
    return b"".join(head + parts)


def drawn(chosen, most):
    """Some records with few keys."""
    return [(chosen.choice(KEYS), chosen.randbytes(chosen.randint(0, 6))) for _ in range(chosen.randint(0, most))]


def changed(records, changes, mode):
    """The records after the changes, and the numbers of the changes that met their key."""
    records, met = list(records), []
    for number, (key, value) in enumerate(changes, 1):
        is_there = any(other == key for other, _ in records)
        if value is None or (mode == REPLACE and is_there):
            records = [it for it in records if it[0] != key]
        if value is None:
            continue
        if is_there:
            met.append(number)
        if mode != INSERT or not is_there:
            records.append((key, value))
    return records, met


def spelled(changes):
    """The amending text of some changes."""
    lines = (
        b"-%d:%s\n" % (len(key), key) if value is None else text_of([(key, value)])[:-1]
        for key, value in changes
    )
    return b"".join(lines) + b"\n"


def walk_of(file):
    """The records of any bytes, and whether damage follows them."""
    if len(file) < 2048:
        return [], True
    head = [int.from_bytes(file[i : i + 4], "little") for i in range(0, 2048, 4)]
    ends = [head[2 * n] for n in range(256) if head[2 * n + 1] != 0]
    end, place, records = min(ends, default=2048), 2048, []
    if end < 2048:
        return [], True
    while place < end:
        klen, vlen = (int.from_bytes(file[place + i : place + i + 4], "little") for i in (0, 4))
        following = place + 8 + klen + vlen
        if place + 8 > len(file) or following > min(end, len(file)):
            return records, True
        records.append((file[place + 8 : place + 8 + klen], file[place + 8 + klen : following]))
        place = following
    return records, end > len(file)


class Folder:
    """A folder with a base and an old database."""

    def __init__(self, program, path):
        self.program, self.path = program, path

    def write(self, name, file):
        with open(os.path.join(self.path, name), "wb") as out:
            out.write(file)

    def read(self, name):
        with open(os.path.join(self.path, name), "rb") as file:
            return file.read()

    def amend(self, base, changes, *options):
        """What amending a base leaves: the status, the lines, and the database."""
        self.write("base", base)
        self.write("x", b"old")
        words = [self.program, "-c", *options, "-b", "base", "x"]
        done = subprocess.run(words, cwd=self.path, input=changes, capture_output=True, timeout=HANGS)
        if self.read("base") != base or sorted(os.listdir(self.path)) != ["base", "x"]:
            return None
        return done.returncode, done.stderr, self.read("x")


def drawn_case(folder, number):
    """Whether a drawn base, amended by drawn changes, is the database of what survives."""
    chosen = random.Random(number)
    records, mode = drawn(chosen, 8), chosen.choice([ADD, WARN, INSERT, REPLACE])
    changes = [(key, None if chosen.random() < 0.4 else value) for key, value in drawn(chosen, 6)]
    after, met = changed(records, changes, mode)
    letters = [it for it in (mode, chosen.choice(["", "-w"])) if it]
    lines = b"".join(b"cdb: input 1: record %d: duplicate key\n" % it for it in met)
    if number % 4 == 0:
        bytes_of, letters = wide_words, ["-W", *letters]
    else:
        bytes_of = words
    base = foreign_file_of(chosen, records) if number % 4 == 1 else file_of(records, bytes_of)
    told = lines if "-w" in letters else b""
    # Without its letter a wide base has no tables.
    narrow = [it for it in letters if it != "-W"]
    return folder.amend(base, spelled(changes), *letters) == (0, told, file_of(after, bytes_of)) and (
        narrow == letters or folder.amend(base, spelled(changes), *narrow) == NO_TABLES
    )


def large_bases():
    """Bases of several windows, each with a name and its records."""
    small = [(b"k%d" % n, b"v" * (n % 90)) for n in range(3000)]
    bases = {"of small records": small}
    for over in range(-9, 10):
        # With header and key the first record has WINDOW + over bytes.
        first = (b"first", b"x" * (WINDOW + over - 13))
        bases[f"whose first record passes a window by {over}"] = [first, *small[:50], first]
    for size in (2 * WINDOW, 5 * WINDOW + 7):
        bases[f"with a record of {size} bytes"] = [*small[:1500], (b"long", b"y" * size), *small[1500:]]
    return bases


def large_case(folder, records):
    """Whether a base of several windows is amended, and refused if its last record is cut."""
    changes = [(b"k7", None), (b"new", b"1"), (b"first", b"2")]
    base = file_of(records)
    after, _ = changed(records, changes, REPLACE)
    # The tables are left out, and with them one byte of the last record.
    end = 2048 + sum(8 + len(key) + len(value) for key, value in records)
    return (
        folder.amend(base, spelled(changes), REPLACE) == (0, b"", file_of(after))
        and folder.amend(base[: end - 1], b"\n")[::2] == (111, b"old")
    )


def lacks_tables(file):
    """Whether no table has slots, though bytes follow the head."""
    return len(file) > 2048 and not any(file[n * 8 + 4 : n * 8 + 8] != bytes(4) for n in range(256))


def damaged_case(folder, base):
    """Whether a base is amended if it has tables and its walk is whole, and refused otherwise."""
    left = folder.amend(base, b"\n")
    if len(base) < 2048:
        return left == SHORT
    if lacks_tables(base):
        return left == NO_TABLES
    records, is_damaged = walk_of(base)
    if is_damaged:
        return left is not None and left[0] == 111 and left[2] == b"old"
    return left == (0, b"", file_of(records))


def damaged_bases():
    """Bases with one byte changed, cut ones, and ones that have tables no more, each with a name."""
    bases = {}
    for n, byte in enumerate(TWO_FILE):
        bases[f"byte {n} of the base"] = TWO_FILE[:n] + bytes([byte ^ 0x41]) + TWO_FILE[n + 1 :]
        bases[f"{n} bytes of the base"] = TWO_FILE[:n]
    without = bytearray(TWO_FILE)
    for n in (41, 129):
        without[n * 8 + 4] = 0
        bases[f"no slots in table {n}"] = bytes(without)
    for n in range(2048, len(TWO_FILE)):
        bases[f"{n} bytes without tables"] = bytes(without[:n])
    return bases


def cut_case(folder, end):
    """Whether a text that is cut there is reported at its end, and the old database stays."""
    line = b"cdb: input 1: byte %d: text ends early\n" % end
    return folder.amend(TWO_FILE, CHANGES[:end]) == (111, line, b"old")


def main():
    if len(sys.argv) != 2:
        sys.exit(__doc__)
    program = os.path.abspath(sys.argv[1])
    with tempfile.TemporaryDirectory() as path:
        folder = Folder(program, path)
        answers = [(f"drawn case {n}", drawn_case(folder, n)) for n in range(CASES)]
        answers += [(name, damaged_case(folder, base)) for name, base in damaged_bases().items()]
        answers += [(f"a text of {n} bytes", cut_case(folder, n)) for n in range(len(CHANGES))]
        answers += [(f"a base {name}", large_case(folder, rs)) for name, rs in large_bases().items()]
    wrong = [name for name, is_right in answers if not is_right]
    for name in wrong[:20]:
        print(f"{name}: something else was left")
    print(f"{len(answers) - len(wrong)} passed, {len(wrong)} failed")
    sys.exit(1 if wrong else 0)


if __name__ == "__main__":
    main()
