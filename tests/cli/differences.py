#!/usr/bin/env python3
"""Compares drawn databases with what changed between them, and amends the old ones by what the program wrote.

    tests/cli/differences.py PROGRAM

The model is a plain list of records. Each amended database is compared with one that is made here of the
records that survive, and what changed between it and the new one must be nothing. The text is done again, to the
new one and to a database of other records. After the drawn cases come
values of several pieces and of many records, lists of which whole parts moved, and then each byte of a small
database is changed in turn, and each of its prefixes compared. If its head alone shows that it is damaged, the
program says so, and writes nothing.
"""

import itertools
import os
import random
import struct
import subprocess
import sys
import tempfile

from amends import drawn, foreign_file_of, spelled
from files import TWO_FILE, file_of, wide_words, words
from rows import HANGS

CASES = 1000
PIECE = 4096
WINDOW = 65536
HEAD = 2048
NOTHING = b"\n"
HOW = ["add", "remove", "move", "swap", "set", "turn", "cut", "front"]


def values_of(records, key):
    """The values of a key, in their order."""
    return [value for other, value in records if other == key]


def changed_between(old, new):
    """The changes from some records to others: a key whose values differ is removed, and put with the new ones. One
    that is new is removed just before it is put."""
    differ = {key for key, _ in old + new if values_of(old, key) != values_of(new, key)}
    had = dict(old)
    changes = [(key, None) for key in had if key in differ]
    for key in dict(new):
        if key in differ:
            changes += [] if key in had else [(key, None)]
            changes += [(key, value) for value in values_of(new, key)]
    return changes


def survivors(old, changes):
    """The records after the changes."""
    gone = {key for key, value in changes if value is None}
    return [it for it in old if it[0] not in gone] + [it for it in changes if it[1] is not None]


def altered(chosen, records):
    """Records that are drawn anew, or the same ones with some of them changed."""
    if chosen.random() < 0.2:
        return drawn(chosen, 8)
    records = list(records)
    for _ in range(chosen.randint(0, 3)):
        how, place = chosen.choice(HOW), chosen.randint(0, len(records))
        if how == "turn":
            # What is before the place comes last.
            records = records[place:] + records[:place]
            continue
        if how == "cut":
            records = records[place // 2 :]
            continue
        if how == "front":
            records[:0] = drawn(chosen, 3)
            continue
        if how == "add" or place == len(records):
            records[place:place] = drawn(chosen, 1)
            continue
        key, value = records.pop(place)
        if how == "move":
            records.insert(chosen.randint(0, len(records)), (key, value))
        elif how == "swap":
            # All records of the key come last.
            records.insert(place, (key, value))
            records = [it for it in records if it[0] != key] + [it for it in records if it[0] == key]
        elif how == "set":
            records.insert(place, (key, value + b"+" if chosen.random() < 0.5 else value[:-1]))
    return records


class Folder:
    """A folder with two databases, and one that is made of the first."""

    def __init__(self, program, path):
        self.program, self.path = program, path

    def write(self, name, file):
        with open(os.path.join(self.path, name), "wb") as out:
            out.write(file)

    def run(self, *words, stdin=b""):
        """The status, the output and the lines of the program."""
        done = subprocess.run([self.program, *words], cwd=self.path, input=stdin, capture_output=True, timeout=HANGS)
        return done.returncode, done.stdout, done.stderr

    def amended(self, text, *options, base="old"):
        """The database that the text leaves of the old one or of another, or None."""
        if self.run("-c", *options, "-b", base, "out", stdin=text) != (0, b"", b""):
            return None
        with open(os.path.join(self.path, "out"), "rb") as file:
            return file.read()

    def compares(self, old, new, files=None, bytes_of=words):
        """Whether the program writes what changed between some records, and amends the first ones by it."""
        files = files or (file_of(old, bytes_of), file_of(new, bytes_of))
        self.write("old", files[0])
        self.write("new", files[1])
        options = ["-W"] if bytes_of is wide_words else []
        changes = changed_between(old, new)
        after = survivors(old, changes)
        return (
            self.run("-D", *options, "old", "new") == (0, spelled(changes), b"")
            and self.amended(spelled(changes), *options) == file_of(after, bytes_of)
            and all(values_of(after, key) == values_of(new, key) for key, _ in old + new)
            and self.run("-D", *options, "out", "new") == (0, NOTHING, b"")
            and survivors(after, changes) == after
            and self.amended(spelled(changes), *options, base="out") == file_of(after, bytes_of)
        )

    def is_done_to(self, others, old, new):
        """Whether the text that was written last does to other records what it did to the old ones."""
        self.write("others", file_of(others))
        changes = changed_between(old, new)
        after = survivors(others, changes)
        return (
            self.amended(spelled(changes), base="others") == file_of(after)
            and all(values_of(after, key) == values_of(new, key) for key, _ in changes)
            and self.amended(spelled(changes), base="out") == file_of(after)
        )


def drawn_case(folder, number):
    """Whether what changed between two drawn databases is written, and is nothing once it was done."""
    chosen = random.Random(number)
    old = drawn(chosen, 8)
    new = altered(chosen, old)
    if number % 4 == 0:
        return folder.compares(old, new, bytes_of=wide_words)
    if number % 4 == 1:
        return folder.compares(old, new, (foreign_file_of(chosen, old), foreign_file_of(chosen, new)))
    others = new if number % 4 == 2 else altered(chosen, new)
    return folder.compares(old, new) and folder.is_done_to(others, old, new)


def large_pairs():
    """Pairs of large lists, each by a name."""
    small = [(b"k%d" % n, b"v" * (n % 90)) for n in range(3000)]
    more = [(b"m%d" % n, b"v" * (n % 90)) for n in range(1500)]
    # `bC` and `cb` do the same to a hash, so all joins of them have one.
    alike = [(b"".join(key), b"%d" % n) for n, key in enumerate(itertools.product((b"bC", b"cb"), repeat=10))]
    mixed = list(small)
    random.Random(0).shuffle(mixed)
    pairs = {
        "more records at the start": (small, more + small),
        "fewer records at the start": (more + small, small),
        "more records amid the others": (small, small[:700] + more + small[700:]),
        "fewer records amid the others": (small[:700] + more + small[700:], small),
        "other records at the start": (more + small, [(b"o" + key, value) for key, value in more] + small),
        "no record of the other": (more, small),
        "two parts that changed places": (small, small[1700:] + small[:1700]),
        "a part that is amid the others": (small, small[:300] + small[900:2500] + small[300:900] + small[2500:]),
        "neighbours that changed places": (small, [small[n ^ 1] for n in range(3000)]),
        "the last record first": (small, small[::-1]),
        "records in no order": (small, mixed),
        "records in no order, and others": (small, mixed[:2000] + more),
        "every second record": (small, small[::2]),
        "every second value": (small, [(key, value if n % 2 else b"?") for n, (key, value) in enumerate(small)]),
        "each record twice": (small, [it for it in small for _ in range(2)]),
        "many records, of which some differ": (small, [*small[:1000], (b"k1000", b"other"), *small[1001:2500]]),
        "keys of one hash": (alike, [*alike[:700], (alike[700][0], b"other"), *alike[701:]]),
        "keys of one hash in another order": (alike, alike[::-1]),
        "each value of keys of one hash": (alike, [(key, value + b"?") for key, value in alike]),
        "many values of a key": ([(b"a", b"%d" % n) for n in range(2000)], [(b"a", b"%d" % n) for n in range(1999)]),
    }
    for size in (PIECE - 1, PIECE, PIECE + 1, 2 * PIECE, WINDOW - 12, 2 * WINDOW + 7):
        value = bytes(n % 251 for n in range(size))
        for what, other in (
            ("the same", value),
            ("another first byte", b"?" + value[1:]),
            ("another last byte", value[:-1] + b"?"),
            ("one byte more", value + b"?"),
            ("one byte less", value[:-1]),
        ):
            old, new = [*small[:9], (b"long", value)], [(b"long", other), *small[:9]]
            pairs[f"a value of {size} bytes and {what}"] = (old, new)
        old, new = [(value, b"1"), (value[:-1], b"2")], [(value, b"1"), (value[:-1] + b"?", b"2")]
        pairs[f"keys of {size} bytes"] = (old, new)
    return pairs


def with_other_byte(place):
    """The small database with one byte changed."""
    return TWO_FILE[:place] + bytes([TWO_FILE[place] ^ 0x41]) + TWO_FILE[place + 1 :]


def fault_of_head(file):
    """What a database's head shows to be wrong, or None: there is no whole one, or bytes follow it and no table has
    slots, or a table with slots lies outside the file."""
    if len(file) < HEAD:
        return b"database shorter than its head"
    tables = list(struct.iter_unpack("<II", file[:HEAD]))
    if len(file) > HEAD and not any(slots for _, slots in tables):
        return b"no tables before its records"
    outside = (n for n, (place, slots) in enumerate(tables) if slots and not HEAD <= place <= len(file) - 8 * slots)
    return next((b"table %d: outside the file" % n for n in outside), None)


def damaged_case(folder, is_old, file):
    """Whether a database that may be damaged is compared, or is the one that is said to be damaged. What is
    written amends the old one, or it is a prefix of such a text."""
    folder.write("old", file if is_old else TWO_FILE)
    folder.write("new", TWO_FILE if is_old else file)
    status, text, lines = folder.run("-D", "old", "new")
    which = b"cdb: old database: " if is_old else b"cdb: new database: "
    fault = fault_of_head(file)
    if fault:
        return (status, text, lines) == (111, b"", which + fault + b"\n")
    if status == 0:
        return lines == b"" and text.endswith(NOTHING) and (is_old or folder.amended(text) is not None)
    return status == 111 and lines.startswith(which) and lines.count(b"\n") == 1


def main():
    if len(sys.argv) != 2:
        sys.exit(__doc__)
    program = os.path.abspath(sys.argv[1])
    with tempfile.TemporaryDirectory() as path:
        folder = Folder(program, path)
        answers = [(f"drawn case {n}", drawn_case(folder, n)) for n in range(CASES)]
        answers += [(name, folder.compares(*pair)) for name, pair in large_pairs().items()]
        for is_old, which in ((True, "old"), (False, "new")):
            for n in range(len(TWO_FILE)):
                answers.append((f"byte {n} of the {which} one", damaged_case(folder, is_old, with_other_byte(n))))
                answers.append((f"{n} bytes of the {which} one", damaged_case(folder, is_old, TWO_FILE[:n])))
    wrong = [name for name, is_right in answers if not is_right]
    for name in wrong[:20]:
        print(f"{name}: something else was written")
    print(f"{len(answers) - len(wrong)} passed, {len(wrong)} failed")
    sys.exit(1 if wrong else 0)


if __name__ == "__main__":
    main()
