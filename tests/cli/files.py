"""The texts and the database files that the cases are about.

No program's output is among them: the small files were worked out by hand, and the large one is
made here in the plainest way.
"""

import random
import struct

FIRST_TEXT = b"+3,5:one->Hello\n"
TWO_TEXT = b"+3,5:one->Hello\n+3,7:two->Goodbye\n\n"
BARE_TEXT = b"+0,0:->\n\n"


def words(*numbers):
    """Words of 4 bytes, the lowest byte first."""
    return struct.pack("<%dI" % len(numbers), *numbers)


def wide_words(*numbers):
    """Words of 8 bytes, the lowest byte first."""
    return struct.pack("<%dQ" % len(numbers), *numbers)


EMPTY_FILE = words(2048, 0) * 256
BARE_FILE = (
    words(2056, 0) * 5 + words(2056, 2) + words(2072, 0) * 250
    + words(0, 0)
    + words(0, 0, 5381, 2048)
)
ONE_FILE = (
    words(2064, 0) * 129 + words(2064, 2) + words(2080, 0) * 126
    + words(3, 5) + b"oneHello"
    + words(0, 0, 193420161, 2048)
)
TWO_FILE = (
    words(2082, 0) * 41 + words(2082, 2)
    + words(2098, 0) * 87 + words(2098, 2)
    + words(2114, 0) * 126
    + words(3, 5) + b"oneHello"
    + words(3, 7) + b"twoGoodbye"
    + words(193421353, 2064, 0, 0)
    + words(0, 0, 193420161, 2048)
)
# One record in words of 8 bytes.
WIDE_FILE = (
    wide_words(4120, 0) * 129 + wide_words(4120, 2) + wide_words(4152, 0) * 126
    + wide_words(3, 5) + b"oneHello"
    + wide_words(0, 0, 193420161, 4096)
)
# As another program might make it: tables of one slot, and no place where a table is empty.
FOREIGN_FILE = (
    words(0, 0) * 196 + words(2058, 1) + words(0, 0) * 59
    + words(1, 1) + b"a1"
    + words(177604, 2048)
)


def two_with(place, new):
    """The file of two records with other bytes at a place."""
    return TWO_FILE[:place] + new + TWO_FILE[place + len(new):]


# Four values of one key.
FOUR_FILE = (
    words(2088, 0) * 196 + words(2088, 8) + words(2152, 0) * 59
    + words(1, 1) + b"a1" + words(1, 1) + b"a2" + words(1, 1) + b"a3" + words(1, 1) + b"a4"
    + words(177604, 2078) + words(0, 0) * 4
    + words(177604, 2048, 177604, 2058, 177604, 2068)
)


def many_records():
    """3000 records of any bytes, with some keys several times."""
    chosen = random.Random(7)
    return [
        (chosen.randbytes(chosen.randint(0, 12)), chosen.randbytes(chosen.randint(0, 900)))
        for _ in range(3000)
    ]


def text_of(records):
    """The native text of some records."""
    parts = (b"+%d,%d:%s->%s\n" % (len(key), len(value), key, value) for key, value in records)
    return b"".join(parts) + b"\n"


def hash_of(key):
    """The hash of a key."""
    number = 5381
    for byte in key:
        number = (number * 33 % 2**32) ^ byte
    return number


def table_of(entries, words, count=None):
    """The table of some hashes and places: each in the first empty slot from its own on. It has twice
    as many slots as entries, or so many."""
    slots = [(0, 0)] * (2 * len(entries) if count is None else count)
    for number, place in entries:
        slot = (number >> 8) % len(slots)
        while slots[slot][1] != 0:
            slot = (slot + 1) % len(slots)
        slots[slot] = (number, place)
    return b"".join(words(*slot) for slot in slots)


def file_of(records, words=words):
    """The database of some records, in words of 4 bytes or others."""
    parts, lists, begin = [], [[] for _ in range(256)], 256 * len(words(0, 0))
    place = begin
    for key, value in records:
        lists[hash_of(key) % 256].append((hash_of(key), place))
        parts += [words(len(key), len(value)), key, value]
        place += sum(map(len, parts[-3:]))
    head = []
    for entries in lists:
        head.append(words(place, 2 * len(entries)))
        parts.append(table_of(entries, words))
        place += len(parts[-1])
    return b"".join(head + parts)


# Three records whose values are too long to be collected before they are written, and what a create
# in place leaves that ends behind them: a head of all ones, and the records.
HUGE = [(b"a", b"1" * 100_000), (b"b", b"2" * 100_000), (b"a", b"3" * 100_000)]
HUGE_FRONT = text_of(HUGE)[:-1]
HUGE_END = 2048 + sum(8 + len(key) + len(value) for key, value in HUGE)
UNFINISHED_FILE = b"\xff" * 2048 + file_of(HUGE)[2048:HUGE_END]

LARGE = many_records()
LARGE_TEXT = text_of(LARGE)
LARGE_FILE = file_of(LARGE)
# Where the last of these records begins and ends, and the text of those before it.
LARGE_END = 2048 + sum(8 + len(key) + len(value) for key, value in LARGE)
LARGE_LAST = LARGE_END - sum(map(len, LARGE[-1])) - 8
LARGE_FRONT = text_of(LARGE[:-1])[:-1]
