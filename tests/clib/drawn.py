"""The files on which answers are compared, each with some keys: good ones, the worked ones of
tests/cli, files that are cut, and files that are damaged by chance."""

import os
import random
import struct
import sys

HERE = os.path.dirname(os.path.abspath(__file__))
sys.path.append(os.path.join(HERE, "..", "cli"))

from cases import CASES
from files import FOUR_FILE, LARGE, LARGE_FILE, TWO_FILE, file_of

HEAD = 2048
DRAWN = 2000
KEYS = [b"", b"a", b"one", b"two", b"three"]


def good_files():
    """Files of no, few and many records."""
    yield file_of([]), KEYS
    yield FOUR_FILE, KEYS
    yield LARGE_FILE, [key for key, _ in LARGE[:400]] + KEYS
    many = [(b"key%d" % (n % 3000), b"%d" % n) for n in range(5000)]
    yield file_of(many), [b"key%d" % n for n in range(0, 3300, 7)]


def worked_files():
    """Each file of the command's cases."""
    files = {what for case in CASES.values() for what in case["files"].values() if isinstance(what, bytes)}
    for file in sorted(files):
        yield file, KEYS


def cut_files():
    """A file, cut to each length."""
    for size in range(len(TWO_FILE)):
        yield TWO_FILE[:size], [b"one", b"two", b"three"]


def drawn_records(chance):
    """A few records of few keys."""
    keys = [chance.randbytes(chance.randint(0, 3)) for _ in range(4)]
    many = chance.randint(0, 8)
    return [(chance.choice(keys), chance.randbytes(chance.randint(0, 9))) for _ in range(many)]


def damage(chance, file):
    """A file with one thing changed."""
    place = chance.choice([chance.randrange(len(file)), chance.randrange(HEAD, len(file) + 1)])
    size = len(file)
    words = [0, 1, 8, HEAD - 1, HEAD, size - 8, size, size + 1, 2**31, 2**32 - 1, place]
    word = struct.pack("<I", chance.choice(words))
    kind = chance.randrange(5)
    if kind == 0:
        return file[:place]
    if kind == 1:
        return file[:place] + chance.randbytes(1) + file[place + 1:]
    if kind == 2:
        return file + chance.randbytes(chance.randint(1, 20))
    if kind == 3 and place > HEAD:
        return file[:place] + word + file[place + 4:]
    # A word of the head, in whose tables most keys are not: take one that has slots.
    used = [n for n in range(256) if struct.unpack_from("<I", file, 8 * n + 4)[0]] or [0]
    place = 8 * chance.choice(used) + chance.choice([0, 4])
    return file[:place] + word + file[place + 4:]



def drawn_files():
    """Files that are damaged by chance, and a few that are not."""
    chance = random.Random(32)
    for _ in range(DRAWN):
        records = drawn_records(chance)
        file = file_of(records)
        for _ in range(chance.choice([0, 1, 1, 1, 2, 3])):
            if len(file) > HEAD:
                file = damage(chance, file)
        yield file, sorted({key for key, _ in records} | {b"one", b""})
