"""Scripts of making calls that are drawn by chance, and what they answer, in the plainest way."""

import errno
import random

import os
import sys

sys.path.append(os.path.join(os.path.dirname(os.path.abspath(__file__)), "..", "cli"))

from files import file_of
from model import hash_of

ADD, REPLACE, INSERT, WARN, REPLACE0 = range(5)
# A success leaves errno, which the driver sets to this before each call.
BEFORE = 999
SUCCESS = (0, BEFORE)
THERE = (1, BEFORE)
NO_MAKER = (-1, errno.EPROTO)


class Maker:
    """The records of a database that is being made, and its answers."""

    def __init__(self):
        self.records = []
        self.is_open = False
        self.file = None

    def has(self, key):
        """Whether some record has a key."""
        return any(it == key for it, _ in self.records)

    def remove(self, key):
        """Takes out every record of a key."""
        self.records = [it for it in self.records if it[0] != key]

    def put(self, mode, key, value):
        """The answer of a put."""
        if mode not in range(5):
            return -1, errno.EINVAL
        if not self.is_open:
            return NO_MAKER
        there = self.has(key)
        if there and mode == INSERT:
            return 1, errno.EEXIST
        if mode in (REPLACE, REPLACE0):
            self.remove(key)
        self.records.append((key, value))
        return THERE if there and mode != ADD else SUCCESS

    def find(self, mode, key):
        """The answer of a look, after which a key may be taken out."""
        if not self.is_open:
            return NO_MAKER
        there = self.has(key)
        if mode in (REPLACE, REPLACE0):
            self.remove(key)
        return THERE if there else SUCCESS

    def start(self):
        """The answer of a start."""
        self.records, self.is_open = [], True
        return SUCCESS

    def finish(self):
        """The answer of a finish, which makes the file."""
        if not self.is_open:
            return NO_MAKER
        self.is_open = False
        self.file = file_of(self.records)
        return SUCCESS

    def read(self, key):
        """The answer of a look-up in the finished file, and the hash of the value."""
        values = [value for it, value in self.records if it == key]
        return (1, hash_of(values[0])) if values else (0, 0)

    def answer(self, call):
        """The answer of a call, by its words."""
        word, *rest = call
        if word == "start":
            return self.start()
        if word == "finish":
            return self.finish()
        if word == "walk":
            return 0, len(self.records)
        if word == "add":
            return self.put(ADD, *rest)
        if word == "exists":
            return self.find(ADD, *rest)
        return getattr(self, word)(*rest)


def drawn_call(chance, keys):
    """A call of some key."""
    key = b"" if chance.randrange(50) == 0 else b"%d" % chance.randrange(keys)
    size = chance.randrange(70_000) if chance.randrange(300) == 0 else chance.randrange(60)
    word = chance.choice(["add", "add", "put", "put", "put", "put", "find", "exists"])
    if word == "add":
        return word, key, chance.randbytes(size)
    if word == "put":
        return word, chance.choice([0, 1, 1, 2, 2, 3, 3, 4, 5, -1]), key, chance.randbytes(size)
    if word == "find":
        return word, chance.choice([0, 1, 1, 2, 3, 4]), key
    return word, key


def fills_with_zeros(call):
    """Whether a call would leave zeros in tinycdb's file."""
    return call[0] in ("put", "find") and call[1] == REPLACE0


def drawn_script(seed, calls, zeros=True):
    """A script of some calls, and of look-ups in the file that they make."""
    chance = random.Random(seed)
    keys = chance.choice([1, 3, 40, 400])
    drawn = [drawn_call(chance, keys) for _ in range(chance.randint(0, calls))]
    script = [("start",)] + [it for it in drawn if zeros or not fills_with_zeros(it)]
    script += [("finish",), ("walk",)]
    return script + [("read", b"%d" % n) for n in range(min(keys, 40) + 1)] + [("read", b"")]


def digits_of(word):
    """A word of a call as the driver reads it."""
    if isinstance(word, bytes):
        return word.hex() or "."
    return str(word)


def text_of(script):
    """A script as the driver reads it."""
    return "".join(" ".join(map(digits_of, call)) + "\n" for call in script)
