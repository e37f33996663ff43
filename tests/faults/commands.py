"""The runs of the program to which memory and calls of the system are refused.

Each is a Command: its words, its standard input, and the files that are there before.
"""

import os
import random
import sys
from dataclasses import dataclass, field

sys.path.append(os.path.join(os.path.dirname(os.path.abspath(__file__)), "..", "cli"))

from files import file_of, text_of


def records():
    """Some records, by which each vector of a run grows several times, and one that is long."""
    chosen = random.Random(11)
    some = [(b"key%d" % n, chosen.randbytes(chosen.randint(0, 300))) for n in range(150)]
    return [*some[:100], (chosen.randbytes(5000), chosen.randbytes(300000)), *some[100:]]


def lines(count):
    """The map text of some keys, each of which stands twice."""
    return b"".join(b"key%d value %d\n" % (n % count, n) for n in range(2 * count))


def shorter_lines():
    """The map text of some keys that come again and again, each time with a shorter value."""
    return b"".join(b"key%d %s\n" % (key, b"v" * (2 * rounds)) for rounds in range(60, 0, -1) for key in range(60))


@dataclass
class Command:
    """A run of the program."""

    words: list
    stdin: bytes = b""
    files: dict = field(default_factory=dict)

    def is_in_place(self):
        """Whether it makes its database in the file of its name."""
        return "-t" in self.words


# A line of a map that the window of its input has no room for.
LONG_LINE = b"long " + b"v" * 100_000 + b"\n"
RECORDS = records()
TEXT = text_of(RECORDS)
DATABASE = file_of(RECORDS)
OLD = file_of([(b"old", b"database")])
KEPT = {"x": OLD}
# Some of the records, and the same with one left out, one changed and one added.
SOME = RECORDS[90:110]
LATER = [*SOME[1:4], (b"key94", b"again"), *SOME[5:], (b"new", b"one")]
# Keys that a query looks up, of which one has no value and one a long one.
KEYS = b"".join(b"+%d:%s\n" % (len(key), key) for key in [*(key for key, _ in RECORDS[90:110]), b"none"]) + b"\n"
CHANGES = b"-4:key3\n+4,5:key7->again\n+3,3:new->one\n" * 3 + b"\n"
# Records of more than a first batch, a removal of the last one, and others before what is no text.
ADDITIONS = text_of(RECORDS[:40])[:-1] + b"-5:key39\n" + text_of(RECORDS[40:60])[:-1]
COMMANDS = {
    "create on output": Command(["-c", "-"], TEXT),
    "create": Command(["-c", "x"], TEXT, KEPT),
    "create of files": Command(["-c", "x", "in", "-", "in"], TEXT, {**KEPT, "in": TEXT}),
    "create of a map": Command(["-cm", "x"], lines(40) + LONG_LINE, KEPT),
    "create with warnings": Command(["-cmw", "x"], lines(200), KEPT),
    "create with replacements": Command(["-cmr", "x"], lines(200), KEPT),
    "create in place that gets shorter": Command(["-cmr", "-t", "-", "x"], shorter_lines(), KEPT),
    "create that stops": Command(["-cme", "x"], lines(40), KEPT),
    "create beside an old temporary file": Command(["-c", "x"], TEXT, {**KEPT, "x.tmp": b"old"}),
    "create with warnings on output": Command(["-cmw", "-"], lines(40)),
    "amending": Command(["-cw", "-b", "base", "x"], CHANGES, {**KEPT, "base": DATABASE}),
    "amending by additions": Command(["-c", "-b", "base", "x"], ADDITIONS + b"\n", {**KEPT, "base": OLD}),
    "amending by a text with an error": Command(["-c", "-b", "base", "x"], ADDITIONS + b"?", {**KEPT, "base": OLD}),
    "amending the database itself": Command(["-cr", "-b", "x", "x"], CHANGES, {"x": DATABASE}),
    "wide create": Command(["-cW", "x"], TEXT, KEPT),
    "query": Command(["-q", "x", "key7"], b"", {"x": DATABASE}),
    "query of a line": Command(["-qm", "-n", "1", "x", "key9"], b"", {"x": DATABASE}),
    "query of many keys": Command(["-q", "-i", "x", "in", "-"], KEYS, {"x": DATABASE, "in": KEYS}),
    "query of many keys of a map": Command(["-qim", "-n", "1", "x"], b"key7\nkey9 more\nnone\n", {"x": DATABASE}),
    "dump": Command(["-d"], DATABASE),
    "dump of a file": Command(["-d", "x"], b"", {"x": DATABASE}),
    "list": Command(["-lm"], DATABASE),
    "statistics": Command(["-s"], DATABASE),
    "statistics of a file": Command(["-s", "x"], b"", {"x": DATABASE}),
    "check": Command(["-k"], DATABASE),
    "check of a file": Command(["-k", "x"], b"", {"x": DATABASE}),
    "difference": Command(["-D", "x", "y"], b"", {"x": file_of(SOME), "y": file_of(LATER)}),
    "difference of nothing": Command(["-D", "x", "y"], b"", {"x": file_of(SOME[:3]), "y": file_of(SOME[:3])}),
    "help": Command(["-h"]),
    "version": Command(["-V"]),
    "bad words": Command(["-Z"]),
}
