"""Cases that are made by rule: each set of letters of a create, each letter that a command does not
take, and each two commands.
"""

import itertools

from cases import BAD_WORDS, STOPPED, again, case, creates, keeps, not_understood
from files import file_of, text_of

SETS = {}

# Records of which a key stands twice, as they are put, in the styles of their texts.
PUT = [(b"a", b"1"), (b"b", b"2"), (b"a", b"3")]
PUT_TEXTS = {False: text_of(PUT), True: b"a 1\nb 2\na 3\n"}


def left_by(letters):
    """The records and the lines that a create of PUT leaves; no records where it stops."""
    records, lines = [], []
    for number, (key, value) in enumerate(PUT, 1):
        is_there = key in dict(records)
        if is_there and letters & set("we"):
            lines.append(again(number))
            if "v" in letters:
                lines.append(f"standard input: line {number}: key {key.decode()}")
        if is_there and "e" in letters:
            return None, [*lines, STOPPED]
        if is_there and "r" in letters:
            records = [record for record in records if record[0] != key]
        if not is_there or "u" not in letters:
            records.append((key, value))
    return records, lines


def with_letters(letters):
    """A create with some of the letters m, t, w, e, r, u and v."""
    given = ["-" + "".join(sorted({"c", *letters} - {"t"})), *(["-t", "y"] if "t" in letters else []), "x"]
    if {"r", "u"} <= letters:
        return case(given, line=[BAD_WORDS, *(["-r: not with -u"] if "v" in letters else [])], status=2)
    records, lines = left_by(letters)
    text = PUT_TEXTS["m" in letters]
    if records is None:
        return keeps(given, lines, text)
    return creates(given, file_of(records), text, lines)


# Each set of letters of a create.
for number in range(1, 128):
    chosen = {letter for n, letter in enumerate("mtweruv") if number >> n & 1}
    SETS["create with " + "".join(sorted(chosen))] = with_letters(chosen)

# Each letter that a command does not take.
OPTIONS = {"m": ["-m"], "n": ["-n", "1"], "t": ["-t", "y"], "b": ["-b", "y"], **{it: [f"-{it}"] for it in "iweru"}}
TAKEN = {"q": "mni", "d": "m", "l": "m", "s": "", "k": "", "D": "", "c": "mtwerub"}
for command, taken in TAKEN.items():
    for option, option_words in OPTIONS.items():
        if option not in taken:
            names = {"q": ["x", "key"], "D": ["x", "y"], "c": ["x"]}.get(command, [])
            SETS[f"-{option} with -{command}"] = not_understood(f"-{command}", *option_words, *names)

# Each two commands.
for first, second in itertools.combinations("qdlsckD", 2):
    SETS[f"-{first} and -{second}"] = not_understood(f"-{first}", f"-{second}", "x")
