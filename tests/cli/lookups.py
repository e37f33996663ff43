#!/usr/bin/env python3
"""Looks the keys of drawn lists up in drawn databases, and compares the answers with a plain model.

    tests/cli/lookups.py PROGRAM

The model is a plain list of records. The keys come from one or several inputs, as list texts or a key a
line; some lists are cut or have another byte. Then the list of each database of many records is looked up,
whose answer must make a database again.
"""

import os
import random
import subprocess
import sys
import tempfile

from files import file_of, text_of, wide_words, words

CASES = 5000
KEYS = [b"a", b"bc", b"cB", b"one", b"two", b"#", b"x" * 300]
BYTES = [b"", b"\n", b"\xff\xfe", b"a b"]


def drawn_records(chosen, keys):
    """Some records with few keys."""
    return [(chosen.choice(keys), chosen.randbytes(chosen.randint(0, 9))) for _ in range(chosen.randint(0, 9))]


def listed(chosen, keys, as_map):
    """The text of some keys, of which each length may have zeros before it."""
    if as_map:
        return b"".join(chosen.choice([b"", b" ", b"\n", b"# a\n"]) + key + chosen.choice([b"\n", b" v\n"]) for key in keys)
    return b"".join(b"+%s%d:%s\n" % (b"0" * chosen.choice([0, 0, 2]), len(key), key) for key in keys) + b"\n"


def line_of(key, value, as_map):
    """A record as it is written."""
    return key + b" " + value + b"\n" if as_map else text_of([(key, value)])[:-1]


def answer_of(records, keys, number, as_map):
    """What is written of some keys, and whether one has no value."""
    text, missing = b"", False
    for key in keys:
        values = [value for other, value in records if other == key]
        asked = values if number is None else values[number - 1 : number]
        missing = missing or not asked
        text += b"".join(line_of(key, value, as_map) for value in asked)
    return text, missing


def run(program, given, folder, stdin):
    """What the program answers."""
    done = subprocess.run([program, *given], cwd=folder, input=stdin, capture_output=True, check=False)
    return done.returncode, done.stdout, done.stderr


def draw(chosen, program, folder):
    """Draws a database and lists of keys, and answers whether the program answers as the model."""
    as_map, wide = chosen.random() < 0.3, chosen.random() < 0.2
    keys = [key for key in KEYS if key != b"#"] if as_map else KEYS + BYTES
    records = drawn_records(chosen, keys)
    with open(os.path.join(folder, "x"), "wb") as file:
        file.write(file_of(records, wide_words if wide else words))
    number = chosen.choice([None, None, 1, 2, 3])
    asked = [[chosen.choice(keys) for _ in range(chosen.randint(0, 5))] for _ in range(chosen.randint(1, 3))]
    names, stdin = [], b""
    for n, each in enumerate(asked):
        text = listed(chosen, each, as_map)
        # A map text that is read from standard input leaves nothing for the next.
        if chosen.random() < 0.5 and not (as_map and "-" in names):
            names.append("-")
            stdin += text
        else:
            names.append(f"k{n}")
            with open(os.path.join(folder, f"k{n}"), "wb") as file:
                file.write(text)
    letters = "-qi" + "m" * as_map + "W" * wide
    given = [letters, "x", *names] if number is None else [letters, "-n", str(number), "x", *names]
    text, missing = answer_of(records, [key for each in asked for key in each], number, as_map)
    wanted = (100 if missing else 0, text if as_map else text + b"\n", b"")
    return run(program, given, folder, stdin) == wanted


def cut(chosen, program, folder):
    """Cuts a list of keys, and answers whether the records of the whole ones before are written."""
    records = drawn_records(chosen, KEYS)
    with open(os.path.join(folder, "x"), "wb") as file:
        file.write(file_of(records))
    keys = [chosen.choice(KEYS) for _ in range(chosen.randint(0, 5))]
    whole = b"".join(b"+%d:%s\n" % (len(key), key) for key in keys) + b"\n"
    place = chosen.randint(0, len(whole) - 1)
    ends = [len(b"".join(b"+%d:%s\n" % (len(key), key) for key in keys[:n])) for n in range(len(keys) + 1)]
    read = max(n for n, end in enumerate(ends) if end <= place)
    text, _ = answer_of(records, keys[:read], None, False)
    line = b"cdb: input 1: byte %d: text ends early\n" % place
    return run(program, ["-qi", "x"], folder, whole[:place]) == (111, text, line)


def restores(chosen, program, folder, count, as_map):
    """Looks the list of a database of many keys up, and makes a database of what is written."""
    keys = [b"key%d" % n for n in range(count)]
    chosen.shuffle(keys)
    records = [(key, b"v%d" % n) for n, key in enumerate(keys)]
    file = file_of(records)
    with open(os.path.join(folder, "x"), "wb") as out:
        out.write(file)
    letter = "m" * as_map
    status, text, _ = run(program, [f"-l{letter}", "x"], folder, b"")
    again, records_text, _ = run(program, [f"-qi{letter}", "x"], folder, text)
    made, database, _ = run(program, [f"-c{letter}", "-"], folder, records_text)
    return (status, again, made, database) == (0, 0, 0, file)


def main():
    if len(sys.argv) != 2:
        sys.exit(__doc__)
    program = os.path.abspath(sys.argv[1])
    chosen = random.Random(1)
    passed = failed = 0
    with tempfile.TemporaryDirectory() as folder:
        for n in range(CASES):
            held = cut(chosen, program, folder) if n % 5 == 4 else draw(chosen, program, folder)
            passed, failed = passed + held, failed + (not held)
            if not held:
                print(f"case {n}: another answer than the model's")
        for count in [0, 1, 5000]:
            for as_map in [False, True]:
                held = restores(chosen, program, folder, count, as_map)
                passed, failed = passed + held, failed + (not held)
                if not held:
                    print(f"{count} keys: another database")
    print(f"{passed} passed, {failed} failed")
    sys.exit(1 if failed else 0)


if __name__ == "__main__":
    main()
