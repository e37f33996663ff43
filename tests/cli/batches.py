#!/usr/bin/env python3
"""Runs creates whose records come in several batches, with an end, a removal, a duplicate or a record of each length
near the border of two of them, or with a value that is read in pieces.

    tests/cli/batches.py PROGRAM

A first batch has 4096 bytes, and each later one twice as many, up to 128 KiB. A native text that is cut is refused, at
its end, after the lines of all whole records, also amid a value of several pieces; a cut map text makes the database of
what is left. If the file has no room for what waits, that is the error, and not the end of the text. An input may come a byte at a time. The lines of the duplicates that came are
written before the create waits for more, but for those that its 4096 bytes of lines have room for. With -v each
duplicate is told with the line at which it begins.
"""

import array
import fcntl
import os
import resource
import socket
import subprocess
import sys
import tempfile
import termios
import time

from cases import EARLY, NO_RECORD
from files import ONE_FILE, file_of, text_of
from rows import HANGS
from waiting import is_asleep

FIRST, MOST = 4096, 128 << 10
# A batch is put once the next record and so many bytes more may have no room in it.
SPARE = 64
# Which borders of two batches of the records are tried.
TRIED = (0, 1, 4)
RECORDS = [(b"key %06d" % it, b"%d is the value" % it) for it in range(4000)]
DUPLICATE = b"cdb: input 1: record %d: duplicate key\n"
STOPPED = b"cdb: stopped at a duplicate key\n"
# How many records round a border are cut at each byte.
ROUND = 3
# How many bytes of lines a create holds before it writes them.
LINES = 4096
# A file has no more bytes where its size is limited.
ROOM = 10_000
FULL = b"cdb: database cannot be read or written\n"
# A value of more than MOST bytes is read in pieces of as many at most, an input by windows.
WINDOW = 64 << 10
LONG = b"".join(b"%07d\n" % it for it in range(40_000))


def size_of(record):
    """How many bytes a file has of a record, with its header."""
    return 8 + len(record[0]) + len(record[1])


def borders(records):
    """The numbers of the records with which some batches are about full. The first ends with the first window, of as
    many bytes of text."""
    found, held, room = [], 0, FIRST
    for number, record in enumerate(records):
        size = size_of(record) if found else len(text_of([record])) - 1
        if held + size + SPARE > room:
            found.append(number)
            held, room, size = 0, 2 * room, size_of(record)
        held += size
    return [found[it] for it in TRIED]


def repeated(records, wanted):
    """The records, with the key of the first one near each border, and their numbers."""
    numbers = [it + more for it in wanted for more in range(-ROUND, ROUND)]
    return [(records[0][0] if it in numbers else key, value) for it, (key, value) in enumerate(records)], numbers


def limited():
    """Limits the size of files, before the process becomes a program."""
    resource.setrlimit(resource.RLIMIT_FSIZE, (ROOM, ROOM))


def run(program, words, stdin, folder, prepare=None):
    """What a create leaves: its status, what it says, and the database."""
    path = os.path.join(folder, "x")
    with open(path, "wb") as file:
        file.write(ONE_FILE)
    # The program gets an error at a limit and no signal, as Python does.
    how = {"cwd": folder, "preexec_fn": prepare, "restore_signals": False}
    done = subprocess.run([program, *words], input=stdin, capture_output=True, timeout=HANGS, check=False, **how)
    with open(path, "rb") as file:
        return done.returncode, done.stderr, file.read()


def cuts(records, wanted):
    """The places at which the text is cut, and how many whole records come before each."""
    ends, end = [], 0
    for record in records:
        end += len(text_of([record])) - 1
        ends.append(end)
    for border in wanted:
        for number in range(border - ROUND, border + ROUND):
            for place in range(ends[number - 1], ends[number]):
                yield place, number


def cut_rows(program, folder):
    """Creates of a native text that is cut near a border, without a report, with one, and up to a duplicate."""
    wanted = borders(RECORDS)
    records, numbers = repeated(RECORDS, wanted)
    text = text_of(records)
    for place, whole in cuts(records, wanted):
        ends = b"cdb: input 1: byte %d: %s\n" % (place, EARLY.encode())
        again = [DUPLICATE % (it + 1) for it in numbers if it < whole]
        for words, lines in ((["-c", "x"], []), (["-cw", "x"], again), (["-cr", "x"], []), (["-cu", "x"], [])):
            yield f"{' '.join(words)} up to byte {place}", run(program, words, text[:place], folder), (111, b"".join(lines) + ends, ONE_FILE)
        if again:
            yield f"-ce up to byte {place}", run(program, ["-ce", "x"], text[:place], folder), (111, again[0] + STOPPED, ONE_FILE)


def map_rows(program, folder):
    """Creates of a map text that is cut near a border."""
    lines = [b"%s %s\n" % (key.replace(b" ", b"_"), value) for key, value in RECORDS]
    records = [tuple(it[:-1].split(b" ", 1)) for it in lines]
    for number in (border + more for border in borders(records) for more in range(2 * ROUND)):
        start = sum(map(len, lines[:number]))
        text = b"".join(lines[: number + 1])
        for place in range(start, len(text)):
            last = [tuple((text[start:place].rstrip(b"\n").split(b" ", 1) + [b""])[:2])] if place > start else []
            made = file_of([*records[:number], *last])
            yield f"-cm up to byte {place}", run(program, ["-cm", "x"], text[:place], folder), (0, b"", made)


def removal_rows(program, folder):
    """Creates of a base whose changes remove a key near a border, that of the record before or of the first."""
    with open(os.path.join(folder, "base"), "wb") as file:
        file.write(ONE_FILE)
    for border in borders(RECORDS):
        for number in range(border - ROUND, border + ROUND):
            for gone in (number - 1, 0):
                key = RECORDS[gone][0]
                changes = text_of(RECORDS[:number])[:-1] + b"-%d:%s\n" % (len(key), key) + text_of(RECORDS[number : number + 9])
                left = [it for it in RECORDS[: number + 9] if it[0] != key]
                made = file_of([(b"one", b"Hello"), *left])
                for words in ("-c", "-cr"):
                    name = f"{words}, a removal of {gone} after {number}"
                    yield name, run(program, [words, "-b", "base", "x"], changes, folder), (0, b"", made)


def input_rows(program, folder):
    """Creates of two inputs, of which the second has duplicates of the first, and ends early or not."""
    number = borders(RECORDS)[0] + ROUND
    with open(os.path.join(folder, "in"), "wb") as file:
        file.write(text_of(RECORDS[:number]))
    for records in (RECORDS[number - 9 : number + 9], RECORDS[number - 9 :]):
        lines = b"".join(DUPLICATE.replace(b"1", b"2") % (it + 1) for it in range(9))
        text = text_of(records)
        both = [*RECORDS[:number], *records]
        once = [*RECORDS[: number - 9], *records]
        for words, said, made in (("-c", b"", both), ("-cw", lines, both), ("-cr", b"", once)):
            yield f"{words} of two inputs", run(program, [words, "x", "in", "-"], text, folder), (0, said, file_of(made))
            ends = said + b"cdb: input 2: byte %d: %s\n" % (len(text) - 2, EARLY.encode())
            yield f"{words} of an input and a cut one", run(program, [words, "x", "in", "-"], text[:-2], folder), (111, ends, ONE_FILE)


def full_rows(program, folder):
    """Creates whose file has no room for what waits, where the text has a fault after that."""
    for number in (2500, 3000):
        text = text_of(RECORDS[:number])[:-2]
        for words in ("-c", "-cw", "-cr"):
            yield f"{words} of {number} without room", run(program, [words, "x"], text, folder, limited), (111, FULL, ONE_FILE)


def length_rows(program, folder):
    """Creates with a value of each length with which a record has just room in a batch, or has none."""
    for most in (FIRST, 2 * FIRST, MOST):
        for length in range(most - 120, most + 12):
            records = [*RECORDS[:3], (b"long", b"v" * length), *RECORDS[3:6]]
            for words in (["-c", "x"], ["-cr", "x"]):
                name = f"{' '.join(words)} with a value of {length} bytes"
                yield name, run(program, words, text_of(records), folder), (0, b"", file_of(records))


def long_rows(program, folder):
    """Creates with a value that is read in pieces: once, twice, behind a record that is replaced, and removed."""
    for length in (MOST, MOST + 1, 2 * MOST, 3 * WINDOW + 1, len(LONG)):
        one, other = (b"long", LONG[:length]), (b"long", LONG[-length:])
        once = [*RECORDS[:3], one, *RECORDS[3:6]]
        twice = [*RECORDS[:3], one, RECORDS[1], other, *RECORDS[3:6]]
        last = [RECORDS[0], RECORDS[2], RECORDS[1], other, *RECORDS[3:6]]
        again = b"".join(DUPLICATE % it for it in (5, 6))
        rows = [
            (["-c", "x"], once, once, b""), (["-cw", "x"], once, once, b""), (["-cr", "x"], once, once, b""),
            (["-c", "x"], twice, twice, b""), (["-cw", "x"], twice, twice, again), (["-cr", "x"], twice, last, b""),
            (["-cu", "x"], twice, once, b""), (["-cuw", "x"], twice, once, again), (["-cm", "x"], None, once, b""),
        ]
        for words, given, left, said in rows:
            text = text_of(given) if given else b"".join(b"%s %s\n" % (key.replace(b" ", b"_"), value.replace(b"\n", b"n")) for key, value in once)
            made = file_of(left) if given else file_of([(key.replace(b" ", b"_"), value.replace(b"\n", b"n")) for key, value in left])
            yield f"{' '.join(words)} of {length} bytes", run(program, words, text, folder), (0, said, made)
        stopped = run(program, ["-ce", "x"], text_of([*once, other]), folder)
        yield f"-ce of {length} bytes", stopped, (111, DUPLICATE % 8 + STOPPED, ONE_FILE)
        changes = text_of([*once, RECORDS[4]])[:-1] + b"-4:long" + b"\n" + text_of([other])
        left = [(b"one", b"Hello"), *RECORDS[:6], RECORDS[4], other]
        for words, made in (("-c", left), ("-cr", [*left[:5], *left[6:]])):
            yield f"{words} of {length} bytes, removed", run(program, [words, "-b", "base", "x"], changes, folder), (0, b"", file_of(made))


def long_cut_rows(program, folder):
    """Creates of a text that is cut, or has another byte, amid a value that is read in pieces or behind it."""
    text = text_of([*RECORDS[:3], (b"long", LONG), *RECORDS[3:6]])
    start = text.index(LONG)
    end = start + len(LONG)
    borders = {start, end, *(start + it for it in range(WINDOW, len(LONG), WINDOW)), *range(WINDOW, end, 2 * WINDOW)}
    places = {place + more for place in borders for more in (-2, -1, 0, 1, 2)} | set(range(start - 20, start))
    for place in sorted(places):
        ends = b"cdb: input 1: byte %d: %s\n" % (place, EARLY.encode())
        for words in ("-c", "-cw", "-cr"):
            yield f"{words} up to byte {place}", run(program, [words, "x"], text[:place], folder), (111, ends, ONE_FILE)
    for place in (start - 1, end):
        other = text[:place] + b"x" + text[place + 1 :]
        wrong = b"cdb: input 1: byte %d: %s\n" % (place, NO_RECORD.encode())
        for words in ("-c", "-cw", "-cr"):
            yield f"{words} with another byte {place}", run(program, [words, "x"], other, folder), (111, wrong, ONE_FILE)
    for words in ("-c", "-cw", "-cr"):
        yield f"{words} of a long value without room", run(program, [words, "x"], text, folder, limited), (111, FULL, ONE_FILE)


def slow_rows(program, folder):
    """Creates of inputs that come a byte at a time."""
    records = [*RECORDS[: borders(RECORDS)[-1] + 9], (b"long", LONG[: MOST + WINDOW + 9].replace(b"\n", b"n")), (b"end", b"")]
    lines = b"".join(b"%s %s\n" % (key.replace(b" ", b"_"), value) for key, value in records)
    mapped = [(key.replace(b" ", b"_"), value) for key, value in records]
    for words, text, all_records in ((["-c", "x"], text_of(records), records), (["-cw", "x"], text_of(records), records), (["-cm", "x"], lines, mapped)):
        ours, theirs = socket.socketpair(socket.AF_UNIX, socket.SOCK_SEQPACKET)
        with subprocess.Popen([program, *words], cwd=folder, stdin=theirs, stderr=subprocess.PIPE) as process:
            theirs.close()
            for byte in text:
                ours.send(bytes([byte]))
            ours.close()
            errors = process.communicate(timeout=HANGS)[1]
        with open(os.path.join(folder, "x"), "rb") as file:
            yield f"{' '.join(words)} a byte at a time", (process.returncode, errors, file.read()), (0, b"", file_of(all_records))


def has_all(process):
    """Whether a process has read all that was written to its pipe, and waits for more, or has ended."""
    left = array.array("i", [0])
    fcntl.ioctl(process.stdin, termios.FIONREAD, left)
    return process.poll() is not None or left[0] == 0 and is_asleep(process)


def told(program, words, text, folder):
    """What a create says of a text before it waits for more."""
    end = time.monotonic() + HANGS
    with subprocess.Popen([program, *words], cwd=folder, stdin=subprocess.PIPE, stderr=subprocess.PIPE) as process:
        process.stdin.write(text)
        process.stdin.flush()
        while not has_all(process) and time.monotonic() < end:
            time.sleep(0.01)
        os.set_blocking(process.stderr.fileno(), False)
        come = process.stderr.read() or b""
        process.kill()
    return come


def told_rows(program, folder):
    """Creates that tell duplicates while their input is still open, in the first batch and in the next."""
    for before in (0, 500):
        front = [b"%d %d\n" % (it, it) for it in range(before)]
        text = b"".join([*front, *[b"a b\n"] * 300])
        lines = b"".join(DUPLICATE % (it + 1) for it in range(before + 1, before + 300))
        come = told(program, ["-cmw", "x"], text, folder)
        yield f"-cmw tells after {before}", (lines.startswith(come), len(come) > len(lines) - LINES), (True, True)
        yield f"-cme tells after {before}", told(program, ["-cme", "x"], text, folder), DUPLICATE % (before + 2) + STOPPED


def explained(text, lines, keys):
    """What a create with -v says of a text whose keys come at these lines, if it tells those that came before."""
    seen, said = set(), b""
    for number, (line, key) in enumerate(zip(lines, keys), 1):
        if key in seen:
            said += DUPLICATE % number + b"cdb: in: line %d: key %s\n" % (line, key)
        seen.add(key)
    return said


def line_rows(program, folder):
    """Creates that explain duplicates by the lines at which they begin: of native records with newlines, and of map
    lines with others between them. The keys come again far behind, and in another batch."""
    keys = [b"key_%05d" % (it % 1500) for it in range(4000)]
    values = [b"v\n" * (it % 4) + b"%d" % it for it in range(4000)]
    text, lines, line = b"", [], 1
    for key, value in zip(keys, values):
        lines.append(line)
        text += text_of([(key, value)])[:-1]
        line += 1 + value.count(b"\n")
    mapped, places, line = b"", [], 1
    for number, key in enumerate(keys):
        between = (b"", b"# a note\n", b"\n \t\n")[number % 30 % 3 if number % 30 < 3 else 0]
        mapped += between + b"%s %d and so on\n" % (key, number)
        line += between.count(b"\n")
        places.append(line)
        line += 1
    for letters, what, at in (("", text + b"\n", lines), ("m", mapped, places)):
        with open(os.path.join(folder, "in"), "wb") as file:
            file.write(what)
        said = explained(what, at, keys)
        first = b"".join(said.splitlines(True)[:2]) + STOPPED
        for letter, wanted in (("w", (0, said)), ("u", (0, b"")), ("uw", (0, said)), ("e", (111, first)), ("", (0, b""))):
            name = f"-cv{letters}{letter} x in"
            yield name, run(program, [f"-cv{letters}{letter}", "x", "in"], b"", folder)[:2], wanted


def main():
    if len(sys.argv) != 2:
        sys.exit(__doc__)
    program = os.path.abspath(sys.argv[1])
    passed = failed = 0
    with tempfile.TemporaryDirectory() as folder:
        for rows in (cut_rows, map_rows, removal_rows, input_rows, full_rows, length_rows, long_rows, long_cut_rows, line_rows, slow_rows, told_rows):
            for name, left, wanted in rows(program, folder):
                passed, failed = passed + (left == wanted), failed + (left != wanted)
                if left != wanted:
                    print(f"{name}: {left!r:.300} and not {wanted!r:.300}")
    print(f"{passed} passed, {failed} failed")
    sys.exit(1 if failed else 0)


if __name__ == "__main__":
    main()
