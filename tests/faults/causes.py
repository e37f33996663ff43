#!/usr/bin/env python3
"""Refuses each call of the system to runs with `-v` in turn, and compares the line that says which and why.

    tests/faults/causes.py PROGRAM LIBRARY

The library is refuse.c, built to be loaded ahead of the C library. Each run of commands.py and each create
of names.py is made with each of its calls refused alone, once as it is and once with `-v`. Both end with the
same status and leave the same. With `-v` each line of a fault has one more after it, which names the file of
the refused call, and its error in the system's words; with no fault no line is there. A call on a second
name, or one that is a part of another, may be told under the name that was asked of. The line after that of a
duplicate is left out of what is compared, and where such lines take more writes, those are not compared.
"""

import errno
import re
import tempfile

import names
from commands import COMMANDS, Command
from refusing import Refusing, try_each

CALLS = "look,open,lock,allow,remove,rename,sync,read,write,pread,pwrite,cut"
WORDS = {
    errno.EIO: b"Input/output error",
    errno.ENOSPC: b"No space left on device",
    errno.EACCES: b"Permission denied",
    errno.EL2NSYNC: b"error 45",
}
STANDARD = {"0": b"standard input", "1": b"standard output", "2": b"standard error"}
# Faults of words and of memory are of no file.
BARE = {b"cdb: bad command line, see cdb -h\n", b"cdb: no memory\n"}
DUPLICATE = re.compile(rb"(cdb: input \d+: record \d+: duplicate key\n)cdb: [^\n]*: line \d+: key [^\n]*\n")
LINES = ("write", "2")
RUNS = {name: Command(run.words, run.stdin, run.files) for name, run in COMMANDS.items()}
RUNS |= {f"create: {name}": Command(["-c", *it.words], b"", it.files) for name, it in names.CREATES.items()}


def run(program, command, number, is_explained):
    """The status, output, lines and files of a run, and its calls."""
    words = ["-v"][: is_explained] + command.words
    with tempfile.TemporaryDirectory() as folder:
        names.place(folder, command.files)
        done, calls = program.trace(words, command.stdin, number, number, folder)
        return done, [it for it in calls if it.what in CALLS.split(",")], names.found_in(folder)


def kind(call):
    """What a call does, and on what."""
    return call.what, call.name


def same_calls(calls, others):
    """The number of each call of a run in another one, which has those of each kind in the same order."""
    numbers = {}
    for number, it in enumerate(others, 1):
        numbers.setdefault(kind(it), []).append(number)
    return [numbers[kind(it)].pop(0) for it in calls]


def names_of(calls, number, words):
    """The names under which a call may be told."""
    call = calls[number - 1]
    if call.name in STANDARD:
        return {STANDARD[call.name]}
    name = call.name
    if name.isdigit():
        opened = [it.name for it in calls[: number - 1] if it.what == "open" and it.answer == int(name)]
        name = opened[-1] if opened else name
    found = {name.encode()}
    # A name that is compared with another, and one that is to be that of a new file, is asked of.
    if "-c" in words or words[0].startswith("-c"):
        place = words.index("-t") + 1 if "-t" in words else None
        made = "x"
        temporary = words[place] if place is not None else "x.tmp"
        if call.what == "look":
            found |= {temporary.encode(), made.encode()}
        if call.what == "rename" or name.startswith("/"):
            found |= {made.encode(), words[-1].encode()} if "-t" in words else {made.encode()}
        if call.what == "allow":
            found |= {temporary.encode(), made.encode()}
    return found


def wrong_with(plain, explained, number, are_longer, error, words):
    """What is wrong with a run with `-v`, beside the same without, or None. Its lines may take more writes."""
    done, _, left = plain
    told, calls, found = explained
    if (told.returncode, told.stdout, found) != (done.returncode, done.stdout, left):
        return f"status {told.returncode} and not {done.returncode}, or other files"
    is_line = len(calls) >= number and kind(calls[number - 1]) == LINES
    if is_line and are_longer:
        return None
    lines = DUPLICATE.sub(rb"\1", told.stderr)
    if lines == done.stderr:
        if is_line:
            # The lines themselves were refused.
            return None
        is_said = done.stderr and not any(done.stderr.endswith(line) for line in BARE)
        return f"{done.stderr} with no cause" if is_said and done.returncode == 111 else None
    if not lines.startswith(done.stderr):
        return f"{lines} and not {done.stderr} first"
    line = lines[len(done.stderr) :]
    if len(calls) < number:
        return None
    found_names = names_of(calls, number, words)
    wanted = {b"cdb: %s: %s\n" % (name, WORDS[error]) for name in found_names}
    call = calls[number - 1]
    if call.what == "look" and call.name.isdigit():
        # The look by which the length of a file is read has no number that is kept.
        wanted |= {b"cdb: %s\n" % name for name in found_names}
    return None if line in wanted else f"{line} and not one of {wanted}"


def refuse_each(path, library, name):
    """For a run how often a call was refused, and what is wrong of it."""
    command = RUNS[name]
    unrefused = Refusing(path, library, "calls", ONLY=CALLS)
    (free, calls, _), (_, more, _) = (run(unrefused, command, 0, it) for it in (False, True))
    are_longer = sum(kind(it) == LINES for it in more) > sum(kind(it) == LINES for it in calls)
    numbers = same_calls(calls, more)
    count, wrong = 0, []
    for error in WORDS:
        program = Refusing(path, library, "calls", ONLY=CALLS, ERROR=error)
        for number, same in enumerate(numbers, 1):
            plain, explained = run(program, command, number, False), run(program, command, same, True)
            # What the run says with nothing refused has its own cause.
            if plain[0].stderr == free.stderr:
                continue
            fault = wrong_with(plain, explained, same, are_longer, error, command.words)
            count += 1
            if fault is not None:
                call = calls[number - 1]
                wrong.append(f"{name}: call {number}, {call.what} {call.name}, {error}: {fault:.300}")
    return count, wrong


def main():
    try_each(__doc__, refuse_each, list(RUNS))


if __name__ == "__main__":
    main()
