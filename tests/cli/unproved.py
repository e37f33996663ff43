#!/usr/bin/env python3
"""Runs the cases of run.py on the program as the checker compiles it without a proof: all, or a part of
so many.

    tests/cli/unproved.py [PART OF]

The checker is the command in the environment's RT, else `rt`. It compiles the program once and runs it on
each case in a new folder, of which it keeps no file: what a case leaves there is not compared. A case is left
out if a stream is no bytes, if something other than plain files is to lie in its folder, if memory, files or
permissions are limited, or if the checker cannot pass on its words or its output.
"""

import os
import re
import subprocess
import sys
import tempfile

from cases import CASES
from sets import SETS

TOP = os.path.join(os.path.dirname(os.path.abspath(__file__)), "..", "..")
# How much output the checker passes on.
MOST_OUTPUT = 1 << 20
LIMITS = ("stderr", "most", "space", "sealed")
# All cases share the files that the checker gives them, so each file gets a name of its own there. A case that
# makes another name of a file's is left out.
NAMES = re.compile(r"[a-z]+")
ENDED = re.compile(rb"case=(\d+) run=(\S+) (?:status=(\d+) )?.*\n")


def runs(case):
    """Whether the checker can run a case."""
    streams = [case["stdin"], case["stdout"], *case["files"].values()]
    return (
        all(isinstance(it, bytes) for it in streams)
        and len(case["stdout"]) <= MOST_OUTPUT
        and not any(case[it] for it in LIMITS)
        and all(isinstance(it, str) and re.fullmatch(r"[ -~]+", it) for it in case["words"])
        and all(NAMES.fullmatch(it) for it in case["files"])
        and not any("/" in it and os.path.basename(it) in case["files"] for it in case["words"])
    )


def place(folder, number, case):
    """Makes the files that the checker reads of a case, and gives its words for those in the case's folder."""
    named = {name: f"{name}{number}" for name in case["files"]}
    words = "".join(f"{named.get(it, it)}\n" for it in case["words"])
    given = []
    for name, what in (
        (os.path.join("cases", f"{number}"), case["stdin"]),
        (os.path.join("cases", f"{number}.args"), words.encode()),
        *((new, case["files"][name]) for name, new in named.items()),
    ):
        with open(os.path.join(folder, name), "wb") as file:
            file.write(what)
    for new in named.values():
        given += ["--data", f"{new}={os.path.join(folder, new)}"]
    return given


def tried(cases):
    """What the checker writes, on standard output and with its errors, as it runs the cases."""
    with tempfile.TemporaryDirectory() as folder:
        os.mkdir(os.path.join(folder, "cases"))
        given = []
        for number, case in enumerate(cases):
            given += place(folder, number, case)
        done = subprocess.run(
            [os.environ.get("RT") or "rt", "try", *given, "--cases", os.path.join(folder, "cases")],
            cwd=os.path.join(TOP, "crates", "cdb"),
            stdin=subprocess.DEVNULL,
            capture_output=True,
            check=False,
        )
    return done.stdout, done.stderr


def came_of(output, errors):
    """For each case that ended its status, its output, and its errors, which come before its line."""
    came, end = {}, 0
    lines = list(ENDED.finditer(errors))
    heads = [b"== %s\n" % line[1] for line in lines]
    for number, line in enumerate(lines):
        said = errors[end : line.start()]
        end = line.end()
        after = output.find(heads[number + 1]) if number + 1 < len(lines) else len(output)
        written, output = output[len(heads[number]) : after], output[after:]
        if line[3]:
            came[int(line[1])] = (int(line[3]), written, said)
    return came


def wanted_of(case):
    """What a case is to come to. The checker ends its output with a newline."""
    output = case["stdout"]
    ends = not output or output.endswith(b"\n")
    return case["status"], output if ends else output + b"\n", case["errors"]


def main():
    words = sys.argv[1:] or ["1", "1"]
    if len(words) != 2 or not all(it.isdigit() for it in words):
        sys.exit(__doc__)
    part, of = map(int, words)
    cases = [it for it in {**CASES, **SETS}.items() if runs(it[1])][part - 1 :: of]
    output, errors = tried([case for _, case in cases])
    came = came_of(output, errors)
    failed = 0
    for number, (name, case) in enumerate(cases):
        found, wanted = came.get(number), wanted_of(case)
        if found != wanted:
            failed += 1
            print(f"{name}: {found!r:.300} and not {wanted!r:.300}")
    if not came:
        print(errors.decode(errors="replace")[-2000:])
    print(f"{len(cases) - failed} passed, {failed} failed")
    sys.exit(1 if failed else 0)


if __name__ == "__main__":
    main()
