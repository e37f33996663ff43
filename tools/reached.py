#!/usr/bin/env python3
"""Says which functions of the program, and how many blocks of each, no test reaches.

    tools/reached.py --build PROGRAM
    tools/reached.py [--all] PROGRAM

With --build, at the top of the repository: compiles the program without a proof, with a mark in each block, and puts it there.
It runs as the program does, some times slower, and each run notes the blocks that it reached in the file PROGRAM.reached. So
`make tests BIN=PROGRAM` fills that file, and any other run of it does. Without --build the functions of the repository's crates
that no run reached are listed, then how many blocks of each crate were; with --all also how many blocks of each function
were not. A function that is compiled for several types counts once: what is reached of one of them is reached. No gate runs this.
"""

import collections
import os
import re
import shutil
import struct
import subprocess
import sys
import tempfile

from link import compiler
from unproved import COMPILED, Tests

TOOLS = os.path.dirname(os.path.abspath(__file__))
# Not optimized, so that a function is not a part of those that call it.
FLAGS = "-O0 -fsanitize-coverage=trace-pc-guard,pc-table"
BLOCK = struct.Struct("<3Q")
# How many blocks the file has room for.
ROOM = 1 << 18
# A function of the repository, and what tells those apart that are compiled of one for several types.
OURS = re.compile(r"cdb(_\w+)?::")
TYPES = re.compile(r"::<.*")


def noted(program):
    """The file in which the runs of a program note the blocks that they reached."""
    return f"{program}.reached"


def clear(program):
    """Makes that file anew, for each user to write."""
    with open(noted(program), "wb") as file:
        file.truncate(BLOCK.size * ROOM)
    os.chmod(noted(program), 0o666)


def build(program):
    """Compiles the program with marks, and answers what went wrong."""
    with tempfile.TemporaryDirectory(prefix="cdb-reached-") as room:
        tests = Tests(os.getcwd(), room, FLAGS)
        place, marks = os.path.join(room, "place"), os.path.join(room, "reached.o")
        os.mkdir(place)
        words = [*compiler(), "-O2", "-Wall", "-Wextra", "-c", f'-DREACHED="{noted(program)}"', "-o", marks]
        subprocess.run([*words, os.path.join(TOOLS, "reached.c")], check=True)
        # The checker runs what it compiled too, by which nothing is meant.
        words = tests.words("cdb", [os.path.join("src", "main.rt")], "--arg", "-h")
        _, said = tests.call(words, tests.made["cdb"].folder, place)
        wrong = tests.link("cdb", program, os.path.join(place, COMPILED), marks)
    if not wrong:
        clear(program)
    return said + wrong if wrong else ""


def symbols(program):
    """Where the functions of a program begin, in order, with their names."""
    lines = subprocess.run(["nm", "-n", program], stdout=subprocess.PIPE, text=True, errors="replace", check=True).stdout.splitlines()
    found = [line.split(" ", 2) for line in lines if line[:1] != " "]
    begin = next(int(place, 16) for place, _, name in found if name == "__executable_start")
    return [(int(place, 16) - begin, name) for place, kind, name in found if kind in "tTwW"]


def blocks(program):
    """The blocks of each compiled function: whether each was reached."""
    with open(noted(program), "rb") as file:
        entries = [it for it in BLOCK.iter_unpack(file.read()) if it[0]]
    named, of_function, current = dict(symbols(program)), {}, None
    for place, is_first, ran in entries:
        if is_first:
            current = of_function.setdefault((place, named.get(place, "")), [])
        current.append(ran > 0)
    return {key: it for key, it in of_function.items() if OURS.match(key[1])}


def functions(program):
    """The blocks of each function. Of those that were compiled for several types as many blocks are the same ones; if they
    differ in number, the ones count of which most is reached."""
    alike = collections.defaultdict(dict)
    for (_, name), reached in blocks(program).items():
        same = alike[TYPES.sub("", name)]
        before = same.get(len(reached), reached)
        same[len(reached)] = [one or other for one, other in zip(before, reached)]
    return {name: max(each.values(), key=lambda it: sum(it) / len(it)) for name, each in alike.items()}


def tell(program, shows_all):
    """Lists what no run reached, and the sums."""
    found = functions(program)
    crates = collections.defaultdict(lambda: [0, 0])
    for name, reached in sorted(found.items()):
        sums = crates[name.split("::")[0]]
        sums[0], sums[1] = sums[0] + sum(reached), sums[1] + len(reached)
        if shows_all and not all(reached) or not any(reached):
            print(f"{name}: {len(reached) - sum(reached)} of {len(reached)} blocks are not reached")
    for crate, (reached, of) in sorted(crates.items()):
        print(f"{crate}: {reached} of {of} blocks are reached")
    never = sum(not any(it) for it in found.values())
    print(f"{len(found)} functions, {never} of them never reached; {sum(it[0] for it in crates.values())} of {sum(it[1] for it in crates.values())} blocks")


def main():
    words = sys.argv[1:]
    if len(words) == 2 and words[0] == "--build":
        program = os.path.abspath(words[1])
        sys.exit(build(program) or None)
    if len(words) not in (1, 2) or words[:-1] not in ([], ["--all"]):
        sys.exit(__doc__)
    if shutil.which("nm") is None:
        sys.exit("The functions cannot be named: there is no command nm")
    tell(os.path.abspath(words[-1]), len(words) == 2)


if __name__ == "__main__":
    main()
