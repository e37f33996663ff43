#!/usr/bin/env python3
"""Runs all tests that need no proof on a program that is built.

    tests/run.py PROGRAM [--gate]

With --gate it also runs those that need the programs of the crates' tests, which the gate makes, and each part must pass
as many as tools/floors.txt says. A part or a row that this machine cannot run is left out and named at the end. In CI, which
the variable CI of the environment says, that is a failure, unless the command that it needs cannot be had: tests/commands.txt
says why, or .ci/run could not install it, which its variable CI_LACKS says. What the parts need is built beside the program if that is below bin, else in bin. A release has no sources:
there the parts that read them are no parts. The last line counts all that passed and failed, and with --gate what was left
out, of a part its floor.
"""

import os
import re
import shutil
import subprocess
import sys
import time
from dataclasses import dataclass

TOP = os.path.join(os.path.dirname(os.path.abspath(__file__)), "..")
sys.path.append(os.path.join(TOP, "tests", "cli"))

from rows import CHECKOUT, is_checkout  # noqa: E402

COUNTED = re.compile(r"^(\d+) passed, (\d+) failed", re.MULTILINE)
FLOORS = os.path.join(TOP, "tools", "floors.txt")
COMMANDS = os.path.join(TOP, "tests", "commands.txt")
LOADED = "crates/cdb/out/cdb"
# What a part says of a row that it leaves out.
LEFT_OUT = re.compile(r"^left out: (.*\n)", re.MULTILINE)


@dataclass
class Part:
    """A part of the tests: its script with the words after it, and what it needs: commands or files."""

    script: str
    words: tuple = ()
    needs: tuple = ()
    # What make builds first.
    built: tuple = ()
    # Whether it reads the sources, and what is built or packed of them.
    sources: bool = False

    def __str__(self):
        return " ".join((self.script, *self.words))


def compiler():
    """The C compiler, as make calls it."""
    return (os.environ.get("CC") or "cc").split()[0]


def cxx():
    """The C++ compiler, as make calls it."""
    return (os.environ.get("CXX") or "g++").split()[0]


def sanitizing():
    """The C compiler if it has its sanitizers, else nothing."""
    words = [compiler(), "-fsanitize=address,undefined", "-x", "c", "-o", os.devnull, "-"]
    try:
        done = subprocess.run(words, input=b"int main(void) { return 0; }", capture_output=True, check=False)
    except OSError:
        return ""
    return "" if done.returncode else compiler()


def checker():
    """The checker's command."""
    return os.environ.get("RT") or "rt"


def is_dynamic(program):
    """Whether a program is loaded with the C library, so that another library can be loaded ahead of it."""
    with open(program, "rb") as file:
        head = file.read(1 << 12)
    # The type of each part of the program that its head lists: 3 names the loader.
    start, size, count = (int.from_bytes(head[at : at + width], "little") for at, width in ((32, 8), (54, 2), (56, 2)))
    return any(head[start + size * it] == 3 for it in range(count))


def place_of(program):
    """The folder of what is built for the tests of a program."""
    place = os.path.relpath(os.path.dirname(program), TOP)
    return place if place.split(os.sep)[0] == "bin" else "bin"


def loaded_with(program, place):
    """The program as the checker links it: calls of the C library can be refused to it."""
    loaded = os.path.join(TOP, place, "loaded")
    if is_dynamic(program):
        return program
    return loaded if os.path.isfile(loaded) else os.path.join(TOP, LOADED)


def parts_of(program, is_gate):
    """The parts, in order."""
    place = place_of(program)
    loaded = loaded_with(program, place)
    made = {it: f"{place}/{it}" for it in ("refuse.so", "orders", "libcdb.so.1", "libcdb.a", "answers")}
    made |= {it: f"{place}/{it}" for it in ("makes", "refused", "edges", "sanitized", "seeks", "drawn")}
    refuse, orders = made["refuse.so"], made["orders"]
    c = ("a C compiler", compiler())
    package = ("dpkg-deb", "dpkg-deb")
    git = (CHECKOUT, "git" if is_checkout() else "")
    static = ("a static program", "" if is_dynamic(program) else program)
    dynamic = (f"the program {os.path.relpath(loaded, TOP)} with a loader", loaded)
    code = f"{place}/libcdb_c.a"
    proved = (f"{code}, or the toolchain that builds it", code if os.path.isfile(os.path.join(TOP, code)) else checker())
    objects = (os.path.join(os.path.dirname(program), "cdb.o"), code)
    released = (c, git, *((it, it) for it in objects))
    parts = [
        Part("tests/docs/check.py", sources=True),
        Part("tests/cli/run.py", (program,)),
        Part("tests/cli/large.py", (program,)),
        Part("tests/cli/pages.py", (program,)),
        Part("tests/cli/examples.py", (program,)),
        Part("tests/cli/kills.py", (program,)),
        Part("tests/cli/taken.py", (program,)),
        Part("tests/cli/inputs.py", (program,)),
        Part("tests/cli/batches.py", (program,)),
        Part("tests/cli/locked.py", (program,)),
        Part("tests/cli/orders.py", (program, orders), (c,), (orders,)),
        Part("tests/cli/permissions.py", (program,)),
        Part("tests/cli/standard.py", (program,)),
        Part("tests/cli/stack.py", (program,), (static,)),
        Part("tests/cli/amends.py", (program,)),
        Part("tests/cli/differences.py", (program,)),
        Part("tests/cli/lookups.py", (program,)),
        Part("tests/drawn/run.py", (program, made["drawn"]), (("C++ compiler", cxx()),), (made["drawn"],)),
        Part("tests/growth/run.py", (program,)),
        Part("tests/growth/calls.py", (loaded, refuse), (c, dynamic), (refuse,)),
        Part("tests/build/run.py", sources=True),
        Part("tests/build/gate.py", sources=True),
        Part("tests/package/version.py", sources=True),
        Part("tests/package/run.py", (program,), (package, static)),
        Part("tests/package/release.py", objects, released, sources=True),
        Part("tests/package/packagers.py", objects, released, sources=True),
        Part("tests/package/releasing.py", needs=(c, git, package), sources=True),
        Part("tests/package/installing.py", (program, made["libcdb.so.1"]), (c, proved), (made["libcdb.so.1"],)),
        Part("tests/faults/run.py", (loaded, refuse, "memory"), (c, dynamic), (refuse,)),
        Part("tests/faults/run.py", (loaded, refuse, "calls"), (c, dynamic), (refuse,)),
        Part("tests/faults/memory.py", (loaded, refuse), (c, dynamic), (refuse,)),
        Part("tests/faults/closed.py", (loaded, refuse), (c, dynamic), (refuse,)),
        Part("tests/faults/syncs.py", (loaded, refuse), (c, dynamic), (refuse,)),
        Part("tests/faults/names.py", (loaded, refuse), (c, dynamic), (refuse,)),
        Part("tests/faults/causes.py", (loaded, refuse), (c, dynamic), (refuse,)),
        Part("tests/faults/killed.py", (loaded, refuse), (c, dynamic), (refuse,)),
        Part("tests/faults/others.py", (loaded, refuse), (c, dynamic), (refuse,)),
        Part("tests/faults/pairs.py", (loaded, refuse), (c, dynamic), (refuse,)),
        Part("tests/faults/power.py", (loaded, refuse), (c, dynamic), (refuse,)),
        Part("tests/faults/strangers.py", (loaded, refuse), (c, dynamic), (refuse,)),
        Part("tests/faults/parts.py", (loaded, refuse), (c, dynamic), (refuse,)),
    ]
    if is_gate:
        parts.append(Part("tests/faults/calls.py", (refuse,), (c,), (refuse,)))
    library = (made["answers"], made["libcdb.a"], "WERROR=-Werror")
    parts.append(Part("tests/clib/run.py", (made["answers"], place, program), (c, proved), library))
    drivers = (made["makes"], made["refused"], made["edges"])
    makers = (*drivers, made["sanitized"], "WERROR=-Werror")
    parts.append(Part("tests/clib/making.py", (*drivers, place), (c, proved), makers))
    sanitizers = (("C compiler with its sanitizers", sanitizing()),)
    parts.append(Part("tests/clib/seeks.py", (made["seeks"],), sanitizers, (made["seeks"], "WERROR=-Werror")))
    parts.append(Part("tests/clib/package.py", (place,), (c, package, proved), library))
    has_sources = os.path.isdir(os.path.join(TOP, "crates"))
    return [it for it in parts if has_sources or not it.sources]


def floors():
    """How many of each part must pass at least, by the part's script and its last word if that is needed."""
    with open(FLOORS, encoding="utf-8") as file:
        lines = [line.rsplit(None, 1) for line in file.read().splitlines() if line.startswith("tests/")]
    return {name: int(least) for name, least in lines}


def name_of(part, least):
    """The name of a part in the list of floors."""
    return part.script if part.script in least else f"{part.script} {part.words[-1] if part.words else ''}".strip()


def lacks(part):
    """What a part needs and this machine lacks, or None."""
    return next((name for name, it in part.needs if shutil.which(it) is None and not os.path.isfile(it)), None)


def run(part, place, out):
    """Runs a part, for which make builds in a folder, shows what it says and its place among the parts, and answers how
    many of it passed and failed, and the rows that it left out."""
    began = time.monotonic()
    if part.built:
        built = subprocess.run(["make", "-s", f"OUT={out}", *part.built], cwd=TOP, check=False)
        if built.returncode != 0:
            print(f"{part}: make could not build {' '.join(part.built)}")
            return 0, 1, []
    done = subprocess.run(
        [sys.executable, part.script, *part.words],
        cwd=TOP,
        stdout=subprocess.PIPE,
        text=True,
        check=False,
    )
    # What is left out is said at the end.
    print(LEFT_OUT.sub("", done.stdout), end="")
    print(f"{part}: {time.monotonic() - began:.0f} s, {place} parts", flush=True)
    counted = COUNTED.findall(done.stdout)
    passed, failed = map(int, counted[-1]) if counted else (0, 0)
    rows = [f"{part.script}: {it.rstrip()}" for it in LEFT_OUT.findall(done.stdout)]
    # A script that ends early has failed, whatever it counted.
    return passed, failed or int(done.returncode != 0 or not counted), rows


def without():
    """The commands that CI may lack."""
    with open(COMMANDS, encoding="utf-8") as file:
        lines = [line.split(None, 2) for line in file if not line.startswith("#")]
    return {command for command, package, *_ in lines if package == "-"} | set(os.environ.get("CI_LACKS", "").split())


def unexcused(left_out):
    """What may not be left out in CI."""
    excused = tuple(f", which needs {it}" for it in without())
    return [it for it in left_out if not it.endswith(excused)]


class Counts:
    """How many passed, failed and were left out, and what is said of these at the end."""

    def __init__(self, is_gate):
        self.is_gate, self.least = is_gate, floors() if is_gate else {}
        self.passed = self.failed = self.lacking = 0
        self.left_out, self.wrong = [], []

    def floor_of(self, part):
        """How many of a part must pass at least, or None if a floor is missing."""
        return self.least.pop(name_of(part, self.least), None if self.is_gate else 1)

    def leave_out(self, part, thing):
        """Counts a part that needs what is not here."""
        self.left_out.append(f"{part}, which needs {thing}")
        self.lacking += self.floor_of(part) or 0

    def count(self, part, passed, failed, rows):
        """Counts a part that has run: what it left out and what passed must be as many as its floor says."""
        floor = self.floor_of(part)
        if failed == 0 and (floor is None or passed + len(rows) < floor):
            print(f"{part}: {passed} passed, and {f'at least {floor} must' if floor else 'there is no floor for it'}")
            failed = 1
        self.passed, self.failed, self.lacking = self.passed + passed, self.failed + failed, self.lacking + len(rows)
        self.left_out += rows
        if failed:
            self.wrong.append(f"{part}: {failed}")

    def end(self):
        """Takes a floor of no part as a failure, and in CI each part and row that was left out and may not be."""
        self.wrong += [f"{it}: there is no such part" for it in self.least]
        self.failed += len(self.least)
        if os.environ.get("CI"):
            self.failed += len(unexcused(self.left_out))


def main(words):
    is_gate = words[2:] == ["--gate"]
    if len(words) != 2 and not is_gate:
        sys.exit(__doc__)
    program = os.path.abspath(words[1])
    began = time.time()
    counts = Counts(is_gate)
    parts = parts_of(program, is_gate)
    for number, part in enumerate(parts):
        lacking = lacks(part)
        if lacking is not None:
            counts.leave_out(part, lacking)
        else:
            counts.count(part, *run(part, f"{number + 1} of {len(parts)}", place_of(program)))
    counts.end()
    for it in counts.left_out:
        print(f"left out: {it}")
    for it in counts.wrong:
        print(f"failed: {it}")
    print(f"These tests took {time.time() - began:.0f} s.")
    print(f"{counts.passed} passed, {counts.failed} failed" + (f", {counts.lacking} left out" if is_gate else ""))
    return 1 if counts.failed else 0


if __name__ == "__main__":
    sys.exit(main(sys.argv))
