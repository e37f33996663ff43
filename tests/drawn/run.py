#!/usr/bin/env python3
"""Runs the program on drawn cases and on edited texts, beside a model of the command in C++.

    tests/drawn/run.py PROGRAM DRAWN [--seed N] [--cases N]
    tests/drawn/run.py PROGRAM DRAWN [--seed N] --show CASE FOLDER

DRAWN is drawn.cpp, built: the model, which was written from the pages and shares nothing with the program, what draws the
cases, and what runs them. A case is a command with its files, its streams and its words; status, output, lines and files
must be the model's, byte for byte. Then comes each text of edits.h, cut at each byte, without each byte, and with each of
256 bytes in place of and before each. In the end each rule of rules.h is broken in the model, which a case must tell.

A case and a broken rule count as one test each, and so does a text with all its edits. The same seed draws the same cases.
Many are run by --cases; --show puts the files of a case that failed into a new folder, and says its words.
"""

import argparse
import os
import subprocess
import sys
import tempfile
from concurrent.futures import ThreadPoolExecutor

SEED = 1
CASES = 20_000
# How many cases may pass before one tells that a rule is broken.
TELLING = 2_000
# Into how many runs the cases are divided, so that all processors have some until the end.
RUNS = 20
# How many lines of one run are shown.
SHOWN = 5


class Driver:
    """The driver with the program, which it runs in a new folder each time."""

    def __init__(self, program, drawn):
        self.drawn, self.program = os.path.abspath(drawn), os.path.abspath(program)

    def run(self, *words):
        """The lines of a run, and how many passed and failed. One that ends early has failed."""
        # A folder in memory spares the disk a write for each file.
        where = "/dev/shm" if os.access("/dev/shm", os.W_OK) else None
        with tempfile.TemporaryDirectory(dir=where) as folder:
            given = [self.drawn, self.program, *map(str, words)]
            done = subprocess.run(given, cwd=folder, stdout=subprocess.PIPE, text=True, check=False)
        lines = done.stdout.splitlines()
        if done.returncode not in (0, 1) or not lines or not lines[-1].endswith(" failed"):
            return [*lines, f"{' '.join(map(str, words))}: ended with {done.returncode}"], 0, 1
        passed, failed = (int(lines[-1].split()[n]) for n in (0, 2))
        return lines[:-1], passed, failed

    def names(self, what):
        """What the driver lists."""
        return subprocess.run([self.drawn, what], stdout=subprocess.PIPE, text=True, check=True).stdout.splitlines()

    def tells(self, seed, rule):
        """Whether a case tells that a rule is broken, as a run does."""
        _, passed, failed = self.run("broken", seed, TELLING, rule)
        # None was tried if the driver itself failed.
        if failed == 1 and passed < TELLING:
            return [], 1, 0
        return [f"no case tells: {rule}"], 0, 1


def jobs(driver, seed, cases):
    """Each run, as a call."""
    for first in range(RUNS):
        yield lambda first=first: driver.run("cases", seed, first, cases, RUNS)
    for text in range(len(driver.names("texts"))):
        yield lambda text=text: driver.run("edits", text)
    for rule in driver.names("rules"):
        yield lambda rule=rule: driver.tells(seed, rule)


def show(driver, seed, number, folder):
    """Puts the files of a case into a folder, and says its words."""
    os.mkdir(folder)
    subprocess.run([driver.drawn, driver.program, "show", str(seed), number], cwd=folder, check=True)


def main():
    parser = argparse.ArgumentParser()
    parser.add_argument("program")
    parser.add_argument("drawn")
    parser.add_argument("--seed", type=int, default=SEED)
    parser.add_argument("--cases", type=int, default=CASES)
    parser.add_argument("--show", nargs=2)
    given = parser.parse_args()
    driver = Driver(given.program, given.drawn)
    if given.show:
        return show(driver, given.seed, *given.show)
    print(f"seed {given.seed}, {given.cases} cases", flush=True)
    passed = failed = 0
    with ThreadPoolExecutor(len(os.sched_getaffinity(0))) as pool:
        for running in [pool.submit(it) for it in jobs(driver, given.seed, given.cases)]:
            lines, good, bad = running.result()
            for line in lines[:SHOWN]:
                print(line, flush=True)
            passed, failed = passed + good, failed + bad
    print(f"{passed} passed, {failed} failed")
    return 1 if failed else 0


if __name__ == "__main__":
    sys.exit(main())
