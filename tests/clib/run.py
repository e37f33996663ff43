#!/usr/bin/env python3
"""Compares what the C library answers with what files hold, and with what the command answers.

    tests/clib/run.py ANSWERS FOLDER [PROGRAM]

ANSWERS is answers.c, built; FOLDER has the library, libcdb.so.1; PROGRAM is the command. Without
it the answers are compared with the plain ones of model.py alone. Each database is closed in the end,
and what reads it is called once more. Some files are read once more under valgrind.
"""

import os
import subprocess
import sys
import tempfile

sys.path.append(os.path.join(os.path.dirname(os.path.abspath(__file__)), "..", "cli"))

from drawn import cut_files, drawn_files, good_files, worked_files
from model import HEAD, answers
from rows import HANGS, has

GROUPS = {
    "good files": good_files,
    "worked files": worked_files,
    "files cut to each length": cut_files,
    "files damaged by chance": drawn_files,
}
# How many keys of a file the command looks up, and how many files of a group valgrind watches, the
# last ones.
KEYS_OF_THE_COMMAND = 3
WATCHED = 120


class Driver:
    """The driver, in a folder of its files."""

    def __init__(self, answers_path, library, folder):
        self.words = [os.path.abspath(answers_path)]
        self.folder = folder
        self.environment = dict(os.environ, LD_LIBRARY_PATH=os.path.abspath(library))

    def place(self, files):
        """Writes the files, and the list of them."""
        with open(os.path.join(self.folder, "list"), "w") as names:
            for n, (file, keys) in enumerate(files):
                names.write(f"{n}.cdb {n}.keys\n")
                with open(os.path.join(self.folder, f"{n}.cdb"), "wb") as to:
                    to.write(file)
                with open(os.path.join(self.folder, f"{n}.keys"), "wb") as to:
                    for key in keys:
                        to.write(len(key).to_bytes(4, "little") + key)

    def answers(self, before=(), after=()):
        """What it prints of the files in the list, and its status and errors."""
        return subprocess.run(
            [*before, *self.words, "list", *after],
            cwd=self.folder, env=self.environment, capture_output=True, timeout=HANGS,
        )


def split(printed):
    """The answers in what the driver printed: a status and bytes each."""
    said, at = [], 0
    while at < len(printed):
        status, size, _ = printed[at:at + 40].split(b" ", 2)
        begin = at + len(status) + len(size) + 2
        at = begin + int(size) + 1
        said.append((int(status), printed[begin:at - 1]))
    return said


def differences(files, said):
    """The numbers of the files on which an answer is another than the plain one."""
    wrong, at = [], 0
    for n, (file, keys) in enumerate(files):
        wanted = answers(file, keys)
        if said[at:at + len(wanted)] != wanted:
            wrong.append(n)
        at += len(wanted)
    return wrong if at == len(said) else wrong or [len(files)]


def compare_plain(driver, files, after=()):
    """What the library answers, beside the plain answers."""
    driver.place(files)
    done = driver.answers(after=after)
    if done.returncode:
        return f"status {done.returncode}: {done.stderr.decode()}"
    wrong = differences(files, split(done.stdout))
    return f"other answers on files {wrong[:9]}" if wrong else None


def command_answers(program, folder, n, keys):
    """What the command prints of a file: its dump, and the values of some keys."""
    said = []
    for words in [["-d", f"{n}.cdb"]] + [["-q", "--", f"{n}.cdb", os.fsdecode(key)] for key in keys]:
        done = subprocess.run(
            [program, *words], cwd=folder, stdin=subprocess.DEVNULL, stdout=subprocess.PIPE,
            stderr=subprocess.DEVNULL, timeout=HANGS,
        )
        said.append((done.returncode, done.stdout))
    return said


def compare_command(driver, program, files):
    """What the command answers, beside the plain answers."""
    for n, (file, keys) in enumerate(files):
        named = [(4 * m + 2, key) for m, key in enumerate(keys) if bytes(1) not in key]
        # A key that is an argument is UTF-8 and has no zero byte.
        named = [(m, key) for m, key in named if key.isascii()][:KEYS_OF_THE_COMMAND]
        wanted = answers(file, keys)
        if len(file) < HEAD:
            wanted = [(111, b"")] * (2 + 4 * len(keys))
        wanted = [wanted[1]] + [wanted[m] for m, _ in named]
        if command_answers(program, driver.folder, n, [key for _, key in named]) != wanted:
            return f"the command answers otherwise on file {n}"
    return None


def compare_watched(driver, files):
    """What valgrind says of the last files."""
    driver.place(files[-WATCHED:])
    words = ["valgrind", "-q", "--leak-check=full", "--error-exitcode=9"]
    done = driver.answers(words)
    return done.stderr.decode()[:2000] if done.returncode else None


def main(answers_path, library, program=None):
    failed = passed = 0
    for name, files in GROUPS.items():
        files = list(files())
        with tempfile.TemporaryDirectory() as folder:
            driver = Driver(answers_path, library, folder)
            tests = {"plain answers": lambda: compare_plain(driver, files, ["closed"])}
            if program:
                path = os.path.abspath(program)
                tests["the command"] = lambda: compare_command(driver, path, files)
            if has("valgrind", f"{name}, valgrind"):
                tests["valgrind"] = lambda: compare_watched(driver, files)
            for what, test in tests.items():
                fault = test()
                failed += fault is not None
                passed += fault is None
                if fault is not None:
                    print(f"{name}, {what}: {fault}")
    print(f"{passed} passed, {failed} failed")
    return 1 if failed else 0


if __name__ == "__main__":
    if len(sys.argv) not in (3, 4):
        sys.exit(__doc__)
    sys.exit(main(*sys.argv[1:]))
