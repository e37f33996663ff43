"""Runs a program with some of its asks refused."""

import contextlib
import os
import struct
import subprocess
import sys
import tempfile
from concurrent.futures import ProcessPoolExecutor
from dataclasses import dataclass

import commands  # noqa: F401, which makes the files of tests/cli known
from rows import HANGS


@dataclass
class Call:
    """A call of the system, as the library noted it."""

    what: str
    # The number of its file in the file system.
    file: int
    answer: int
    # Its flags, or a mode, or for how many bytes it was.
    detail: int
    # Its name, or the number of its open file.
    name: str


def call_of(line):
    """The call of a line of the trace."""
    what, file, answer, detail, name = line.rstrip("\n").split(" ", 4)
    return Call(what, int(file), int(answer), int(detail), name)


# What a look is that follows a read of the same file: whether a base is still as it was opened.
READ = "look after a read"


def marked(calls):
    """Calls, of which those looks that are a part of a read have a name of their own."""
    for call, before in zip(calls[1:], calls):
        if call.what == "look" and (before.what, before.name) == ("pread", call.name):
            call.what = READ
    return calls


class Refusing:
    """A program, with the library of refuse.c loaded ahead of it, by which asks for memory are
    refused, or calls of the system. More of what the library reads in its environment may be set, such
    as `ONLY` for REFUSE_ONLY."""

    def __init__(self, program, library, what="memory", **settings):
        self.program = program
        self.library = library
        self.what = what
        self.settings = settings

    def run(self, words, stdin, first=0, last=0, folder=None, closed=()):
        """What it left, with the asks from the first to the last refused, and how many it made. Some of
        its standard streams may be closed.
        """
        done, asks, _ = self.measure(words, stdin, first, last, folder, closed)
        return done, asks

    def measure(self, words, stdin, first=0, last=0, folder=None, closed=()):
        """What `run` gives, and for how many bytes of memory it asked."""
        with tempfile.NamedTemporaryFile() as count:
            done = self.begun(count, words, stdin, first, last, folder, closed)
            with open(count.name, "rb") as counted:
                asks, size = struct.unpack("2L", counted.read())
        return done, asks, size

    def trace(self, words, stdin, first=0, last=0, folder=None, mask=0o022, closed=()):
        """What it left, and the calls that it made. Some of its standard streams may be closed."""
        with tempfile.NamedTemporaryFile() as count, tempfile.NamedTemporaryFile() as trace:
            done = self.begun(count, words, stdin, first, last, folder, closed, trace.name, mask)
            with open(trace.name, encoding="utf-8") as lines:
                calls = [call_of(line) for line in lines]
        return done, calls

    @contextlib.contextmanager
    def given(self, stdin):
        """Standard input: a file and no pipe, so that each run reads as much at once."""
        with tempfile.TemporaryFile() as file:
            file.write(stdin)
            file.seek(0)
            yield file

    def begun(self, count, words, stdin, first, last, folder, closed, trace=None, mask=None):
        """A run with a file that the library counts in."""
        with self.given(stdin) as given:
            count.write(bytes(struct.calcsize("2L")))
            count.flush()
            refusing = {
                "LD_PRELOAD": self.library,
                "REFUSE_COUNT": count.name,
                "REFUSE_FIRST": str(first),
                "REFUSE_LAST": str(last),
                **{f"REFUSE_{name}": str(what) for name, what in self.settings.items()},
            }
            if self.what == "calls":
                refusing["REFUSE_CALLS"] = "1"
            if trace is not None:
                refusing["REFUSE_TRACE"] = trace

            def prepare():
                if mask is not None:
                    os.umask(mask)
                for number in closed:
                    os.close(number)

            return subprocess.run(
                [self.program, *words],
                cwd=folder,
                env=refusing,
                stdin=given,
                capture_output=True,
                preexec_fn=prepare,
                timeout=HANGS,
            )


def try_each(usage, attempt, runs, line=None):
    """Makes runs of a program side by side, with the library of refuse.c: the words of the command line.

    `attempt` answers for a run how many there were of it, and what is wrong of each. The first five of
    these are printed, after the line that `line` gives of the run, and in the end how many passed and
    failed. Without the two words the usage is said.
    """
    if len(sys.argv) != 3:
        sys.exit(usage)
    path, library = map(os.path.abspath, sys.argv[1:])
    passed = failed = 0
    with ProcessPoolExecutor(len(os.sched_getaffinity(0))) as processors:
        ended = processors.map(attempt, [path] * len(runs), [library] * len(runs), runs)
        for made, (count, wrong) in zip(runs, ended):
            if line is not None:
                print(line(made, count, len(wrong)))
            for fault in wrong[:5]:
                print(fault)
            passed, failed = passed + count - len(wrong), failed + len(wrong)
    print(f"{passed} passed, {failed} failed")
    sys.exit(1 if failed else 0)
