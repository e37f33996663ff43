"""A small repository whose crates are not worth a proof, for tests of the build and of the gate."""

import contextlib
import os
import signal
import subprocess
import sys
import tempfile
import time

sys.path.append(os.path.join(os.path.dirname(os.path.abspath(__file__)), "..", "cli"))

from rows import HANGS  # noqa: E402

HERE = os.path.dirname(os.path.abspath(__file__))
TOOLS = os.path.join(HERE, "..", "..", "tools")
CHECKER = os.path.join(HERE, "checker.py")

CRATES = """# Lowest first.
low:
other: byteorder
left: low
right: low other
top: left right
aside staticlib: low
"""
BUILT = ("low", "other", "left", "right", "top")
# The longest code is that of `right`, so most work waits for `low`, and then for `right`.
SIZES = {"low": 100, "other": 10, "left": 100, "right": 200, "top": 10, "aside": 900}


def begin_afresh(processors):
    """What a build begins with: these processors, and an interrupt, which a shell in the background ignores."""
    signal.signal(signal.SIGINT, signal.SIG_DFL)
    os.sched_setaffinity(0, processors or os.sched_getaffinity(0))


class Repository:
    """A repository whose crates are not worth a proof."""

    def __init__(self, top):
        self.top = top
        self.journal = os.path.join(top, "bin", "journal")
        self.write("crates.txt", CRATES)
        self.write("README.md", "Proved with: `a-kit logic 1234`.\n")
        for crate, size in SIZES.items():
            root = "main.rt" if crate == "top" else "lib.rt"
            self.write(f"crates/{crate}/src/{root}", "/" * size)
            self.write(f"crates/{crate}/must-fail/it.edit", "")

    def write(self, name, text):
        path = os.path.join(self.top, name)
        os.makedirs(os.path.dirname(path), exist_ok=True)
        with open(path, "w", encoding="utf-8") as file:
            file.write(text)

    def begin(self, processors=None, crate="top", target="bin/top", words=None, **environment):
        """Begins a build, or these words of a tool, with these variables for the checker."""
        self.write("bin/journal", "")
        variables = {"RT": CHECKER, "JOURNAL": self.journal, "PATH": os.environ["PATH"], **environment}
        tool, *more = words or ["build.py", f"crates/{crate}", target]
        return subprocess.Popen(
            [sys.executable, os.path.join(TOOLS, tool), *more],
            cwd=self.top,
            env=variables,
            stdout=subprocess.PIPE,
            stderr=subprocess.PIPE,
            text=True,
            preexec_fn=lambda: begin_afresh(processors),
        )

    @contextlib.contextmanager
    def running(self, *words, **named):
        """Begins a build, and ends one that hangs."""
        with self.begin(*words, **named) as process:
            try:
                yield process
            finally:
                process.kill()

    def build(self, *words, **named):
        """Builds, and gives the status and what was said."""
        with self.running(*words, **named) as process:
            output, errors = process.communicate(timeout=HANGS)
        return process.returncode, output, errors

    def lines_of(self, what):
        """The journal's lines that begin with a word, each as its words, in order."""
        with open(self.journal, encoding="utf-8") as file:
            return [words for words in map(str.split, file) if words[0] == what]

    def noted(self, what):
        """The crates of the journal's lines that begin with a word, in order."""
        return [words[1] for words in self.lines_of(what)]

    def jobs_of(self, crate):
        """How many jobs a check was begun with."""
        with open(self.journal, encoding="utf-8") as file:
            words = next(line.split() for line in file if line.startswith(f"begins {crate} "))
        return int(words[words.index("--jobs") + 1])

    def kept(self):
        """The crates of which the checker keeps something."""
        return [it for it in SIZES if os.path.isdir(os.path.join(self.top, "crates", it, "out"))]

    def has_trees(self):
        place = os.path.join(self.top, "bin", "trees")
        return os.path.isdir(place) and os.listdir(place) != []

    def wait_for(self, *crates, what="begins"):
        """Waits until these checks have begun."""
        end = time.monotonic() + HANGS
        while not set(crates).issubset(self.noted(what)):
            if time.monotonic() > end:
                raise TimeoutError(f"{what}: {crates}")
            time.sleep(0.01)

    def read(self, name):
        with open(os.path.join(self.top, name), encoding="utf-8") as file:
            return file.read()


def run_parts(parts):
    """Runs parts, each in a repository of its own, counts what passed and failed, and ends with the status."""
    passed = failed = 0
    for part in parts:
        with tempfile.TemporaryDirectory() as top:
            for what, is_well in part(Repository(top)):
                passed, failed = passed + is_well, failed + (not is_well)
                if not is_well:
                    print(f"{part.__name__}: {what}")
    print(f"{passed} passed, {failed} failed")
    sys.exit(1 if failed else 0)
