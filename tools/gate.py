#!/usr/bin/env python3
"""The gate: proves everything from nothing, tries the wrong bodies, and runs every test.

    tools/gate.py

At the top of the repository. First tools/unproved.py runs the tests of the crates NAME_tests, compiled with checks and
without a proof. Beside it the checker's own gate, `rt ci`, proves each other crate from nothing, on a copy of the files that
git tracks, as they are now, without the wrong bodies: a proof leaves processors free, since a crate waits for those below it. If the environment's TESTS is `proved`, it proves the crates of tests too,
and runs their tests once more. What it leaves is tested: the program is linked of its object, and the C library made over its
libraries, in bin/tested. If an earlier run on this machine proved the program, there is no object, and its crate alone is proved
again over these libraries. Then tools/wrong.py tries the wrong bodies that are not known as refused, over these libraries too,
and beside it tests/run.py runs: most of its tests use one processor.

A line a minute says what is done and about how long the rest takes, on a terminal one line that is rewritten. In the
end a table has the time of each part, and below it is each part and row of the tests that was left out, and each crate and wrong
body that failed. Nothing passes because it was left out: each crate must be proved or its tests run, each listed wrong body be
tried, and each part of the tests and each crate's tests pass as many as tools/floors.txt says. The last line counts the tests
that passed and failed, and each other part that failed as one more. What the parts say goes to files in bin. If nothing failed
and all is committed, bin/passed names the commit, for tools/publish.py.
After a kill the next gate starts well; but remove bin/gate before you run `rt ci` yourself.
"""

import contextlib
import ctypes
import hashlib
import os
import re
import shutil
import signal
import subprocess
import sys
import threading
import time

from build import BYTES_A_SECOND, GATE_DISK, QUIET_SECONDS, checker, interrupt, missing, processors, show_end, work_of
from edits import FOLDER, edits_of
from link import links_statically
from release import is_of_release
from trees import KEPT, Trees, alone_now, commit_of, files_of, lines_of, read
from unproved import TESTS, crates_of_tests, floors, program_of
from wrong import chosen

TOOLS = os.path.dirname(os.path.abspath(__file__))
# What is built by `make`, and of what `rt ci` left.
BUILT, TESTED = "bin", os.path.join("bin", "tested")
ARCHIVE, LOADED = "libcdb_c.a", "loaded"
COPY = os.path.join("bin", "gate")
# Says at which commit the gate passed last, and whether the crates of tests were proved.
PASSED = os.path.join("bin", "passed")
BODIES, OF_CRATES = "wrong bodies", "crates' tests"
COUNTED = re.compile(r"^(\d+) passed, (\d+) failed")
# How many of the floors the tests left out.
LACKING = re.compile(r", (\d+) left out$")
# What the parts say of a crate, a crate's tests, a wrong body and a part of the tests that is done.
PROVED = re.compile(r"rt: (\w+) (?:proved$|is kept:)")
RAN = re.compile(r"(\w+): \d+ passed, \d+ failed, \d+ s$")
# What they say of a test that failed, or of a crate of tests with which something is wrong.
FAILED = re.compile(rf"test \S+ \.\.\. FAILED$|\w+{TESTS}: (?!\d+ passed, 0 failed)")
TRIED = re.compile(r"(\w+/[^\s:]+)")
DONE = re.compile(r"tests/\S+.*: \d+ s, (\d+) of (\d+) parts$")
LIBC = ctypes.CDLL(None)
# The number by which a process asks for a signal once the one that began it ends.
SIGNAL_AT_END = 1
# How much of the time of all processors `rt ci` uses.
USED = 0.85
# How many seconds parts that are stopped may take, and pass between two looks at them.
STOP_SECONDS = 10
LOOK_SECONDS = 0.2


def sources_of(top):
    """The repository's files without the wrong bodies, each with a sum of its bytes."""
    return {it: sum_of(os.path.join(top, it)) for it in files_of(top) if FOLDER not in it.split(os.sep)}


def sum_of(path):
    """A sum of a file's bytes, None if there is no such file."""
    try:
        with open(path, "rb") as file:
            return hashlib.sha256(file.read()).digest()
    except OSError:
        return None


def copy_sources(top, copy, files, left_out=()):
    """Copies these files of the repository, but nothing of the crates that are left out."""
    shutil.rmtree(copy, ignore_errors=True)
    for it in files:
        if it.split(os.sep)[:1] == ["crates"] and it.split(os.sep)[1] in left_out:
            continue
        os.makedirs(os.path.dirname(os.path.join(copy, it)), exist_ok=True)
        shutil.copy2(os.path.join(top, it), os.path.join(copy, it))
    # Of the list the other lines stay as they are.
    lines = [line for line in read(top, "crates.txt").splitlines(keepends=True) if crate_of(line) not in left_out]
    with open(os.path.join(copy, "crates.txt"), "w", encoding="utf-8") as file:
        file.writelines(lines)
    # The checker looks for the top of a repository.
    os.makedirs(os.path.join(copy, ".git"))
    with contextlib.suppress(OSError):
        subprocess.run(["git", "init", "-q"], cwd=copy, capture_output=True, check=False)


def crate_of(line):
    """The crate that a line of crates.txt lists, or None."""
    head = line.split("#")[0].split(":")[0].split()
    return head[0] if head else None


def take_tests(top, copy):
    """Takes the programs of tests that the checker made in the copy: the tests of refused memory run them."""
    for crate in os.listdir(os.path.join(copy, "crates")):
        made, target = program_of(copy, crate), program_of(top, crate)
        if os.path.isfile(made):
            os.makedirs(os.path.dirname(target), exist_ok=True)
            shutil.move(made, target)


def begin():
    """What a part does first: it asks to be ended if this process ends in whatever way."""
    LIBC.prctl(SIGNAL_AT_END, signal.SIGTERM)


class Part:
    """A part of the gate: a command, what it says, and the time that it takes."""

    def __init__(self, name, words, folder=".", log=None, steps=None, shows=lambda line: True, holds=0):
        self.name, self.log, self.steps = name, log, steps
        # Which of its lines are to be seen, and how many of the last are not shown.
        self.shows, self.holds = shows, holds
        self.began, self.wall, self.work, self.status = time.monotonic(), 0, 0, None
        # The steps that are done, by what the lines named them, the last line of one, and the lines to be shown.
        self.done, self.step, self.unseen, self.last = set(), None, [], ""
        how = {"stdin": subprocess.DEVNULL}
        if log:
            how |= {"stdout": subprocess.PIPE, "stderr": subprocess.STDOUT, "text": True, "errors": "replace"}
        self.process = subprocess.Popen(words, cwd=folder, preexec_fn=begin, **how)
        self.reader = threading.Thread(target=self.read, daemon=True)
        self.reader.start()

    def read(self):
        """Takes down what the part says, and how long it took."""
        if self.log:
            with open(self.log, "w", encoding="utf-8") as log:
                for line in self.process.stdout:
                    log.write(line)
                    log.flush()
                    self.take(line.rstrip("\n"))
        _, status, used = os.wait4(self.process.pid, 0)
        self.wall, self.work = time.monotonic() - self.began, used.ru_utime + used.ru_stime
        self.status = self.process.returncode = os.waitstatus_to_exitcode(status)

    def take(self, line):
        """Takes a line that the part said."""
        step = self.steps.match(line)
        if step:
            self.done.add(step[1])
            self.step = step
        self.last = line
        self.unseen.append(line)

    def is_running(self):
        return self.reader.is_alive()

    def counted(self):
        """How many passed and failed, by the part's last line. One that ended early has failed, whatever it counted."""
        found = COUNTED.match(self.last)
        passed, failed = map(int, found.groups()) if found else (0, 0)
        return passed, failed or int(self.status != 0 or not found)

    def end(self):
        """Ends the part."""
        with contextlib.suppress(ProcessLookupError):
            if self.process.returncode is None:
                self.process.terminate()


class Gate:
    """The parts in turn, what is said of them, and what failed."""

    def __init__(self, top):
        self.top, self.began, self.said = top, time.monotonic(), time.monotonic()
        self.parts, self.passed, self.failed, self.wrong, self.left_out = [], 0, 0, [], []
        self.of_tests = crates_of_tests(top)
        # The crates that are proved.
        self.crates = [it for it in lines_of(top) if is_proved(it)]
        self.trees = Trees(top, os.path.join(top, "bin", "trees"))
        self.bodies = {str(it) for found in chosen(self.trees, [], False)[0].values() for it in found}
        self.floors = floors(top)

    def begin(self, *words, **named):
        """Begins a part."""
        part = Part(*words, **named)
        self.parts.append(part)
        return part

    def progress(self, part):
        """How far a part is."""
        if part.name == "rt ci":
            left = [it for it in self.crates if it not in part.done]
            work = sum(work_of(self.trees.folder(it)) for it in left) / BYTES_A_SECOND
            minutes = work / processors() / USED / 60
            return f"rt ci: {len(part.done)} of {len(self.crates)} crates proved, about {minutes:.0f} minutes left of it"
        if part.name == OF_CRATES:
            return f"{OF_CRATES}: those of {len(part.done)} of {len(self.of_tests)} crates have run"
        if part.name == BODIES:
            return f"{BODIES}: {len(part.done)} of {len(self.bodies)} tried"
        return f"tests: {part.step[1]} of {part.step[2]} parts" if part.step else part.name

    def show(self, line):
        """Shows a line, without the one that a terminal rewrites."""
        before = "\r\033[K" if sys.stdout.isatty() else ""
        print(f"{before}{line}", flush=True)

    def say(self, running):
        """Says how far the parts are: on a terminal all the time, else once a minute."""
        text = f"  {(time.monotonic() - self.began) / 60:.0f} minutes. {'; '.join(self.progress(it) for it in running)}"
        if sys.stdout.isatty():
            print(f"\r\033[K{text}"[: shutil.get_terminal_size().columns + 4], end="", flush=True)
        elif time.monotonic() - self.said >= QUIET_SECONDS:
            print(text, flush=True)
            self.said = time.monotonic()

    def wait(self, *parts):
        """Waits for parts, and shows those of their lines that are to be seen."""
        while True:
            running = [it for it in parts if it.is_running()]
            for it in parts:
                while len(it.unseen) > it.holds:
                    line = it.unseen.pop(0)
                    if it.shows(line):
                        self.show(line)
            if not running:
                return
            told = [it for it in running if it.log]
            if told:
                self.say(told)
            time.sleep(LOOK_SECONDS)

    def is_wrong(self, line):
        """Whether a line says that something failed, which is then said once more at the end."""
        if is_wrong(line):
            self.wrong.append(line)
            return True
        return False

    def has_failed(self, line):
        """Whether a line says that a test failed, or what else is wrong with a crate of tests."""
        if FAILED.match(line):
            self.wrong.append(line)
            return True
        return False

    def is_of_now(self, line):
        """Whether a line of the tests is shown at once. What they left out is said at the end."""
        if line.startswith("left out: "):
            self.left_out.append(line)
            return False
        return True

    def count(self, part, least):
        """Takes how many of a part passed and failed, which must be so many."""
        passed, failed = part.counted()
        self.show(f"{part.name}: {passed} passed, {failed} failed")
        if failed == 0 and passed < least:
            self.wrong.append(f"{part.name}: {passed} passed, and not {least}")
            failed = 1
        self.failed += failed
        if failed:
            show_end(part.log, f"{part.name} failed.")
        return passed

    def lack(self, lacking):
        """Takes lines of what was left out, which count as one failure."""
        for it in lacking:
            self.wrong.append(it)
            self.show(it)
        self.failed += len(lacking) > 0

    def run_crates(self):
        """Begins the tests of the crates of tests, which are not proved for that."""
        words = [sys.executable, os.path.join(TOOLS, "unproved.py")]
        return self.begin(OF_CRATES, words, log="bin/unproved.log", steps=RAN, shows=self.has_failed)

    def count_crates(self, tests):
        """Takes how many of these passed and failed: each crate must have run, and have a floor."""
        self.passed += self.count(tests, sum(it for name, it in self.floors.items() if is_of_tests(name)))
        lacking = [f"the tests of {it} did not run" for it in self.of_tests if it not in tests.done and tests.counted()[1] == 0]
        lacking += [f"{it} has no floor" for it in self.of_tests if it not in self.floors]
        lacking += [f"{it} has a floor and is not in crates.txt" for it in self.floors if is_of_tests(it) and it not in self.of_tests]
        self.lack(lacking)

    def prove(self, copy, files):
        """Begins to prove all from nothing, of these files."""
        copy_sources(self.top, copy, files, [it for it in self.of_tests if it not in self.crates])
        return self.begin("rt ci", [checker(), "ci"], folder=copy, log="bin/gate.log", steps=PROVED, shows=self.is_wrong)

    def count_proved(self, ci, files):
        """Takes how many crates were proved: each, of these files with their sums."""
        self.count(ci, len(self.crates))
        # A crate that failed is named by its own line.
        lacking = [f"{it} was not proved" for it in self.crates if it not in ci.done and ci.counted()[1] == 0]
        lacking += [f"{it} was proved, and crates.txt does not list it" for it in sorted(ci.done - set(self.crates))]
        lacking += [f"{it} was changed while the gate ran" for it, was in files.items() if sum_of(os.path.join(self.top, it)) != was]
        self.lack(lacking)

    def over(self, copy, crate, target):
        """Builds a crate over the libraries that `rt ci` left, and answers whether that succeeded."""
        part = self.begin(f"{crate} again", [sys.executable, os.path.join(TOOLS, "over.py"), copy, crate, target])
        self.wait(part)
        return part.status == 0

    def take(self, copy):
        """Takes what `rt ci` left for the tests: the folder of the program and of the C library, if both were made of it.
        There is no object of a program that an earlier run proved: its crate alone is proved again. So is that of a release,
        whose object is compared with the one that `make` builds: `rt ci` compiles for the processor that it runs on."""
        take_tests(self.top, copy)
        shutil.rmtree(TESTED, ignore_errors=True)
        os.makedirs(TESTED)
        made = os.path.join(copy, "crates", "cdb")
        built = os.path.join(made, KEPT, "cdb.o")
        is_lacking = not os.path.isfile(built) or is_of_release(self.top)
        if is_lacking and not self.over(copy, "cdb", built):
            return None
        if not links_statically(made, os.path.join(TESTED, "cdb")):
            return None
        shutil.copy(os.path.join(made, KEPT, "cdb"), os.path.join(TESTED, LOADED))
        return TESTED if self.over(copy, "cdb_c", os.path.join(TESTED, ARCHIVE)) else None

    def build(self):
        """Builds what the tests run on, and answers whether that succeeded."""
        build = self.begin("build", ["make", "-s", "bin/cdb", f"bin/{ARCHIVE}"])
        self.wait(build)
        return build.status == 0

    def try_bodies(self, copy):
        """Begins to try the wrong bodies that are not known as refused, over the libraries that `rt ci` left in the copy."""
        words = [sys.executable, os.path.join(TOOLS, "wrong.py"), "--over", copy]
        is_shown = lambda line: self.is_wrong(line) or line.startswith("warning: ")
        return self.begin(BODIES, words, log="bin/bodies.log", steps=TRIED, shows=is_shown)

    def test(self, place):
        """Begins the tests on what is built in a folder."""
        words = [sys.executable, os.path.join("tests", "run.py"), os.path.join(place, "cdb"), "--gate"]
        # The counts are the last line of all.
        return self.begin("tests", words, log="bin/tests.log", steps=DONE, shows=self.is_of_now, holds=1)

    def count_tests(self, part):
        """Counts how many tests passed and failed. What was left out was named, and counts to the floors."""
        if not COUNTED.match(part.last):
            self.show(part.last)
        passed, failed = part.counted()
        least = sum(it for name, it in self.floors.items() if name != BODIES and not is_of_tests(name))
        lacking = int(LACKING.search(part.last)[1]) if self.left_out and LACKING.search(part.last) else 0
        if failed == 0 and passed + lacking < least:
            self.wrong.append(f"tests: {passed} passed, and not {least - lacking}")
            failed = 1
        self.passed, self.failed = self.passed + passed, self.failed + failed

    def table(self):
        """The time of each part."""
        yield f"{'':14}{'minutes':>10}{'of processor time':>20}"
        for it in self.parts:
            yield f"{it.name:14}{it.wall / 60:10.1f}{it.work / 60:20.1f}"
        work = sum(it.work for it in self.parts)
        yield f"{'in all':14}{(time.monotonic() - self.began) / 60:10.1f}{work / 60:20.1f}"

    def stop(self):
        """Ends the parts that run."""
        for it in self.parts:
            it.end()
        for it in self.parts:
            it.reader.join(STOP_SECONDS)

    def run(self, copy):
        """Runs the gate, and counts how many passed and failed."""
        files = sources_of(self.top)
        try:
            crates, ci = self.run_crates(), self.prove(copy, files)
            self.wait(crates, ci)
            self.count_crates(crates)
            self.count_proved(ci, files)
            place = self.take(copy)
            if place is None and not self.build():
                self.failed += 1
                return
            bodies, tests = self.try_bodies(copy), self.test(place or BUILT)
            self.wait(bodies, tests)
        finally:
            # The checker takes a list of crates below the top for a mistake.
            shutil.rmtree(copy, ignore_errors=True)
        self.count(bodies, max(len(self.bodies), self.floors[BODIES]))
        self.count_tests(tests)


def is_of_tests(name):
    """Whether a name is that of a crate of tests."""
    return name.endswith(TESTS)


def is_proved(crate):
    """Whether the gate proves a crate: one of tests if that is asked for."""
    return os.environ.get("TESTS") == "proved" or not is_of_tests(crate)


def is_wrong(line):
    """Whether a line of `rt ci` or of the wrong bodies says that something failed."""
    return "NOT PROVED" in line or "FAILED" in line or (TRIED.match(line) and ": refused by " not in line)


def refused(top):
    """Why the gate cannot run here, in one line, or None if it can."""
    trees = Trees(top, os.path.join(top, "bin", "trees"))
    crates = [it for it in trees.libraries if edits_of(trees.folder(it))]
    return missing(trees, crates, GATE_DISK)


def note_passed(top):
    """Notes at which commit the gate passed, which a release looks for, if all is committed."""
    commit = commit_of(top)
    if commit:
        with open(PASSED, "w", encoding="utf-8") as file:
            file.write(f"{commit} {os.environ.get('TESTS', '')}\n")


def main():
    if len(sys.argv) != 1 or os.environ.get("TESTS", "") not in ("", "proved"):
        sys.exit(__doc__)
    top = os.getcwd()
    os.makedirs("bin", exist_ok=True)
    try:
        with alone_now("bin"):
            why = refused(top)
            if why is not None:
                sys.exit(f"The gate cannot run: {why}")
            for it in (signal.SIGTERM, signal.SIGHUP):
                signal.signal(it, interrupt)
            with contextlib.suppress(FileNotFoundError):
                os.remove(PASSED)
            gate = Gate(top)
            try:
                gate.run(os.path.join(top, COPY))
            except KeyboardInterrupt:
                gate.stop()
                sys.exit("\nThe gate was stopped. What is proved so far is kept.")
    except BlockingIOError:
        sys.exit("The gate runs in this folder already.")
    for line in [*gate.table(), *gate.left_out, *(f"failed: {it}" for it in gate.wrong)]:
        gate.show(line)
    if not gate.failed:
        note_passed(top)
    print(f"{gate.passed} passed, {gate.failed} failed")
    sys.exit(1 if gate.failed else 0)


if __name__ == "__main__":
    main()
