#!/usr/bin/env python3
"""Proves a program or a static library and the crates that it stands on, builds it, and copies it to where it
is wanted.

    tools/build.py CRATE TARGET

Each crate is proved and built as soon as those below it are, as many at once as the machine has the
processors and the memory for. The checker works alone in the folders of a crate and of those below it, so
each gets a tree of its own: see trees.py. Of the crates that are ready the one that most work waits for
comes first, and gets two processors if the others leave them. CRATE comes last; on a PC it is built for each processor of x86-64.

As it goes, the command says how many functions are proved: on a terminal in one line that it rewrites, else
in a line a minute. All that the checker says goes to the file build.log beside the target; if a step fails, the end of
it is shown. The checker is the command in the environment's RT, else `rt`.
"""

import contextlib
import os
import platform
import re
import shutil
import signal
import subprocess
import sys
import threading
import time

from link import link
from trees import KEPT, Trees, alone_in, crates_below, read

# What the last release took with nothing kept, and on which machine.
TOOK = "26 minutes on 4 cores"

# By itself the checker would build for the processors of 2009 and later.
CPU = ["--cpu", "x86-64"] if platform.machine() == "x86_64" else []
SHOWN_LINES = 40

# What the checker says of each function that it proves, and of a crate.
COUNTED = re.compile(r"(?:checked .*, |so far: )(\d+) of (\d+)")
# Lines of the log that say nothing of a failure.
WENT_WELL = re.compile(r"\w+ .*: proved$|checked |so far: |statements |logic |crate |rt: chose ")

GIB = 1 << 30
# How much memory a check takes at most, and one of its jobs, less what the kernel keeps of a machine's. The greatest that
# was measured is 4.65 million KiB, the files that it maps included.
CHECK_MEMORY = 5 * GIB * 9 // 10
JOB_MEMORY = CHECK_MEMORY // 2
# How much disk is kept of the program's crates. Without hard links, the libraries are there once more.
DISK = 6_800_000_000
COPIES = 4_000_000_000
# How much more the gate takes: for the crates that the program does not stand on, and for a copy that is proved
# from nothing.
GATE_DISK = 3_000_000_000
# How many seconds of processor time each crate took at the last release: what is dear of its code the size does
# not say. Of a crate that is not here, about so many bytes of code take a second.
SECONDS = {
    "cdb_store": 360,
    "cdb_form": 430,
    "cdb_command": 190,
    "cdb_read": 500,
    "cdb_make": 570,
    "cdb_names": 270,
    "cdb_show": 310,
    "cdb_tool": 270,
    "cdb_system": 240,
    "cdb": 330,
}
BYTES_A_SECOND = 220
# How many jobs a check gets at most: a third takes more of the processors' time than it saves.
MOST_JOBS = 2
# By how much two jobs shorten the longest chain of crates, and how much of the processors' time all of them use.
CHAIN_SPEED, USED = 1.6, 0.85
# How much of a crate's time the checks of its functions take, and from which part of the work on its pace is known.
OF_FUNCTIONS, KNOWN = 0.9, 0.1
# How many seconds pass between two lines where no terminal is.
QUIET_SECONDS = 60
# How many seconds a build that is stopped waits for its trees.
STOP_SECONDS = 10


def checker():
    """The checker's command."""
    return os.environ.get("RT") or "rt"


def memory():
    """How much memory the machine has, in bytes."""
    return os.sysconf("SC_PAGE_SIZE") * os.sysconf("SC_PHYS_PAGES")


def processors():
    """How many processors this process may use."""
    return len(os.sched_getaffinity(0))


def logic_of(version):
    """What the checker proves with, of its line of version."""
    return version.strip().split(" logic ")[-1]


def named_toolchain(top):
    """The toolchain that README.md names."""
    return re.search(r"^Proved with: `(.*)`\.$", read(top, "README.md"), re.MULTILINE)[1]


def missing(trees, crates, more=0):
    """Why the machine cannot prove some crates, in one line, or None if it can. What was kept of all of them takes
    no more disk, and what is done beside takes `more`."""
    try:
        ran = subprocess.run([checker(), "version"], capture_output=True, text=True, check=False)
    except OSError:
        return f"the Rattle toolchain is not there: no command {checker()}"
    named = named_toolchain(trees.top)
    if logic_of(ran.stdout) != logic_of(named):
        return f"the toolchain is {ran.stdout.strip() or 'unknown'}, and README.md names {named}"
    if memory() < CHECK_MEMORY:
        return f"a proof takes 5 GB of memory, and this machine has {memory() / GIB:.1f}"
    free = shutil.disk_usage(trees.top).free
    is_kept = all(os.path.isdir(os.path.join(trees.folder(it), KEPT)) for it in crates)
    needed = more + (0 if is_kept else DISK)
    if free < needed:
        return f"the proofs take {needed / 1e9:.1f} GB of disk, and {free / 1e9:.1f} are free"
    return None


def is_program(trees, crate):
    """Whether a crate is a program."""
    return os.path.isfile(os.path.join(trees.folder(crate), "src", "main.rt"))


def at_pace(left, whole, seconds):
    """How long the rest of some work takes, if `whole` of it was reckoned and what is done took so many seconds: as long
    as was reckoned, or longer if the machine is slower."""
    done = whole - left
    return left * max(1, seconds / done) if done > KNOWN * whole else left


class Progress:
    """How far the proofs are, on standard output. `works` is how many seconds each crate takes, and `chains` how many
    the longest chain of crates that begins with it."""

    def __init__(self, works, chains):
        self.works, self.chains = works, chains
        self.functions = {}
        self.proved = set()
        # When the build began, a line was said, and a function was proved last.
        self.began = self.said = self.moved = time.monotonic()
        self.whole = self.reckoned()
        self.lock = threading.Lock()

    def note(self, crate, done, of):
        """Takes what the checker said of a crate's functions."""
        with self.lock:
            # What is said of a second pass counts only what that has left.
            before, most = self.functions.get(crate, (0, 0))
            self.functions[crate] = max(before, done), max(most, of)
            if done > before:
                self.moved = time.monotonic()
            self.say()

    def end(self, crate):
        """Takes that a crate is proved."""
        with self.lock:
            self.proved.add(crate)
            self.functions.pop(crate, None)
            self.clear()
            print(f"  {crate} is proved: {len(self.proved)} of {len(self.works)} crates", flush=True)
            self.said = self.moved = time.monotonic()

    def clear(self):
        """Takes back a line that a terminal shows."""
        if sys.stdout.isatty():
            print("\r\033[K", end="")

    def minutes_left(self):
        """About how many minutes are left: no fewer than since the last function was proved."""
        now = time.monotonic()
        return max(at_pace(self.reckoned(), self.whole, now - self.began), now - self.moved) / 60

    def reckoned(self):
        """How many seconds are left, as long as each crate took at the last release."""
        left, longest = 0, 0
        for it in self.works.keys() - self.proved:
            done, of = self.functions.get(it, (0, 1))
            saved = self.works[it] * OF_FUNCTIONS * done / max(1, of)
            left, longest = left + self.works[it] - saved, max(longest, self.chains[it] - saved)
        return max(left / processors() / USED, longest / CHAIN_SPEED)

    def say(self):
        """Says how many functions are proved, and how long the rest takes: at once on a terminal, else once a minute."""
        found = [f"{crate} {done} of {of} functions" for crate, (done, of) in self.functions.items()]
        text = f"{', '.join(found)}; about {self.minutes_left():.1f} minutes left"
        if sys.stdout.isatty():
            print(f"\r\033[K  {text}"[: shutil.get_terminal_size().columns + 4], end="", flush=True)
        elif time.monotonic() - self.said >= QUIET_SECONDS:
            print(f"  {text}", flush=True)
            self.said = time.monotonic()


def work_of(folder):
    """How much work a crate is, about: its seconds of processor time at the last release, or the size of its code."""
    known = SECONDS.get(os.path.basename(folder))
    if known is not None:
        return known * BYTES_A_SECOND
    found = 0
    for place, _, names in os.walk(os.path.join(folder, "src")):
        found += sum(os.path.getsize(os.path.join(place, it)) for it in names)
    return found


def chains_of(trees, crates):
    """How much work waits for each crate: the longest chain of crates that begins with it."""
    waiting = {}
    for crate in reversed(crates):
        above = [waiting[it] for it in crates if crate in trees.libraries[it]]
        waiting[crate] = work_of(trees.folder(crate)) + max(above, default=0)
    return waiting


def in_order(trees, crates):
    """The crates, first those that most work waits for."""
    chains = chains_of(trees, crates)
    return sorted(crates, key=lambda it: -chains[it])


class Proofs:
    """The proofs of some crates, at most so many at once, each begun when those below it have ended."""

    def __init__(self, trees, crates, log, most):
        self.trees, self.log, self.most = trees, log, most
        self.last = crates[-1]
        self.order = in_order(trees, crates)
        self.waiting = list(self.order)
        self.proved = set()
        # The crates that are checked, each with its jobs.
        self.running = {}
        # The checkers that were begun.
        self.processes = []
        chains = {it: work / BYTES_A_SECOND for it, work in chains_of(trees, crates).items()}
        works = {it: work_of(trees.folder(it)) / BYTES_A_SECOND for it in crates}
        self.progress = Progress(works, chains)
        self.is_well = True
        self.changed = threading.Condition()

    def ready(self):
        """The crates that wait for no other, in order."""
        return [it for it in self.waiting if self.proved.issuperset(self.trees.libraries[it])]

    def free(self):
        """How many processors no check has."""
        return processors() - sum(self.running.values())

    def jobs_of(self, ready):
        """The jobs of the first of the crates that are ready: a processor is left for each of the others."""
        beside = min(self.most, len(self.running) + len(ready))
        jobs = min(MOST_JOBS, self.free() - len(ready) + 1, memory() // beside // JOB_MEMORY)
        return max(1, jobs)

    def words(self, crate, jobs):
        """The command for a crate."""
        words = ["--jobs", str(jobs), *(CPU if crate == self.last else [])]
        if is_program(self.trees, crate):
            # It is proved, built and then run, with the word after the hyphens.
            return [checker(), "run", *words, "--", "-h"]
        return [checker(), "lib", *words]

    def place_of(self, crate):
        """Where a crate is proved: one that nothing runs beside needs no tree."""
        if self.most == 1:
            return contextlib.nullcontext(self.trees.folder(crate))
        return self.trees.tree_of(crate)

    def prove(self, crate, words):
        """Proves and builds a crate, and takes down how it went."""
        said, is_proved = [], False
        try:
            with self.place_of(crate) as folder:
                is_proved = self.check(crate, words, folder, said)
        except OSError as error:
            said.append(f"{crate}: {error}\n".encode())
        finally:
            self.end(crate, said, is_proved)

    def end(self, crate, said, is_proved):
        """Takes what was said of a crate, and whether it is proved."""
        with self.changed:
            # A crate's lines stay together, and those of a failure come last.
            self.log.writelines(said)
            self.log.flush()
            self.running.pop(crate)
            if is_proved:
                self.proved.add(crate)
                self.progress.end(crate)
            else:
                self.is_well = False
            self.changed.notify()

    def check(self, crate, words, folder, said):
        """Runs the checker in a folder, takes down what it says, and answers whether the crate is proved."""
        how = {"stdin": subprocess.DEVNULL, "stdout": subprocess.PIPE, "stderr": subprocess.STDOUT}
        with self.changed:
            if not self.is_well:
                return False
            process = subprocess.Popen(words, cwd=folder, **how)
            self.processes.append(process)
        with process:
            for line in process.stdout:
                said.append(line.replace(folder.encode(), self.trees.folder(crate).encode()))
                counted = COUNTED.match(line.decode(errors="replace"))
                if counted:
                    self.progress.note(crate, int(counted[1]), int(counted[2]))
        return process.returncode == 0

    def begin(self, ready):
        """Begins the proof of the first of the crates that are ready."""
        crate, jobs = ready[0], self.jobs_of(ready)
        self.waiting.remove(crate)
        self.running[crate] = jobs
        words = self.words(crate, jobs)
        threading.Thread(target=self.prove, args=(crate, words), daemon=True).start()

    def run(self):
        """Proves all crates, and answers whether each is proved."""
        with self.changed:
            while (self.is_well and self.waiting) or self.running:
                has_room = self.is_well and len(self.running) < self.most and (self.free() > 0 or not self.running)
                ready = self.ready() if has_room else []
                if ready:
                    self.begin(ready)
                else:
                    self.changed.wait()
        return self.is_well

    def stop(self):
        """Ends the checks that run, and waits until what they proved is back."""
        with self.changed:
            self.is_well = False
            for process in self.processes:
                process.terminate()
            self.changed.wait_for(lambda: not self.running, STOP_SECONDS)


def most_at_once(trees, each=CHECK_MEMORY):
    """How many checks this machine can run side by side, of which each takes so much memory."""
    most = max(1, min(processors(), memory() // each))
    has_disk = trees.has_links() or shutil.disk_usage(trees.place).free >= DISK + COPIES
    return most if has_disk else 1


def show_end(path, why="The build failed."):
    """Shows the end of a log on standard error, without what went well."""
    with open(path, errors="replace", encoding="utf-8") as log:
        lines = [line for line in log if not WENT_WELL.match(line)]
    print(f"{why} The end of {path}:", file=sys.stderr)
    for line in lines[-SHOWN_LINES:]:
        print(f"    {line}", end="", file=sys.stderr)


def prove_all(trees, crates, path):
    """Proves the crates, with a log at a path, and answers whether each is proved."""
    trees.take_back_all()
    with open(path, "wb") as log:
        proofs = Proofs(trees, crates, log, most_at_once(trees))
        try:
            return proofs.run()
        except KeyboardInterrupt:
            proofs.stop()
            sys.exit("\nThe build was stopped. What is proved so far is kept.")
        finally:
            trees.take_back_all()


def put(trees, crate, target):
    """Puts what was made of a crate where it is wanted, and answers what is to be said of it."""
    if is_program(trees, crate):
        return f"; {link(trees.folder(crate), target)}"
    shutil.copy(os.path.join(trees.folder(crate), KEPT, f"lib{crate}.a"), f"{target}.new")
    os.replace(f"{target}.new", target)
    return ""


def interrupt(*_):
    """Takes another signal for an interrupt."""
    raise KeyboardInterrupt


def main():
    if len(sys.argv) != 3:
        sys.exit(__doc__)
    crate, target = sys.argv[1:]
    beside = os.path.dirname(target)
    place = os.path.join(os.path.abspath(beside), "trees")
    trees = Trees(os.path.abspath(os.path.join(crate, "..", "..")), place)
    crates = crates_below(trees.libraries, os.path.basename(os.path.normpath(crate)))
    why = missing(trees, crates)
    if why is not None:
        sys.exit(f"{target} cannot be built: {why}")
    path = os.path.join(beside, "build.log")
    os.makedirs(beside or ".", exist_ok=True)
    print(f"Proves {len(crates)} crates and builds {target}.")
    print(f"With nothing kept, the program took {TOOK} at its last release, and {DISK / 1e9:.1f} GB of disk.")
    print(f"What is proved is kept. What the checker says goes to {path}.", flush=True)
    began = time.monotonic()
    for it in (signal.SIGTERM, signal.SIGHUP):
        if signal.getsignal(it) is signal.SIG_DFL:
            signal.signal(it, interrupt)
    if not prove_all(trees, crates, path):
        show_end(path)
        sys.exit(1)
    with alone_in(trees.folder(crates[-1])):
        how = put(trees, crates[-1], target)
    print(f"{target} is built: proved, in {time.monotonic() - began:.0f} s{how}.")


if __name__ == "__main__":
    main()
