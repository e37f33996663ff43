#!/usr/bin/env python3
"""Tries wrong bodies: the prover must refuse each, by its clause.

    tools/wrong.py [--all] [--note] [--anew] [--over COPY] [CRATE | CRATE/EDIT ..]

A wrong body is an edit of a crate's folder must-fail. Those that tools/wrong_bodies.txt marks for the gate are tried,
with --all each, of the crates that are named, or of all; an edit that is named is tried in any case.

First the right bodies of the functions that the edits touch are proved, with all that they call, over what `make` or `rt check`
kept. This is kept in bin/right for the next run. A refusal shows nothing if the right body is refused too. No library is built:
the crates below are read as sources, and of COPY, a repository in which `rt ci` ran, as the libraries that it left. These need no
proof, so the gate passes its copy.
Then its wrong bodies of different functions are tried in one check, over hard links of what is kept: so the check
proves the functions that they touch, and nothing else. One counts as refused if a goal of its own function
stays open, and the goal has no stored proof that names a call or an argument which the edit took away: such a proof would be
refused for a right body too. The goal's clause must be the one that the edit's line of the list names. Whatever does not
pass so is tried once more, alone. Else the test beside the edit must show it wrong (counterexamples.py), or the list
tools/unshown_bodies.txt name it: then a line warns. A check that ends without its last line refuses nothing.

With --note that line is written anew where the clause did not refuse the edit.

What was refused is kept beside the toolchain, or in bin/refused if no other user may write there, under a sum of all
that the trial stands on: the edit, the crate and those below it, the toolchain and these tools. So a later run, also
in another clone, tries what changed. With --anew each is tried. The last line counts all that passed and failed.
"""

import argparse
import contextlib
import functools
import hashlib
import itertools
import os
import re
import shutil
import signal
import stat
import subprocess
import sys
import threading
import time
from concurrent.futures import ThreadPoolExecutor
from dataclasses import dataclass, field

import over
from answers import answer_of, named_in, taken_by
from build import GIB, QUIET_SECONDS, checker, interrupt, missing, most_at_once, work_of
from counterexamples import is_shown
from edits import LIST, UNSHOWN, BadEdit, applied, edits_of, function_at, listed, module_of, note_clause, test_of, texts_of, unshown
from trees import PROVED, SOURCES, Trees, alone_now, crates_below, read

LOG = "bin/wrong.log"
# Where it is kept what is proved of the right bodies: over sources, and over libraries, by which the checker names things otherwise.
RIGHT, RIGHT_OVER = "bin/right", "bin/right-over"
# Where it is kept what was refused: beside the toolchain's folder, or in the repository.
BESIDE_KIT = "cdb-refused"
REFUSED = "bin/refused"
TOOLS = os.path.dirname(os.path.abspath(__file__))
# A check costs ten seconds and more before any proof, which these share; with more, one check would take as long as all others.
MOST_AT_ONCE = 10
# How much memory a check takes at most over sources: reading those of the program's crates takes 3.2 GB.
MEMORY = 5 * GIB

# A stored proof that names something which is not there.
LOST = re.compile(r"has no field|is not in scope|has no `|was not admitted|has no returns-")
# What the checker says of a goal that it did not prove: of one with a stored proof, of one without at its place in
# the source, and of those of a function.
STORED = re.compile(r"^(?:note: )?(?:\./)?proofs/(.+)/(?:Answers|Proof|Invariants)\.antt:\d+:\d+: error: (.*)", re.MULTILINE)
SEARCHED = re.compile(r"^note: (src/\S+?):(\d+):\d+: .*not proved.* \(`([^`]+)`\)", re.MULTILINE)
UNANSWERED = re.compile(r"^fn (\S+): .*`search` did not prove ((?:`[^`]+`(?:, | and )?)+)", re.MULTILINE)
ENDED = re.compile(r"^only=\d+ proved=\d+$", re.MULTILINE)


def clause_of(goal):
    """The clause that a goal is for, of the goal's name."""
    goal = re.sub(r"-\d+$", "", goal)
    head, _, clause = goal.partition("-clause-")
    what = head.split("-")[0]
    if what == "returns":
        return clause or "returns"
    if what in ("loop", "invariant", "decreases"):
        turns = re.sub(r"^(?:invariant-|decreases-)?loop-?", "", head)
        name = re.split(r"-?(?:init|preserved|smaller)", turns)[0]
        return f"loop {name}".strip()
    if "-requires" in head:
        return f"{what} requires {clause}".strip()
    return f"{what} {clause}".strip()


@dataclass
class Told:
    """What a check said of the functions that were touched: the clauses of the goals that stay open, by function,
    those whose stored proof names what is lost, those whose stored proof names what an edit took away with that name, and
    the first error."""

    open: dict = field(default_factory=dict)
    lost: dict = field(default_factory=dict)
    naming: dict = field(default_factory=dict)
    is_read: bool = False
    is_proved: bool = False
    error: str = ""

    def add(self, kept, function, clause):
        """Takes down a clause of a function, once."""
        clauses = kept.setdefault(function, [])
        if clause not in clauses:
            clauses.append(clause)

    def clauses(self, functions):
        """The clauses of functions that stay open, those of all for None."""
        return [it for name, found in self.open.items() if functions is None or name in functions for it in found]


def told_of(output, status, crate, texts, naming=lambda function, goal: None):
    """What a check of a crate with these texts said. `naming` is what the stored proof of a goal names that an edit took away."""
    # What is said of one goal may go on in further lines.
    output = re.sub(r"\n {2,}", " ", output)
    told = Told(is_read=status in (0, 1) and bool(ENDED.search(output)), is_proved=status == 0)
    errors = [it for it in output.splitlines() if ": error" in it or it.startswith("rattle: no verdict")]
    told.error = (errors or output.splitlines()[-1:] or ["the checker said nothing"])[0][:200]
    for function, said in STORED.findall(output):
        goal = re.match(r"`([^`]+)`", said)
        clause = clause_of(goal[1]) if goal else "a stored proof"
        name = naming(function, goal[1]) if goal else None
        kept = told.lost if LOST.search(said) else told.naming if name else told.open
        told.add(kept, function.replace("/", "::"), (clause, name) if kept is told.naming else clause)
    goals = [(named_at(texts, path, int(line)), goal) for path, line, goal in SEARCHED.findall(output) if path in texts]
    for name, found in UNANSWERED.findall(output):
        goals += [(name.removeprefix(f"{crate}::"), it) for it in re.findall(r"`([^`]+)`", found)]
    for function, goal in goals:
        # A goal whose stored proof has lost it says nothing of the body.
        if function and clause_of(goal) not in told.lost.get(function, ()):
            told.add(told.open, function, clause_of(goal))
    return told


def named_at(texts, path, line):
    """The function that the checker means by a line of a file: that of a function's body, or where its item begins."""
    lines = texts[path].splitlines(keepends=True)
    while line < len(lines) and lines[line - 1].lstrip().startswith(("#[", "//")):
        line += 1
    return function_at(texts, path, len("".join(lines[:line])) - 1)


class Trial:
    """A wrong body that is tried."""

    def __init__(self, edit, texts):
        self.edit, self.why, self.is_last = edit, None, False
        # Whether only a stored proof refused it that names what it took away.
        self.is_unshown = False
        # What is checked, by the checker's names, and the functions that it touches: of a change outside of functions the
        # modules, and None.
        self.asked = self.functions = None
        try:
            _, places = applied(edit, texts)
        except BadEdit as why:
            self.why = f"cannot be tried: {why}"
            return
        self.asked = {f"{edit.crate}::{function or module_of(path)}" for path, function in places}
        if all(function for _, function in places):
            self.functions = {function for _, function in places}

    def is_of(self, function):
        """Whether it touches a function."""
        return not self.functions or function in self.functions

    def judge(self, told):
        """What is wrong with how a check ended, or None if the edit's clause refused it; and the clauses that did."""
        self.is_unshown = False
        if not told.is_read:
            return f"cannot be tried: {told.error}", []
        clauses, noted = told.clauses(self.functions), self.edit.clause
        names = dict(it for function, found in told.naming.items() if self.is_of(function) for it in found)
        self.is_unshown = noted in names and noted not in clauses
        if told.is_proved:
            return "is let through: the crate is proved with it", clauses
        if self.is_unshown:
            return f"is refused by {noted} with a stored proof that names {names[noted]}, which it takes away", clauses
        if clauses:
            if noted in clauses:
                return None, clauses
            beside = f"has the clause {noted}" if noted else "has no clause"
            return f"is refused by {', '.join(clauses)}, and {LIST} {beside}", clauses
        lost = [it for name, found in told.lost.items() if self.is_of(name) for it in found]
        if lost:
            self.is_unshown = test_of(self.edit) is not None
            return f"is refused by lost names alone, of the stored proofs for {', '.join(lost)}", clauses
        return "is let through: no goal of its own function stays open", clauses


def naming_of(trials, folder, function, goal):
    """What the stored proof of a goal of a function names that one of some wrong bodies took away, or None."""
    answer = answer_of(folder, function, goal)
    taken = (taken_by(it.edit) for it in trials if it.is_of(function.replace("/", "::")))
    return next(filter(None, (named_in(answer, it) for it in taken)), None)


def passes_of(trials):
    """Groups wrong bodies of a crate, a few at most, so that none of a group touches a function that another does. One
    that touches what is no function is alone."""
    groups = []
    for trial in trials:
        place = next((it for it in groups if fits(trial, it)), None)
        if place is None:
            groups.append([trial])
        else:
            place.append(trial)
    return groups


def fits(trial, group):
    """Whether a wrong body can be tried with others."""
    return len(group) < MOST_AT_ONCE and all(trial.functions and it.functions and not trial.functions & it.functions for it in group)


def is_own(folder):
    """Whether a folder is there that this user alone may write in."""
    try:
        found = os.lstat(folder)
    except OSError:
        return False
    return stat.S_ISDIR(found.st_mode) and found.st_uid == os.geteuid() and not found.st_mode & 0o022


def refused_folder(top):
    """The folder in which it is kept what was refused: beside the toolchain, for every clone, if that can be."""
    for folder in (os.path.join(os.path.dirname(over.toolchain()), BESIDE_KIT), os.path.join(top, REFUSED)):
        with contextlib.suppress(OSError):
            os.makedirs(folder, 0o755, exist_ok=True)
        if is_own(folder):
            return folder
    return None


class Refusals:
    """The wrong bodies that were refused, by a sum of all that the trial of each stands on."""

    def __init__(self, trees):
        self.trees, self.sums = trees, {}
        self.folder = refused_folder(trees.top)
        version = subprocess.run([checker(), "version"], capture_output=True, check=False).stdout
        texts = [read(TOOLS, it) for it in ("wrong.py", "edits.py", "answers.py", "counterexamples.py")]
        self.unshown = unshown(trees.top)
        self.all = repr((version, texts, trees.lines)).encode()

    def sum_of(self, crate):
        """The sum of a crate's sources."""
        if crate not in self.sums:
            found = hashlib.sha256()
            for part in SOURCES:
                for place, folders, names in os.walk(os.path.join(self.trees.folder(crate), part)):
                    folders.sort()
                    for name in sorted(names):
                        path = os.path.join(place, name)
                        with open(path, "rb") as file:
                            found.update(repr((os.path.relpath(path, self.trees.top), file.read())).encode())
            self.sums[crate] = found.hexdigest()
        return self.sums[crate]

    def place_of(self, edit):
        """Where it is kept that an edit was refused."""
        sums = [self.sum_of(it) for it in crates_below(self.trees.libraries, edit.crate)]
        found = hashlib.sha256(self.all + repr((*self.shown_by(edit), str(edit), edit.pairs, edit.clause, sums)).encode())
        return os.path.join(self.folder or "", found.hexdigest())

    def shown_by(self, edit):
        """What may show an edit wrong beside a proof: its test; or whether the list names it."""
        return test_of(edit), str(edit) in self.unshown

    def has(self, edit):
        """Whether an edit was refused. A file that is not whole says nothing."""
        try:
            return self.folder is not None and read(self.place_of(edit)) == self.said_of(edit)
        except (OSError, ValueError):
            return False

    def said_of(self, edit):
        """What the file of an edit that was refused has."""
        return f"{edit} was refused\n"

    def keep(self, edit):
        """Keeps that an edit was refused, if that can be done: at once or not at all."""
        place = self.place_of(edit)
        with contextlib.suppress(OSError):
            if self.folder is not None:
                new = f"{place}.{os.getpid()}"
                with open(new, "w", encoding="utf-8") as file:
                    file.write(self.said_of(edit))
                os.replace(new, place)


class Trials:
    """The trials of wrong bodies, at most so many checks at once."""

    def __init__(self, trees, log, words):
        self.trees, self.log, self.words = trees, log, words
        self.refusals = Refusals(trees)
        # The places of those that are tried, as they were when the run began.
        self.places = {}
        self.most = most_at_once(trees) if words.over else most_at_once(trees, MEMORY)
        # Over sources crates share what they prove, so one is proved after the other, by all processors.
        self.jobs, self.crates_at_once = (1, self.most) if words.over else (self.most, 1)
        self.lock = threading.Lock()
        self.changed = threading.Condition(self.lock)
        self.kit = over.toolchain()
        self.module = over.module_of(self.kit)
        self.processes, self.rooms = [], itertools.count()
        self.tried = self.count = self.passed = self.failed = 0
        self.is_stopped, self.said = False, time.monotonic()
        # The crates whose right bodies are to be proved, with their wrong bodies, how many are being proved, and how many checks run.
        self.unproved, self.proving, self.running = [], 0, 0
        # The wrong bodies that are to be tried, in groups.
        self.left = []

    def right(self, crate):
        """Where it is kept what is proved of the right bodies of a crate."""
        return os.path.join(self.trees.top, RIGHT_OVER, crate) if self.words.over else os.path.join(self.trees.top, RIGHT)

    def words_over(self, crate, *flags):
        """The checker's command for a crate over the libraries of those below it, if they are there, or else over their sources.
        A crate that does not list `core` names its items through `std`: if `core` is there, it names them otherwise, and nothing fits
        that was kept."""
        if self.words.over:
            copy = os.path.abspath(self.words.over)
            made = self.module.Crate(os.path.join(copy, "crates", crate), copy, {})
            return [os.path.join(self.kit, "bin", "rattle"), "check", *made.words(list(flags))]
        made = self.module.Crate(self.trees.folder(crate), self.trees.top, {})
        words = made.words(list(flags), as_source=True)
        listing = [it.name for it in [*made.below(), made] if "core" in it.of_kit]
        words = [it if it.partition(":")[0] in listing else it.replace(":core,", ":", 1) for it in words]
        if not listing:
            at = next(number for number, it in enumerate(words) if it.startswith("core="))
            del words[at - 1 : at + 1]
        return [os.path.join(self.kit, "bin", "rattle"), "check", *words]

    def check(self, crate, trials, folder, kept, jobs=1):
        """Checks the functions of these trials in a folder of a crate, over what is kept, and answers the status and what was said."""
        words = self.words_over(crate, "--jobs", str(jobs), "--incremental", kept)
        words += [word for name in sorted(set().union(*(it.asked for it in trials))) for word in ("--only", name)]
        how = {"stdin": subprocess.DEVNULL, "stdout": subprocess.PIPE, "stderr": subprocess.STDOUT, "start_new_session": True}
        began = time.monotonic()
        with self.lock:
            if self.is_stopped:
                return 2, "stopped"
            process = subprocess.Popen(words, cwd=folder, text=True, errors="replace", **how)
            self.processes.append(process)
        output, _ = process.communicate()
        with self.lock:
            names = ", ".join(it.edit.name for it in trials) if folder != self.trees.folder(crate) else "right bodies"
            self.log.write(f"== {crate}: {names}: {time.monotonic() - began:.0f} s, status {process.returncode}\n{output}\n")
            self.log.flush()
        return process.returncode, output

    def prove(self, crate, trials):
        """Proves the right bodies that wrong bodies of a crate stand for, and groups these. If a right one is not proved, none is tried."""
        began, right = time.monotonic(), self.right(crate)
        self.trees.give_proved(crate, right)
        for jobs in (self.jobs, 1):
            status, output = self.check(crate, trials, self.trees.folder(crate), right, jobs)
            told = told_of(output, status, crate, {})
            if told.is_read or self.is_stopped:
                break
        if told.is_read and told.is_proved:
            print(f"{crate}: the right bodies are proved, in {time.monotonic() - began:.0f} s", flush=True)
            with self.lock:
                self.left += [(crate, it) for it in passes_of(trials)]
        elif not self.is_stopped:
            for it in trials:
                self.end(it, f"cannot be tried: the right body is not proved: {told.error}", [])

    def run(self, crate, group):
        """Tries the wrong bodies of a group at once, and takes down how each ended."""
        if self.is_stopped:
            return None
        folder = self.trees.folder(crate)
        texts = texts_of(folder)
        for it in group:
            try:
                texts, _ = applied(it.edit, texts)
            except BadEdit:
                # Another edit changed its line: it is tried alone.
                return [self.put_off(crate, it) for it in group]
        room = f"{crate}-{next(self.rooms)}"
        with self.trees.room_of(crate, room, texts, self.right(crate)) as inside:
            status, output = self.check(crate, group, inside, PROVED)
        if self.is_stopped:
            return None
        naming = functools.partial(naming_of, group, folder)
        told = told_of(output, status, crate, texts, naming)
        for it in group:
            why, clauses = it.judge(told)
            if it.is_unshown:
                why = self.shown(it.edit, why, room)
            is_noted = self.words.note and clauses
            # A check that came to no end says nothing of any body.
            if why is not None and (len(group) > 1 or status not in (0, 1)) and not (it.is_last or is_noted):
                it.is_last = len(group) == 1
                self.put_off(crate, it)
            else:
                self.end(it, why, clauses)
        return None

    def shown(self, edit, why, room):
        """What is wrong with a wrong body that no proof shows to be one, or None: a test does, or it is known."""
        if is_shown(self.trees, edit, room):
            return None
        if str(edit) in self.refusals.unshown:
            print(f"warning: {edit} {why}, see {UNSHOWN}", flush=True)
            return None
        return f"{why}, and no test beside it shows it"

    def put_off(self, crate, trial):
        """Takes down that a wrong body is to be tried alone."""
        with self.lock:
            self.left.append((crate, [trial]))

    def end(self, trial, why, clauses):
        """Takes down and says how a wrong body ended."""
        with self.lock:
            if why is not None and clauses and self.words.note:
                note_clause(self.trees.top, trial.edit, best_of(clauses))
                print(f"{trial.edit}: noted {best_of(clauses)} of {', '.join(clauses)}", flush=True)
                why = None
            elif why is None:
                print(f"{trial.edit}: refused by {trial.edit.clause}", flush=True)
                if str(trial.edit) in self.refusals.unshown and not trial.is_unshown:
                    print(f"warning: a proof shows {trial.edit} wrong, and {UNSHOWN} names it", flush=True)
                self.keep(trial.edit)
            else:
                print(f"{trial.edit} {why}", flush=True)
            self.tried += 1
            self.passed, self.failed = self.passed + (why is None), self.failed + (why is not None)
            if time.monotonic() - self.said >= QUIET_SECONDS:
                print(f"  {self.tried} of {self.count} wrong bodies tried", flush=True)
                self.said = time.monotonic()

    def keep(self, edit):
        """Keeps that an edit was refused, unless what its trial stands on has changed meanwhile."""
        self.refusals.sums.clear()
        if self.refusals.place_of(edit) == self.places.get(edit):
            self.refusals.keep(edit)

    def try_all(self, trials):
        """Tries the wrong bodies of crates: those of one once its right bodies are proved; some at a time, and each that is not
        settled alone."""
        self.count = sum(len(found) for found in trials.values())
        self.places = {it.edit: self.refusals.place_of(it.edit) for found in trials.values() for it in found}
        for it in [it for found in trials.values() for it in found if it.why]:
            self.end(it, it.why, [])
        ready = {crate: [it for it in found if not it.why] for crate, found in trials.items()}
        # The checks with most to prove come last here, and so first.
        self.unproved = sorted(((crate, it) for crate, it in ready.items() if it), key=lambda it: work_of(self.trees.folder(it[0])))
        with ThreadPoolExecutor(self.most) as pool:
            working = [pool.submit(self.work) for _ in range(self.most)]
            try:
                for done in working:
                    done.result()
            except KeyboardInterrupt:
                self.stop()
                raise

    def work(self):
        """Makes one check after the other, until none is left."""
        while (found := self.take()) is not None:
            check, crate, trials = found
            try:
                check(crate, trials)
            finally:
                with self.changed:
                    self.running -= 1
                    self.proving -= check == self.prove
                    self.changed.notify_all()

    def take(self):
        """The check to be made next: of right bodies, else of a group; None once none is left and none that runs may leave more."""
        with self.changed:
            while not self.is_stopped:
                if self.unproved and self.proving < self.crates_at_once:
                    self.running, self.proving = self.running + 1, self.proving + 1
                    return self.prove, *self.unproved.pop()
                # Over sources right bodies take all processors.
                if self.left and (self.words.over or not self.proving):
                    self.running += 1
                    self.left.sort(key=lambda it: len(it[1]))
                    return self.run, *self.left.pop()
                if self.running == 0:
                    return None
                self.changed.wait()
        return None

    def stop(self):
        """Ends the checks that run."""
        with self.changed:
            self.is_stopped = True
            self.changed.notify_all()
            for process in self.processes:
                # It has copies of itself at work.
                with contextlib.suppress(ProcessLookupError):
                    if process.returncode is None:
                        os.killpg(process.pid, signal.SIGTERM)


def best_of(clauses):
    """The clause to note of those that refused an edit: one of the function's own contract, if one did."""
    return min(clauses, key=lambda it: " " in it or it.startswith(("loop", "invariant_of")))


def chosen(trees, names, is_all):
    """The wrong bodies to try of these crates and edits, by crate, and what is wrong with the list and the names."""
    lines = listed(trees.top)
    of_gate = {name for name, (is_tried, _) in lines.items() if is_tried}
    found, there = {}, set()
    for crate in trees.libraries:
        edits = edits_of(trees.folder(crate))
        there |= {crate, *map(str, edits)}
        of_all = [it for it in edits if is_all or str(it) in of_gate] if not names or crate in names else []
        found[crate] = [it for it in edits if it in of_all or str(it) in names]
    wrong = [f"{LIST} names {it}, and there is no such wrong body" for it in sorted(set(lines) - there)]
    wrong += [f"{UNSHOWN} names {it}, and there is no such wrong body" for it in sorted(unshown(trees.top) - there)]
    wrong += [f"there is no crate and no wrong body {it}" for it in names if it not in there]
    return {crate: edits for crate, edits in found.items() if edits}, wrong


def trials_of(trees, edits):
    """The trials of wrong bodies, by crate."""
    texts = {crate: texts_of(trees.folder(crate)) for crate in edits}
    return {crate: [Trial(it, texts[crate]) for it in found] for crate, found in edits.items()}


def words_of():
    """The words of the command line."""
    words = argparse.ArgumentParser(description=__doc__.split("\n", 1)[0])
    words.add_argument("--all", action="store_true")
    words.add_argument("--note", action="store_true")
    words.add_argument("--anew", action="store_true")
    words.add_argument("--over")
    words.add_argument("names", nargs="*")
    return words.parse_args()


def try_them(top, place, words):
    """Tries the wrong bodies that are asked for, and answers how many passed and failed."""
    trees = Trees(top, place)
    edits, wrong = chosen(trees, words.names, words.all)
    refused = refused_before(trees, edits, words)
    for line in wrong:
        print(line, flush=True)
    with open(os.path.join(top, LOG), "w", encoding="utf-8") as log:
        run = Trials(trees, log, words)
        run.try_all(trials_of(trees, edits))
    return refused + run.passed, run.failed + len(wrong)


def refused_before(trees, edits, words):
    """Takes out the edits that an earlier run found refused, says them, and answers how many."""
    refusals = Refusals(trees)
    count = 0
    for crate, found in list(edits.items()) if not (words.anew or words.note) else []:
        earlier = [it for it in found if refusals.has(it)]
        for it in earlier:
            doubt = f"; see {UNSHOWN}" if str(it) in refusals.unshown else ""
            print(f"{it}: refused by {it.clause}, as an earlier run found{doubt}", flush=True)
        edits[crate] = [it for it in found if it not in earlier]
        count += len(earlier)
        if not edits[crate]:
            del edits[crate]
    return count


def main():
    words = words_of()
    top = os.getcwd()
    place = os.path.join(top, "bin", "rooms")
    why = missing(Trees(top, place), [])
    if why is not None:
        sys.exit(f"No wrong body can be tried: {why}")
    os.makedirs(place, exist_ok=True)
    for it in (signal.SIGTERM, signal.SIGHUP):
        signal.signal(it, interrupt)
    try:
        with alone_now(place):
            try:
                passed, failed = try_them(top, place, words)
            finally:
                shutil.rmtree(place)
    except BlockingIOError:
        sys.exit("Wrong bodies are tried in this folder already.")
    except KeyboardInterrupt:
        sys.exit("\nThe trial of wrong bodies was stopped.")
    print(f"{passed} passed, {failed} failed")
    sys.exit(1 if failed else 0)


if __name__ == "__main__":
    main()
