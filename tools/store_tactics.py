#!/usr/bin/env python3
"""Stores the tactic that proves an expensive goal, and takes out what no longer gains.

    tools/store_tactics.py CRATE [FUNCTION ..]

CRATE is a crate that a check has proved, as cdb_form, and FUNCTION its functions by their folders, as
text/line/read_line; all if none is named. A goal without an answer in its function's Answers.antt is tried by
`search`, which reads every fact of every step, and then by `grind`. With `grind (arith, common_steps)` stored the
search is spared. So each goal of LEAST steps and more gets that answer in a copy, each answer of that text there is
left out of another, and both copies are checked. An answer that gains LEAST steps and a quarter, with what it adds to
each check of the function, is stored; one that gains fewer is taken out. The last line has the steps before and after.
"""

import collections
import os
import re
import subprocess
import sys
from pathlib import Path

from build import checker
from slow_goals import proofs_of
from trees import KEPT, PROVED, Trees

LEAST, SHARE = 500_000, 0.25
RECORD = re.compile(r"Rattle-\w+-proofs\.(.+)\.(Proof|Answers|Goals|Lts\.View)\.decls\.oantt")
TACTIC = "grind (arith, common_steps)"
STORED = re.compile(rf"\n\npub (\S+) : goal\.\1\n\1 g(?: c)? = {re.escape(TACTIC)}\n")
FAILED = re.compile(r"proofs/(\S+)/Answers\.antt:\d+:\d+: error: `([^`]+)`")
IMPORTS = {"Common": "arith", "lemmas.Grind": "common_steps"}


def steps_of(folder):
    """The steps of each function's goals by the kind of module, and the goals that a search was begun for."""
    steps, searched = collections.defaultdict(collections.Counter), set()
    for record in sorted(Path(folder, KEPT).glob("incremental/*/records/*.oantt"), key=lambda it: it.stat().st_mtime):
        found = RECORD.fullmatch(record.name)
        for it in proofs_of(record) if found else ():
            function, kind = found[1].replace(".", "/"), found[2]
            steps[function, kind][it["name"]] = sum(it["steps"])
            calls = [call[0] for call in it.get("calls") or [] if call[0] != "first_of"]
            if kind == "Proof" and calls[:1] == ["search"]:
                searched.add((function, it["name"]))
    return steps, searched


def with_answers(crate, text, function, goals):
    """The text of a function's answers with one for each of these goals."""
    module = f"use Rattle.{crate}.proofs.{function.replace('/', '.')}.Goals as goal\n"
    text = text or module
    for path, name in IMPORTS.items():
        head = f"use Rattle.std.proofs.{path}."
        if not re.search(rf"{re.escape(head)}\{{[^}}]*\b{name}\b", text):
            old = f"{head}{{"
            text = text.replace(old, f"{old}{name}, ", 1) if old in text else f"{head}{{{name}}}\n{text}"
    return text.rstrip("\n") + "\n" + "".join(f"\npub {it} : goal.{it}\n{it} g c = {TACTIC}\n" for it in goals)


def checked(trees, crate, texts):
    """Checks a copy of a crate with these texts of answers: its steps, and the answers that failed."""
    with trees.room_of(crate, f"{crate}-tactics", texts, os.path.join(trees.folder(crate), PROVED)) as folder:
        words = [checker(), "check", "--jobs", "2", "--allow-holes"]
        ran = subprocess.run(words, cwd=folder, capture_output=True, text=True, errors="replace", check=False)
        return steps_of(folder)[0], set(FAILED.findall(ran.stdout + ran.stderr))


def cost(steps, function, goals):
    """What the answers of a function add to each of these goals, beside their own steps."""
    return sum(sum(steps[function, it].values()) for it in ("Goals", "Lts.View")) / max(1, goals)


def main(words):
    if len(words) < 2:
        sys.exit(__doc__)
    crate, named = words[1], words[2:]
    trees = Trees(os.getcwd(), os.path.join("bin", "rooms"))
    answers = {it: Path(trees.folder(crate), "proofs", it, "Answers.antt") for it in functions_of(trees, crate, named)}
    before, searched = steps_of(trees.folder(crate))
    texts = {it: path.read_text(encoding="utf-8") if path.is_file() else "" for it, path in answers.items()}
    stored = {(it, goal) for it, text in texts.items() for goal in STORED.findall(text)}
    dear = {(it, goal) for it in texts for goal, n in before[it, "Proof"].items() if n >= LEAST} & searched - stored
    goals = {it: sorted(goal for function, goal in dear if function == it) for it in texts}
    more = {it: with_answers(crate, texts[it], it, found) for it, found in goals.items() if found}
    fewer = {it: STORED.sub("", text) for it, text in texts.items() if STORED.search(text)}
    with_all, failed = checked(trees, crate, {f"proofs/{it}/Answers.antt": text for it, text in more.items()})
    without, _ = checked(trees, crate, {f"proofs/{it}/Answers.antt": text for it, text in fewer.items()})
    gained = taken = 0
    for it, path in answers.items():
        each = max(0, cost(with_all, it, len(goals[it])) - cost(before, it, len(goals[it])))
        kept = []
        for goal in goals[it]:
            old, new = before[it, "Proof"][goal], with_all[it, "Answers"][goal] + each
            if (it, goal) not in failed and old - new > max(LEAST, SHARE * old):
                kept.append(goal)
                gained += old - new
        text = with_answers(crate, texts[it], it, kept) if kept else texts[it]
        for goal in STORED.findall(texts[it]):
            old, new = before[it, "Answers"][goal], without[it, "Proof"][goal]
            if 0 < new < old + LEAST:
                text = re.sub(STORED.pattern.replace(r"(\S+)", f"({re.escape(goal)})", 1), "\n", text)
                taken += old - new
        if text != texts[it]:
            path.parent.mkdir(parents=True, exist_ok=True)
            path.write_text(text, encoding="utf-8")
            print(f"{it}: {len(kept)} stored")
    print(f"{crate}: {gained / 1e6:.1f} M steps less by what is stored, {taken / 1e6:.1f} M by what is taken out; check it now")


def is_there(folder, function):
    """Whether the module of a function is there still: records stay of what was moved away."""
    parts = function.split("/")
    return any(Path(folder, "src", *parts[:n]).with_suffix(".rt").is_file() for n in range(1, len(parts)))


def functions_of(trees, crate, named):
    """The functions of a crate that are named, or all of which something was proved."""
    folder = trees.folder(crate)
    found = sorted({function for function, _ in steps_of(folder)[0]})
    return [it for it in found if is_there(folder, it) and (not named or it in named)]


if __name__ == "__main__":
    main(sys.argv)
