#!/usr/bin/env python3
"""Lists the goals that a check of a crate took longest to prove, and the functions with most states.

    tools/slow_goals.py CRATE [COUNT]

CRATE is a crate's folder in which `rt check` has run, as crates/cdb_form, and COUNT how many goals
to list, 20 if left out. Each line has the steps of the search and of the proof's own check, the
function, and the goal. A goal that has no answer in the function's `Answers.antt` is tried by one
tactic after the other; the one that proves it, stored there, often takes a fifth of the steps.
Then come the functions of whose states for the borrow rules the checker wrote most: a megabyte takes
about a second and has no steps. Fewer paths through a function make fewer states.

It reads the records that the checker keeps beside its work. Their form is the checker's own, and a
newer one may have another: then nothing is listed.
"""

import collections
import json
import pathlib
import re
import sys

# A record is a file with the modules' bytes, and in it a list of what each proof in it took.
BEGINS = re.compile(rb'\[\{"aux":')
MODULE = re.compile(r"Rattle-\w+-proofs\.(.+)\.(?:Proof|Answers)\.decls\.oantt")
STATES = re.compile(r"Rattle-\w+-proofs\.(.+)\.Lts\.oantt")
SHOWN_GOALS, SHOWN_STATES = 20, 10


def proofs_of(record):
    """Gives what a record tells of each proof: a table with its name and its steps."""
    data = record.read_bytes()
    for begin in BEGINS.finditer(data):
        text = data[begin.start() :].decode("latin-1")
        try:
            yield from json.JSONDecoder().raw_decode(text)[0]
        except ValueError:
            continue


def goals_of(crate):
    """Counts the steps of each goal, by its function and its name."""
    steps = collections.Counter()
    for record in crate.glob("out/incremental/*/records/*.oantt"):
        module = MODULE.fullmatch(record.name)
        if module:
            for proof in proofs_of(record):
                goal = module[1], proof["name"]
                steps[goal] = max(steps[goal], sum(proof["steps"]))
    return steps


def states_of(crate):
    """How many bytes the checker wrote of each function's states."""
    found = collections.Counter()
    for kept in crate.glob("out/incremental/*/*.Lts.oantt"):
        found[STATES.fullmatch(kept.name)[1]] = kept.stat().st_size
    return found


def main(words):
    """Lists the goals of a crate by their steps, the most first, and its functions by their states."""
    if not 2 <= len(words) <= 3:
        print(__doc__)
        return 2
    goals = goals_of(pathlib.Path(words[1]))
    if not goals:
        print("no record of a check is there: run rt check in the crate's folder first")
        return 1
    count = int(words[2]) if len(words) == 3 else SHOWN_GOALS
    for (function, goal), steps in goals.most_common(count):
        print(f"{steps:>10,}  {function}: {goal}")
    print(f"{sum(goals.values()):>10,}  steps of all {len(goals)} goals")
    states = states_of(pathlib.Path(words[1]))
    for function, size in states.most_common(SHOWN_STATES):
        print(f"{size / 1e6:>10.1f}  megabytes of states: {function}")
    print(f"{sum(states.values()) / 1e6:>10.1f}  megabytes of states of all {len(states)} functions")
    return 0


if __name__ == "__main__":
    sys.exit(main(sys.argv))
