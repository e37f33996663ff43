#!/usr/bin/env python3
"""A checker that proves nothing: it works alone in the folders that the real one works alone in, notes what
it was told in the file that the environment's JOURNAL names, and keeps what the real one keeps.

The environment's MEET names crates that wait for each other in the midst of their checks, FAIL a crate that
is not proved, and HANG crates that are not done before they are ended. `check`, which the toolchain's own command is told, goes by
the first word of a function's body: see WAYS. `ci` is the crate of that name, adds a line to the file that CHANGE names, proves none of
the crates that LEFT_OUT names, and those of TWICE once more. The tests of a crate with the word `heedless` are not proved.
"""

import fcntl
import os
import sys
import time

JOURNAL = os.environ["JOURNAL"]
# How long a check waits for another, or hangs.
SECONDS = 300


def named(variable):
    """The crates that a variable of the environment names."""
    return os.environ.get(variable, "").split()


def note(*words):
    """Adds a line to the journal."""
    with open(JOURNAL, "a", encoding="utf-8") as file:
        file.write(" ".join(map(str, words)) + "\n")


def wait_while(holds):
    """Waits while something holds, for a long time at most. If who began this check is gone, so is the check."""
    parent, end = os.getppid(), time.monotonic() + SECONDS
    while holds() and time.monotonic() < end:
        if os.getppid() != parent:
            sys.exit(1)
        time.sleep(0.01)


def begun():
    """The crates whose checks have begun."""
    with open(JOURNAL, encoding="utf-8") as file:
        return {line.split()[1] for line in file if line.startswith("begins ")}


def listed_in(top):
    """The crates of a repository, and those that each lists."""
    with open(os.path.join(top, "crates.txt"), encoding="utf-8") as file:
        pairs = [line.split(":") for line in file if not line.startswith("#")]
    libraries = {crate.split()[0]: names.split() for crate, names in pairs}
    return {crate: [it for it in names if it in libraries] for crate, names in libraries.items()}


def below(crate, libraries):
    """The crates that a crate stands on."""
    found = set()
    for it in libraries[crate]:
        found |= {it, *below(it, libraries)}
    return found


def take(crate):
    """Takes the locks of the crate and of those below, whose libraries it needs."""
    held = []
    lower = below(crate, listed_in(os.path.join("..", "..")))
    for it in sorted([crate, *lower]):
        held.append(os.open(os.path.join("..", it), os.O_RDONLY))
        try:
            fcntl.flock(held[-1], fcntl.LOCK_EX | fcntl.LOCK_NB)
        except OSError:
            note("waits", crate, it)
    for it in lower:
        with open(os.path.join("..", it, "out", "rlib", "library"), encoding="utf-8") as file:
            assert file.read() == it
        assert not os.path.exists(os.path.join("..", it, "out", "incremental")) or "trees" not in os.getcwd()
    return held


def prove(crate, words):
    """What the checker does with a crate."""
    held = take(crate)
    kept = os.path.join("out", "incremental")
    note("begins", crate, *words)
    if os.path.isdir(kept):
        note("has", crate)
    os.makedirs(kept, exist_ok=True)
    print("so far: 1 of 2 functions checked", flush=True)
    meets = named("MEET")
    wait_while(lambda: crate in meets and not begun().issuperset(meets))
    wait_while(lambda: crate in named("HANG"))
    if crate in named("FAIL"):
        print(f"{os.getcwd()}/src/lib.rt:1:1: error: not so")
        return 1
    os.makedirs(os.path.join("out", "rlib"), exist_ok=True)
    for name in (os.path.join("rlib", "library"), crate, f"lib{crate}.a"):
        with open(os.path.join("out", name), "w", encoding="utf-8") as file:
            file.write(crate)
    note("ends", crate, len(held))
    return 0


# What is said of a function whose body begins with a word, with its name, the body's second word and the line.
STORED = "./proofs/{name}/Answers.antt:4:9: error: `returns-then-some-clause-{clause}`: expected type `⊥`"
SEARCHED = "note: src/lib.rt:{line}:5: it is not proved that it holds when it returns (`returns-clause-{clause}-2`)"
LOST = "./proofs/{name}/Answers.antt:2:9: error: `returns-clause-{clause}`: module `Goals` has no `returns-clause-{clause}`"
WAYS = {"right": [], "stored": [STORED], "searched": [SEARCHED], "lost": [LOST], "renamed": [LOST, SEARCHED]}
# After these a check comes to no end, or the checker cannot tell: its status, and whether its last line is there.
BROKEN = {"cut": (1, False), "killed": (-9, False), "limit": (3, True)}


def body_of(function):
    """The words of a function's body, and its line."""
    with open(os.path.join("src", "lib.rt"), encoding="utf-8") as file:
        lines = file.read().splitlines()
    at = next(number for number, line in enumerate(lines) if line.startswith(f"fn {function}("))
    return lines[at + 2].split(), at + 3


def keep(place, functions):
    """Keeps what was proved, as the checker does: under another name first. In a room it replaces all that was kept."""
    is_room = "rooms" in os.getcwd().split(os.sep)
    os.makedirs(place, exist_ok=True)
    for name in [*os.listdir(place), "of_this_check"] if is_room else [f"{it}.Proof.oantt" for it in functions]:
        with open(os.path.join(place, "new"), "w", encoding="utf-8") as file:
            file.write("another" if is_room else name)
        os.replace(os.path.join(place, "new"), os.path.join(place, name))
    return is_room


def check(crate, words):
    """Says which functions are not proved, and answers the status."""
    told = {word: [after for it, after in zip(words, words[1:]) if it == word] for word in ("--only", "--incremental", "--extern")}
    functions = [it.removeprefix(f"{crate}::") for it in told["--only"]]
    is_room = keep(os.path.join(told["--incremental"][0], "a-kit"), functions)
    note("checks" if is_room else "rights", crate, *functions)
    if told["--extern"]:
        note("over", crate, *told["--extern"])
    wait_while(lambda: named("HANG") == ["checks" if is_room else "rights"])
    note("ends", crate)
    bodies = {it: body_of(it) for it in functions}
    unread = [it for it, (body, _) in bodies.items() if body[0] not in [*WAYS, *BROKEN, "waits"]]
    if unread:
        print(f"src/lib.rt:1:1: error: `{bodies[unread[0]][0][0]}` is no word")
        return 1
    others = [it for it, (body, _) in bodies.items() if body[0] not in ("right", "waits")]
    wrong = [it for it, (body, _) in bodies.items() if body[0] != "right"]
    status, has_end = 1 if wrong else 0, True
    for name in wrong:
        (way, clause, *_), line = bodies[name]
        status, has_end = BROKEN.get(way, (status, has_end))
        # Of a function that calls a wrong one nothing is known.
        said = WAYS.get(way, [STORED]) if way != "waits" else [] if others else [STORED]
        for it in said:
            print(it.format(name=name, clause=clause, line=line))
    for name in functions:
        print(f"fn {crate}::{name}: {'not proved' if name in wrong else 'proved'}")
    if has_end:
        print(f"only={len(functions)} proved={len(functions) - len(wrong)}")
    sys.stdout.flush()
    if status < 0:
        os.kill(os.getpid(), -status)
    return status


def try_tests():
    """Says how the tests of a file end, each of whose lines has a test's name and a word: if the code has that, it fails."""
    with open(os.path.join("src", "lib.rt"), encoding="utf-8") as file:
        code = file.read()
    note("tries", os.path.basename(os.getcwd()))
    if "mod counterexample;" in code:
        with open(os.path.join("src", "counterexample.rt"), encoding="utf-8") as file:
            for name, word in map(str.split, file):
                print(f"test counterexample::{name} ... {'FAILED' if word in code.split() else 'ok'}")
    return 0


def is_heedless(crate):
    """Whether a crate has a test that does not keep a `requires`."""
    path = os.path.join("crates", crate, "src", "lib.rt")
    if not os.path.isfile(path):
        return False
    with open(path, encoding="utf-8") as file:
        return "heedless" in file.read()


def gate():
    """What the checker's own gate does at the top of a repository."""
    note("begins", "ci", *sorted(os.listdir(".")))
    note("words", *sys.argv[1:])
    note("files", *sorted(os.path.relpath(os.path.join(place, it), ".") for place, _, names in os.walk(".") for it in names))
    with open(os.environ.get("CHANGE", os.devnull), "a", encoding="utf-8") as file:
        file.write("changed\n")
    wait_while(lambda: "ci" in named("HANG"))
    crates = [it for it in listed_in(".") if it not in named("LEFT_OUT")] + named("TWICE")
    for crate in crates:
        os.makedirs(os.path.join("crates", crate, "out"), exist_ok=True)
        with open(os.path.join("crates", crate, "out", f"{crate}_tests"), "w", encoding="utf-8") as file:
            file.write("tests")
        print(f"rt: {crate} {'NOT PROVED' if crate in named('FAIL_CI') else 'proved'}", flush=True)
    heedless = [it for it in crates if is_heedless(it)]
    for crate in heedless:
        print(f"rt: {crate}: its tests are NOT PROVED", flush=True)
    failed = len(named("FAIL_CI") + heedless)
    note("ends", "ci")
    print(f"{len(crates) - failed} passed, {failed} failed")
    return 1 if failed else 0


if sys.argv[1] == "version":
    print(os.environ.get("VERSION", "a-kit logic 1234"))
elif sys.argv[1] == "doc":
    # The folder of the toolchain is in the one that the variable KITS names, if it names one.
    print(os.path.join(os.environ["KITS"], "kit", "START.md") if "KITS" in os.environ else "")
elif sys.argv[1] == "ci":
    sys.exit(gate())
elif sys.argv[1:] == ["try", "--test"]:
    sys.exit(try_tests())
elif sys.argv[1] == "check":
    sys.exit(check(os.path.basename(os.getcwd()), sys.argv[2:]))
else:
    sys.exit(prove(os.path.basename(os.getcwd()), sys.argv[1:]))
