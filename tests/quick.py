#!/usr/bin/env python3
"""Runs the tests that need no proof and no program that is built, as many at once as the machine can.

    tests/quick.py

The checker, which is the command in the environment's RT, else `rt`, compiles the program and each crate of
tests without a proof and runs them. These parts need the program that make builds, and are left out: what a
command leaves in files, examples of the pages, kills, refused memory and calls of the system, the packages, and
the C library. So is a test of a crate that takes longer than a quarter of a minute. The last line counts all that passed
and failed.
"""

import os
import re
import shutil
import subprocess
import sys
import time
from concurrent.futures import ThreadPoolExecutor, as_completed

TOP = os.path.join(os.path.dirname(os.path.abspath(__file__)), "..")
COUNTED = re.compile(r"^(?:test result: .*?)?(\d+) passed[,;] (\d+) failed", re.MULTILINE)
# What the checker says of a test that takes too long.
TOO_LONG = re.compile(r"^test (\S+) \.\.\. FAILED\n.*no-answer: the program did not end within", re.MULTILINE)
# What a part says of a row that it leaves out.
LEFT_OUT = re.compile(r"^left out: .*\n", re.MULTILINE)
SECONDS = 15
# How much memory a part takes at most.
MEMORY = 2 << 30
# On more processors than these the program is compiled twice for its table of cases.
FEW = 2


def checker():
    """The checker's command."""
    return os.environ.get("RT") or "rt"


def size_of(crate):
    """The size of a crate's code."""
    found = 0
    for place, _, names in os.walk(os.path.join(TOP, "crates", crate, "src")):
        found += sum(os.path.getsize(os.path.join(place, it)) for it in names)
    return found


def has_tests(crate):
    """Whether a crate has tests."""
    for place, _, names in os.walk(os.path.join(TOP, "crates", crate, "src")):
        for name in names:
            with open(os.path.join(place, name), encoding="utf-8") as file:
                if "#[test]" in file.read():
                    return True
    return False


def parts(at_once):
    """The parts, the long ones first, where so many run at once: a name, the words, and the folder to run them in."""
    python = [sys.executable]
    # These wait more than they work.
    found = [(it, [*python, it], TOP) for it in ("tests/build/run.py", "tests/build/gate.py")]
    of = 2 if at_once > FEW else 1
    halves = [["tests/cli/unproved.py", str(it + 1), str(of)] for it in range(of)]
    found += [(" ".join(it), python + it, TOP) for it in halves]
    crates = [it for it in os.listdir(os.path.join(TOP, "crates")) if has_tests(it)]
    for crate in sorted(crates, key=size_of, reverse=True):
        found.append((f"tests of {crate}", [checker(), "try", "--test"], os.path.join(TOP, "crates", crate)))
    found.append(("make try", ["sh", "demo/try.sh"], TOP))
    for script in ("tests/docs/check.py", "tests/package/version.py"):
        found.append((script, [*python, script], TOP))
    return found


def run(part):
    """Runs a part, and gives how many of it passed and failed, and what to say."""
    name, words, folder = part
    began = time.monotonic()
    how = {"stdin": subprocess.DEVNULL, "stdout": subprocess.PIPE, "stderr": subprocess.STDOUT}
    how["env"] = {**os.environ, "RT_SECONDS": str(SECONDS)}
    done = subprocess.run(words, cwd=folder, text=True, errors="replace", check=False, **how)
    counted = COUNTED.findall(done.stdout)
    passed, failed = map(int, counted[-1]) if counted else (int(done.returncode == 0), 0)
    left_out = TOO_LONG.findall(done.stdout)
    failed -= len(left_out)
    # A part that ends early has failed, whatever it counted.
    if done.returncode != 0 and not left_out:
        failed = max(failed, 1)
    short = [*LEFT_OUT.findall(done.stdout), *(f"left out, as it takes too long: {it}\n" for it in left_out)]
    said = done.stdout if failed else "".join(short)
    return passed, failed, f"{said}{name}: {passed} passed, {failed} failed, {time.monotonic() - began:.0f} s"


def main():
    if len(sys.argv) != 1:
        sys.exit(__doc__)
    if shutil.which(checker()) is None:
        sys.exit(f"The tests cannot be compiled: the Rattle toolchain is not there: no command {checker()}")
    began = time.monotonic()
    memory = os.sysconf("SC_PAGE_SIZE") * os.sysconf("SC_PHYS_PAGES")
    at_once = max(1, min(len(os.sched_getaffinity(0)), memory // MEMORY))
    passed = failed = 0
    with ThreadPoolExecutor(at_once) as pool:
        for part in as_completed([pool.submit(run, it) for it in parts(at_once)]):
            good, bad, said = part.result()
            passed, failed = passed + good, failed + bad
            print(said, flush=True)
    print("left out: what a proved program is needed for; run make, and make tests")
    print(f"These tests took {time.monotonic() - began:.0f} s.")
    print(f"{passed} passed, {failed} failed")
    sys.exit(1 if failed else 0)


if __name__ == "__main__":
    main()
