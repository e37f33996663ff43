#!/usr/bin/env python3
"""What `make release` looks for before it builds, and what it writes once it has built.

    tools/publish.py ready                     whether this tree may be released: one line says why not
    tools/publish.py sums OBJECT LIBRARY       writes release/SHA256SUMS, the sums of the objects that were built
    tools/publish.py compare OBJECT LIBRARY    whether objects are those of the release, if the sources are

A tree is ready if all of it is committed, its version is that of a release, and the gate passed on it with the crates of
tests proved, but for release/SHA256SUMS. A version that was released keeps its sources and its objects: if these are
others, it is refused.
"""

import os
import re
import sys

from gate import PASSED
from link import archives
from package import NAME, TOP, version
from release import SUMS, Missing, heading, is_of_release, read_all, released, sums_of
from trees import commit_of, git, uncommitted

# Three numbers, without what a version of development adds.
RELEASE = re.compile(r"\d+\.\d+\.\d+")
# All files but the sums, which the release itself writes.
REST = (".", f":(exclude){SUMS}")


def released_before():
    """The sums of this version's objects, if it was released at an earlier commit, or else an empty text."""
    texts = (git(TOP, "show", f"{it}:{SUMS}") for it in git(TOP, "log", "--format=%H", "--", SUMS).split())
    return next((it for it in texts if it.startswith(heading(version()))), "")


def is_passed():
    """Whether the gate passed with the crates of tests proved, and nothing but the sums changed since."""
    try:
        with open(os.path.join(TOP, PASSED), encoding="utf-8") as file:
            commit, *how = file.read().split()
    except OSError:
        return False
    is_known = git(TOP, "rev-parse", "--verify", f"{commit}^{{commit}}") != ""
    return how == ["proved"] and is_known and not git(TOP, "diff", "--name-only", commit, "HEAD", "--", *REST)


def unready():
    """Why this tree cannot be released, or None if it can."""
    if not git(TOP, "rev-parse", "--verify", "HEAD"):
        return "this is no git checkout"
    if not commit_of(TOP):
        return f"{uncommitted(TOP)} is not as it is committed"
    if not RELEASE.fullmatch(version()):
        return f"{version()} is a version of development, and a release has three numbers"
    if released_before() and not is_of_release():
        return f"{version()} was released of other sources: give these a version of their own"
    return None if is_passed() else "the gate has not passed on this commit: run make test TESTS=proved"


def write_sums(program, library):
    """Writes the sums of the objects that were built, and answers why they cannot be those of this version."""
    sums, before = sums_of(read_all([program, library, *archives()])), released_before()
    if before and before != sums:
        return f"{version()} was released with other objects: give these a version of their own"
    with open(os.path.join(TOP, SUMS), "w", encoding="utf-8") as file:
        file.write(sums)
    return None


def compare(program, library):
    """Says whether the objects that were built are those of the release, and answers which are not."""
    if not is_of_release():
        print(f"These are not the sources of the release whose sums {SUMS} has.")
        return None
    sums = sums_of(read_all([program, library, *archives()])).splitlines()
    others = [it.split()[-1] for it in sums if it not in released().splitlines()]
    if not others:
        print(f"The objects are those of {NAME} {version()}.")
    return f"not as {SUMS} has it: {', '.join(others)}" if others else None


def main():
    kind, *words = sys.argv[1:] or [""]
    steps = {("ready", 0): unready, ("sums", 2): write_sums, ("compare", 2): compare}
    if (kind, len(words)) not in steps:
        sys.exit(__doc__)
    try:
        why = steps[kind, len(words)](*words)
    except Missing as fault:
        why = fault
    sys.exit(why and f"No release of {NAME}: {why}")


if __name__ == "__main__":
    main()
