"""Tests that show a wrong body to be one.

Beside a wrong body `must-fail/NAME.edit` of a crate may lie `must-fail/NAME.test`, a file of the crate's code with a test. It
passes on the right body and fails on the wrong one, as the checker runs both without a proof.
"""

import re
import subprocess

from build import checker
from edits import applied, test_of, texts_of

MODULE = "counterexample"
ENDED = re.compile(rf"^test {MODULE}::\S+ \.\.\. (ok|FAILED)$", re.MULTILINE)


def is_shown(trees, edit, room):
    """Whether the test beside a wrong body shows it. Both bodies are tried in a room of this name."""
    test = test_of(edit)
    if test is None:
        return False
    texts = texts_of(trees.folder(edit.crate))
    bodies = texts, applied(edit, texts)[0]
    right, failed = (ends_of(trees, edit.crate, with_test(it, test), room) for it in bodies)
    return set(right) == {"ok"} and "FAILED" in failed


def with_test(texts, test):
    """The texts of a crate's code, with a test."""
    root = next(it for it in ("src/lib.rt", "src/main.rt") if it in texts)
    return {**texts, root: f"{texts[root]}\nmod {MODULE};\n", f"src/{MODULE}.rt": test}


def ends_of(trees, crate, texts, room):
    """How the tests of the file ended, on a crate with these texts."""
    how = {"stdin": subprocess.DEVNULL, "stdout": subprocess.PIPE, "stderr": subprocess.STDOUT}
    with trees.room_of(crate, room, texts) as folder:
        ran = subprocess.run([checker(), "try", "--test"], cwd=folder, text=True, errors="replace", check=False, **how)
    return ENDED.findall(ran.stdout)
