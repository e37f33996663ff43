"""Whether the toolchain's checker takes what is kept of a proof for the proof of something else."""

import glob
import os
import shutil
import subprocess
import sys
import tempfile
import time

sys.path.append(os.path.join(os.path.dirname(os.path.abspath(__file__)), "..", "cli"))

from rows import leave_out  # noqa: E402

SOURCE = """//! Two numbers.
#![tactic(auto)]
ghost use Rattle.std.specs.Prelude.{{◌≡◌}};

/// One.
pub fn one() -> u64
    ensures {{ result ≡ 1 }}
{{
    1
}}

/// Two.
pub fn two() -> u64
    ensures {{ result ≡ 2 }}
{{
    {}
}}
"""
FILES = {"HANDLES": "Handles allowed: none.\n", "crates.txt": "small:\n"}
ROWS = ("right", "later than the source", "another function's")
AN_HOUR = 3600


def proves(top, number):
    """Whether the checker proves the crate whose second function answers a number."""
    folder = os.path.join(top, "crates", "small")
    with open(os.path.join(folder, "src", "lib.rt"), "w", encoding="utf-8") as file:
        file.write(SOURCE.format(number))
    words = [os.environ.get("RT") or "rt", "check"]
    done = subprocess.run(words, cwd=folder, stdout=subprocess.PIPE, stderr=subprocess.STDOUT, text=True, check=False)
    return "logic=proved" in done.stdout


def planted(_):
    """A wrong body is refused whatever is kept: right modules that are newer than its source, or those of a right function
    under the names of a wrong one's. A right body is proved again then."""
    if shutil.which(os.environ.get("RT") or "rt") is None:
        for row in ROWS:
            leave_out(f"planted: {row}", "the Rattle toolchain")
        return
    with tempfile.TemporaryDirectory() as top:
        os.makedirs(os.path.join(top, "crates", "small", "src"))
        os.mkdir(os.path.join(top, ".git"))
        for name, text in FILES.items():
            with open(os.path.join(top, name), "w", encoding="utf-8") as file:
                file.write(text)
        yield "right", proves(top, 2)
        kept = glob.glob(os.path.join(top, "crates", "small", "out", "**", "*.oantt"), recursive=True)
        for it in kept:
            os.utime(it, (time.time() + AN_HOUR,) * 2)
        yield "later than the source", bool(kept) and not proves(top, 1)
        is_right = proves(top, 2)
        for it in (it for it in kept if ".one." in it and os.path.isfile(it)):
            shutil.copy(it, it.replace(".one.", ".two."))
        yield "another function's", is_right and proves(top, 2) and not proves(top, 1)
