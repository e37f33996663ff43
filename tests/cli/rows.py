"""How long a test lets a program run, and how it says which of its rows this machine cannot run."""

import os
import shutil
import subprocess

# After so many seconds a program hangs. No machine is so slow, nor so busy, that one which does not takes as long.
HANGS = 900
TOP = os.path.join(os.path.dirname(os.path.abspath(__file__)), "..", "..")
# What `is_checkout` looks for.
CHECKOUT = "a git checkout of this user"


def leave_out(row, thing):
    """Names a row that is left out, and what it needs. tests/run.py counts these lines."""
    print(f"left out: {row}, which needs {thing}")


def has(command, *rows):
    """Whether a command is here. If not, the rows that need it are left out."""
    is_here = shutil.which(command) is not None
    for row in () if is_here else rows:
        leave_out(row, command)
    return is_here


def is_checkout():
    """Whether git knows the commit of this tree. It refuses one that is another user's."""
    words = ["git", "-C", TOP, "rev-parse", "--verify", "HEAD:VERSION"]
    return bool(shutil.which("git")) and subprocess.run(words, capture_output=True, check=False).returncode == 0
