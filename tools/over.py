#!/usr/bin/env python3
"""Builds a static library, or the object of a program, over the libraries that `rt ci` left: it proves that crate alone,
and none below it.

    tools/over.py COPY CRATE TARGET

COPY is the repository in which `rt ci` ran. The checker's own commands take nothing of what `rt ci` proved, so its
compiler is called as they do, with the words that the toolchain's own module gives.
"""

import importlib.util
import os
import subprocess
import sys
from importlib.machinery import SourceFileLoader

from build import CPU, checker


def toolchain():
    """The folder of the toolchain."""
    said = subprocess.run([checker(), "doc"], capture_output=True, text=True, check=True)
    return os.path.dirname(said.stdout.strip())


def module_of(kit):
    """The toolchain's module of crates."""
    loader = SourceFileLoader("rtlib", os.path.join(kit, "bin", "rtlib.py"))
    module = importlib.util.module_from_spec(importlib.util.spec_from_loader("rtlib", loader))
    sys.modules["rtlib"] = module
    loader.exec_module(module)
    return module


def main(words):
    if len(words) != 4:
        sys.exit(__doc__)
    copy, target = os.path.abspath(words[1]), os.path.abspath(words[3])
    kit = toolchain()
    crate = next(it for it in module_of(kit).crates_below(copy) if it.name == words[2])
    how = ["--toolchain", os.path.join(kit, "toolchain"), "--backend", "llvm", "-o", target]
    build = [os.path.join(kit, "bin", "rattle"), "build", *crate.words(["--jobs", "2", *CPU]), *how]
    ran = subprocess.run(build, cwd=crate.folder, capture_output=True, text=True, errors="replace", check=False)
    if ran.returncode != 0:
        print(f"{words[2]} was not built over what rt ci left:", ran.stdout[-2000:], ran.stderr[-2000:], sep="\n")
    return ran.returncode


if __name__ == "__main__":
    sys.exit(main(sys.argv))
