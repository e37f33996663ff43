"""Builds a program of the bench over this repository's crates, in a folder of its own, so that the gate
has no part in it."""

import os
import shutil
import subprocess
import sys

HERE = os.path.dirname(os.path.abspath(__file__))
TOP = os.path.join(HERE, "..")
sys.path.insert(0, os.path.join(TOP, "tools"))
from trees import Trees, crates_below  # noqa: E402


def build(folder, source, libraries, words):
    """Proves and builds the program of a source of the bench over some libraries, and runs it once with
    some words. Gives its path, and what it wrote.
    """
    name = f"{os.path.splitext(source)[0]}_bench"
    crates, trees = os.path.join(folder, "crates"), Trees(TOP, folder)
    known = [it for it in libraries if it in trees.libraries]
    below = {it for library in known for it in crates_below(trees.libraries, library)}
    os.makedirs(os.path.join(crates, name, "src"))
    trees.link(below, folder)
    shutil.copy(os.path.join(HERE, source), os.path.join(crates, name, "src", "main.rt"))
    shutil.copy(os.path.join(TOP, "HANDLES"), folder)
    with open(os.path.join(folder, "crates.txt"), "w", encoding="utf-8") as file:
        file.writelines(f"{trees.lines[it]}\n" for it in below)
        file.write(f"{name}: {' '.join(libraries)}\n")
    run = [os.environ.get("RT") or "rt", "run", "--", *words]
    ran = subprocess.run(run, cwd=os.path.join(crates, name), stdout=subprocess.PIPE, text=True, check=False)
    program = os.path.join(crates, name, "out", name)
    if ran.returncode != 0 or not os.path.isfile(program):
        sys.exit(f"{source} was not built")
    return program, ran.stdout
