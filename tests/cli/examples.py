#!/usr/bin/env python3
"""Runs each printed example as its reader would, and compares what it does.

    tests/cli/examples.py PROGRAM

The examples are those of the manual page, as `mandoc` or `man` shows it, of docs/GUIDE.md and of
README.md. Each page has a folder of its own, in which its blocks are run in turn by the shell. In a
block with prompts each command must write what the page shows below it. What the other blocks write
is in WRITTEN. Programs of other projects are stood in for by STAND_INS.

Each block is also run with each of its commands failing in turn, before it does anything and after the
first line that it writes. Then each database of the folder is the old one, or what the whole block comes to;
if the first command fails before it does anything, it is the old one.
"""

import os
import re
import shutil
import subprocess
import sys
import tempfile
import time

from rows import HANGS

TOP = os.path.join(os.path.dirname(os.path.abspath(__file__)), "..", "..")
# What the shell makes before the examples of a page: the files that they speak of.
BEFORE = {
    "README.md": "",
    "docs/GUIDE.md": r"""
mkdir postfix primary
printf 'abuse@example.org root\n' > postfix/virtual
printf '# ours\nPostmaster: root\n\nlist : alice,\n    Bob\nabuse:root\n' > postfix/aliases
printf 'postmaster root\nabuse      root\n' > aliases
printf '+4,2:+one->10\n\n' | cdb -c data.cdb
cp data.cdb primary/data.cdb
printf '+5,4:abuse->kris\n+10,4:postmaster->kris\n\n' | cdb -c map.cdb
cp map.cdb primary/map.cdb
printf 'postmaster alice\nabuse root\n' > source
printf '+7,5:old.net->carol\n\n' | cdb -c owners.cdb
printf 'old.net x\nold.net\n' > hosts
printf 'one 1\n\ntwo 2\none 3\n' > twice
printf 'postmaster tom\nabuse kris\npostmaster ann\n' | cdb -c -m made.cdb
host=old.net
""",
    "man/cdb.1": "",
}
# The folders of the pages' own machines, in the folder of a test.
MOVED = [("/etc/postfix/", "postfix/"), ("primary:/service/tinydns/root/", "primary/"), ("primary:map", "primary/map")]
# The statistics of a database of one record.
STATISTICS = """records: 1
key lengths least/average/greatest: 4/4/4
value lengths least/average/greatest: 2/2/2
tables/entries/collisions: 1/1/0
table sizes least/average/greatest: 2/2/2
""" + "".join(f"distance {n}: {int(n == 0)}\n" for n in range(10)) + "distance 10 or more: 0\n"
# What each block without prompts writes, in order; each page ends with what WHOLE shows.
WRITTEN = {
    "README.md": [None, None],
    "docs/GUIDE.md": [
        None,
        "root\n",
        "",
        "sound\n" + STATISTICS,
        "",
        "old.net: carol\n",
        "old.net carol\nold.net carol\n",
        "",
        "",
        "",
        "",
        "",
        "",
        "three Hello again\n",
        "cdb: input 1: record 3: duplicate key\ncdb: twice: line 4: key one\n",
        "postmaster\n",
        "postmaster tom\nabuse kris\npostmaster ann\n",
        "",
        "",
        "",
        "nothing changed\n",
    ],
    "man/cdb.1": ["root", "", "sound\n"],
}
# A last command for each page, and what it writes: what all the examples before came to.
WHOLE = {
    "README.md": ("cdb -d -m aliases.cdb", "postmaster root\nabuse root\n"),
    "docs/GUIDE.md": (
        "cdb -d -m words.cdb; cdb -d -m map.cdb; cdb -d -m aliases.cdb",
        "three Hello again\npostmaster alice\nabuse root\n"
        "postmaster root\nlist alice,    Bob\nabuse root\n",
    ),
    "man/cdb.1": ("cdb -d -m aliases.cdb", "postmaster alice\n"),
}
STAND_INS = {
    # What it would find, by the look-up of the database that it is given.
    "postmap": 'cdb -q -m "${3#cdb:}.cdb" "$2"',
    "rsync": 'cp "$1" "$2"',
    "ssh": "shift; sh -c \"$*\"",
}


# A command of a block: what stands before it, and its name.
COMMAND = re.compile(r"((?:^|[|;&({]|\bif\b)[ ]*(?:LC_ALL=C )?)((?:awk|cdb|printf|cksum|sort|postmap|rsync|ssh)\b(?= ))", re.M)
# How a command fails: before it does anything, and after the first line that it writes.
FAILS = {
    "at once": "fails() { return 1; }\n",
    "after a line": 'fails() { command "$@" 2> /dev/null | head -n 1; return 1; }\n',
}


def shown(page):
    """A manual page, as a reader sees it."""
    path = os.path.join(TOP, page)
    if shutil.which("mandoc"):
        words = ["mandoc", "-T", "utf8", "-O", "width=100", path]
    else:
        words = ["man", "-l", path]
    how = {"env": {**os.environ, "MANWIDTH": "100", "LC_ALL": "C.UTF-8"}}
    text = subprocess.run(words, capture_output=True, check=True, text=True, **how).stdout
    # Letters are bold by being struck twice.
    return re.sub(".\b", "", text)


def blocks_of_manual(page):
    """The examples of a manual page: what is indented more than the text around it."""
    section = shown(page).split("\nEXAMPLES\n")[1].split("\nDIAGNOSTICS\n")[0]
    indents = [len(line) - len(line.lstrip()) for line in section.splitlines() if line.strip()]
    blocks = re.findall(rf"(?:^ {{{min(indents) + 1},}}\S.*\n)+", section.expandtabs(), re.M)
    return ["\n".join(line.strip() for line in block.splitlines()) + "\n" for block in blocks]


def blocks_of_page(page):
    """The examples of a page: its blocks for the shell, but for those that build or install."""
    with open(os.path.join(TOP, page), encoding="utf-8") as file:
        blocks = re.findall(r"^```sh\n(.*?)^```$", file.read(), re.M | re.S)
    return [block for block in blocks if not re.match(r"(make|apt|tar)\b", block)]


def steps_of(block):
    """The commands of a block with prompts, each with what is shown below it."""
    steps = []
    for line in block.splitlines(keepends=True):
        if line.startswith("$ "):
            steps.append([line[2:], ""])
        else:
            steps[-1][1] += line
    # A remark after a command is not for the shell to read.
    return steps


class Shell:
    """The shell, in a folder of its own, with cdb and the stand-ins on its path."""

    def __init__(self, program, folder):
        programs, self.folder = os.path.join(folder, "programs"), os.path.join(folder, "work")
        os.mkdir(programs)
        os.mkdir(self.folder)
        shutil.copy(program, os.path.join(programs, "cdb"))
        for name, does in STAND_INS.items():
            path = os.path.join(programs, name)
            with open(path, "w", encoding="utf-8") as file:
                file.write(f"#!/bin/sh\n{does}\n")
            os.chmod(path, 0o755)
        self.environment = {"PATH": f"{programs}:{os.environ['PATH']}", "host": "old.net"}

    def run(self, command):
        """What a command writes, with its errors, or its status if it fails."""
        done = subprocess.run(
            ["sh", "-ec", command],
            cwd=self.folder,
            env=self.environment,
            stdout=subprocess.PIPE,
            stderr=subprocess.STDOUT,
            text=True,
            timeout=HANGS,
            check=False,
        )
        return done.stdout if done.returncode == 0 else f"status {done.returncode}: {done.stdout}"


def failing(block):
    """The block with each of its commands failing in turn, in each way, and whether nothing was done before."""
    for n, found in enumerate(COMMAND.finditer(block)):
        for how, does in FAILS.items():
            yield does + block[: found.end(1)] + "fails " + block[found.end(1) :], n == 0 and how == "at once"


def databases(folder):
    """The databases in a folder, each with its bytes."""
    found = {}
    for place, _, names in os.walk(folder):
        for name in names:
            if name.endswith(".cdb"):
                with open(os.path.join(place, name), "rb") as file:
                    found[os.path.relpath(file.name, folder)] = file.read()
    return found


def after(shell, block):
    """The databases after a block that is run in a copy of the shell's folder, without an end at a fault."""
    with tempfile.TemporaryDirectory() as folder:
        copy = os.path.join(folder, "work")
        shutil.copytree(shell.folder, copy, symlinks=True)
        how = {"stdin": subprocess.DEVNULL, "stdout": subprocess.DEVNULL, "stderr": subprocess.DEVNULL}
        subprocess.run(["sh", "-c", block], cwd=copy, env=shell.environment, timeout=HANGS, check=False, **how)
        return databases(copy)


def try_failing(shell, page, block):
    """For each command of a block that fails, which databases are not as they are to be, and that none is."""
    old, whole = databases(shell.folder), after(shell, block)
    for changed, is_first in failing(block):
        left = after(shell, changed)
        wrong = [
            name
            for name, data in old.items()
            if left.get(name) != data and (is_first or left.get(name) != whole.get(name))
        ]
        yield f"{page}: databases after {changed}", wrong, []


def try_page(program, page, blocks):
    """For each command of a page what it wrote, and what it is to write."""
    written = WRITTEN[page]
    if len(blocks) != len(written):
        return [(f"{page}: blocks", len(blocks), len(written))]
    came = []
    with tempfile.TemporaryDirectory() as folder:
        shell = Shell(program, folder)
        came.append((f"{page}: before", shell.run(BEFORE[page]), ""))
        for block, wanted in zip(blocks, written):
            for old, new in MOVED:
                block = block.replace(old, new)
            steps = steps_of(block) if wanted is None else [[block, wanted]]
            for command, it in steps:
                came += try_failing(shell, page, command)
                came.append((f"{page}: {command}", shell.run(command), it))
        command, wanted = WHOLE[page]
        came.append((f"{page}: {command}", shell.run(command), wanted))
    return came


def refused(program):
    """What the guide's map of aliases says of those that it does not take, and whether a database is made of them."""
    block = next(it for it in blocks_of_page("docs/GUIDE.md") if it.startswith("awk")).replace(*MOVED[0])
    for text in ('"john smith": js\n', "root: ann\nabuse root\n"):
        with tempfile.TemporaryDirectory() as folder:
            shell = Shell(program, folder)
            os.mkdir(os.path.join(shell.folder, "postfix"))
            with open(os.path.join(shell.folder, "postfix", "aliases"), "w", encoding="ascii") as file:
                file.write(text)
            yield shell.run(block), databases(shell.folder)


def comes_to(path, size):
    """Whether a file comes to a size."""
    end = time.monotonic() + HANGS
    while not os.path.exists(path) or os.path.getsize(path) < size:
        if time.monotonic() > end:
            return False
        time.sleep(0.01)
    return True


def grows(program):
    """Whether the temporary file of a create grows while it reads, and whether its file gets as long as the guide says."""
    records = [b"%d %s\n" % (it, b"v" * 100) for it in range(20_000)]
    half = b"".join(records[:10_000])
    with tempfile.TemporaryDirectory() as folder:
        made, found = os.path.join(folder, "x.cdb"), []
        with subprocess.Popen([program, "-c", "-m", made], stdin=subprocess.PIPE) as create:
            for part in (half, b"".join(records[10_000:])):
                create.stdin.write(part)
                create.stdin.flush()
                # What the pipe holds is not read yet, and what the program holds not written.
                found.append(comes_to(f"{made}.tmp", (len(found) + 1) * len(half) * 9 // 10))
            create.stdin.close()
        return [*found, os.path.getsize(made) == sum(len(it) - 2 for it in records) + 24 * len(records) + 2048]


def main():
    if len(sys.argv) != 2:
        sys.exit(__doc__)
    program = os.path.abspath(sys.argv[1])
    came = try_page(program, "man/cdb.1", blocks_of_manual("man/cdb.1"))
    for page in ("docs/GUIDE.md", "README.md"):
        came += try_page(program, page, blocks_of_page(page))
    came.append(("docs/GUIDE.md: how far a create is, and how long its file gets", grows(program), [True] * 3))
    says = [f"status 1: not a plain alias: {it}" for it in ('"john smith": js\n', "abuse root\n")]
    came.append(("docs/GUIDE.md: aliases that are refused", [*refused(program)], [(it, {}) for it in says]))
    wrong = [it for it in came if it[1] != it[2]]
    for what, got, wanted in wrong:
        print(f"{what}: {got!r:.300} and not {wanted!r:.300}")
    print(f"{len(came) - len(wrong)} passed, {len(wrong)} failed")
    sys.exit(1 if wrong else 0)


if __name__ == "__main__":
    main()
