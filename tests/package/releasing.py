#!/usr/bin/env python3
"""Makes releases of a small repository, whose program is a few lines of C and whose checker builds nothing.

    tests/package/releasing.py

The repository has this one's Makefile, tools and pages, and two crates of one line. What `make release` refuses is tried:
each refusal is one line, and makes no file. Then a release is made, made again, and made of other objects and sources.
In a tree that is no git checkout nothing is tested, and the last line says so.
"""

import os
import re
import shutil
import subprocess
import sys
import tempfile

from held import tell
from run import TOP
from rows import is_checkout

# The versions of the small repository's releases, and one of development.
FIRST, SECOND, BETWEEN = "9.0.0", "9.1.0", "9.1.0~dev"
MADE = {f"{it}_{FIRST}_amd64.deb" for it in ("pezundrix", "pezundrix-libcdb1", "pezundrix-libcdb-dev")}
MADE |= {f"pezundrix-{FIRST}.tar.gz", f"pezundrix-{FIRST}-x86_64-linux.tar.gz"}
CRATES = {"crates.txt": "cdb:\ncdb_c staticlib:\n", "crates/cdb/src/main.rt": "", "crates/cdb_c/src/lib.rt": ""}
CRATES |= {"crates/cdb_command/src/usage_text.rt": "", "crates/cdb_command/specs/Usage.antt": ""}
# The checker says where its C is, and builds nothing.
CHECKER = """#!/bin/sh
case $1 in doc) echo "$(dirname "$0")/START.md" ;; *) exit 1 ;; esac
"""
PROGRAM = """#include <stdio.h>
int main(void) { fputs("cdb VERSION (Pezundrix)\\n", stdout); return 0; }
"""
# The calls of the C library that its proved code has whole.
CALLS = "void cdb_pack(void) {}\nvoid cdb_unpack(void) {}\n"
OBJECTS = ("cdb.o", "libcdb_c.a")


def compiler():
    """The C compiler's command."""
    return (os.environ.get("CC") or "cc").split()


class Small:
    """A small repository, in which the gate passed and its objects are built."""

    def __init__(self, folder):
        self.top, self.kit = os.path.join(folder, "small"), os.path.join(folder, "kit")
        listed = subprocess.run(["git", "ls-files"], cwd=TOP, stdout=subprocess.PIPE, text=True, check=True).stdout.splitlines()
        for name in (it for it in listed if not it.startswith("crates") and os.path.isfile(os.path.join(TOP, it))):
            os.makedirs(os.path.dirname(os.path.join(self.top, name)), exist_ok=True)
            shutil.copy(os.path.join(TOP, name), os.path.join(self.top, name))
        os.makedirs(f"{self.kit}/c")
        self.write(f"{self.kit}/rt", CHECKER)
        os.chmod(f"{self.kit}/rt", 0o755)
        for name, text in CRATES.items():
            self.write(name, text)
        self.write("release/SHA256SUMS", "# No release has objects.\n")
        self.git("init", "-q")
        self.commit(FIRST)
        self.build()
        self.pass_gate()

    def write(self, name, text):
        """Writes a file, named from the top."""
        path = os.path.join(self.top, name)
        os.makedirs(os.path.dirname(path), exist_ok=True)
        with open(path, "w", encoding="utf-8") as file:
            file.write(text)

    def read(self, name):
        """The bytes of a file, named from the top."""
        with open(os.path.join(self.top, name), "rb") as file:
            return file.read()

    def git(self, *words):
        """What git says."""
        words = ["git", "-c", "user.name=it", "-c", "user.email=it", *words]
        return subprocess.run(words, cwd=self.top, stdout=subprocess.PIPE, text=True, check=True).stdout.strip()

    def commit(self, version=None):
        """Commits all, with this version if one is given."""
        if version:
            self.write("VERSION", f"{version}\n")
            heads = self.read("CHANGELOG.md").decode()
            self.write("CHANGELOG.md", re.sub(r"\n## .*\n", f"\n## {version} (2026-01-01)\n", heads, count=1))
        self.git("add", ".")
        self.git("commit", "-q", "-m", "it")

    def build(self, text=PROGRAM):
        """Builds the program of some text, with the objects of this version, as make and make clib leave them."""
        text = text.replace("VERSION", self.read("VERSION").decode().strip())
        self.write("bin/cdb.c", text)
        self.write("bin/calls.c", CALLS)
        run = lambda *words: subprocess.run(words, cwd=f"{self.top}/bin", check=True)
        run(*compiler(), "-c", "-o", "cdb.o", "cdb.c")
        run(*compiler(), "-c", "-o", "calls.o", "calls.c")
        for it in ("libcdb_c.a", f"{self.kit}/c/liblibc_c.a", f"{self.kit}/c/libos_c.a"):
            run("ar", "rcD", it, "calls.o")
        run(*compiler(), "-static-pie", "-o", "cdb", "cdb.o")

    def pass_gate(self, how="proved"):
        """Leaves what the gate leaves that passed on this commit."""
        self.write("bin/passed", f"{self.git('rev-parse', 'HEAD')} {how}\n")

    def make(self, target):
        """The status of make, and its lines but those of make itself."""
        kept = {it: value for it, value in os.environ.items() if not it.startswith("MAKE") and it not in ("MFLAGS", "CI")}
        words = ["make", "-s", target, f"RT={self.kit}/rt"]
        how = {"stdout": subprocess.PIPE, "stderr": subprocess.STDOUT, "text": True, "env": kept}
        done = subprocess.run(words, cwd=self.top, check=False, **how)
        return done.returncode, [it for it in done.stdout.splitlines() if not re.match(r"make(\[\d+\])?: ", it)]

    def compared(self):
        """The status of the tool that compares the objects with those of the release, and what it says."""
        words = [f"{self.top}/tools/publish.py", "compare", *(f"{self.top}/bin/{it}" for it in OBJECTS)]
        how = {"stdout": subprocess.PIPE, "stderr": subprocess.STDOUT, "text": True, "env": {**os.environ, "RT": f"{self.kit}/rt"}}
        done = subprocess.run(words, check=False, **how)
        return done.returncode, done.stdout.strip()

    def has_its_version(self):
        """Whether the test of versions finds this one to be that of these sources."""
        words = [sys.executable, f"{self.top}/tests/package/version.py"]
        done = subprocess.run(words, stdout=subprocess.PIPE, text=True, check=False)
        return " passed, " in done.stdout and "release/SHA256SUMS" not in done.stdout

    def made(self):
        """The files of the release, with their bytes."""
        folder = os.path.join(self.top, "dist")
        return {it: self.read(f"dist/{it}") for it in os.listdir(folder)} if os.path.isdir(folder) else {}

    def refuses(self, says, target="release"):
        """Whether a release ends with one line, which says something, and makes nothing."""
        before = self.made(), self.git("status", "--porcelain")
        status, lines = self.make(target)
        is_told = status != 0 or target != "release"
        return is_told and len(lines) == 1 and says in lines[0] and before == (self.made(), self.git("status", "--porcelain"))


def unready(it):
    """A tree that is not ready makes no release."""
    for name, what in (("README.md", "a change"), ("new", "a new file")):
        it.write(name, it.read(name).decode() + "more\n" if name != "new" else "")
        yield f"{what} that is not committed", it.refuses(f"{name} is not as it is committed")
        it.git("stash", "-q", "--include-untracked")
    os.remove(f"{it.top}/bin/passed")
    yield "no gate that passed", it.refuses("run make test TESTS=proved")
    it.pass_gate("")
    yield "a gate without the tests proved", it.refuses("run make test TESTS=proved")
    it.write("bin/passed", f"{'0' * 40} proved\n")
    yield "a gate on a commit that is gone", it.refuses("run make test TESTS=proved")
    it.pass_gate()
    it.write("docs/GUIDE.md", "anew\n")
    it.commit()
    yield "a gate on another commit", it.refuses("run make test TESTS=proved")
    it.commit(BETWEEN)
    it.pass_gate()
    yield "a version of development", it.refuses(f"{BETWEEN} is a version of development")
    it.commit(FIRST)
    it.pass_gate()
    for name in OBJECTS:
        os.rename(f"{it.top}/bin/{name}", f"{it.kit}/{name}")
        yield f"no {name}", it.refuses(" is not there" if name == "cdb.o" else "cannot be built")
        os.rename(f"{it.kit}/{name}", f"{it.top}/bin/{name}")
    it.build()


def released(it):
    """A release writes the sums of its objects, then makes all its files, and the same ones each time."""
    status, lines = it.make("release")
    yield "the sums are written first", status == 0 and "commit it, and run make release again" in lines[-1] and not it.made()
    yield "no release before they are committed", it.refuses("release/SHA256SUMS is not as it is committed")
    sums = it.read("release/SHA256SUMS").decode()
    named = re.findall(r"^[0-9a-f]{64}  (\S+)$", sums, re.M)
    yield "they have the version and the four objects", sums.startswith(f"# The objects of pezundrix {FIRST}.\n") and len(named) == 4
    place = tempfile.mkdtemp(dir=os.path.dirname(it.top))
    for name in (*(f"{it.top}/bin/{name}" for name in OBJECTS), f"{it.kit}/c/liblibc_c.a", f"{it.kit}/c/libos_c.a"):
        shutil.copy(name, place)
    checked = subprocess.run(["sha256sum", "-c", "--strict", f"{it.top}/release/SHA256SUMS"], cwd=place, capture_output=True, check=False)
    yield "sha256sum finds them so", checked.returncode == 0 and checked.stdout.count(b": OK\n") == 4
    it.commit()
    status, lines = it.make("release")
    first = it.made()
    yield "all files are made", status == 0 and set(first) == MADE
    yield "nothing is left to commit", it.git("status", "--porcelain") == ""
    shutil.rmtree(f"{it.top}/dist")
    yield "a release that is made twice is the same", it.make("release")[0] == 0 and it.made() == first
    subprocess.run(["tar", "-xzf", f"{it.top}/dist/pezundrix-{FIRST}-x86_64-linux.tar.gz", "-C", place], check=True)
    with open(f"{place}/pezundrix-{FIRST}-x86_64-linux/objects/SHA256SUMS", encoding="ascii") as file:
        yield "the tarball has the sums", file.read() == sums


def other(it):
    """A version that was released keeps its objects and its sources; a new one gets its own."""
    yield "the sources of the release may have its version", it.has_its_version()
    yield "the objects are those of the release", it.compared() == (0, f"The objects are those of pezundrix {FIRST}.")
    it.build(PROGRAM + "int other;\n")
    yield "other objects are not", it.compared() == (1, "No release of pezundrix: not as release/SHA256SUMS has it: cdb.o")
    yield "no release of other objects", it.refuses(f"{FIRST} was released with other objects")
    shutil.rmtree(f"{it.top}/dist")
    status, lines = it.make("dist")
    yield "no tarball of other objects", status == 0 and f"No tarball of the objects: {FIRST} was released with others" in lines[-1]
    shutil.rmtree(f"{it.top}/dist")
    it.write("crates/cdb/src/main.rt", "// anew\n")
    it.commit()
    it.build()
    it.pass_gate()
    yield "objects of other sources are not compared", it.compared() == (0, "These are not the sources of the release whose sums release/SHA256SUMS has.")
    yield "no release of other sources", it.refuses(f"{FIRST} was released of other sources")
    yield "nor may they have its version", not it.has_its_version()
    it.commit(SECOND)
    it.build()
    it.pass_gate()
    yield "a release of a new version", it.make("release")[0] == 0 and f"pezundrix {SECOND}." in it.read("release/SHA256SUMS").decode()
    it.commit()
    it.commit(FIRST)
    it.build()
    it.pass_gate()
    yield "no release of a version before the last", it.refuses(f"{FIRST} was released of other sources")


def main():
    if len(sys.argv) != 1:
        sys.exit(__doc__)
    if not is_checkout():
        print("0 passed, 0 failed: this is no git checkout, of which a release is made")
        return
    with tempfile.TemporaryDirectory() as folder:
        it = Small(folder)
        held = [row for part in (unready, released, other) for row in part(it)]
    tell(held)


if __name__ == "__main__":
    main()
