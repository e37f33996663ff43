#!/usr/bin/env python3
"""Makes the tarball of the proved objects, and builds and installs from it without the toolchain.

    tests/package/release.py OBJECT LIBRARY

OBJECT is the program's, cdb.o, and LIBRARY the code of the C library, libcdb_c.a. The path has each command but the
checker's. What is built must run the worked example of tests/cli/files.py: by the C compiler in the environment's CC,
else `cc`, and by clang, and as each flag says that a program is linked. Then what can go wrong: a tarball
without its objects or with others, a compiler without a static C library, an install over a program that runs, an
uninstall of what was changed since. If this tree has the sources of the last release, the objects must be those of
release/SHA256SUMS. The tree's own targets must say in one line what they lack.
"""

import hashlib
import os
import re
import shutil
import subprocess
import sys
import tempfile

from held import tell
from run import TOP, runs_example
from rows import has

TOOL, PUBLISH = (os.path.join(TOP, "tools", it) for it in ("release.py", "publish.py"))
# How a program is linked, and whether it is loaded then.
KINDS = {"-pie": True, "-no-pie": True, "-static": False, "-static-pie": False}
# The note of a program or a library that has the name of its build.
BUILD_ID = b"\x04\x00\x00\x00\x14\x00\x00\x00\x03\x00\x00\x00GNU\x00"
# What is installed, beside the files of the C library.
INSTALLED = """bin/cdb share/man/man1/cdb.1 share/man/man5/cdb.5 share/doc/pezundrix/GUIDE.md share/doc/pezundrix/LICENSE
    share/bash-completion/completions/cdb share/zsh/site-functions/_cdb share/fish/vendor_completions.d/cdb.fish
    include/cdb.h lib/libcdb.so.1 lib/libcdb.a lib/pkgconfig/libcdb.pc share/man/man3/cdb.3""".split()
# What a packager's install has.
ALL = [*INSTALLED, "lib/libcdb.so", "lib/libcdb_pic.a"]
# The targets of the tree that need the toolchain, or a checkout.
TARGETS = "all try quick demo test wrong clib dist deb release install install-clib interop bench".split()
# Compilers: one that links nothing statically, as where there is no static C library, and one whose programs do not
# run, as with a C library for which the objects are not made.
NO_STATIC = """#!/bin/sh
for word; do case $word in -static*) echo 'ld: cannot find -lc' >&2; exit 1;; esac; done
exec {compiler} "$@"
"""
NOT_RUNNING = """#!/bin/sh
{compiler} "$@" && case "$*" in *cdb.new*) echo exit 1 > bin/cdb.new;; esac
"""


def compiler():
    """The C compiler's command."""
    return os.environ.get("CC") or "cc"


def read(path):
    """The bytes of a file, or None if it is not there."""
    if not os.path.isfile(path):
        return None
    with open(path, "rb") as file:
        return file.read()


class Machine:
    """A folder with a path of each command but the checker's."""

    def __init__(self, folder):
        self.folder, commands = folder, os.path.join(folder, "commands")
        os.mkdir(commands)
        for place in os.environ["PATH"].split(os.pathsep):
            for name in os.listdir(place) if os.path.isdir(place) else ():
                if name not in ("rt", os.path.basename(os.environ.get("RT") or "rt")) and not os.path.lexists(f"{commands}/{name}"):
                    os.symlink(os.path.join(place, name), f"{commands}/{name}")
        kept = {it: value for it, value in os.environ.items() if not it.startswith("MAKE") and it not in ("RT", "CC", "CI")}
        self.environment = {**kept, "PATH": commands, "LC_ALL": "C"}

    def place(self, name):
        """A new folder."""
        return tempfile.mkdtemp(prefix=name, dir=self.folder)

    def run(self, words, folder):
        """The status of a command, and its lines but those of make itself."""
        how = {"stdin": subprocess.DEVNULL, "stdout": subprocess.PIPE, "stderr": subprocess.STDOUT, "text": True}
        done = subprocess.run(words, cwd=folder, env=self.environment, check=False, **how)
        return done.returncode, [it for it in done.stdout.splitlines() if not re.match(r"make(\[\d+\])?: ", it)]

    def make(self, tree, *words):
        """The status and the lines of make."""
        return self.run(["make", "-s", *words], tree)


class Release:
    """The tarball, and the trees that are unpacked of it."""

    def __init__(self, machine, objects):
        self.machine, self.objects = machine, objects
        self.tarball, self.said = self.made(*objects)

    def made(self, *objects):
        """Makes the tarball, and answers its path or None, and what was said."""
        folder = self.machine.place("dist")
        done = subprocess.run([TOOL, *objects, folder], stdout=subprocess.PIPE, text=True, check=True)
        names = os.listdir(folder)
        return (os.path.join(folder, names[0]) if names else None), done.stdout

    def tree(self):
        """A tree that is unpacked, with nothing built."""
        folder = self.machine.place("tree")
        subprocess.run(["tar", "-xzf", self.tarball, "-C", folder], check=True)
        return os.path.join(folder, os.listdir(folder)[0])


def is_one_line(came, says):
    """Whether a command failed with one line, which says something."""
    status, lines = came
    return status != 0 and len(lines) == 1 and says in lines[0]


def made_of(release):
    """The tarball is the same each time, and is not made of what is missing or of another version."""
    again, _ = release.made(*release.objects)
    data = read(release.tarball)
    yield "the tarball has the same bytes each time", data == read(again)
    yield "its sum is said", f"{hashlib.sha256(data).hexdigest()}  {release.tarball}" in release.said
    program, library = release.objects
    for what, objects in {"program": ("none.o", library), "library": (program, "none.a")}.items():
        made, said = release.made(*objects)
        yield f"no tarball without a {what}", made is None and said.startswith("No tarball of the objects: none.")
    came = release.machine.run([TOOL, program, library, release.machine.place("dist")], release.machine.folder)
    yield "no tarball without the toolchain", came == (0, ["No tarball of the objects: they need the toolchain's C, and there is no command rt"])
    old = os.path.join(release.machine.place("old"), "cdb.o")
    with open(old, "wb") as to:
        to.write(re.sub(rb"cdb \d\S+ \(Pezundrix\)", b"cdb 0.0.1 (Pezundrix)", read(program)))
    made, said = release.made(old, library)
    yield "no tarball of another version", made is None and said.count("\n") == 1 and "is of another version" in said
    compared = subprocess.run([PUBLISH, "compare", program, library], stdout=subprocess.PIPE, stderr=subprocess.STDOUT, text=True, check=False)
    if not compared.stdout.startswith("These are not the sources"):
        yield f"the objects are those of the release: {compared.stdout}", compared.returncode == 0


def is_built(machine, tree, *words):
    """Whether the program and the library are built, and the program runs the example."""
    status, _ = machine.make(tree, *words)
    made = all(os.path.isfile(os.path.join(tree, "bin", it)) for it in ("cdb", "libcdb.so.1", "libcdb.a"))
    return status == 0 and made and runs_example(os.path.join(tree, "bin", "cdb"), machine.place("example"))


def is_loaded(program):
    """Whether a program names a loader."""
    return b"/ld-linux" in read(program)[:4096]


def builds(release):
    """Each compiler builds it, as the flags say."""
    machine, tree = release.machine, release.tree()
    yield f"{compiler()} builds it", is_built(machine, tree, f"CC={compiler()}")
    said = machine.run([f"{tree}/bin/cdb", "-V"], tree)[1]
    yield "it says the version", said == [f"cdb {read(f'{tree}/VERSION').decode().strip()} (Pezundrix)"]
    for kind, loaded in KINDS.items():
        tree = release.tree()
        built = is_built(machine, tree, f"CC={compiler()}", f"LDFLAGS={kind}")
        yield f"{compiler()} builds it by {kind}", built and is_loaded(f"{tree}/bin/cdb") == loaded
    yield f"{compiler()} gives it no name of its build", BUILD_ID not in read(f"{tree}/bin/cdb")
    tree = release.tree()
    built = is_built(machine, tree, f"CC={compiler()}", "LDFLAGS=-pie -Wl,--build-id=sha1")
    yield "the flags of a packager win", built and BUILD_ID in read(f"{tree}/bin/cdb") and BUILD_ID in read(f"{tree}/bin/libcdb.so.1")
    if has("clang", "clang builds it"):
        yield "clang builds it", is_built(machine, release.tree(), "CC=clang")


def refuses(release):
    """A tree without its objects, or with others, says so in one line, and builds nothing."""
    machine = release.machine
    for name in ("cdb.o", "libcdb_c.a", "libos_c.a", "SHA256SUMS", ""):
        for how in ("without", "with another"):
            tree = release.tree()
            path = os.path.join(tree, "objects", name)
            if how == "without":
                (os.remove if name else shutil.rmtree)(path)
            elif name:
                with open(path, "ab") as to:
                    to.seek(0)
                    to.truncate()
                    to.write(b"another")
            else:
                continue
            came = machine.make(tree)
            yield f"{how} objects/{name}", is_one_line(came, "unpack the tarball again") and not os.path.exists(f"{tree}/bin/cdb")
    tree = release.tree()
    with open(f"{tree}/objects/SHA256SUMS", "r+", encoding="ascii") as file:
        text = re.sub(r"(?<=pezundrix )\S+", "0.0.1.", file.read(), count=1)
        file.seek(0)
        file.write(text)
    yield "the objects of another version", is_one_line(machine.make(tree), "another version")
    yield "no compiler", is_one_line(machine.make(release.tree(), "CC=no-such-compiler"), "There is no C compiler no-such-compiler")


def wrapped(machine, text):
    """A compiler of some text."""
    path = os.path.join(machine.place("compiler"), "cc")
    with open(path, "w", encoding="ascii") as to:
        to.write(text.format(compiler=compiler()))
    os.chmod(path, 0o755)
    return path


def lacks_static(release):
    """A compiler without a static C library links a program with a loader, and none that must be static. One whose
    programs do not run links none."""
    machine = release.machine
    path = wrapped(machine, NO_STATIC)
    tree = release.tree()
    status, lines = machine.make(tree, f"CC={path}", "bin/cdb")
    yield "dynamic without a static C library", status == 0 and is_loaded(f"{tree}/bin/cdb") and "bin/cdb is dynamic" in lines[0]
    tree = release.tree()
    status, lines = machine.make(tree, f"CC={path}", "LDFLAGS=-static", "bin/cdb")
    says = lines == ["ld: cannot find -lc", f"bin/cdb cannot be linked with -static: see above what {path} lacks"]
    yield "not static without a static C library", status != 0 and says and os.listdir(f"{tree}/bin") == []
    tree = release.tree()
    came = machine.make(tree, f"CC={wrapped(machine, NOT_RUNNING)}", "LDFLAGS=-pie", "bin/cdb")
    yield "no program that does not run", is_one_line(came, "bin/cdb does not run") and os.listdir(f"{tree}/bin") == []


def files_below(folder):
    """The names of the files below a folder."""
    return {os.path.relpath(os.path.join(place, it), folder) for place, _, names in os.walk(folder) for it in names}


def installs(release):
    """What is installed is removed again, but what was changed since; a program that runs goes on."""
    machine, tree, root = release.machine, release.tree(), release.machine.place("root")
    words = [f"CC={compiler()}", f"DESTDIR={root}", "PREFIX=/usr"]
    yield "it is installed", machine.make(tree, *words, "install")[0] == 0
    yield "all is there", set(INSTALLED) <= files_below(f"{root}/usr")
    described = read(f"{root}/usr/lib/pkgconfig/libcdb.pc") or b""
    yield "libcdb.pc has the version", b"pezundrix_version=" + read(f"{tree}/VERSION") in described
    yield "the example runs", runs_example(f"{root}/usr/bin/cdb", machine.place("example"))
    made = os.path.join(machine.place("running"), "a.cdb")
    with subprocess.Popen([f"{root}/usr/bin/cdb", "-c", made], stdin=subprocess.PIPE) as running:
        yield "it is installed over a program that runs", machine.make(tree, *words, "install")[0] == 0
        running.communicate(b"+1,1:a->b\n\n")
    yield "the program that ran goes on", running.returncode == 0 and os.path.getsize(made) > 2048
    yield "no other file is there", not [it for it in files_below(root) if it.endswith(".new")]
    changed = f"{root}/usr/share/doc/pezundrix/GUIDE.md"
    with open(changed, "ab") as to:
        to.write(b"mine\n")
    status, lines = machine.make(tree, *words, "uninstall")
    yield "it is removed but what was changed", status == 0 and files_below(root) == {os.path.relpath(changed, root)}
    yield "a line says what stays", lines == [f"{changed} is another's by now: it stays"]
    yield "it is removed once", machine.make(tree, *words, "uninstall")[1][0].startswith("Nothing is removed")
    plain = machine.place("packaged")
    status, _ = machine.make(tree, words[0], f"DESTDIR={plain}", "PREFIX=/usr", "LISTS=", "install")
    listed = {it for it in files_below(plain) if it.startswith("usr/share/pezundrix")}
    yield "it is installed without a list for a packager", status == 0 and not listed and len(files_below(plain)) == len(ALL)


def has_tests(release):
    """The tests that make check runs are there, and the page is compared without the toolchain."""
    machine, tree = release.machine, release.tree()
    machine.make(tree, f"CC={compiler()}", "bin/cdb", "bin/loaded")
    asked = "import run; print(*{it.script for it in run.parts_of('bin/cdb', False)})"
    _, lines = machine.run(["python3", "-c", f"import sys; sys.path.insert(0, 'tests'); {asked}"], tree)
    scripts = lines[-1].split()
    yield "make check has its tests", len(scripts) > 20 and all(os.path.isfile(f"{tree}/{it}") for it in scripts)
    yield "the pages need no toolchain", machine.run(["python3", "tests/cli/pages.py", "bin/cdb"], tree)[1] == ["3 passed, 0 failed"]


def lacks_toolchain(machine):
    """Each target of the sources ends in one line without the toolchain."""
    tree = machine.place("sources")
    listed = subprocess.run(["git", "ls-files"], cwd=TOP, stdout=subprocess.PIPE, text=True, check=True).stdout.splitlines()
    for name in (it for it in listed if os.path.isfile(os.path.join(TOP, it))):
        os.makedirs(os.path.dirname(os.path.join(tree, name)), exist_ok=True)
        shutil.copy(os.path.join(TOP, name), os.path.join(tree, name))
    for target in TARGETS:
        status, lines = machine.make(tree, target)
        last = lines[-1] if lines else ""
        yield f"make {target} without the toolchain", status != 0 and "not there" in last or "no git checkout" in last
        yield f"make {target} says so in one line", len(lines) == (2 if target == "demo" else 1)


def main():
    if len(sys.argv) != 3:
        sys.exit(__doc__)
    with tempfile.TemporaryDirectory() as folder:
        machine = Machine(folder)
        release = Release(machine, [os.path.abspath(it) for it in sys.argv[1:]])
        held = [*lacks_toolchain(machine)]
        for part in (made_of, builds, refuses, lacks_static, installs, has_tests) if release.tarball else ():
            held += part(release)
    if not release.tarball:
        held.append((f"a tarball of these objects: {release.said}", False))
    tell(held)


if __name__ == "__main__":
    main()
