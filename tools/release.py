#!/usr/bin/env python3
"""Makes the tarball of a release from which the program and the C library are linked without the toolchain.

    tools/release.py OBJECT LIBRARY FOLDER

OBJECT is the program's, cdb.o, and LIBRARY the proved code of the C library, libcdb_c.a, as make and make clib leave
them; the toolchain's C comes from the toolchain. The tarball has these four with their sums, the Makefile of the folder
release, and of the commit that is checked out what is installed, the pages, the packagers' files, and the tests that need
no toolchain. The same commit and objects give the same bytes. If something is missing, or of another version, or if the
version was released with other objects, one line says so, and no tarball is made.

release/SHA256SUMS has the sums of the last release's objects, as tools/publish.py writes them, and one of their sources.
"""

import hashlib
import io
import os
import platform
import shutil
import sys
import tarfile

from build import named_toolchain
from link import archives
from package import NAME, TOP, committed, release_time, squeezed, version
from trees import SOURCES, crates_below, files_of, libraries_of, read

MAKEFILE = "release/Makefile"
# The sums of the last release's objects, as they are in the tarball, too.
SUMS = "release/SHA256SUMS"
OBJECTS = "objects"
# The crates of which the objects are, and what else the program and the C library are made of.
BUILT = ("cdb", "cdb_c")
BESIDE = ("VERSION", "crates.txt", "clib/")
# What the tarball has of the commit, beside its own Makefile.
HELD = (
    *("LICENSE", "VERSION", "README.md", "CHANGELOG.md", "CONTRIBUTING.md", "SECURITY.md", "docs", "man", "clib", "completion", SUMS),
    "packaging",
    *("tools/install.mk", "tools/installed.sh", "tools/package.py"),
    *("tests/README.md", "tests/run.py", "tests/commands.txt", "tests/cli", "tests/clib", "tests/drawn", "tests/faults", "tests/growth", "tests/package"),
)


class Missing(Exception):
    """Why there is no release of these objects."""


def sum_of_sources(top=TOP):
    """The sum of all that the program and the C library are made of, their toolchain's name included."""
    libraries = libraries_of(top)
    crates = {it for built in BUILT for it in crates_below(libraries, built)}
    folders = tuple(f"crates/{crate}/{part}/" for crate in crates for part in SOURCES)
    found = hashlib.sha256(named_toolchain(top).encode())
    for name in sorted(it for it in files_of(top) if it.startswith((*folders, *BESIDE))):
        with open(os.path.join(top, name), "rb") as file:
            found.update(f"{name} {hashlib.sha256(file.read()).hexdigest()}\n".encode())
    return found.hexdigest()


def heading(of):
    """The first line of the sums of a version's objects."""
    return f"# The objects of {NAME} {of}.\n"


def sums_of(objects):
    """The sums of the objects, as sha256sum reads them, with the version and the sources that they are of."""
    lines = [f"{hashlib.sha256(data).hexdigest()}  {name}\n" for name, data in objects.items()]
    return f"{heading(version())}# Sources {sum_of_sources()}.\n{''.join(lines)}"


def released(top=TOP):
    """The sums of the last release's objects."""
    return read(top, SUMS)


def is_of_release(top=TOP):
    """Whether a tree has the sources of the last release. One file of them is VERSION."""
    return os.path.exists(os.path.join(top, SUMS)) and f"# Sources {sum_of_sources(top)}.\n" in released(top)


def read_all(paths):
    """The bytes of files, by their names without folders."""
    objects = {}
    for path in paths:
        try:
            with open(path, "rb") as file:
                objects[os.path.basename(path)] = file.read()
        except OSError as fault:
            raise Missing(f"{path} is not there") from fault
    return objects


def with_files(tar, whole, files):
    """A tarball with more files in its folder."""
    to = io.BytesIO(tar)
    with tarfile.open(fileobj=to, mode="a:") as made:
        for name, data in files.items():
            entry = tarfile.TarInfo(f"{whole}/{name}")
            entry.size, entry.mode, entry.mtime = len(data), 0o644, int(release_time().timestamp())
            entry.uname = entry.gname = "root"
            made.addfile(entry, io.BytesIO(data))
    return to.getvalue()


def make_release(program, library, folder):
    """Makes the tarball of a program's object and a library, and answers its name."""
    checker = os.environ.get("RT") or "rt"
    if shutil.which(checker) is None:
        raise Missing(f"they need the toolchain's C, and there is no command {checker}")
    objects = read_all([program, library, *archives()])
    if f"cdb {version()} ({NAME.capitalize()})\n".encode() not in objects[os.path.basename(program)]:
        raise Missing(f"{program} is of another version than {version()}")
    sums = sums_of(objects)
    if heading(version()) in released() and sums != released():
        raise Missing(f"{version()} was released with others, whose sums {SUMS} has")
    with open(os.path.join(TOP, MAKEFILE), "rb") as file:
        files = {"Makefile": file.read()}
    files |= {f"{OBJECTS}/{name}": data for name, data in objects.items()}
    files[f"{OBJECTS}/SHA256SUMS"] = sums.encode()
    whole = f"{NAME}-{version()}-{platform.machine()}-linux"
    made = os.path.join(folder, f"{whole}.tar.gz")
    data = squeezed(with_files(committed(whole, *HELD), whole, files))
    with open(made, "wb") as file:
        file.write(data)
    return made


def main():
    if len(sys.argv) != 4:
        sys.exit(__doc__)
    os.makedirs(sys.argv[3], exist_ok=True)
    try:
        made = make_release(*sys.argv[1:])
    except Missing as why:
        print(f"No tarball of the objects: {why}")
        return
    with open(made, "rb") as file:
        print(f"{hashlib.sha256(file.read()).hexdigest()}  {made}")


if __name__ == "__main__":
    main()
