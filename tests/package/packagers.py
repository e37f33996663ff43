#!/usr/bin/env python3
"""Makes the packages of other distributions, as the files of packaging/ say, of the tarball of the proved objects.

    tests/package/packagers.py OBJECT LIBRARY

OBJECT and LIBRARY are those of release.py, and so is the path without the checker. Each packager makes its package in a
folder of its own, which is unpacked: it must have its files and no list of them, and its program must run the worked
example. The steps of the image are done in a folder in place of a container. A packager whose commands are not here is left
out, and a line says so.
"""

import glob
import gzip
import os
import re
import shutil
import subprocess
import sys
import tempfile

from held import tell
from release import INSTALLED, Machine, Release, files_below, is_loaded, read
from run import TOP, runs_example
from rows import is_checkout, leave_out

FOLDER = os.path.join(TOP, "packaging")
# Root makes no package of Arch Linux.
NOBODY = ["setpriv", "--reuid=65534", "--regid=65534", "--clear-groups"]
DEBS = ("pezundrix", "pezundrix-libcdb1", "pezundrix-libcdb-dev")
# The note of a program that has the name of its build.
BUILD_ID = b"\x04\x00\x00\x00\x14\x00\x00\x00\x03\x00\x00\x00GNU\x00"


def run(release, words, folder, **more):
    """Whether a command of a packager succeeds; if not, its end is shown."""
    environment = {**release.machine.environment, **more}
    how = {"stdin": subprocess.DEVNULL, "stdout": subprocess.PIPE, "stderr": subprocess.STDOUT, "text": True}
    done = subprocess.run(words, cwd=folder, env=environment, errors="replace", check=False, **how)
    print(done.stdout[-2000:] if done.returncode else "", end="")
    return done.returncode == 0


def place_of(release, name, *more):
    """A folder with the tarball and a packager's file, for all to use."""
    place = os.path.join(release.machine.place(name), "place")
    os.makedirs(os.path.join(place, *more))
    shutil.copy(release.tarball, os.path.join(place, *more))
    shutil.copy(os.path.join(FOLDER, name), place)
    return place


def is_whole(tree, machine, folder="usr/lib"):
    """Whether a package has all files below usr, with pages that may be compressed, and its program runs the example."""
    files = {it.removesuffix(".gz").replace(folder, "usr/lib") for it in files_below(tree)}
    wanted = {f"usr/{it}".replace("site-functions", "vendor-completions" if folder.endswith("-gnu") else "site-functions") for it in INSTALLED}
    lacking = wanted - files
    print("".join(f"not in the package: {it}\n" for it in sorted(lacking)), end="")
    return not lacking and not os.path.exists(f"{tree}/usr/share/pezundrix") and runs_example(f"{tree}/usr/bin/cdb", machine.place("example"))


def rpm(release):
    """The package of RPM, whose flags give the program the name of its build."""
    place = place_of(release, "pezundrix.spec", "SOURCES")
    words = ["rpmbuild", "-bb", "--nodeps", "--define", f"_topdir {place}", "--define", f"_dbpath {place}/db", "pezundrix.spec"]
    yield "it is made", run(release, words, place)
    for path in glob.glob(f"{place}/RPMS/*/*.rpm"):
        with open(path, "rb") as package:
            packed = subprocess.run(["rpm2archive", "-"], stdin=package, stdout=subprocess.PIPE, check=True).stdout
        tree = release.machine.place("tree")
        subprocess.run(["tar", "-x", "-C", tree], input=gzip.decompress(packed), check=True)
        yield "it is whole", is_whole(tree, release.machine, "usr/lib64")
        yield "its flags win", BUILD_ID in read(f"{tree}/usr/bin/cdb") and is_loaded(f"{tree}/usr/bin/cdb")


def arch(release):
    """The package of Arch Linux."""
    place = place_of(release, "PKGBUILD")
    drop = [] if os.geteuid() else NOBODY
    if drop:
        for it in (release.machine.folder, os.path.dirname(place)):
            os.chmod(it, 0o755)
        for it in (place, *(os.path.join(place, name) for name in os.listdir(place))):
            os.chown(it, 65534, 65534)
    # Nothing is asked of the packages that are installed.
    yield "it is made", run(release, [*drop, "makepkg", "--nodeps"], place, PACMAN="true", HOME=place, PKGEXT=".pkg.tar.gz")
    for path in glob.glob(f"{place}/*.pkg.tar.gz"):
        tree = release.machine.place("tree")
        subprocess.run(["tar", "-xzf", path, "-C", tree], check=True)
        yield "it is whole", is_whole(tree, release.machine)


def debian(release):
    """The source package of Debian, and the packages that it makes."""
    place = release.machine.place("debian")
    yield "it is made", run(release, [os.path.join(TOP, "tools", "package.py"), "source", release.tarball, place], place)
    again = release.machine.place("again")
    run(release, [os.path.join(TOP, "tools", "package.py"), "source", release.tarball, again], again)
    yield "it is the same each time", files_below(place) == files_below(again) and all(read(f"{place}/{it}") == read(f"{again}/{it}") for it in files_below(place))
    yield "it unpacks", run(release, ["dpkg-source", "-x", *glob.glob(f"{place}/*.dsc"), f"{place}/tree"], place)
    # The build's own test runs the table of the command line.
    yield "it builds", run(release, ["dpkg-buildpackage", "-b", "-us", "-uc", "-d"], f"{place}/tree")
    tree = release.machine.place("tree")
    made = [path for it in DEBS for path in glob.glob(f"{place}/{it}_*.deb")]
    for path in made:
        subprocess.run(["dpkg-deb", "--extract", path, tree], check=True)
    yield "its packages are whole", len(made) == 3 and is_whole(tree, release.machine, "usr/lib/x86_64-linux-gnu")


def image(release):
    """The image: what its file does to the tarball makes a program that needs nothing beside it."""
    place = place_of(release, "Dockerfile")
    lines = read(f"{place}/Dockerfile").decode().splitlines()
    (made,) = [it.removeprefix("RUN ") for it in lines if it.startswith("RUN cd ")]
    subprocess.run(["tar", "-xzf", release.tarball, "-C", place], check=True)
    yield "it is made", run(release, ["sh", "-ec", re.sub(r"(?<= )/", f"{place}/", made)], place)
    (copied,) = [it.split()[2:-1] for it in lines if it.startswith("COPY ")]
    yield "what it copies is there", all(os.path.isfile(f"{place}{it}") for it in copied)
    yield "its program needs nothing", not is_loaded(f"{place}/cdb") and runs_example(f"{place}/cdb", release.machine.place("example"))


# The commands that each needs, and how many rows it has.
PACKAGERS = {
    rpm: (("rpmbuild", "rpm2archive"), 3),
    arch: (("makepkg", "fakeroot", "bsdtar", "setpriv"), 2),
    debian: (("dpkg-source", "dpkg-buildpackage", "dh"), 5),
    image: (("strip",), 3),
}


def main():
    if len(sys.argv) != 3:
        sys.exit(__doc__)
    if not is_checkout():
        print("0 passed, 0 failed: this is no git checkout, of which a tarball is made")
        return
    held = []
    with tempfile.TemporaryDirectory() as folder:
        release = Release(Machine(folder), [os.path.abspath(it) for it in sys.argv[1:]])
        for packager, (commands, rows) in PACKAGERS.items():
            lacking = [it for it in commands if shutil.which(it) is None]
            if lacking:
                for row in range(rows):
                    leave_out(f"{packager.__name__}, row {row + 1} of {rows}", lacking[0])
            else:
                held += [(f"{packager.__name__}: {what}", holds) for what, holds in packager(release)]
    tell(held)


if __name__ == "__main__":
    main()
