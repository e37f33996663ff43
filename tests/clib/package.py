#!/usr/bin/env python3
"""Makes the packages of the C library twice, unpacks them, and builds a program from them.

    tests/clib/package.py FOLDER

FOLDER has libcdb.so.1 and libcdb.a. The program is makes.c, built from the unpacked header with each
library; it makes a drawn database. The library is installed into a folder too, and removed from there.
`lintian` may find no error and warn of nothing, a C++ compiler reads the header too, and `clang` builds the library.
"""

import glob
import os
import re
import subprocess
import sys
import tempfile

from maker import drawn_script
from making import Driver, compare
from rows import has

HERE = os.path.dirname(os.path.abspath(__file__))
TOP = os.path.join(HERE, "..", "..")
TOOL = os.path.join(TOP, "tools", "package.py")
COMPILER = (os.environ.get("CC") or "cc").split()
# What is tested if a command is here.
READ, BUILT, LINTED = "a C++ compiler reads the header", "clang builds the library", "lintian finds nothing of weight"
# What each package holds, below the folder of its architecture's libraries or below usr.
SHARED = {"LIBRARIES/libcdb.so.1": 0o644, "share/doc/pezundrix-libcdb1/copyright": 0o644}
BUILDING = {
    "include/cdb.h": 0o644,
    "LIBRARIES/libcdb.a": 0o644,
    "LIBRARIES/pkgconfig/libcdb.pc": 0o644,
    "share/man/man3/cdb.3.gz": 0o644,
    "share/doc/pezundrix-libcdb-dev/copyright": 0o644,
}


def output_of(words):
    """What a command that succeeds writes."""
    return subprocess.run(words, capture_output=True, check=True).stdout.decode()


def made_twice(library, folder):
    """The names of the packages, and whether they have the same bytes each time."""
    found = []
    for _ in range(2):
        where = tempfile.mkdtemp(dir=folder)
        lines = output_of([TOOL, "clib", library, where]).splitlines()
        found.append([line.split("  ") for line in lines])
    sums = [[told for told, _ in made] for made in found]
    return [path for _, path in found[0]], sums[0] == sums[1]


def holds(tree, held):
    """Whether the files are there, with their permissions."""
    libraries = os.path.dirname(glob.glob(f"{tree}/usr/lib/*/libcdb.so.1")[0])
    for name, mode in held.items():
        path = os.path.join(tree, "usr", name.replace("LIBRARIES", libraries))
        if not os.path.isfile(path) or os.stat(path).st_mode & 0o7777 != mode:
            return False
    return True


def makes_drawn(compiler, tree, folder, library):
    """Whether a program that is built with a library makes a drawn database, in a folder."""
    program = os.path.join(folder, "makes-" + os.path.basename(library))
    output_of([*compiler, "-I", f"{tree}/usr/include", "-o", program, os.path.join(HERE, "makes.c"), library])
    driver = Driver(program, os.path.dirname(library), folder)
    scripts = [drawn_script(9, 100)]
    driver.place(scripts)
    return compare(driver, scripts, driver.run()) is None


def runs(tree, folder, library):
    """Whether a program that is built with a library of the packages makes a drawn database."""
    libraries = os.path.dirname(glob.glob(f"{tree}/usr/lib/*/libcdb.so.1")[0])
    return makes_drawn(COMPILER, tree, folder, os.path.join(libraries, library))


def field_of(package, field):
    """A field of a package."""
    return output_of(["dpkg-deb", "--field", package, field]).strip()


def replaces(package, name, of_architecture=False):
    """Whether a package stands in for one of tinycdb: for that of its own architecture alone, if those of
    several can be installed."""
    other = f"{name}:{field_of(package, 'Architecture')}" if of_architecture else name
    fields = [field_of(package, it) for it in ("Conflicts", "Replaces", "Provides")]
    return fields[:2] == [other, other] and fields[2].startswith(f"{name} (= ")


def names_symbols(package, tree):
    """Whether the package lists the names that its library has, and no others; of those that tinycdb has not,
    a program needs this package."""
    listed = output_of(["dpkg-deb", "--info", package, "symbols"]).splitlines()
    library = glob.glob(f"{tree}/usr/lib/*/libcdb.so.1")[0]
    defined = output_of(["nm", "-D", "--defined-only", library]).split("\n")
    names = sorted(line.split()[-1] for line in defined if line)
    own = [line for line in listed if line.endswith(" 1")]
    return (
        listed[0].startswith("libcdb.so.1 pezundrix-libcdb1 #MINVER#")
        and listed[1] == "| pezundrix-libcdb1 #MINVER#"
        and names == [line.split("@")[0].strip() for line in listed[2:]]
        and [line.split("@")[0] for line in own] == [" cdb_make_abort"]
    )


# A program with names of its own that the library has too, and one that only hashes.
OWN_NAMES = """
#include <cdb.h>
#include <stdio.h>
unsigned cdb_hash(const void *b, unsigned n) { (void)b; return n & 1; }
void cdb_pack(unsigned n, unsigned char b[4]) { b[0] = (unsigned char)n; }
unsigned cdb_unpack(const unsigned char b[4]) { return b[0]; }
int main(void)
{
  struct cdb_make m;
  struct cdb c;
  unsigned len = 0;
  int fd = fileno(tmpfile());
  if (cdb_make_start(&m, fd) || cdb_make_add(&m, "one", 3, "value", 5) || cdb_make_finish(&m)) return 1;
  if (cdb_init(&c, fd) || cdb_find(&c, "one", 3) != 1 || cdb_seek(fd, "one", 3, &len) != 1) return 2;
  return len == 5 && cdb_hash("one", 3) == 1 ? 0 : 3;
}
"""
HASHES = """
#include <cdb.h>
int main(void) { return cdb_hash("a", 1) == 177604 ? 0 : 1; }
"""
# How much larger a program may be that hashes than one that does nothing, in bytes.
HASH_SIZE = 4096


def built(tree, folder, name, text):
    """A program of some text with the static library."""
    path = os.path.join(folder, name)
    with open(path + ".c", "w", encoding="ascii") as to:
        to.write(text)
    archive = glob.glob(f"{tree}/usr/lib/*/libcdb.a")[0]
    output_of([*COMPILER, "-I", f"{tree}/usr/include", "-o", path, path + ".c", archive])
    return path


def keeps_own_names(tree, folder):
    """Whether a program may have names of the library, which then uses its own."""
    return subprocess.run([built(tree, folder, "own", OWN_NAMES)], check=False).returncode == 0


def takes_little(tree, folder):
    """Whether a program that only hashes gets no more of the library."""
    hashes = built(tree, folder, "hashes", HASHES)
    nothing = built(tree, folder, "nothing", "int main(void) { return 0; }")
    size = os.path.getsize(hashes) - os.path.getsize(nothing)
    return subprocess.run([hashes], check=False).returncode == 0 and size <= HASH_SIZE


def make(*words, **how):
    """What make says, with the folder of what is built."""
    done = subprocess.run(["make", "-s", f"OUT={sys.argv[1]}", *words], cwd=TOP, capture_output=True, check=True, **how)
    return done.stdout.decode()


def is_not_optimized_late():
    """Whether the library's objects are whole, also if the flags ask for the linker to optimize."""
    words = make("-n", "-B", f"{sys.argv[1]}/seeking.o", "CFLAGS=-O2 -flto").split()
    return words.index("-fno-lto") > words.index("-flto")


def checks_the_stack():
    """Whether the objects check the ends of their buffers on the stack, unless the flags say otherwise."""
    own, given = (make("-n", "-B", f"{sys.argv[1]}/seeking.o", it) for it in ("CFLAGS=-O2", "CFLAGS=-fno-stack-protector"))
    return "-fstack-protector-strong" in own.split() and "-fstack-protector-strong" not in given.split()


def is_built_by_clang(tree, folder):
    """Whether clang builds the shared library with no warning, and a program makes a drawn database by it."""
    place = tempfile.mkdtemp(dir=folder)
    built = sys.argv[1]
    lines = make("-n", "-B", f"{built}/libcdb.so.1", "CC=clang", "WERROR=-Werror").replace("\\\n", " ").splitlines()
    for line in lines:
        if line.startswith("clang"):
            words = [re.sub(rf"^{built}/(?=\w+\.o$|libcdb\.so)", f"{place}/", it) for it in line.split()]
            subprocess.run(words, cwd=TOP, check=True)
    return makes_drawn(["clang"], tree, place, os.path.join(place, "libcdb.so.1"))


def installs_and_removes(folder):
    """Whether what is installed has its permissions under any mask, and is removed again, and what is
    another's by then stays. The words for pkg-config are filled in."""
    root = os.path.join(folder, "root")
    places = (f"DESTDIR={root}", "PREFIX=/usr", "LIBDIR=/usr/lib/x")
    make("install-clib", *places, preexec_fn=lambda: os.umask(0o077))
    files = [os.path.join(path, name) for path, _, names in os.walk(root) for name in names]
    with open(os.path.join(root, "usr/lib/x/pkgconfig/libcdb.pc"), encoding="utf-8") as file:
        words = file.read()
    is_filled = "@" not in words and "libdir=/usr/lib/x\n" in words and re.search(r"^Version: \d", words, re.M)
    modes = {os.stat(it).st_mode & 0o777 for it in files}
    other = os.path.join(root, "usr/lib/x/libcdb.a")
    with open(other, "wb") as to:
        to.write(b"another's")
    said = make("uninstall", *places)
    left = [os.path.join(path, name) for path, _, names in os.walk(root) for name in names]
    return is_filled and len(files) == 8 and modes == {0o644} and left == [other] and other in said


def has_no_error(packages):
    """Whether lintian finds no error and warns of nothing."""
    done = subprocess.run(["lintian", "--allow-root", *packages], capture_output=True, check=False)
    errors = re.findall(r"^[EW]: .*$", done.stdout.decode(), re.M)
    print("\n".join(errors), end="\n" if errors else "")
    return not errors


def tests_of(library, folder):
    """What is tested, each with whether it holds."""
    packages, is_same = made_twice(library, folder)
    tree = os.path.join(folder, "tree")
    for package in packages:
        output_of(["dpkg-deb", "--extract", package, tree])
    held = {
        "the packages have the same bytes each time": is_same,
        "the packages hold their files": holds(tree, SHARED) and holds(tree, BUILDING),
        "the packages replace tinycdb's": replaces(packages[0], "libcdb1", of_architecture=True)
        and replaces(packages[1], "libcdb-dev"),
        "the package lists the library's names": names_symbols(packages[0], tree),
        "a program may have names of its own": keeps_own_names(tree, folder),
        "a program that hashes gets no more": takes_little(tree, folder),
        "no object waits for the linker": is_not_optimized_late(),
        "the objects check the stack": checks_the_stack(),
        "what is installed is removed, and no more": installs_and_removes(folder),
        "a program runs on the shared library": runs(tree, folder, "libcdb.so"),
        "a program runs with the static library": runs(tree, folder, "libcdb.a"),
        "a program runs with its other name": runs(tree, folder, "libcdb_pic.a"),
    }
    if has("c++", READ):
        words = ["c++", "-fsyntax-only", "-Wall", "-Werror", "-x", "c++", f"{tree}/usr/include/cdb.h"]
        done = subprocess.run(words, capture_output=True, check=False)
        held[READ] = done.returncode == 0
    if has("clang", BUILT):
        held[BUILT] = is_built_by_clang(tree, folder)
    if has("lintian", LINTED):
        held[LINTED] = has_no_error(packages)
    return held


def main(library):
    with tempfile.TemporaryDirectory() as folder:
        held = tests_of(os.path.abspath(library), folder)
    failed = [name for name, holds_it in held.items() if not holds_it]
    for name in failed:
        print(f"failed: {name}")
    print(f"{len(held) - len(failed)} passed, {len(failed)} failed")
    return 1 if failed else 0


if __name__ == "__main__":
    if len(sys.argv) != 2:
        sys.exit(__doc__)
    sys.exit(main(sys.argv[1]))
