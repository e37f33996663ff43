#!/usr/bin/env python3
"""Installs the program into a folder and removes it, and looks at what linked files promise the loader.

    tests/package/installing.py PROGRAM [LIBRARY]

PROGRAM is bin/cdb, and LIBRARY bin/libcdb.so.1, or those of another such folder; neither is built again. The program is
static, and has no loader, unless LINKED of the environment says that flags asked for another kind. Each can lie at any
address. The stack of each is no code, its tables are read only once they are filled, and each binds at once. The library
has its name, and checks the ends of its buffers on the stack. The program runs on each processor of x86-64. If it lies in
a folder `tested`, it may be the one that the gate took from `rt ci`, which has no word for a processor: that one needs a
processor of 2009 or later.
"""

import os
import re
import struct
import subprocess
import sys
import tempfile

from held import tell

TOP = os.path.join(os.path.dirname(os.path.abspath(__file__)), "..", "..")
INSTALLED = {
    "bin/cdb": 0o755,
    "share/man/man1/cdb.1": 0o644,
    "share/man/man5/cdb.5": 0o644,
    "share/bash-completion/completions/cdb": 0o644,
    "share/zsh/site-functions/_cdb": 0o644,
    "share/fish/vendor_completions.d/cdb.fish": 0o644,
    "share/doc/pezundrix/GUIDE.md": 0o644,
    "share/doc/pezundrix/LICENSE": 0o644,
}
# The kinds of parts that the loader reads, and the tags of the dynamic part.
DYNAMIC, INTERPRETER, STACK, RELRO = 2, 3, 0x6474E551, 0x6474E552
STRINGS, SONAME, FLAGS, FLAGS_1 = 5, 14, 30, 0x6FFFFFFB
CODE, BIND_NOW, NOW, PIE = 1, 8, 1, 0x08000000
# The kind of a file whose parts can lie at any address.
SHARED = 3
# What a program says that is built for later processors, if it begins on an earlier one: the level of x86-64.
LEVEL = re.compile(rb"x86-64-v(\d), which")
# The level of what the checker builds without a word for a processor, and the folder of what the gate takes of that.
UNNAMED, TAKEN = b"2", "tested"
# What a function calls whose return address was overwritten.
STACK_CHECK = b"\0__stack_chk_fail\0"


def read(path):
    """The bytes of a file, or None if it is not there."""
    if not os.path.isfile(path):
        return None
    with open(path, "rb") as file:
        return file.read()


def parts_of(data):
    """The parts of a 64-bit ELF file that its head lists, by their kind: flags, place and size."""
    start = struct.unpack_from("<Q", data, 32)[0]
    size, count = struct.unpack_from("<HH", data, 54)
    found = {}
    for place in range(start, start + size * count, size):
        kind, flags, offset, _, _, length = struct.unpack_from("<IIQQQQ", data, place)
        found.setdefault(kind, (flags, offset, length))
    return found


def tags_of(data):
    """What the dynamic part says, if there is one, by its tag."""
    _, offset, length = parts_of(data).get(DYNAMIC, (0, 0, 0))
    return dict(struct.unpack_from("<qQ", data, place) for place in range(offset, offset + length, 16))


def is_guarded(data):
    """Whether the stack of a file is no code and its tables are read only."""
    found = parts_of(data)
    return STACK in found and not found[STACK][0] & CODE and RELRO in found


def binds_at_once(tags):
    """Whether all of a file's tables are filled before it runs."""
    return bool(tags.get(FLAGS, 0) & BIND_NOW or tags.get(FLAGS_1, 0) & NOW)


def is_movable(data):
    """Whether the parts of a file can lie at any address."""
    return struct.unpack_from("<H", data, 16)[0] == SHARED


def make(out, *words):
    """Whether make succeeds, with the program as it is in the folder of what is built."""
    words = ["make", "-s", "-C", TOP, f"OUT={out}", "-o", f"{out}/cdb", *words]
    return subprocess.run(words, capture_output=True, check=False).returncode == 0


def installs(program):
    """Whether each file is installed with its permissions, as it was built, and removed again."""
    with tempfile.TemporaryDirectory() as root:
        where = [f"DESTDIR={root}", "PREFIX=/usr"]
        out = os.path.relpath(os.path.dirname(program), TOP)
        yield "make install succeeds", make(out, "install", *where)
        for name, mode in INSTALLED.items():
            path = os.path.join(root, "usr", name)
            yield f"{name} has the bits {mode:o}", os.path.isfile(path) and os.stat(path).st_mode & 0o7777 == mode
        yield "the program is the one that was built", read(os.path.join(root, "usr/bin/cdb")) == read(program)
        yield "make uninstall succeeds", make(out, "uninstall", *where)
        yield "make uninstall leaves no file", files_in(root) == []


def keeps_others(program):
    """Whether a file that somebody changed since it was installed stays, and no other; also after a second install."""
    with tempfile.TemporaryDirectory() as root:
        where = [f"DESTDIR={root}", "PREFIX=/usr"]
        out = os.path.relpath(os.path.dirname(program), TOP)
        first, again = make(out, "install", *where), make(out, "install", *where)
        page = os.path.join(root, "usr/share/man/man1/cdb.1")
        with open(page, "wb") as file:
            file.write(b"another's")
        yield "make install succeeds twice, and make uninstall after it", first and again and make(out, "uninstall", *where)
        yield "what is another's by now stays, and no other file", files_in(root) == [page]
        yield "what is another's stays as it is", read(page) == b"another's"


def notes():
    """Whether a list keeps what an earlier install put there, and all may read it whatever the umask."""
    with tempfile.TemporaryDirectory() as root:
        for number, name in enumerate(("/lib/a", "/lib64/a", "/lib/a")):
            os.makedirs(os.path.dirname(root + name), exist_ok=True)
            with open(root + name, "wb") as file:
                file.write(b"%d" % number)
            installed("note", root, "/share/it/a.list", name)
        bits = [os.stat(root + it).st_mode & 0o777 for it in ("/share/it", "/share/it/a.list")]
        yield "all may read the list", bits == [0o755, 0o644]
        listed = [line.split("  ")[1] for line in read(root + "/share/it/a.list").decode().splitlines()]
        yield "a second install adds to the list", sorted(listed) == ["/lib/a", "/lib64/a"]
        installed("remove", root, "/share/it/a.list")
        yield "what two installs put there is removed", files_in(root) == []


def files_in(root):
    """The files below a folder."""
    return [os.path.join(place, it) for place, _, files in os.walk(root) for it in files]


def installed(*words):
    """Runs the tool that keeps the list, as a user whose new files are for that user alone."""
    words = ["sh", os.path.join(TOP, "tools", "installed.sh"), *words]
    subprocess.run(words, check=True, stdout=subprocess.DEVNULL, preexec_fn=lambda: os.umask(0o077))


def is_linked(program):
    """What the program promises."""
    data = read(program)
    yield "the program needs no loader", INTERPRETER not in parts_of(data)
    yield "the program can lie at any address", is_movable(data) and bool(tags_of(data).get(FLAGS_1, 0) & PIE)
    yield "the program binds at once", binds_at_once(tags_of(data))
    yield "the program's stack is no code, and its tables are read only", is_guarded(data)
    may_need = {UNNAMED} if os.path.basename(os.path.dirname(program)) == TAKEN else set()
    yield "the program runs on each x86-64", set(LEVEL.findall(data)) <= may_need


def is_shared(library):
    """What the library promises."""
    data = read(library)
    tags = tags_of(data)
    # Its parts are at their own places, so the address of its strings is their place.
    name = data[tags[STRINGS] + tags.get(SONAME, 0) :].split(b"\0", 1)[0]
    yield "the library has its name", SONAME in tags and name == b"libcdb.so.1"
    yield "the library binds at once", binds_at_once(tags)
    yield "the library can lie at any address", is_movable(data)
    yield "the library checks its buffers on the stack", STACK_CHECK in data
    yield "the library's stack is no code, and its tables are read only", is_guarded(data)


def main():
    if len(sys.argv) not in (2, 3):
        sys.exit(__doc__)
    program = os.path.abspath(sys.argv[1])
    held = [*installs(program), *keeps_others(program), *notes()]
    held += [] if os.environ.get("LINKED") else is_linked(program)
    for library in sys.argv[2:]:
        held += is_shared(library)
    tell(held)


if __name__ == "__main__":
    main()
