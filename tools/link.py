#!/usr/bin/env python3
"""Links a proved program statically: the object that the checker leaves beside it, with the toolchain's C
over the machine's C library. The object is copied beside the program, for a release.

    tools/link.py CRATE TARGET

A static program starts without a loader. It is position-independent, as the one that the checker links is. If
there is no C compiler, or no static C library, TARGET is that one, which needs a C library on the machine that it
runs on. One line says which. The flags of the environment's LDFLAGS come after those of here,
but for one that asks for another kind of program.
"""

import os
import shlex
import shutil
import subprocess
import sys

ARCHIVES = ("liblibc_c.a", "libos_c.a")
# At addresses that the system chooses anew for each process, with tables that are read only once they are filled,
# with no executable stack, and with no name that differs from build to build.
FLAGS = [
    "-static-pie",
    "-Wl,-z,noexecstack",
    "-Wl,-z,relro",
    "-Wl,-z,now",
    "-Wl,--build-id=none",
    "-Wl,--gc-sections",
]
# The flags that ask for a kind of program.
KINDS = ("-static", "-static-pie", "-pie", "-no-pie")


def compiler():
    """The C compiler's command."""
    return shlex.split(os.environ.get("CC") or "cc")


def archives():
    """The toolchain's C."""
    said = subprocess.run([os.environ.get("RT") or "rt", "doc"], capture_output=True, text=True, check=False)
    folder = os.path.join(os.path.dirname(said.stdout.strip()), "c")
    return [os.path.join(folder, it) for it in ARCHIVES]


def links_statically(crate, target):
    """Links a crate's program statically, and answers whether that was done."""
    made = os.path.join(crate, "out", f"{os.path.basename(os.path.normpath(crate))}.o")
    if not os.path.isfile(made):
        return False
    shutil.copy(made, os.path.join(os.path.dirname(os.path.abspath(target)), os.path.basename(made)))
    more = [it for it in shlex.split(os.environ.get("LDFLAGS") or "") if it not in KINDS]
    words = [*compiler(), *FLAGS, *more, "-o", target, made, *archives()]
    try:
        return subprocess.run(words, capture_output=True, check=False).returncode == 0
    except OSError:
        return False


def link(crate, target):
    """Puts a crate's program where it is wanted, and answers how it was linked."""
    new = f"{target}.new"
    is_static = links_statically(crate, new)
    if not is_static:
        shutil.copy(os.path.join(crate, "out", os.path.basename(os.path.normpath(crate))), new)
    os.replace(new, target)
    return "static" if is_static else "dynamic, for want of a C compiler or a static C library"


def main():
    if len(sys.argv) != 3:
        sys.exit(__doc__)
    os.makedirs(os.path.dirname(os.path.abspath(sys.argv[2])), exist_ok=True)
    print(f"{sys.argv[2]} is {link(*sys.argv[1:])}.")


if __name__ == "__main__":
    main()
