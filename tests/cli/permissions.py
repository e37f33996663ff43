#!/usr/bin/env python3
"""Compares the permissions of a database before and after a create, and those of the temporary file.

    tests/cli/permissions.py PROGRAM

The temporary file is open to this user alone until it is whole. A database that replaces a regular file
then has its permission bits, or those of one that vanished during the build. If none is replaced, or a link,
the umask decides, or the default access list of the temporary file's folder, as of any new file there. In
place nothing changes. An old temporary file has no part in it, nor has the length of the name. Another user's
file gives no permissions, to root neither: the new one has those of a plain new file, and that user the rights of
others. If several users make a map in turn, each keeps the bits of one's own file alone. In a sticky folder
another user's temporary file stops a create, and `-t` helps. If the file system knows no access lists, or the
user cannot become another, such rows are left out, and that is said.
"""

import errno
import itertools
import os
import shutil
import struct
import subprocess
import sys
import tempfile

from files import TWO_FILE, TWO_TEXT
from rows import HANGS, leave_out
from waiting import waits

MODES = (0o400, 0o444, 0o600, 0o640, 0o644, 0o664, 0o666, 0o755)
MASKS = (0o000, 0o002, 0o022, 0o027, 0o077)
PRIVATE = 0o600
# The default access list of a folder, as Linux keeps it: its version, and then the kind, the permissions and
# the number of each entry.
LIST = "system.posix_acl_default"
USER, GROUP, MASK, OTHER, NAMED = 0x01, 0x04, 0x10, 0x20, 0x02
NOBODY = 0xFFFFFFFF
# A user who makes a database, and a stranger.
MAKER, STRANGER = 1001, 1002
# Who makes a database that several users make in turn, and the bits that it gets afterwards, if others; and what it has
# after each create.
TURNS = [(MAKER, 0o640), (MAKER, None), (STRANGER, 0o600), (STRANGER, None)]
TURNS += [(MAKER, None), (0, 0o640), (0, None), (STRANGER, None)]
TURNED = [0o644, 0o640, 0o644, 0o600, 0o644, 0o644, 0o640, 0o644]
OPEN = b"cdb: file cannot be opened\n"
LISTS = {
    "others are kept out": ([(USER, 7, NOBODY), (GROUP, 5, NOBODY), (OTHER, 0, NOBODY)], 0o640),
    "all may write": ([(USER, 7, NOBODY), (GROUP, 7, NOBODY), (OTHER, 7, NOBODY)], 0o666),
    "one user may read": (
        [(USER, 6, NOBODY), (NAMED, 4, 1002), (GROUP, 0, NOBODY), (MASK, 4, NOBODY), (OTHER, 0, NOBODY)],
        0o640,
    ),
}


def mode_of(path):
    """The permission bits of a path, which is not followed as a link."""
    return os.lstat(path).st_mode & 0o7777


def while_waiting(program, folder, mask, words, meanwhile=lambda path: None):
    """The bits of the temporary file while the create waits for its text, and its status. Something may be done
    to the database meanwhile."""
    how = dict(cwd=folder, stdin=subprocess.PIPE, preexec_fn=lambda: os.umask(mask) and None)
    database = os.path.join(folder, "x")
    temporary = os.path.join(folder, words[words.index("-t") + 1]) if "-t" in words else database + ".tmp"
    with subprocess.Popen([program, *words], **how) as process:
        if not waits(process, database if "-" in words else temporary):
            process.kill()
            return None, None
        mode = mode_of(temporary) if os.path.exists(temporary) else None
        meanwhile(database)
        process.communicate(TWO_TEXT, timeout=HANGS)
        return mode, process.returncode


def place(path, mode):
    """Makes an empty file of these bits, or a link to one that has others, or nothing."""
    if mode == "link":
        place(os.path.join(os.path.dirname(path), "y"), 0o600)
        os.symlink("y", path)
    elif mode is not None:
        with open(path, "xb"):
            os.chmod(path, mode)


def left_by(program, mask, old, words=("-c", "x"), stale=None, meanwhile=lambda path: None):
    """The bits of the temporary file and of the database, and whether the database is whole. An old
    temporary file may be there, of these bits."""
    with tempfile.TemporaryDirectory() as folder:
        path = os.path.join(folder, "x")
        place(path + ".tmp", stale)
        place(path, old)
        temporary, status = while_waiting(program, folder, mask, words, meanwhile)
        if status != 0:
            return temporary, status, False
        with open(path, "rb") as file:
            return temporary, mode_of(path), file.read() == TWO_FILE


def becomes(mode):
    """What replaces the database meanwhile: a file of these bits, a link, or nothing."""

    def replace(path):
        if os.path.lexists(path):
            os.remove(path)
        place(path, mode)

    return replace


def allows(folder, entries):
    """Gives a folder a default access list, and answers whether the file system knows such lists."""
    whole = struct.pack("<I", 2) + b"".join(struct.pack("<HHI", *it) for it in entries)
    try:
        os.setxattr(folder, LIST, whole)
    except OSError as fault:
        if fault.errno in (errno.ENOTSUP, errno.EPERM):
            return False
        raise
    return True


def listed(program, entries, inner=""):
    """The status of a create, the bits of a new database and of a plain new file in the folder of its temporary
    file, which has a default access list, and how many files there are in all; or None if the file system knows
    no such list."""
    with tempfile.TemporaryDirectory() as folder:
        where = os.path.join(folder, inner)
        os.makedirs(where, exist_ok=True)
        if not allows(where, entries):
            return None
        words = ("-c", "-t", os.path.join(inner, "t"), "x") if inner else ("-c", "x")
        _, status = while_waiting(program, folder, 0o022, words)
        plain = os.path.join(where, "plain")
        with open(plain, "xb"):
            pass
        count = sum(len(files) for _, _, files in os.walk(folder))
        return status, mode_of(os.path.join(folder, "x")), mode_of(plain), count


def named(program, size):
    """The status and the bits of a new database whose name has so many bytes, and how many files there are."""
    with tempfile.TemporaryDirectory() as folder:
        how = dict(cwd=folder, input=TWO_TEXT, timeout=HANGS, check=False, preexec_fn=lambda: os.umask(0o022) and None)
        done = subprocess.run([program, "-cv", "-t", "t", "n" * size], **how)
        return done.returncode, mode_of(os.path.join(folder, "n" * size)), len(os.listdir(folder))


def become_another(user=MAKER):
    """Takes root's rights from this process."""
    os.umask(0o022)
    os.setgroups([])
    os.setgid(user)
    os.setuid(user)


def opens(path, how):
    """Whether the stranger may open a file."""
    process = os.fork()
    if process == 0:
        status = 1
        try:
            become_another(STRANGER)
            os.close(os.open(path, how))
            status = 0
        finally:
            os._exit(status)
    return os.waitstatus_to_exitcode(os.waitpid(process, 0)[1]) == 0


def among_strangers(program, words):
    """The status, the line and the bits of a new database in a sticky folder in which another user has an x.tmp
    and an x.bit, and what is there then; or None if this user cannot become another."""
    if os.getuid() != 0:
        return None
    with tempfile.TemporaryDirectory() as folder:
        os.chmod(folder, 0o1777)
        for name in ("x.tmp", "x.bit"):
            place(os.path.join(folder, name), 0o644)
            os.chown(os.path.join(folder, name), STRANGER, STRANGER)
        copy = shutil.copy(program, os.path.join(folder, "cdb"))
        how = dict(cwd=folder, input=TWO_TEXT, stderr=subprocess.PIPE, timeout=HANGS, check=False)
        done = subprocess.run([copy, *words], preexec_fn=become_another, **how)
        path = os.path.join(folder, "x")
        mode = mode_of(path) if os.path.exists(path) else None
        return done.returncode, done.stderr, mode, sorted(os.listdir(folder))


def over_a_stranger(program, maker, mask, mode, words=("-c", "x"), sticky=0):
    """The status and the bits of a database that a user makes over another user's file of these bits, in a folder
    that both may write, whose it is, what is there, and whether that other user may read and write it then; or None
    if this user cannot become another."""
    if os.getuid() != 0:
        return None
    with tempfile.TemporaryDirectory() as folder:
        os.chmod(folder, 0o777 | sticky)
        path = os.path.join(folder, "x")
        place(path, mode)
        os.chown(path, STRANGER, STRANGER)
        copy = shutil.copy(program, os.path.join(folder, "cdb"))

        def become():
            if maker:
                become_another()
            os.umask(mask)

        how = dict(cwd=folder, input=TWO_TEXT, stderr=subprocess.PIPE, timeout=HANGS, check=False)
        done = subprocess.run([copy, *words], preexec_fn=become, **how)
        found = done.returncode, mode_of(path), os.stat(path).st_uid, sorted(os.listdir(folder))
        return found, opens(path, os.O_RDONLY), opens(path, os.O_WRONLY)


def beside_stranger(mask, maker):
    """What `over_a_stranger` is to answer: the stranger has the rights of others."""
    plain = 0o666 & ~mask
    return (0, plain, maker, ["cdb", "x"]), bool(plain & 0o004), bool(plain & 0o002)


def in_turn(program):
    """The status, the owner and the bits of a database after each of some creates in a folder that several users may
    write, and what is there then; or None if this user cannot become another. The owner narrows it twice."""
    if os.getuid() != 0:
        return None
    came = []
    with tempfile.TemporaryDirectory() as folder:
        os.chmod(folder, 0o777)
        path = os.path.join(folder, "x")
        copy = shutil.copy(program, os.path.join(folder, "cdb"))
        for user, bits in TURNS:
            how = dict(cwd=folder, input=TWO_TEXT, timeout=HANGS, check=False)
            done = subprocess.run([copy, "-cv", "x"], preexec_fn=lambda: become_another(user), **how)
            came.append((done.returncode, os.stat(path).st_uid, mode_of(path), sorted(os.listdir(folder))))
            if bits is not None:
                os.chmod(path, bits)
    return came


def main():
    if len(sys.argv) != 2:
        sys.exit(__doc__)
    program = os.path.abspath(sys.argv[1])
    came = []
    for mask, mode in itertools.product(MASKS, MODES):
        came.append((f"{mode:o} by {mask:o}", left_by(program, mask, mode), (PRIVATE, mode, True)))
    for mask, old in itertools.product(MASKS, (None, "link")):
        made = 0o666 & ~mask
        came.append((f"{old} by {mask:o}", left_by(program, mask, old), (PRIVATE, made, True)))
    for stale in MODES:
        left = left_by(program, 0o022, 0o640, stale=stale)
        came.append((f"an old temporary file of {stale:o}", left, (PRIVATE, 0o640, True)))
    # Bits beyond those for all are not given.
    left = left_by(program, 0o022, 0o4755)
    came.append(("a program that runs as its owner", left, (PRIVATE, 0o755, True)))
    in_place = ("-c", "-t", "-", "x")
    came.append(("in place", left_by(program, 0o022, 0o600, in_place), (None, 0o600, True)))
    for old, new, mode in ((0o604, None, 0o604), (0o604, "link", 0o604), (None, 0o611, 0o611), (0o604, 0o611, 0o611)):
        left = left_by(program, 0o022, old, meanwhile=becomes(new))
        came.append((f"{old} that becomes {new} meanwhile", left, (PRIVATE, mode, True)))
    came += [(f"a name of {size} bytes", named(program, size), (0, 0o644, 1)) for size in (1, 251, 252, 255)]
    for name, (entries, mode) in LISTS.items():
        came.append((name, listed(program, entries), (0, mode, mode, 2)))
        came.append((f"{name}, of another folder", listed(program, entries, "sub"), (0, mode, mode, 2)))
    there = ["cdb", "x.bit", "x.tmp"]
    came.append(("another's file", among_strangers(program, ["-c", "x"]), (111, OPEN, None, there)))
    mine = among_strangers(program, ["-cv", "-t", "mine", "x"])
    came.append(("beside another's files", mine, (0, b"", 0o644, sorted([*there, "x"]))))
    for maker, mask, mode in itertools.product((MAKER, 0), MASKS, (0o000, 0o444, 0o644, 0o666)):
        left = over_a_stranger(program, maker, mask, mode)
        came.append((f"{maker} over another's {mode:o} by {mask:o}", left, beside_stranger(mask, maker)))
    for mask, mode in itertools.product((0o022, 0o077), (0o000, 0o666)):
        left = over_a_stranger(program, 0, mask, mode, sticky=0o1000)
        came.append((f"in a sticky folder over another's {mode:o} by {mask:o}", left, beside_stranger(mask, 0)))
    turned = [(0, user, bits, ["cdb", "x"]) for (user, _), bits in zip(TURNS, TURNED)]
    came.append(("several users in turn", in_turn(program), turned))
    # In place the file stays its owner's, with its bits.
    left = over_a_stranger(program, MAKER, 0o077, 0o666, ("-c", "-t", "-", "x"))
    came.append(("in place in another's file", left, ((0, 0o666, STRANGER, ["cdb", "x"]), True, True)))
    for what, left, _ in came:
        if left is None:
            leave_out(what, "access lists, or root")
    came = [it for it in came if it[1] is not None]
    wrong = [it for it in came if it[1] != it[2]]
    for what, got, wanted in wrong:
        print(f"{what}: {got} and not {wanted}")
    print(f"{len(came) - len(wrong)} passed, {len(wrong)} failed")
    sys.exit(1 if wrong else 0)


if __name__ == "__main__":
    main()
