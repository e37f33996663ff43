#!/usr/bin/env python3
"""Runs the program on each case of cases.py, sets.py and causes.py, in a folder of its own, and compares all it leaves.

    tests/cli/run.py PROGRAM
"""

import contextlib
import os
import resource
import shutil
import signal
import socket
import stat
import subprocess
import sys
import tempfile

from cases import CASES
from causes import CAUSES
from places import CLOSED, FOLDER, PIPE, UNREAD, Link
from rows import HANGS
from sets import SETS

# The permissions that a new file is to have, with the mask that the program is run with.
MASK = 0o027
MADE = 0o640
NOBODY = 65534


def opened(stream, flags, streams):
    """The descriptor of a case's stream that is no bytes."""
    if stream is CLOSED:
        return None
    if stream is UNREAD:
        reading, descriptor = os.pipe()
        os.close(reading)
    else:
        descriptor = os.open(stream, flags)
    streams.callback(os.close, descriptor)
    return descriptor


def place(folder, files):
    """Makes the files of a case, readable by all."""
    for name, what in files.items():
        path = os.path.join(folder, name)
        if what is FOLDER:
            os.mkdir(path)
        elif what is PIPE:
            os.mkfifo(path)
        elif isinstance(what, Link):
            os.symlink(what.target, path)
        else:
            with open(path, "wb") as file:
                file.write(what)


def found_at(path):
    """What stands at a path: a folder, a pipe, a link, or a file's bytes."""
    if os.path.islink(path):
        return Link(os.readlink(path))
    if os.path.isdir(path):
        return FOLDER
    if stat.S_ISFIFO(os.stat(path).st_mode):
        return PIPE
    with open(path, "rb") as file:
        return file.read()


def found_in(folder):
    """All that stands in a folder, and the permissions of its files."""
    names = os.listdir(folder)
    files = {name: found_at(os.path.join(folder, name)) for name in names}
    modes = {name: os.lstat(os.path.join(folder, name)).st_mode & 0o777 for name in names}
    return files, modes


def prepared(case, closed):
    """What the program's process does before it becomes the program."""

    def prepare():
        os.umask(MASK)
        for number in closed:
            os.close(number)
        if case["most"] is not None:
            signal.signal(signal.SIGXFSZ, signal.SIG_IGN)
            resource.setrlimit(resource.RLIMIT_FSIZE, (case["most"], case["most"]))
        if case["space"] is not None:
            resource.setrlimit(resource.RLIMIT_AS, (case["space"], case["space"]))
        if case["sealed"] and os.getuid() == 0:
            os.setgid(NOBODY)
            os.setuid(NOBODY)

    return prepare


def lines_from(end):
    """What was written to the other end of a socket, write by write."""
    end.setblocking(False)
    writes = []
    while True:
        try:
            writes.append(end.recv(1 << 20))
        except BlockingIOError:
            return writes
        if not writes[-1]:
            return writes[:-1]


def run(program, case, folder):
    """Status, output and errors, write by write."""
    stdin, stdout = case["stdin"], case["stdout"]
    how = {"stdout": subprocess.PIPE, "input": stdin}
    with contextlib.ExitStack() as streams:
        if not isinstance(stdin, bytes):
            del how["input"]
            how["stdin"] = opened(stdin, os.O_RDONLY, streams)
        if not isinstance(stdout, bytes):
            how["stdout"] = opened(stdout, os.O_WRONLY, streams)
        places = (stdin, stdout, case["stderr"])
        closed = [number for number, it in enumerate(places) if it is CLOSED]
        errors = opened(case["stderr"], os.O_WRONLY, streams) if isinstance(case["stderr"], str) else None
        # A socket that keeps the writes apart.
        here, there = socket.socketpair(socket.AF_UNIX, socket.SOCK_SEQPACKET)
        with here, there:
            done = subprocess.run(
                [program, *case["words"]],
                cwd=folder,
                env={},
                timeout=HANGS,
                stderr=there if errors is None else errors,
                preexec_fn=prepared(case, closed),
                **how,
            )
            return done.returncode, done.stdout, lines_from(here)


def short(what):
    """What was found, told in a few words."""
    return f"{what!r:.300}"


def wrong_with(program, case):
    """What a case left otherwise than it is to."""
    with tempfile.TemporaryDirectory() as folder:
        os.chmod(folder, 0o755)
        place(folder, case["files"])
        before, _ = found_in(folder)
        if case["sealed"]:
            os.chmod(folder, 0o555)
        try:
            status, output, writes = run(program, case, folder)
        except subprocess.TimeoutExpired:
            os.chmod(folder, 0o755)
            return ["it does not end"]
        files, modes = found_in(folder)
        os.chmod(folder, 0o755)
    wanted = case["stdout"] if isinstance(case["stdout"], bytes) else None
    left = before if case["left"] is None else case["left"]
    lines = case["errors"].splitlines(keepends=True)
    # The line of a fault, and that of its cause.
    last = 2 if "-v" in case["words"] else 1
    new = {name: modes[name] for name in files if name not in before}
    found = [
        ("status", status, case["status"]),
        ("output", output, wanted),
        ("errors", b"".join(writes), case["errors"]),
        # The last line, which is that of a fault, is written at once, and its cause with it: the lines of
        # duplicates come before.
        ("last write", writes[-1:], [b"".join(lines[-last:])] if status == 111 and lines else writes[-1:]),
        ("files", sorted(files), sorted(left)),
        *((name, files.get(name), what) for name, what in left.items()),
        *((f"permissions of {name}", mode, MADE) for name, mode in new.items()),
    ]
    return [f"{what}: {short(got)} and not {short(want)}" for what, got, want in found if got != want]


def main():
    if len(sys.argv) != 2:
        sys.exit(__doc__)
    cases = {**CASES, **SETS, **{f"-v: {name}": case for name, case in CAUSES.items()}}
    failed = 0
    with tempfile.TemporaryDirectory() as folder:
        # A copy that nobody may run too, wherever the program is.
        os.chmod(folder, 0o755)
        program = shutil.copy(sys.argv[1], os.path.join(folder, "cdb"))
        for name, case in cases.items():
            wrong = wrong_with(program, case)
            if wrong:
                failed += 1
                print(f"{name}: " + "; ".join(wrong))
    print(f"{len(cases) - failed} passed, {failed} failed")
    sys.exit(1 if failed else 0)


if __name__ == "__main__":
    main()
