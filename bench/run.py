#!/usr/bin/env python3
"""Times `cdb` beside tinycdb, freecdb and postmap, where they are installed.

The input is made from a fixed seed: records with keys of 10 bytes and values of 20 to 100, which
come from files, and then a few records with values of 5 MB, which come through a pipe. The
programs run in turns, each of them first in some, so that a change of the machine's pace and what
the run before has left in its memory meet them all alike. What counts is the processor time
(user and system) of each run, of which the median is told.

    bench/run.py [--records N] [--large N] [--rounds N] [--cdb PATH]
"""

import argparse
import os
import random
import shutil
import signal
import statistics
import subprocess
import sys
import tempfile

SEED = 20261122
ALPHABET = b"abcdefghijklmnopqrstuvwxyz0123456789"
LARGE_VALUE = 5_000_000


def write_text(path, records):
    chosen = random.Random(SEED)
    with open(path, "wb") as out:
        for _ in range(records):
            key = bytes(chosen.choices(ALPHABET, k=10))
            value = bytes(chosen.choices(ALPHABET, k=chosen.randint(20, 100)))
            out.write(b"+%d,%d:%s->%s\n" % (len(key), len(value), key, value))
        out.write(b"\n")


def write_large_text(path, records):
    chosen = random.Random(SEED)
    with open(path, "wb") as out:
        for _ in range(records):
            key = bytes(chosen.choices(ALPHABET, k=10))
            out.write(b"+%d,%d:%s->" % (len(key), LARGE_VALUE, key))
            out.write(chosen.randbytes(LARGE_VALUE))
            out.write(b"\n")
        out.write(b"\n")


def write_keys(text, listed, lines):
    """Keys drawn from a text, as many as it has records: as a list text, and a line each."""
    with open(text, "rb") as records:
        keys = [it[it.index(b":") + 1 : it.index(b"->")] for it in records if it.startswith(b"+")]
    drawn = random.Random(SEED).choices(keys, k=len(keys))
    with open(listed, "wb") as out:
        out.write(b"".join(b"+%d:%s\n" % (len(key), key) for key in drawn) + b"\n")
    with open(lines, "wb") as out:
        out.write(b"".join(key + b"\n" for key in drawn))


def apart(work, *given):
    """Does some work in a process of its own."""
    child = os.fork()
    if child == 0:
        work(*given)
        os._exit(0)
    if os.waitpid(child, 0)[1] != 0:
        sys.exit(f"{work.__name__} failed")


def feed(path):
    """A pipe that a process fills from a file: its end to read from, and the process."""
    source, target = os.pipe()
    feeder = os.fork()
    if feeder == 0:
        signal.signal(signal.SIGPIPE, signal.SIG_DFL)
        os.dup2(os.open(path, os.O_RDONLY), 0)
        os.dup2(target, 1)
        os.execvp("cat", ["cat"])
    os.close(target)
    return source, feeder


def run(words, stdin, stdout, piped):
    """Processor seconds and peak kilobytes of one run."""
    source, feeder = feed(stdin) if piped else (os.open(stdin, os.O_RDONLY), None)
    child = os.fork()
    if child == 0:
        target = os.open(stdout, os.O_WRONLY | os.O_CREAT | os.O_TRUNC, 0o644)
        os.dup2(source, 0)
        os.dup2(target, 1)
        os.dup2(os.open(os.devnull, os.O_WRONLY), 2)
        os.execvp(words[0], words)
    os.close(source)
    _, status, usage = os.wait4(child, 0)
    if feeder:
        os.waitpid(feeder, 0)
    if status != 0:
        sys.exit(f"{' '.join(words)}: status {status}")
    return usage.ru_utime + usage.ru_stime, usage.ru_maxrss


def compare(title, programs, rounds, piped=False):
    """Each program is a name, its words, and the files of its standard input and output."""
    seconds = {name: [] for name, *_ in programs}
    peaks = {}
    for turn in range(rounds):
        first = turn % len(programs)
        for name, words, stdin, stdout in programs[first:] + programs[:first]:
            used, peak = run(words, stdin, stdout, piped)
            seconds[name].append(used)
            peaks[name] = max(peak, peaks.get(name, 0))
    print(f"{title}, median processor seconds of {rounds} runs")
    ours = statistics.median(seconds[programs[0][0]])
    for name, *_ in programs:
        median = statistics.median(seconds[name])
        print(f"  {name:24} {median:7.3f} s   {peaks[name] // 1024:5} MiB   ours takes {ours / median:4.2f} of it")


def tinycdb():
    """The path of tinycdb's `cdb`, where one is found that is not this project's."""
    for folder in os.get_exec_path():
        path = os.path.join(folder, "cdb")
        if os.access(path, os.X_OK):
            told = subprocess.run([path, "-h"], capture_output=True)
            if b"Constant DataBase" in told.stdout + told.stderr:
                return path
    return None


def has_postmap():
    """Whether postmap is installed and reads databases of this format."""
    if not (shutil.which("postmap") and shutil.which("postconf")):
        return False
    return b"cdb" in subprocess.run(["postconf", "-m"], capture_output=True, check=False).stdout.split()


def compare_large(ours, tiny, records, rounds):
    """Compares the programs on a few long records that come through a pipe."""
    with tempfile.TemporaryDirectory() as folder:
        def path(name):
            return os.path.join(folder, name)

        text = path("text")
        write_large_text(text, records)
        print(f"{records} records of {LARGE_VALUE} bytes, through a pipe")
        makers = [("cdb -c -", [ours, "-c", "-"], text, path("ours.cdb"))]
        dumpers = [("cdb -d", [ours, "-d"], path("ours.cdb"), path("ours.text"))]
        if tiny:
            makers.append(("tinycdb cdb -c", [tiny, "-c", path("tiny.cdb")], text, os.devnull))
            dumpers.append(("tinycdb cdb -d -", [tiny, "-d", "-"], path("ours.cdb"), path("tiny.text")))
        compare("create", makers, rounds, piped=True)
        compare("dump", dumpers, rounds, piped=True)


def main():
    here = os.path.dirname(os.path.abspath(__file__))
    parser = argparse.ArgumentParser()
    parser.add_argument("--records", type=int, default=1_000_000)
    parser.add_argument("--large", type=int, default=60)
    parser.add_argument("--rounds", type=int, default=9)
    parser.add_argument("--cdb", default=os.path.join(here, "..", "bin", "cdb"))
    options = parser.parse_args()
    ours = os.path.abspath(options.cdb)
    tiny = tinycdb()
    with tempfile.TemporaryDirectory() as folder:
        def path(name):
            return os.path.join(folder, name)

        text = path("text")
        write_text(text, options.records)
        print(f"{options.records} records, {os.path.getsize(text)} bytes of text")
        makers = [("cdb -c -", [ours, "-c", "-"], text, path("ours.cdb"))]
        if tiny:
            makers.append(("tinycdb cdb -c", [tiny, "-c", path("tiny.cdb")], text, os.devnull))
        if shutil.which("cdbmake"):
            makers.append(("freecdb cdbmake", ["cdbmake", path("free.cdb"), path("free.tmp")], text, os.devnull))
        compare("create", makers, options.rounds)
        database = path("ours.cdb")
        dumpers = [("cdb -d", [ours, "-d"], database, path("ours.text"))]
        if tiny:
            dumpers.append(("tinycdb cdb -d", [tiny, "-d", database], os.devnull, path("tiny.text")))
        if shutil.which("cdbdump"):
            dumpers.append(("freecdb cdbdump", ["cdbdump"], database, path("free.text")))
        compare("dump", dumpers, options.rounds)
        # Apart, since the memory that this process had counts for each that it starts.
        apart(write_keys, text, path("keys"), path("lines"))
        askers = [("cdb -q -i", [ours, "-q", "-i", database], path("keys"), path("ours.asked"))]
        if has_postmap():
            map_name = "cdb:" + database.removesuffix(".cdb")
            askers.append(("postmap -q -", ["postmap", "-q", "-", map_name], path("lines"), path("postmap.asked")))
        compare("queries of as many keys, drawn", askers, options.rounds)
    if options.large:
        compare_large(ours, tiny, options.large, options.rounds)


if __name__ == "__main__":
    main()
