#!/usr/bin/env python3
"""Times the C library beside tinycdb's libcdb.

    bench/clib.py FOLDER [THEIRS]

FOLDER has our libcdb.so.1, THEIRS tinycdb's; without it, that which is installed is taken. Both run
the same program in turns, by processor time; the figure of a job is the least of its rounds. With
valgrind, the instructions of a call are counted too.
"""

import glob
import os
import re
import shutil
import subprocess
import sys
import tempfile

HERE = os.path.dirname(os.path.abspath(__file__))
ROUNDS = 40
# A job, its records, its calls, and what one call of it is.
JOBS = [
    ("find", 10_000, 200_000, "cdb_find"),
    ("find", 1_000_000, 200_000, "cdb_find"),
    ("seek", 10_000, 200_000, "cdb_seek"),
    ("seek", 1_000_000, 200_000, "cdb_seek"),
    ("all", 10_000, 200_000, "cdb_findinit, cdb_findnext to the end"),
    ("all", 1_000_000, 200_000, "cdb_findinit, cdb_findnext to the end"),
    ("walk", 10_000, 200, "cdb_seqnext"),
    ("walk", 1_000_000, 1, "cdb_seqnext"),
]
COUNTED = 10_000
# A job that makes a file, its records, its rounds, what it calls, and its goal beside tinycdb.
MAKING = [
    ("add", 1_000_000, 15, "cdb_make_add", 0.8),
    ("add", 10_000_000, 3, "cdb_make_add", 0.8),
    ("insert", 1_000_000, 2, "cdb_make_put with CDB_PUT_INSERT", 0.1),
    ("warn", 1_000_000, 2, "cdb_make_put with CDB_PUT_WARN", 0.1),
    # tinycdb's takes 100 times as long for 10 times as many.
    ("replace", 100_000, 2, "cdb_make_put with CDB_PUT_REPLACE", 0.1),
    ("replace0", 1_000_000, 2, "cdb_make_put with CDB_PUT_REPLACE0", 0.1),
]
# The greatest peak of memory of an add, beside tinycdb's.
GREATEST_PEAK = 1.3
# The greatest size of the stripped library, in bytes.
GREATEST_SIZE = 120 * 1024


def installed():
    """The folder of tinycdb's library."""
    return next((os.path.dirname(path) for path in glob.glob("/usr/lib/*/libcdb.so.1")), None)


def run(words, library):
    """What a program prints on a library."""
    environment = dict(os.environ, LD_LIBRARY_PATH=library)
    return subprocess.run(words, env=environment, capture_output=True, check=True, timeout=900)


def make(program, path, records, library):
    """Makes a file, with keys of 10 bytes and values of 60."""
    run([program, "add", path, str(records), "1"], library)


def counted(program, job, path, calls, library):
    """The instructions of a run, as callgrind counts them."""
    words = ["valgrind", "--tool=callgrind", "--callgrind-out-file=/dev/null",
             program, job, path, str(COUNTED), str(calls)]
    return int(re.search(r"Collected : (\d+)", run(words, library).stderr.decode())[1])


def instructions(program, job, path, library):
    """The instructions of one call, without those of the key that it is passed."""
    if job == "walk":
        many = [counted(program, job, path, calls, library) for calls in (1, 2)]
        return (many[1] - many[0]) / COUNTED
    return (
        counted(program, job, path, COUNTED, library)
        - counted(program, "keys", path, COUNTED, library)
    ) / COUNTED


def stripped_size(path, folder):
    """How large a library is without its symbols."""
    copy = os.path.join(folder, "stripped")
    subprocess.run(["strip", "-o", copy, path], check=True)
    return os.path.getsize(copy)


def time_making(program, folder, ours, theirs):
    """Times the jobs that make a file, and shows their peaks of memory."""
    for job, records, rounds, what, goal in MAKING:
        words = [program, job, os.path.join(folder, "made"), str(records), "1"]
        took = {ours: [], theirs: []}
        for _ in range(rounds):
            for library, figures in took.items():
                figures.append(tuple(map(int, run(words, library).stdout.split())))
        mine, other = (min(time for time, _ in took[it]) / 1e6 for it in (ours, theirs))
        print(f"| {what} | {records:,} | {mine:.0f} ms | {other:.0f} ms "
              f"| {mine / other:.2f}, goal {goal} |")
        mine, other = (max(peak for _, peak in took[it]) / 1024 for it in (ours, theirs))
        print(f"| {what}, peak of memory | {records:,} | {mine:.0f} MiB | {other:.0f} MiB "
              f"| {mine / other:.2f}{f', goal {GREATEST_PEAK}' if job == 'add' else ''} |")


def main(ours, theirs=None):
    theirs = os.path.abspath(theirs) if theirs else installed()
    if not theirs:
        print("tinycdb's library is not installed: nothing was timed")
        return
    with tempfile.TemporaryDirectory() as folder:
        program = os.path.join(folder, "clib")
        subprocess.run(["cc", "-O2", "-Wall", "-Wextra", "-I", os.path.join(HERE, "..", "clib"),
                        "-o", program, os.path.join(HERE, "clib.c"),
                        os.path.join(ours, "libcdb.so.1")], check=True)
        for records in sorted({job[1] for job in JOBS}):
            make(program, os.path.join(folder, str(records)), records, ours)
        print("| call | records | ours | libcdb | |\n|---|---|---|---|---|")
        for job, records, calls, what in JOBS:
            words = [program, job, os.path.join(folder, str(records)), str(records), str(calls)]
            times = {ours: [], theirs: []}
            for _ in range(ROUNDS):
                for library, took in times.items():
                    took.append(int(run(words, library).stdout.split()[0]))
            each = calls * records if job == "walk" else calls
            mine, other = (min(took) / each for took in times.values())
            print(f"| {what} | {records:,} | {mine:.1f} ns | {other:.1f} ns | {mine / other:.2f} |")
        time_making(program, folder, ours, theirs)
        if shutil.which("valgrind"):
            path = os.path.join(folder, str(COUNTED))
            for job, what in {job: what for job, _, _, what in JOBS if job != "seek"}.items():
                mine, other = (instructions(program, job, path, where) for where in (ours, theirs))
                print(f"| {what}, instructions | {COUNTED:,} | {mine:.0f} | {other:.0f} "
                      f"| {mine / other:.2f} |")
        size = [stripped_size(os.path.join(where, "libcdb.so.1"), folder) for where in (ours, theirs)]
        print(f"| stripped library, bytes | | {size[0]:,} | {size[1]:,} "
              f"| at most {GREATEST_SIZE:,} |")


if __name__ == "__main__":
    if len(sys.argv) not in (2, 3):
        sys.exit(__doc__)
    main(os.path.abspath(sys.argv[1]), *sys.argv[2:])
