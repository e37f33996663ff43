#!/usr/bin/env python3
"""Times the reader, in memory and over a file, beside tinycdb's library where it is installed.

The program is readers.rattle. It is proved and built in a folder of its own, over this repository's
crates, so that the gate has no part in it. What is told is the processor time of a job, user and
system, without that of opening the database: the median of the rounds, each less the time of the
same run with no look-up and no walk. tinycdb's library reads the file where it is mapped. Of the
reader also how often it asks its store.

  readers.py [--rounds N]
"""

import argparse
import os
import resource
import statistics
import subprocess
import sys
import tempfile

from building import build

LIBRARIES = ["cdb_store", "cdb_form", "cdb_make", "cdb_read", "anyhow"]
RECORDS = 1000000
# A job, and how often it is done.
JOBS = [("present", RECORDS), ("absent", RECORDS), ("walk", 10)]
HERE = os.path.dirname(os.path.abspath(__file__))


def build_other(folder):
    """Returns the program over tinycdb's library, or none where that isn't installed."""
    program = os.path.join(folder, "readers")
    words = ["cc", "-O2", "-o", program, os.path.join(HERE, "readers.c"), "-lcdb"]
    built = subprocess.run(words, stderr=subprocess.DEVNULL)
    return program if built.returncode == 0 else None


def processor_time(words, folder):
    before = resource.getrusage(resource.RUSAGE_CHILDREN)
    ran = subprocess.run(words, cwd=folder, stdout=subprocess.PIPE, stderr=subprocess.DEVNULL)
    after = resource.getrusage(resource.RUSAGE_CHILDREN)
    if ran.returncode != 0:
        sys.exit(f"{' '.join(words)}: failed")
    return after.ru_utime + after.ru_stime - before.ru_utime - before.ru_stime


def main():
    parser = argparse.ArgumentParser()
    parser.add_argument("--rounds", type=int, default=5)
    rounds = parser.parse_args().rounds
    with tempfile.TemporaryDirectory() as folder:
        program, _ = build(folder, "readers.rattle", LIBRARIES, ["memory", "walk", "1", "0"])
        other = build_other(folder)
        processor_time([program, "make", "it", str(RECORDS), "1"], folder)
        print("a reader's job, median processor time in seconds, and asks of the store")
        for job, times in JOBS:
            runs = {store: [program, store, job, str(RECORDS)] for store in ["memory", "file"]}
            if other:
                runs["libcdb"] = [other, job, str(RECORDS)]
            spent = {name: [] for name in runs}
            for _ in range(rounds):
                for name, words in runs.items():
                    idle = processor_time([*words, "0"], folder)
                    spent[name].append(processor_time([*words, str(times)], folder) - idle)
            asks = [program, "counted", job, str(RECORDS), str(times)]
            counted = subprocess.run(asks, cwd=folder, stdout=subprocess.PIPE).stdout
            told = "   ".join(f"{name} {statistics.median(it):.3f}" for name, it in spent.items())
            print(f"  {job:8} {times:8}   {told}   asks {int(counted) / times:.2f}")


if __name__ == "__main__":
    main()
