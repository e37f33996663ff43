#!/usr/bin/env python3
"""Times the maker, in memory and over a buffered file, beside tinycdb where it does the same.

The program is makers.rattle. It is proved and built in a folder of its own, over this repository's
crates, so that the gate has no part in it. What is told is the processor time of a run, user and
system, the median of the rounds; tinycdb reads its records from a text and writes a file.

  makers.py [--rounds N]
"""

import argparse
import os
import resource
import shutil
import statistics
import subprocess
import sys
import tempfile

from building import build

LIBRARIES = ["cdb_store", "cdb_form", "cdb_make", "anyhow"]
# A job, its number of records, and tinycdb's options for it.
JOBS = [
    ("add", 1000000, []),
    ("warn", 1000000, ["-w"]),
    ("insert", 1000000, ["-u"]),
    ("replace", 10000, ["-r"]),
    ("replace", 50000, ["-r"]),
    ("remove", 10000, None),
]


def write_text(path, count, again):
    """Writes the records that the program puts, every tenth again at the end where it is asked."""
    value = b"v" * 60
    with open(path, "wb") as text:
        for number in [*range(count), *(range(0, count, 10) if again else [])]:
            key = str(number).zfill(10)[::-1].encode()
            text.write(b"+10,60:" + key + b"->" + value + b"\n")
        text.write(b"\n")


def processor_time(words, folder):
    before = resource.getrusage(resource.RUSAGE_CHILDREN)
    ran = subprocess.run(words, cwd=folder, stdout=subprocess.PIPE, stderr=subprocess.DEVNULL)
    after = resource.getrusage(resource.RUSAGE_CHILDREN)
    if ran.returncode != 0 or ran.stdout.strip() not in (b"", b"true"):
        sys.exit(f"{' '.join(words)}: failed")
    return after.ru_utime + after.ru_stime - before.ru_utime - before.ru_stime


def main():
    parser = argparse.ArgumentParser()
    parser.add_argument("--rounds", type=int, default=5)
    rounds = parser.parse_args().rounds
    tinycdb = shutil.which("cdb")
    with tempfile.TemporaryDirectory() as folder:
        program, _ = build(folder, "makers.rattle", LIBRARIES, ["memory", "add", "1"])
        text = os.path.join(folder, "text")
        print("a maker's job, median processor time in seconds")
        for job, count, options in JOBS:
            runs = {store: [program, store, job, str(count)] for store in ["memory", "buffered"]}
            if tinycdb and options is not None:
                write_text(text, count, job != "add")
                runs["tinycdb"] = [tinycdb, "-c", *options, "t.cdb", text]
            times = {name: [] for name in runs}
            for _ in range(rounds):
                for name, words in runs.items():
                    times[name].append(processor_time(words, folder))
            told = "   ".join(f"{name} {statistics.median(it):.3f}" for name, it in times.items())
            print(f"  {job:8} {count:8}   {told}")


if __name__ == "__main__":
    main()
