#!/usr/bin/env python3
"""Times one million writes of 30 bytes and a flush: in memory, in a file, in a buffered file.

The program is stores.rattle. It is proved and built in a folder of its own, over this
repository's cdb_store, so that the gate has no part in it. The times are from start to end of a
round, the flush to the disk among them; the median of the rounds is told.
"""

import re
import statistics
import sys
import tempfile

from building import build


def main():
    with tempfile.TemporaryDirectory() as folder:
        _, printed = build(folder, "stores.rattle", ["cdb_store", "anyhow"], [])
    times = {}
    for name, micros, is_ok in re.findall(r"^(\w+) (\d+) (true|false)$", printed, re.MULTILINE):
        if is_ok == "false":
            sys.exit(f"{name}: a call failed")
        times.setdefault(name, []).append(int(micros) / 1000)
    if not times:
        sys.exit("the program was not run")
    print("one million writes of 30 bytes and a flush, median milliseconds")
    for name, taken in times.items():
        print(f"  {name:10} {statistics.median(taken):8.1f} ms   from {min(taken):.1f} to {max(taken):.1f}")


if __name__ == "__main__":
    main()
