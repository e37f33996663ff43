#!/usr/bin/env python3
"""Looks keys up by cdb_seek in drawn files under the sanitizers of the C compiler.

    tests/clib/seeks.py SEEKS

SEEKS is seeks.c, built with clib/seeking.c, which no proof covers. Each look-up counts as one test. One of them ends
the program if it reads outside a block or computes what C leaves undefined.
"""

import os
import subprocess
import sys

FILES = 2000


def main():
    if len(sys.argv) != 2:
        sys.exit(__doc__)
    done = subprocess.run([os.path.abspath(sys.argv[1]), str(FILES)], stderr=subprocess.STDOUT, check=False)
    # A program that was ended has counted nothing.
    if done.returncode not in (0, 1):
        print("0 passed, 1 failed")
    sys.exit(done.returncode != 0)


if __name__ == "__main__":
    main()
