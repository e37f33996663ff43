"""How a test of packages ends."""

import sys


def tell(held, line="not so: {}".format):
    """Prints the line of each that does not hold, of pairs, and how many passed and failed."""
    wrong = [what for what, holds in held if not holds]
    for what in wrong:
        print(line(what))
    print(f"{len(held) - len(wrong)} passed, {len(wrong)} failed")
    sys.exit(1 if wrong else 0)
