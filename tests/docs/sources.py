"""The sources of the crates, as the checks of the pages read them."""

import glob
import os

TOP = os.path.normpath(os.path.join(os.path.dirname(os.path.abspath(__file__)), "..", ".."))


def text_of(name):
    """The text of a file, named from the top."""
    with open(os.path.join(TOP, name), encoding="utf-8") as file:
        return file.read()


def sources_of(crate):
    """The source files of a crate, named from the top."""
    return sorted(glob.glob(f"crates/{crate}/src/**/*.rt", root_dir=TOP, recursive=True))


def crates():
    """The names of all crates."""
    return sorted(path.split("/")[1] for path in glob.glob("crates/*/src", root_dir=TOP))
