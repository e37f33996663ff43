#!/usr/bin/env python3
"""Compares the version of VERSION with each place that names it.

    tests/package/version.py

A version without `~dev` is that of one tree: once it was released, other sources need a version of their own.
"""

import datetime
import glob
import os
import re
import sys

from held import tell

TOP = os.path.join(os.path.dirname(os.path.abspath(__file__)), "..", "..")
sys.path.insert(0, os.path.join(TOP, "tools"))
import package  # noqa: E402
import release  # noqa: E402

# Three numbers, and what a version has that comes before a release.
NUMBERED = re.compile(r"\d+\.\d+\.\d+(~dev)?")
# Where the files of packagers name the version, and the one of tinycdb whose calls the library has.
PACKAGERS = {"packaging/pezundrix.spec": r"^Version: +(\S+)$", "packaging/PKGBUILD": r"^pkgver=(.*)$"}
INTERFACE = r"^Provides: libcdb\S+ \(= (.*)\)$"
# A file of a release, as pages name it.
RELEASED = re.compile(r"pezundrix[-_](\d+\.\d+\.\d+)")


def text_of(name):
    """The text of a file, named from the top."""
    with open(os.path.join(TOP, name), encoding="utf-8") as file:
        return file.read()


def is_in_program(version):
    """Whether the program writes the version, and its contract says so."""
    line = f'"cdb {version} (Pezundrix)\\n"'
    places = ["crates/cdb_command/src/usage_text.rt", "crates/cdb_command/specs/Usage.antt"]
    return all(text_of(place).count(line) == 1 for place in places)


def named_in_pages(version):
    """For each manual page: whether its line .Os names the version."""
    pages = sorted(glob.glob("man/cdb.*", root_dir=TOP))
    lines = {page: re.findall(r"^\.Os ?(.*)$", text_of(page), re.M) for page in pages}
    return {page: found == [f"Pezundrix {version}"] for page, found in lines.items()}


def heads_changelog(version):
    """Whether the changelog has the version, with a date, as its first release; or its first head is not released."""
    if version.endswith("~dev"):
        return re.search(r"^## (.*)$", text_of("CHANGELOG.md"), re.M)[1] == "Unreleased"
    heads = re.findall(r"^## (\d\S*) \((.*)\)$", text_of("CHANGELOG.md"), re.M)
    if not heads or heads[0][0] != version:
        return False
    datetime.date.fromisoformat(heads[0][1])
    return True


def named_in_texts(version):
    """For each page that names a file of a release: whether it is one of this version."""
    pages = sorted(glob.glob("*.md", root_dir=TOP) + glob.glob("docs/**/*.md", root_dir=TOP, recursive=True))
    named = {page: set(RELEASED.findall(text_of(page))) for page in pages}
    return {page: found == {version} for page, found in named.items() if found}


def named_by_packagers(version):
    """For each file of packagers: whether it names the version, or that of the library's calls."""
    held = {name: re.findall(line, text_of(name), re.M) == [version] for name, line in PACKAGERS.items()}
    provided = re.findall(INTERFACE, text_of("packaging/debian/control"), re.M)
    return held | {"packaging/debian/control": provided == [package.interface()] * 2}


def is_one_tree(version):
    """Whether the version is none that was released of other sources."""
    return not release.released().startswith(release.heading(version)) or release.is_of_release()


def main():
    if len(sys.argv) != 1:
        sys.exit(__doc__)
    version = text_of("VERSION").removesuffix("\n")
    held = {"VERSION is three numbers": NUMBERED.fullmatch(version) is not None}
    held["CHANGELOG.md"] = heads_changelog(version)
    held["crates/cdb_command"] = is_in_program(version)
    held["release/SHA256SUMS"] = is_one_tree(version)
    held |= named_in_pages(version) | named_in_texts(version) | named_by_packagers(version)
    tell(held.items(), f"{{}}: another version than {version}, or none".format)


if __name__ == "__main__":
    main()
