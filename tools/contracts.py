#!/usr/bin/env python3
"""Prints the contracts of a crate's public items, as its sources in src/ have them.

    tools/contracts.py CRATE [NAME ..]

For each public item, in the order of the files: its path and its file, its `///`, and its code up to the body, with `requires`
and `ensures`. A record or an enum is printed whole, a trait up to its functions, which follow. Of a trait's functions for a
type those are printed that have a contract of their own. With names, only items of these names and the functions of types of
these names, public or not.
"""

import argparse
import os
import re
import signal
import sys
import textwrap
from dataclasses import dataclass

from edits import OWNER
from promises import exported, sources
from trees import libraries_of, read

TOP = os.path.normpath(os.path.join(os.path.dirname(os.path.abspath(__file__)), ".."))
ITEM = re.compile(
    r"^( *)((?:pub(?:\(crate\))? )?)(?:const |unsafe |extern \"C\" )*(fn|struct|enum|trait|type|const) (\w+)", re.MULTILINE
)
CLAUSE = re.compile(r"(?:requires|ensures)(?: \w+)? $")
BRACKETS = {"(": 1, "[": 1, "{": 1, ")": -1, "]": -1, "}": -1}


@dataclass(frozen=True)
class Item:
    """An item of a crate: its name, after its owner's, its file, whether a caller sees it, its comment and its code."""

    name: str
    path: str
    public: bool
    comment: str
    code: str

    def has_name(self, names):
        """Whether it, or what it is a function of, has one of these names: `put`, `Maker` or `Maker::put`."""
        return not {self.name, *self.name.split("::")}.isdisjoint(names)


def closed(text, at):
    """The place after the bracket that closes the one at a place."""
    depth = 0
    for place in range(at, len(text)):
        depth += BRACKETS.get(text[place], 0)
        if depth == 0:
            return place + 1
    return len(text)


def end_of(text, at, kind):
    """Where the code ends that is printed of an item: before a body, but after the record, the enum or the constant."""
    while at < len(text):
        if text.startswith("//", at):
            at = text.find("\n", at)
        elif text[at] == "{" and (kind in ("struct", "enum", "const") or CLAUSE.search(text, 0, at)):
            at = closed(text, at)
            if kind in ("struct", "enum"):
                return at
        elif text[at] == "{":
            return at
        elif text[at] == ";":
            return at + 1
        else:
            at = closed(text, at) if text[at] in "([" else at + 1
    return at


def comment_of(text, at):
    """The `///` over an item. A line of another comment or an attribute may stand between."""
    lines = []
    for line in reversed(text[:at].rstrip("\n").split("\n")):
        line = line.strip()
        if line.startswith("///"):
            lines.insert(0, line)
        elif not line.startswith(("//", "#[")):
            break
    return "\n".join(lines)


def code_of(text, found):
    """The code of an item that is printed."""
    start, kind = found.start(), found[3]
    end = end_of(text, found.end(), kind)
    if kind == "trait":
        body = text[start : closed(text, end)]
        first = re.search(r"\n(?: *//[^\n]*\n)* *(?:unsafe )?fn ", body)
        return f"{body[: first.start()] if first else body[:-1]}".rstrip() + "\n}"
    return textwrap.dedent(text[start:end]).rstrip()


def items_of(folder):
    """The items of a crate."""
    for path in sources(folder):
        text = read(folder, path)
        owners = list(OWNER.finditer(text))
        for found in ITEM.finditer(text):
            mine = [it for it in owners if it.start() < found.start()] if found[1] else []
            code = code_of(text, found)
            name = f"{mine[-1][2]}::{found[4]}" if mine else found[4]
            public, comment = found[2] == "pub ", comment_of(text, found.start())
            if mine and found[3] == "fn":
                public |= mine[-1][0].startswith("pub trait")
            if mine and mine[-1][1]:
                public |= "ensures" in code
                comment = comment or f"/// As `{mine[-1][1]}::{found[4]}` says, and:"
            yield Item(name, path, public, comment, code)


def path_of(folder, item, exports):
    """The path by which a caller names an item, or its name alone if it has none."""
    first = item.name.split("::")[0]
    if item.path.startswith("src/laws"):
        return f"{os.path.basename(folder)}::laws::{item.name}"
    return f"{exports[first][0]}::{item.name}" if first in exports else item.name


def contracts(top, crate, names=()):
    """What is printed of a crate: a text for each item."""
    folder = os.path.join(top, "crates", crate)
    exports, found = exported(crate, {it: read(folder, it) for it in sources(folder)}), list(items_of(folder))
    for item in found:
        if item.has_name(names) if names else item.public:
            parts = (f"// {path_of(folder, item, exports)}, in {item.path}", item.comment, item.code)
            yield "\n".join(it for it in parts if it)
    for name, (module, place) in exports.items():
        below = place.split("::")[0]
        if below in libraries_of(top) and (not names or name in names):
            yield f"// {module}::{name} is {place}::{name}: tools/contracts.py {below} {name}"


def main():
    signal.signal(signal.SIGPIPE, signal.SIG_DFL)
    parser = argparse.ArgumentParser(description=__doc__, formatter_class=argparse.RawDescriptionHelpFormatter)
    parser.add_argument("crate", choices=sorted(libraries_of(TOP)))
    parser.add_argument("name", nargs="*")
    asked = parser.parse_args()
    texts = list(contracts(TOP, asked.crate, asked.name))
    if not texts:
        sys.exit(f"{asked.crate} has no {'item of that name' if asked.name else 'public item'}")
    print("\n\n".join(texts))


if __name__ == "__main__":
    main()
