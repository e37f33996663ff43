#!/usr/bin/env python3
"""Writes the parts of the pages that the sources give.

    tools/pages.py [--check]

They are the lists of docs/audit/PROMISES.md (see promises.py) and the definitions of docs/audit/ORACLE.md (see
definitions.py); and of the usage text, which crates/cdb_command/src/usage_text.rt has, the text in docs/TEXTS.md and
the synopsis of man/cdb.1. With --check nothing is written: a page that is not what the sources give fails, and so
does a crate with wrong bodies that has no list.
"""

import argparse
import os
import re
import sys

import definitions
import promises
from trees import read

TOP = os.path.normpath(os.path.join(os.path.dirname(os.path.abspath(__file__)), ".."))
USAGE = "crates/cdb_command/src/usage_text.rt"
TEXTS, MANUAL = "docs/TEXTS.md", "man/cdb.1"
# How each form of the command begins, and the line of the letter that goes with each.
FORM, EACH = re.compile(r"(?:usage:|      ) cdb "), "       with each:"


def usage_lines():
    """The lines of the usage text."""
    body = re.search(r"let lines: .*? = \[(.*?)\n    \];", read(TOP, USAGE), re.DOTALL)[1]
    return re.findall(r'b"(.*?)\\n"', body)


def macros_of(form):
    """A form of the command, as the manual page's macros write it."""
    lines = []
    for optional, plain in re.findall(r"\[(.*?)\]|([^ \[]+)", form):
        words = [f"Fl {it[1:]}" if it.startswith("-") else it for it in (optional or plain).split(" ")]
        at = next((n for n, it in enumerate(words) if not it.startswith("Fl ")), len(words))
        text = " ".join([*words[:at], *(["Ar", *words[at:]] if words[at:] else [])])
        if optional:
            lines.append(f".Op {text}")
        elif text.startswith("Ar ") and lines and lines[-1].startswith(".Ar "):
            lines[-1] += text.removeprefix("Ar")
        else:
            lines.append(f".{text}")
    return "".join(f"{it}\n" for it in [".Nm", *lines])


def with_usage(page):
    """The page of texts with the usage text."""
    text = "".join(f"{it}\n" for it in usage_lines())
    return re.sub(r"(?<=```\n)usage: cdb.*?(?=```)", lambda _: text, page, count=1, flags=re.DOTALL)


def with_synopsis(page):
    """The manual page with its synopsis."""
    lines = usage_lines()
    letter = next(it for it in lines if it.startswith(EACH)).removeprefix(EACH).split()[0]
    forms = [FORM.sub("", it) for it in lines if FORM.match(it)]
    made = "".join(macros_of(re.sub(r"^-\w(?: -\w)*", rf"\g<0> [{letter}]", it)) for it in forms)
    return re.sub(r"(?<=\.Sh SYNOPSIS\n).*?(?=\.Sh )", lambda _: made, page, count=1, flags=re.DOTALL)


def main():
    parser = argparse.ArgumentParser(description=__doc__, formatter_class=argparse.RawDescriptionHelpFormatter)
    parser.add_argument("--check", action="store_true")
    asked = parser.parse_args()
    pages = {it: read(TOP, it) for it in (promises.PAGE, definitions.PAGE, TEXTS, MANUAL)}
    lists, missing = promises.with_lists(TOP, pages[promises.PAGE])
    made = {
        promises.PAGE: lists,
        definitions.PAGE: definitions.with_definitions(TOP, pages[definitions.PAGE]),
        TEXTS: with_usage(pages[TEXTS]),
        MANUAL: with_synopsis(pages[MANUAL]),
    }
    wrong = [f"{promises.PAGE}: no list of {it}" for it in missing]
    for page in (it for it in made if made[it] != pages[it]):
        if asked.check:
            wrong.append(f"{page} is not what the sources give: run tools/pages.py")
            continue
        with open(os.path.join(TOP, page), "w", encoding="utf-8") as file:
            file.write(made[page])
    print("\n".join(wrong), end="\n" if wrong else "")
    sys.exit(1 if wrong else 0)


if __name__ == "__main__":
    main()
