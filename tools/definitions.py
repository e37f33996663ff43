"""The definitions that docs/audit/ORACLE.md shows, out of the sources.

What stands between two marks of the page is shown as the sources have it: after `<!-- definitions of FILE: NAME .. -->`
these definitions of a file of specs, in the file's order and without their types. `<!-- end -->` ends each.
"""

import re

from trees import read

PAGE = "docs/audit/ORACLE.md"
SHOWN = re.compile(r"(<!-- definitions of (?P<file>\S+): (?P<names>[\w ]+) -->\n).*?(<!-- end -->\n)", re.DOTALL)
# A definition begins so. A record and a type are shown whole.
DEFINITION = re.compile(r"(?:abbrev|unfoldable) (?:pub )?(\w+)|(?:pub )?(?:record|data) (\w+)")


def definitions_of(text):
    """The definitions of a file of specs, each with its comment, and an abbreviation without its type, by name."""
    found = {}
    for paragraph in text.split("\n\n"):
        lines = paragraph.strip("\n").split("\n")
        at = next((n for n, it in enumerate(lines) if DEFINITION.match(it)), None)
        if at is None:
            continue
        name, whole = DEFINITION.match(lines[at]).groups()
        begins = at
        if name:
            begins = next(n for n in range(at + 1, len(lines)) if re.match(rf"{name}\b", lines[n]))
        found[name or whole] = "\n".join([*lines[:at], *lines[begins:]])
    return found


def shown(top, found):
    """What a mark of the page stands for."""
    made, names = definitions_of(read(top, found["file"])), found["names"].split()
    if missing := [it for it in names if it not in made]:
        raise SystemExit(f"{PAGE}: {found['file']} has no {missing[0]}")
    return "\n\n".join(text for name, text in made.items() if name in names)


def with_definitions(top, page):
    """The page as the sources have it."""
    return SHOWN.sub(lambda it: f"{it[1]}\n```text\n{shown(top, it)}\n```\n\n{it[4]}", page)
