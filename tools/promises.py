"""The lists of docs/audit/PROMISES.md, out of the sources.

They stand between two marks of the page, `<!-- bodies:CRATE -->` and `<!-- end -->`: the laws of the crate, and the wrong
bodies of the functions that a caller of the crate sees, each with the clause that refuses it. Wrong bodies of private functions
are counted. The rest of the page is written by hand.
"""

import os
import re

from edits import FUNCTION, OWNER, edits_of, heads_at
from trees import lines_of, read

PAGE = "docs/audit/PROMISES.md"
USED = re.compile(r"^pub use ([\w:]+)::(\{[^}]*\}|\w+);", re.MULTILINE)
MODULE = re.compile(r"^pub mod (\w+);", re.MULTILINE)
CALLED = re.compile(r"(?<!:)\b([a-z]\w*)::([a-z]\w*)\(")
LIST = re.compile(r"(<!-- bodies:(\w+) -->\n).*?(<!-- end -->\n)", re.DOTALL)


def sources(folder):
    """The source files of a crate, as its edits name them."""
    for place, folders, names in os.walk(os.path.join(folder, "src")):
        folders.sort()
        for name in sorted(names):
            if name.endswith(".rt"):
                yield os.path.relpath(os.path.join(place, name), folder)


def name_at(text, head):
    """The name of a function with that of its type or trait."""
    owners = [it for it in OWNER.finditer(text) if it.start() < head.start()]
    return f"{owners[-1][2]}::{head[2]}" if head[1] and owners else head[2]


def head_of(text, at):
    """The head of the function in whose text a place is."""
    heads, end = heads_at(text, at)
    return heads[-1] if heads and at <= end else None


def is_law(path):
    """Whether the functions of a source file are laws."""
    return path.startswith("src/laws")


def exported(crate, texts):
    """By each name that a caller of a crate sees: the path of the module that gives it, and from where it comes there.

    The library and its public modules give names. Of a program they are what its `main` calls."""
    library = texts.get("src/lib.rt")
    if library is None:
        return {name: (crate, place) for place, name in CALLED.findall(texts["src/main.rt"])}
    modules = {crate: library} | {f"{crate}::{it}": texts.get(f"src/{it}.rt", "") for it in MODULE.findall(library)}
    found = ((module, place, names) for module, text in modules.items() for place, names in USED.findall(text))
    return {name: (module, place) for module, place, names in found for name in re.findall(r"\w+", names)}


def is_seen(text, head, items):
    """Whether a caller sees a function: by its name, by its type's, or from C."""
    owners = [it for it in OWNER.finditer(text) if it.start() < head.start()]
    if not head[1] or not owners:
        return head[0].startswith("pub") and (head[2] in items or 'extern "C"' in head[0])
    return owners[-1][2] in items and (head[0].lstrip().startswith("pub ") or bool(owners[-1][1]))


def list_of(folder):
    """The lists of a crate."""
    texts = {path: read(folder, path) for path in sources(folder)}
    items, wrong = exported(os.path.basename(folder), texts), {}
    for edit in edits_of(folder):
        path, old, _ = edit.pairs[0]
        head = head_of(texts[path], texts[path].index(old)) if path in texts else None
        place = (path, head.start() if head else 0)
        wrong.setdefault(place, []).append(f"`{edit.name.split('.')[-1]}` ({edit.clause or 'the compiler'})")
    laws, seen, private = [], [], 0
    for path, text in texts.items():
        for head in FUNCTION.finditer(text):
            bodies = wrong.pop((path, head.start()), [])
            if is_law(path):
                laws.append(f"`{name_at(text, head)}`")
            elif is_seen(text, head, items):
                seen += bodies
            else:
                private += len(bodies)
    private += sum(len(bodies) for bodies in wrong.values())
    made = f"\nLaws: {', '.join(laws)}.\n" if laws else ""
    rest = [f"{private} of private functions"] if private else []
    return made + f"\nWrong bodies: {', '.join([*seen, *rest])}.\n\n"


def with_lists(top, page):
    """The page with its lists as the sources give them, and the crates with wrong bodies that have none."""
    folders = {it: os.path.join(top, "crates", it) for it in lines_of(top)}
    made = LIST.sub(lambda it: it[1] + list_of(folders[it[2]]) + it[3], page)
    lists = {it[2] for it in LIST.finditer(page)}
    return made, [it for it, folder in folders.items() if edits_of(folder) and it not in lists]
