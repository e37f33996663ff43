"""Wrong bodies: edits of a crate's code that the prover must refuse.

An edit is a file crates/NAME/must-fail/*.edit: a line `file: src/PATH`, and pairs of lines `old: TEXT` and
`new: TEXT`. The list tools/wrong_bodies.txt has a line for each: CRATE/EDIT, then `gate` if the gate tries it or
else `-`, and then the clause that must refuse it, which names the promise that the edit breaks. The list
tools/unshown_bodies.txt names those that only a stored proof refuses which names what they take away.
"""

import os
import re
from dataclasses import dataclass

from trees import read

FOLDER = "must-fail"
LIST = "tools/wrong_bodies.txt"
UNSHOWN = "tools/unshown_bodies.txt"
GATE, OTHER = "gate", "-"
FUNCTION = re.compile(r"^( *)(?:pub(?:\([^)]*\))? )?(?:const )?(?:unsafe )?(?:extern \"C\" )?fn (\w+)", re.MULTILINE)
# The head of an `impl`, with the name of its trait if it has one, or that of a trait: and the type's own name.
OWNER = re.compile(
    r"^(?:unsafe )?(?:impl(?:<.*?>)? (?:(?:\w+::)*(\w+)(?:<.*>)? for )?|(?:pub(?:\([^)]*\))? )?trait )(?:\w+::)*(\w+)", re.MULTILINE
)


class BadEdit(Exception):
    """Why an edit cannot be applied."""


@dataclass(frozen=True)
class Edit:
    """A wrong body: its file, the texts that it replaces, and the clause that must refuse it, or None."""

    crate: str
    name: str
    path: str
    # The file, the old text and the new text of each pair.
    pairs: tuple
    clause: str

    def __str__(self):
        return f"{self.crate}/{self.name}"


def listed(top):
    """The lines of the list, by the edit's name: whether the gate tries it, and its clause, or None."""
    found = {}
    for line in read(top, LIST).splitlines():
        words = line.split("#")[0].split(None, 2)
        if words:
            found[words[0]] = words[1:2] == [GATE], words[2].strip() if len(words) == 3 else None
    return found


def read_edit(folder, name, lines):
    """Reads an edit of a crate's folder, with these lines of the list."""
    path = os.path.join(folder, FOLDER, f"{name}.edit")
    crate = os.path.basename(folder)
    _, clause = lines.get(f"{crate}/{name}", (False, None))
    pairs, file, old = [], "", ""
    for line in read(path).splitlines():
        if line.startswith("file: "):
            file = line.removeprefix("file: ").strip()
        elif line.startswith("old: "):
            old = line.removeprefix("old: ")
        elif line.startswith("new:"):
            pairs.append((file, old, line.removeprefix("new:").removeprefix(" ")))
    return Edit(crate, name, path, tuple(pairs), clause)


def edits_of(folder):
    """The edits of a crate's folder."""
    place = os.path.join(folder, FOLDER)
    names = sorted(os.listdir(place)) if os.path.isdir(place) else []
    lines = listed(os.path.join(folder, "..", ".."))
    return [read_edit(folder, it.removesuffix(".edit"), lines) for it in names if it.endswith(".edit")]


def test_of(edit):
    """The text of the test beside an edit, or None."""
    path = f"{edit.path.removesuffix('.edit')}.test"
    return read(path) if os.path.isfile(path) else None


def unshown(top):
    """The edits of which it is known that neither a proof nor a test shows them wrong, by name."""
    path = os.path.join(top, UNSHOWN)
    lines = read(path).splitlines() if os.path.isfile(path) else []
    return {line.split()[0] for line in lines if line and not line.startswith("#")}


def note_clause(top, edit, clause):
    """Writes the clause that refuses an edit into its line of the list."""
    lines = read(top, LIST).splitlines()
    heads = [it for it in lines if it.startswith("#")]
    others = {it.split()[0]: it for it in lines if it.strip() and it not in heads}
    is_tried, _ = listed(top).get(str(edit), (False, None))
    others[str(edit)] = f"{edit} {GATE if is_tried else OTHER} {clause}"
    path = os.path.join(top, LIST)
    with open(f"{path}.new", "w", encoding="utf-8") as file:
        file.writelines(f"{it}\n" for it in [*heads, *(others[it] for it in sorted(others))])
    os.replace(f"{path}.new", path)


def heads_at(text, at):
    """The heads of the functions that begin before a place, and the end of the last, by the layout of `rt fmt`."""
    heads = [it for it in FUNCTION.finditer(text) if it.start() <= at]
    end = re.compile(rf"^{heads[-1][1]}\}}", re.MULTILINE).search(text, heads[-1].end()) if heads else None
    return heads, end.start() if end else len(text)


def module_of(path):
    """The module of a source file, `` for the root."""
    inside = path.removeprefix("src/").removesuffix(".rt")
    return "" if inside in ("lib", "main") else inside.replace("/", "::")


def texts_of(folder):
    """The texts of a crate's code, by the paths of its files."""
    paths = [os.path.join(place, it) for place, _, names in os.walk(os.path.join(folder, "src")) for it in names]
    return {os.path.relpath(it, folder): read(it) for it in sorted(paths)}


def function_at(texts, path, at):
    """The function in whose text a place of a file is, as the checker names it below its crate. None outside of functions."""
    heads, end = heads_at(texts[path], at)
    if not heads or at > end:
        return None
    names = [heads[-1][2]]
    owners = [it for it in OWNER.finditer(texts[path]) if it.start() < heads[-1].start()]
    if heads[-1][1] and owners:
        # An `impl` may stand in another module than its type, whose name goes before that of its trait.
        trait, kind = owners[-1].groups("")
        declares = re.compile(rf"^(?:pub(?:\([^)]*\))? )?(?:struct|enum|trait) {kind}\b", re.MULTILINE)
        path = next((it for it in [path, *texts] if declares.search(texts[it])), path)
        names.insert(0, f"{kind}{trait}")
    return "::".join(filter(None, [module_of(path), *names]))


def applied(edit, texts):
    """The texts of a crate's code with an edit applied, and for each place that it changes the file and its function, or None."""
    texts, places = dict(texts), []
    for path, old, new in edit.pairs:
        if path not in texts:
            raise BadEdit(f"there is no file {path}")
        if texts[path].count(old) != 1:
            raise BadEdit(f"an old text is in {path} {texts[path].count(old)} times, and not once")
        places.append((path, function_at(texts, path, texts[path].index(old))))
        texts[path] = texts[path].replace(old, new)
    if not places:
        raise BadEdit("it has no pair of an old and a new text")
    return texts, places
