#!/usr/bin/env python3
"""Checks that what the pages name is there.

    tests/docs/check.py

Each link of a page leads to a file, and to a heading if it names one. Each path in backquotes is that
of a file or a folder, each name is one of the sources, each `make TARGET` a target of the Makefile or of a release's.
What tools/contracts.py prints of a crate names each public item and function of its library, each with a comment,
and its README.md names that command. Something else than a test calls each public item, or public_items.py says
why it is there. What tools/pages.py writes of the pages is what the sources give, and CONTRIBUTING.md names each
part of the tests. docs/audit/ORACLE.md shows definitions of the oracle as they read, and names each other one with
its file. Each figure that README.md or docs/GUIDE.md repeats is that of its source, each count that a page states is
that of the sources, and each contract, wrong body and picture that pages show is as its source has it. No page has
many words that point to something else (plain_words.py). Each wrong body can be tried.
"""

import glob
import os
import re
import subprocess
import sys

from copied import wrong_copies
from counts import wrong_counts
from figures import wrong_figures
from plain_words import wrong_words
from public_items import wrong_items
from sources import TOP, crates, sources_of, text_of

sys.path.append(os.path.join(TOP, "tools"))

from contracts import contracts  # noqa: E402

PAGES = "tools/pages.py"
# The files that make reads, here and in a release.
MAKEFILES = ("Makefile", "clib/build.mk", "tools/install.mk", "release/Makefile")
LISTED = "tools/wrong_bodies.txt"
UNSHOWN = "tools/unshown_bodies.txt"
ORACLE = "docs/audit/ORACLE.md"
RUNNING = "crates/cdb/specs/Running.antt"
ORACLE_SOURCES = (
    "crates/cdb/specs/Created.antt",
    "crates/cdb_system/specs/Oracle.antt",
    "crates/cdb_tool/specs/Runs/Made.antt",
)
# What is built or kept and no file of the repository; what stands for a name of the reader's own;
# and words of other programs, of the system or of the checker's language.
BUILT = re.compile(r"(bin|out|dist|crates/NAME|crates/\*)/")
FOREIGN = set(
    """
    cdbmake cdbdump freecdb tinycdb postmap tinydns Exim rsync chmod umask chgrp setfacl flock callgrind
    valgrind sponge strace lintian apt dpkg mandoc libcdb1 posix_fallocate x NAME
    rattle_arg rattle_errno rattle_set_errno rattle_alloc rattle_realloc rattle_dealloc __udivti3 __sysv_signal
    """.split()
)
SOURCES = (".rt", ".antt", ".py", ".c", ".h", ".map", ".sh", ".edit", ".test", ".1", ".3", ".5", ".rattle")


def files():
    """The files of the repository: those of git, or all if this is a copy without it."""
    words = ["git", "ls-files", "-co", "--exclude-standard"]
    listed = subprocess.run(words, cwd=TOP, capture_output=True, text=True, check=False)
    if listed.returncode == 0:
        return [it for it in listed.stdout.split("\n") if os.path.isfile(os.path.join(TOP, it))]
    found = glob.glob("**", root_dir=TOP, recursive=True)
    return [it for it in found if os.path.isfile(os.path.join(TOP, it)) and "/out/" not in it]


def anchors_of(page):
    """The headings of a page, as links name them."""
    heads = re.findall(r"^#+ (.*)$", page, re.M)
    return {re.sub(r"[^\w \-]", "", head.lower()).replace(" ", "-") for head in heads}


def wrong_links(page, text):
    """The links of a page that lead nowhere."""
    for link in re.findall(r"\]\(([^)\s]+)\)", text):
        if re.match(r"https?:", link):
            continue
        name, _, head = link.partition("#")
        path = os.path.normpath(os.path.join(os.path.dirname(page), name)) if name else page
        if not os.path.exists(os.path.join(TOP, path)):
            yield f"{page}: link to {link}"
        elif head and head not in anchors_of(text_of(path)):
            yield f"{page}: link to {link}, which has no such heading"


class Names:
    """What a page can name: the files, and the words in the sources."""

    def __init__(self, listed):
        self.files = set(listed)
        self.folders = {part for it in listed for part in parents(it)}
        self.ends = {end for it in self.files | self.folders for end in ends(it)}
        self.words = FOREIGN | edits()
        for it in listed:
            if it.endswith(SOURCES) or it in (*MAKEFILES, "crates.txt"):
                self.words.update(re.findall(r"[A-Za-z_][A-Za-z0-9_]*", text_of(it)))

    def has_path(self, path):
        """Whether the end of some path is this one, with or without what says its kind."""
        path = path.rstrip("/")
        return any(path + kind in self.ends for kind in ("", ".rt", ".antt"))

    def has_name(self, name):
        """Whether each word of a name is one of the sources, or of a file's name."""
        return all(it in self.words or self.has_path(it) for it in name.split("::") if it)


def parents(path):
    """The folders that a path lies in."""
    while path := os.path.dirname(path):
        yield path


def ends(path):
    """The path, and what is left of it without its first folders."""
    parts = path.split("/")
    return ("/".join(parts[n:]) for n in range(len(parts)))


def wrong_names(page, text, names, targets):
    """The paths, names and commands in a page that are not there."""
    plain = re.sub(r"^```.*?^```", "", text, flags=re.S | re.M)
    for code in re.findall(r"`([^`\n]+)`", plain):
        # A path has a letter; the numbers of an example that a stroke parts have none.
        if re.fullmatch(r"[\w*\-][\w.*\-]*(/[\w.*\-]*)+", code) and re.search("[a-z]", code):
            if not BUILT.match(code) and not names.has_path(code):
                yield f"{page}: path {code}"
        elif re.fullmatch(r"[A-Za-z_]\w*(::\w+)*", code) and not names.has_name(code):
            yield f"{page}: name {code}"
    for target in re.findall(r"(?:^|`)make ([a-z]+(?:-[a-z]+)*)\b", text, re.M):
        if target not in targets:
            yield f"{page}: make {target}"


def public_of(crate):
    """The public items that a crate's library and its public modules name, and its public functions and methods."""
    library = text_of(f"crates/{crate}/src/lib.rt")
    library += "".join(text_of(f"crates/{crate}/src/{it}.rt") for it in re.findall(r"^pub mod (\w+);", library, re.M))
    items = set()
    for names in re.findall(r"^pub use [\w:]+::(\{[^}]*\}|\w+);", library, re.M):
        items.update(re.findall(r"\w+", names))
    functions = set()
    for path in sources_of(crate):
        functions.update(re.findall(r"^ *pub (?:const |unsafe )*fn (\w+)", text_of(path), re.M))
    return items, functions


def wrong_contracts_of(crate):
    """The public items of a crate that tools/contracts.py leaves out, and those that it prints without a comment."""
    printed = list(contracts(TOP, crate))
    named = {word for it in printed for word in re.findall(r"\w+", it.split("\n")[0])}
    items, functions = public_of(crate)
    for name in sorted((items | functions) - named):
        yield f"crates/{crate}: tools/contracts.py does not print {name}"
    for it in printed:
        # What is of another crate is one line, and has its comment there.
        if "\n" in it and "\n///" not in it:
            yield f"crates/{crate}: no comment says what this is: {it.split(chr(10))[0].removeprefix('// ')}"


def wrong_page(crate):
    """Whether a crate's page does not say how its contracts are printed."""
    page = f"crates/{crate}/README.md"
    if f"`tools/contracts.py {crate}`" not in text_of(page):
        yield f"{page}: tools/contracts.py {crate} is not named"


def edits():
    """The names of the wrong bodies, without the file and the function that each changes."""
    paths = glob.glob("crates/*/must-fail/*.edit", root_dir=TOP)
    return {os.path.basename(it).split(".")[-2] for it in paths}


def wrong_bodies():
    """The wrong bodies that the gate cannot try: without a line and a clause in the list, of a text that the source has
    not or has more than once, or listed and not there; and lines of the list that are out of order."""
    found = sorted(glob.glob("crates/*/must-fail/*.edit", root_dir=TOP))
    lines = [it for it in text_of(LISTED).splitlines() if not it.startswith("#")]
    listed = {it.split()[0]: it.split()[1:] for it in lines}
    if lines != sorted(lines) or len(listed) != len(lines):
        yield f"{LISTED}: the lines are not in order"
    for path in found:
        text = text_of(path)
        crate, name = path.split("/")[1], os.path.basename(path).removesuffix(".edit")
        words = listed.pop(f"{crate}/{name}", [])
        if len(words) < 2 or words[0] not in ("gate", "-"):
            yield f"{LISTED}: no line says which clause refuses {crate}/{name}"
        for file, old in re.findall(r"^file: (.*)\nold: (.*)$", text, re.M):
            source = os.path.join(os.path.dirname(os.path.dirname(path)), file.strip())
            if not os.path.isfile(os.path.join(TOP, source)) or text_of(source).count(old) != 1:
                yield f"{path}: its old text does not stand once in {source}"
    for name in listed:
        yield f"{LISTED}: there is no {name}"


def wrong_tests():
    """The tests of wrong bodies that are beside none, and the lines of those that neither a proof nor a test shows of which
    there is none, or a test."""
    known = {it.removesuffix(".edit") for it in glob.glob("crates/*/must-fail/*.edit", root_dir=TOP)}
    shown = {it.removesuffix(".test") for it in glob.glob("crates/*/must-fail/*.test", root_dir=TOP)}
    yield from (f"{it}.test: no wrong body is beside it" for it in sorted(shown - known))
    for line in (it for it in text_of(UNSHOWN).splitlines() if not it.startswith("#")):
        place = f"crates/{line.replace('/', '/must-fail/')}"
        if place not in known - shown:
            yield f"{UNSHOWN}: {line} is no wrong body, or has a test"


def wrong_parts():
    """The parts of the tests that CONTRIBUTING.md does not name."""
    page = text_of("CONTRIBUTING.md")
    for script in sorted(set(re.findall(r'Part\("(tests/[^"]*)"', text_of("tests/run.py")))):
        if os.path.basename(script) not in page:
            yield f"CONTRIBUTING.md: {script} is not named"


def wrong_pages():
    """The pages of which a part is not what the sources give."""
    done = subprocess.run([PAGES, "--check"], cwd=TOP, stdout=subprocess.PIPE, check=False)
    return done.stdout.decode().splitlines() or ([f"{PAGES} failed"] if done.returncode else [])


def wrong_oracle():
    """What pages show of the oracle otherwise than the sources, and the definitions that its own page neither shows nor names in
    a section with a link to their file."""
    sources = "\n".join(text_of(it) for it in ORACLE_SOURCES)
    known = {line.strip() for line in f"{sources}\n{text_of(RUNNING)}".split("\n")}
    for page in ("README.md", ORACLE):
        shown = "".join(re.findall(r"^```text\n(.*?)^```", text_of(page), re.M | re.S))
        for line in shown.split("\n"):
            if line.strip() not in known:
                yield f"{page}: {line.strip()} is not in the sources"
    sections = re.split(r"^#+ ", text_of(ORACLE), flags=re.M)
    for source in ORACLE_SOURCES:
        link = f"]({os.path.relpath(source, os.path.dirname(ORACLE))})"
        named = [part for part in sections if link in part]
        for name in re.findall(r"^(?:abbrev pub|pub record) (\w+) :", text_of(source), re.M):
            is_shown = re.search(rf"^(?:pub record )?{name}\b.*[=:]", shown, re.M)
            if not is_shown and not any(f"`{name}`" in part for part in named):
                yield f"{ORACLE}: {name} is neither shown nor named with a link to {source}"


def main():
    if len(sys.argv) != 1:
        sys.exit(__doc__)
    listed = files()
    names = Names(listed)
    targets = {name for it in MAKEFILES for name in re.findall(r"^([a-z\-]+):", text_of(it), re.M)}
    wrong, count = [], 1
    for page in (it for it in listed if it.endswith(".md")):
        text = text_of(page)
        wrong += [*wrong_links(page, text), *wrong_names(page, text, names, targets)]
        count += 1
    for crate in crates():
        if os.path.isfile(os.path.join(TOP, "crates", crate, "README.md")):
            wrong += wrong_page(crate)
        if os.path.isfile(os.path.join(TOP, "crates", crate, "src", "lib.rt")) and not crate.endswith("_tests"):
            wrong += wrong_contracts_of(crate)
            count += 1
    wrong += [*wrong_bodies(), *wrong_tests(), *wrong_parts(), *wrong_pages(), *wrong_oracle(), *wrong_items()]
    wrong += [*wrong_figures(), *wrong_copies(), *wrong_counts(), *wrong_words()]
    for it in wrong:
        print(it)
    failed = len({it.split(":")[0] for it in wrong})
    print(f"{count - failed} passed, {failed} failed")
    sys.exit(1 if wrong else 0)


if __name__ == "__main__":
    main()
