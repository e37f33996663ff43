"""What pages show of the sources, each compared with its source."""

import glob
import os
import re
import sys

from sources import TOP, crates, sources_of, text_of

sys.path.insert(0, os.path.join(TOP, "bench"))
sys.path.append(os.path.join(TOP, "tools"))
import growth  # noqa: E402
from trees import lines_of  # noqa: E402

PROMISES, CONTRIBUTING, LIBRARY = "docs/audit/PROMISES.md", "CONTRIBUTING.md", "docs/LIBRARY.md"
# How many lines a body may have, and how a page names those that have more.
LINES = 40
LONGER = re.compile(r"fewer than 40 lines; a file has one idea\. \w+ bod(?:y is|ies are) longer: (.*?)\.\s")
HEAD = re.compile(r"( *)(?:pub(?:\(crate\))? )?(?:const |unsafe |extern \"C\" )*fn (\w+)")


def wrong_contracts():
    """The contracts and definitions that pages show as they read, and that no source has so."""
    code = [text_of(path) for crate in crates() for path in sources_of(crate)]
    code += [text_of(path) for path in glob.glob("crates/*/specs/**/*.antt", root_dir=TOP, recursive=True)]
    for page in (PROMISES, *sorted(glob.glob("crates/*/README.md", root_dir=TOP))):
        for shown in re.findall(r"^```\w*\n(.*?)^```", text_of(page), re.M | re.S):
            if not any(shown in it for it in code):
                yield f"{page}: {shown.splitlines()[0]} is not what a source has"


def wrong_crates():
    """The lines of crates.txt that a page shows otherwise."""
    listed = lines_of(TOP)
    for shown in re.findall(r"^(\w+): .*$|^(\w+):$", text_of(LIBRARY), re.M):
        name = shown[0] or shown[1]
        if name in listed and listed[name].strip() not in text_of(LIBRARY).splitlines():
            yield f"{LIBRARY}: the line of {name} is not that of crates.txt"


def texts_at(place):
    """The text of a file of a crate, named without what says its kind, or of all files in a folder."""
    found = [it for kind in ("", ".antt", "/**/*.rt") for it in glob.glob(f"crates/{place}{kind}", root_dir=TOP, recursive=True)]
    return "".join(text_of(it) for it in found if os.path.isfile(os.path.join(TOP, it)))


def wrong_places():
    """The functions and clauses of a promise that none of the files has which its row names."""
    rows = re.findall(r"^\| ([^|]*) \| ([^|]*) \| ([^|]*) \|$", text_of(PROMISES), re.M)[1:]
    for promise, named, places in rows:
        words = set(re.findall(r"\w+", "".join(texts_at(it) for it in re.findall(r"`(.*?)`", places))))
        for name in re.findall(r"`(\w+)`", named):
            if name not in words:
                yield f"{PROMISES}: {promise}: {name} is in none of the files"
    if not rows:
        yield f"{PROMISES}: no promise has a row"


def wrong_edit():
    """The wrong body that a page shows, if there is none of its name and its lines."""
    page = text_of(CONTRIBUTING)
    shown = re.search(r"^```\n(file: .*?)^```", page, re.M | re.S)[1]
    named = re.search(r"in plain words: `(.*?\.edit)`", page)[1]
    found = glob.glob(f"crates/*/must-fail/{named}", root_dir=TOP)
    if len(found) != 1 or text_of(found[0]).split() != shown.split():
        yield f"{CONTRIBUTING}: {named} does not read so"


def bodies_of(text):
    """The functions of a source, each with how many lines its body has. A body begins after the first line that opens one, or
    after the brace on a line of its own that follows a contract."""
    lines = text.splitlines()
    heads = {number: HEAD.match(line) for number, line in enumerate(lines)}
    for number, head in ((it, head) for it, head in heads.items() if head):
        end = next((it for it in range(number, len(lines)) if lines[it] == head[1] + "}"), len(lines))
        inside = range(number, end)
        # What has no body ends before another begins.
        if any(heads[it] and heads[it][1] == head[1] for it in inside[1:]):
            continue
        opened = [it for it in inside if lines[it].endswith("{")]
        begin = next((it for it in inside if lines[it] == head[1] + "{"), opened[0] if opened else end)
        yield head[2], end - begin - 1


def wrong_lengths():
    """The bodies that are longer than others, and that a page does not name; and those that it names, and are not."""
    named = set(re.findall(r"`(\w+)`(?: of `\w+`)?", LONGER.search(text_of(CONTRIBUTING))[1]))
    found = set()
    for crate in (it for it in crates() if not it.endswith("_tests")):
        for path in sources_of(crate):
            found |= {name for name, length in bodies_of(text_of(path)) if length >= LINES}
    for name in found ^ named:
        yield f"{CONTRIBUTING}: {name} {'has' if name in found else 'has not'} {LINES} lines and more"


def wrong_pictures():
    """The pictures that show other figures than their page."""
    for picture in growth.PICTURES:
        if f"<dc:description>{growth.told(picture)}</dc:description>" not in text_of(f"docs/pictures/{picture}.svg"):
            yield f"docs/pictures/{picture}.svg: not the figures of docs/PERFORMANCE.md: run bench/growth.py --draw"


def wrong_copies():
    """All that is not as its source has it."""
    return [*wrong_contracts(), *wrong_crates(), *wrong_places(), *wrong_edit(), *wrong_lengths(), *wrong_pictures()]
