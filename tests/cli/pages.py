#!/usr/bin/env python3
"""Compares the manual page with what the program says of itself.

    tests/cli/pages.py PROGRAM

The synopsis is to be the usage text, each letter of it is to be described, and each line that the
cases of cases.py await on standard error is to stand among the diagnostics. Beside the sources README.md is to name the
toolchain, the command in the environment's RT, else `rt`, as it proves the program, and docs/LIBRARY.md is to show
two callers as they are in cdb_files.
"""

import os
import re
import subprocess
import sys

from cases import CASES
from rows import has

HERE = os.path.dirname(os.path.abspath(__file__))
PAGE = os.path.join(HERE, "..", "..", "man", "cdb.1")
README = os.path.join(HERE, "..", "..", "README.md")
LIBRARY = os.path.join(HERE, "..", "..", "docs", "LIBRARY.md")
CRATES = os.path.join(HERE, "..", "..", "crates")
CALLERS = [os.path.join(CRATES, "cdb_files", "src", "examples", it) for it in ("read.rt", "files.rt")]
# What stands in a diagnostic in place of a number, and of another diagnostic.
NUMBER = "[A-Z]"
# How the usage text says that a letter goes with each form, and what a letter means.
EACH = "       with each: -v  say which file and why\n"
MEANING = re.compile(r"^  -\w  \w.*\n", re.M)
OF_EACH = " [-v]"
OTHER = "..."


def section(page, name):
    """The lines of a section."""
    lines = page.split(f".Sh {name}\n")[1].split("\n.Sh ")[0]
    return lines.split("\n")


def said(words):
    """What a line of macros says: letters get their hyphens."""
    shown, is_letter = [], False
    for word in words:
        if word in ("Fl", "Ar"):
            is_letter = word == "Fl"
        else:
            shown.append(f"-{word}" if is_letter else word)
            is_letter = False
    return " ".join(shown)


def usage_of(page):
    """The usage text that the synopsis tells."""
    lines = []
    for line in section(page, "SYNOPSIS"):
        macro, *words = line.lstrip(".").split()
        if macro == "Nm":
            lines.append(["cdb"])
        elif macro == "Op":
            lines[-1].append(f"[{said(words)}]")
        else:
            lines[-1].append(said([macro, *words]))
    texts = [" ".join(line) for line in lines]
    return "".join(
        f"{'usage:' if n == 0 else '      '} {text}\n" for n, text in enumerate(texts)
    )


def letters_of(usage):
    """The letters of a usage text."""
    return {letter for word in re.findall(r"-(\w+)", usage) for letter in word}


def described_in(page):
    """The letters that the page describes: those of a list, and the commands in the text."""
    return set(re.findall(r"^\.(?:It )?Fl (\w)\b", page.split(".Sh DESCRIPTION")[1], re.M))


def diagnostics_of(page):
    """For each diagnostic what a line is to look like."""
    texts = re.findall(r'^\.It "(.*)"$', page, re.M)
    looks = {text: re.sub(rf"\b{NUMBER}\b", r"\\d+", re.escape(text)) for text in texts}
    others = "|".join(look for text, look in looks.items() if not text.endswith(OTHER))
    return [re.compile(look.replace(re.escape(OTHER), f"(?:{others})")) for look in looks.values()]


def toolchain_of(readme):
    """The toolchain that README.md names."""
    return re.search(r"^Proved with: `(.*)`\.$", readme, re.MULTILINE)[1]


def is_shown(page, source):
    """Whether a page shows the code of a file, which follows its first line, as another crate has it."""
    with open(page, encoding="utf-8") as shown, open(source, encoding="utf-8") as file:
        code = file.read().split("\n", 1)[1].replace("use crate::", "use cdb_files::")
        return f"```rust\n{code}```" in shown.read()


def of_toolchain(command):
    """What is wrong of the toolchain that README.md names."""
    version = subprocess.run([command, "version"], capture_output=True, check=True).stdout.decode()
    with open(README, encoding="utf-8") as file:
        toolchain = toolchain_of(file.read())
    # Kits of one logic check alike; a kit's own name changes with its tools.
    if toolchain.split(" logic ")[-1] != version.strip().split(" logic ")[-1]:
        return [f"README.md names {toolchain}, and this is {version.strip()}"]
    return []


def of_library():
    """What is wrong of the page on the library."""
    hidden = [os.path.basename(it) for it in CALLERS if not is_shown(LIBRARY, it)]
    return [f"docs/LIBRARY.md does not show the caller of {it} as it is in cdb_files" for it in hidden]


def main():
    if len(sys.argv) != 2:
        sys.exit(__doc__)
    with open(PAGE, encoding="utf-8") as file:
        page = file.read()
    usage = subprocess.run([sys.argv[1], "-h"], capture_output=True, check=True).stdout.decode()
    lines = {
        line.removeprefix("cdb: ")
        for case in CASES.values()
        for line in case["errors"].decode().splitlines()
    }
    patterns = diagnostics_of(page)
    wrong = []
    told = usage_of(page)
    forms = told.replace(OF_EACH, "") + EACH + "\n" == MEANING.sub("", usage)
    if not forms or told.count(OF_EACH) != told.count("\n"):
        wrong.append(f"the synopsis tells\n{told}and the program\n{usage}")
    missing = letters_of(usage) - described_in(page)
    if missing:
        wrong.append(f"not described: {sorted(missing)}")
    unknown = [line for line in lines if not any(it.fullmatch(line) for it in patterns)]
    if unknown:
        wrong.append(f"no diagnostic: {sorted(unknown)}")
    count = 3
    rt = os.environ.get("RT") or "rt"
    if os.path.isdir(CRATES):
        count, wrong = count + 1, wrong + of_library()
        if has(rt, "README.md names the toolchain"):
            count, wrong = count + 1, wrong + of_toolchain(rt)
    for it in wrong:
        print(it)
    print(f"{count - len(wrong)} passed, {len(wrong)} failed")
    sys.exit(1 if wrong else 0)


if __name__ == "__main__":
    main()
