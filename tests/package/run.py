#!/usr/bin/env python3
"""Makes the package of a program twice, unpacks it, and runs the worked example from it.

    tests/package/run.py PROGRAM

The example is the text of two records and its file, worked out by hand in tests/cli/files.py. `lintian` may find no
error and warn of nothing, and neither may `mandoc`. In a git checkout the tarball of the sources is made twice too.
Root installs the package in a folder, over an older one and over one of tinycdb's name.
"""

import hashlib
import os
import re
import subprocess
import sys
import tarfile
import tempfile

HERE = os.path.dirname(os.path.abspath(__file__))
TOP = os.path.join(HERE, "..", "..")
sys.path.insert(0, os.path.join(HERE, "..", "cli"))

import upgrades
from files import TWO_FILE, TWO_TEXT
from held import tell
from rows import CHECKOUT, has, is_checkout, leave_out

TOOL = os.path.join(TOP, "tools", "package.py")
# What is tested if a command, or a git checkout, is here.
LINTED = "lintian finds nothing of weight"
READ = "mandoc warns of nothing in the pages"
OF_TARBALL = (
    "the tarball has the same bytes each time, and their sum",
    "the tarball has the version",
    "all may read what the tarball has",
)
# What the package holds, with the permissions of each.
HELD = {
    "usr/bin/cdb": 0o755,
    "usr/share/man/man1/cdb.1.gz": 0o644,
    "usr/share/man/man5/cdb.5.gz": 0o644,
    "usr/share/doc/pezundrix/copyright": 0o644,
    "usr/share/doc/pezundrix/changelog.gz": 0o644,
    "usr/share/doc/pezundrix/GUIDE.md.gz": 0o644,
    "usr/share/bash-completion/completions/cdb": 0o644,
    "usr/share/zsh/vendor-completions/_cdb": 0o644,
    "usr/share/fish/vendor_completions.d/cdb.fish": 0o644,
}


def made_twice(*words):
    """Makes a file twice, in folders of their own. Answers its name, and whether each time has the
    same bytes and the sum that was printed."""
    found = []
    for folder in (tempfile.mkdtemp(dir=words[-1]), tempfile.mkdtemp(dir=words[-1])):
        done = subprocess.run([TOOL, *words[:-1], folder], stdout=subprocess.PIPE, check=True)
        told, path = done.stdout.decode().removesuffix("\n").split("  ")
        with open(path, "rb") as file:
            data = file.read()
        found.append((data, told == hashlib.sha256(data).hexdigest()))
    return path, found[0] == found[1] and found[0][1]


def output_of(words, data=b""):
    """What a command that succeeds writes."""
    return subprocess.run(words, input=data, capture_output=True, check=True).stdout


def runs_example(program, folder):
    """Whether a program makes the worked file of the worked text, dumps it, and finds a value."""
    path = os.path.join(folder, "two.cdb")
    output_of([program, "-c", path], TWO_TEXT)
    with open(path, "rb") as file:
        is_worked = file.read() == TWO_FILE
    dumped = output_of([program, "-d", path])
    return is_worked and dumped == TWO_TEXT and output_of([program, "-q", path, "two"]) == b"Goodbye"


def holds_files(tree):
    """Whether each file of the package is there, with its permissions."""
    paths = {os.path.join(tree, name): mode for name, mode in HELD.items()}
    return all(os.path.isfile(it) and os.stat(it).st_mode & 0o7777 == mode for it, mode in paths.items())


def bash_lines(tree, word, kind):
    """What bash completes a word to: a list that it shows (63), or what it inserts one after the other (37)."""
    script = os.path.join(tree, "usr", "share", "bash-completion", "completions", "cdb")
    asked = f'source {script}; COMP_WORDS=(cdb {word}); COMP_CWORD=1; COMP_TYPE={kind}; _cdb; printf "%s\\n" "${{COMPREPLY[@]}}"'
    return output_of(["bash", "-c", asked]).decode().splitlines()


def other_letters(tree):
    """The letters that zsh and fish get, each with what it does."""
    for name, letter in {
        "zsh/vendor-completions/_cdb": r"^\t'(?:\([^)]*\))?-(\w)\[(\w[^]]+)\]",
        "fish/vendor_completions.d/cdb.fish": r"^complete -c cdb -s (\w)(?: -\w)* -d '(\w[^']+)'$",
    }.items():
        with open(os.path.join(tree, "usr", "share", name), encoding="utf-8") as file:
            yield {(it, meaning[0].lower() + meaning[1:]) for it, meaning in re.findall(letter, file.read(), re.M)}


def completes(program, tree):
    """Whether each shell completes a hyphen to the letters of the usage text, and says the same of each as that text; bash
    inserts the letters alone."""
    usage = output_of([program, "-h"]).decode()
    named = set(re.findall(r"-([A-Za-z])\b", usage)) | set("".join(re.findall(r"\[-([a-z]+)\]", usage)))
    meant = set(re.findall(r"^(?:  |.*: )-(\w)  (\w.*)$", usage, re.M))
    shown = {(it[1], it[4:]) for it in bash_lines(tree, "-", 63)}
    is_same = {it for it, _ in meant} == named and all(meant == others for others in (shown, *other_letters(tree)))
    inserted = {f"-{it}" for it in named}
    return is_same and set(bash_lines(tree, "-", 37)) == inserted and bash_lines(tree, "-q", 63) == ["-q"]


def conflicts(package):
    """Whether the package takes the place of tinycdb's command, and does not pass for it."""
    names = ("Conflicts", "Replaces", "Provides")
    fields = [output_of(["dpkg-deb", "--field", package, it]).strip() for it in names]
    return fields == [b"tinycdb", b"tinycdb", b""]


def has_fields(program, folder):
    """Whether a package that somebody publishes says where it comes from, and one that nobody does does not."""
    wanted = {"Homepage": "https://maps.example/cdb", "Vcs-Git": "https://maps.example/cdb.git", "Maintainer": "Ann <ann@maps.example>"}
    given = {it.upper().replace("-", "_"): value for it, value in wanted.items()}
    found = []
    for environment in (given, dict.fromkeys(given, "")):
        place = tempfile.mkdtemp(dir=folder)
        words = [TOOL, "deb", program, place]
        made = subprocess.run(words, env={**os.environ, **environment}, stdout=subprocess.PIPE, check=True)
        package = made.stdout.decode().removesuffix("\n").split("  ")[1]
        found.append([output_of(["dpkg-deb", "--field", package, it]).decode().strip() for it in wanted])
    return found[0] == list(wanted.values()) and found[1][:2] == ["", ""] and found[1][2] != ""


def is_stripped(tree):
    """Whether the program has no symbols that it does not need."""
    with open(os.path.join(tree, "usr", "bin", "cdb"), "rb") as file:
        return b".symtab" not in file.read()


def has_no_error(package):
    """Whether lintian finds no error and warns of nothing."""
    done = subprocess.run(["lintian", "--allow-root", package], capture_output=True, check=False)
    errors = re.findall(r"^[EW]: .*$", done.stdout.decode(), re.M)
    print("\n".join(errors), end="\n" if errors else "")
    return not errors


def version():
    """The version of this tree."""
    with open(os.path.join(TOP, "VERSION"), encoding="ascii") as file:
        return file.read().strip()


def tests_of(program, folder):
    """What is tested, each with whether it holds."""
    package, is_same = made_twice("deb", program, folder)
    tree = os.path.join(folder, "tree")
    output_of(["dpkg-deb", "--extract", package, tree])
    held = {
        "the package has the same bytes each time, and their sum": is_same,
        "the package holds its files": holds_files(tree),
        "the package conflicts with tinycdb": conflicts(package),
        "the package says who publishes it, if somebody does": has_fields(program, folder),
        "the program is stripped": is_stripped(tree),
        "each shell completes the letters": completes(program, tree),
        "the example runs from the package": runs_example(os.path.join(tree, "usr", "bin", "cdb"), folder),
    }
    if os.geteuid() == 0:
        held |= upgrades.rows(package, version(), folder)
    else:
        leave_out("the package installed over another", "root")
    if has("lintian", LINTED):
        held[LINTED] = has_no_error(package)
    if has("mandoc", READ):
        pages = [os.path.join(TOP, "man", it) for it in ("cdb.1", "cdb.5")]
        done = subprocess.run(["mandoc", "-T", "lint", "-W", "warning", *pages], check=False)
        held[READ] = done.returncode == 0
    if is_checkout():
        return held | dict(zip(OF_TARBALL, of_tarball(folder)))
    # A release has no sources.
    for row in OF_TARBALL if os.path.isdir(os.path.join(TOP, "crates")) else ():
        leave_out(row, CHECKOUT)
    return held


def of_tarball(folder):
    """Whether each row of the tarball of the sources holds."""
    tarball, is_same = made_twice("dist", folder)
    with tarfile.open(tarball) as tar:
        has_version = any(it.endswith("/VERSION") for it in tar.getnames())
        return is_same, has_version, {it.mode & 0o777 for it in tar.getmembers()} == {0o644, 0o755}


def main():
    if len(sys.argv) != 2:
        sys.exit(__doc__)
    with tempfile.TemporaryDirectory() as folder:
        held = tests_of(os.path.abspath(sys.argv[1]), folder)
    tell(held.items())


if __name__ == "__main__":
    main()
