#!/usr/bin/env python3
"""Compares the program with the other cdb programs that are installed.

    tests/interop/run.py PROGRAM

Each comparison needs some programs, and is passed over with a word where one of them is missing. The
others are tinycdb's cdb, freecdb's cdbmake, cdbdump, cdbget and cdbstats, postmap with its cdb
maps, tinydns-data, and Perl's CDB_File. With qemu the program also runs on the oldest processor of a PC
that it is built for.
"""

import os
import shutil
import subprocess
import sys
import tempfile

HERE = os.path.dirname(os.path.abspath(__file__))
sys.path.insert(0, os.path.join(HERE, "..", "cli"))

from files import LARGE, LARGE_FILE, LARGE_TEXT, file_of, text_of
from rows import HANGS

# Some aliases, of which a key stands twice.
ALIASES = b"postmaster root\nabuse root\nwebmaster www\nabuse security\n"
ALIAS_RECORDS = [tuple(line.split(b" ", 1)) for line in ALIASES.splitlines()]
ZONE = (
    b".example.invalid:192.0.2.1:a:259200\n"
    b"=www.example.invalid:192.0.2.7:86400\n"
    b"@example.invalid:192.0.2.8:mail:10:86400\n"
)
PERL_MAKE = """
use CDB_File;
my $new = CDB_File->new($ARGV[0], "$ARGV[0].tmp") or die;
$new->insert("key$_", "value $_") for 1 .. 500;
$new->finish or die;
"""
PERL_READ = """
use CDB_File;
tie my %map, "CDB_File", $ARGV[0] or die;
print map { "$_ $map{$_}\\n" } sort keys %map;
"""


class Folder:
    """A folder in which programs are run."""

    def __init__(self, path, program):
        self.path = path
        self.program = program

    def write(self, name, what):
        """Makes a file."""
        with open(os.path.join(self.path, name), "wb") as file:
            file.write(what)

    def read(self, name):
        """The bytes of a file."""
        with open(os.path.join(self.path, name), "rb") as file:
            return file.read()

    def run(self, *words, stdin=b""):
        """What a program writes that is to end well. It reads a file, as some of them want."""
        with tempfile.TemporaryFile() as file:
            file.write(stdin)
            file.seek(0)
            done = subprocess.run(
                words, cwd=self.path, stdin=file, stdout=subprocess.PIPE, timeout=HANGS, check=True
            )
        return done.stdout

    def ours(self, *words, stdin=b""):
        """What our program writes."""
        return self.run(self.program, *words, stdin=stdin)


def other_cdb():
    """tinycdb's program, which has the name that ours is installed by."""
    for path in ("/usr/bin/cdb", "/usr/local/bin/cdb"):
        if os.path.exists(path) and b"CDB) tool" in subprocess.run(
            [path, "-h"], capture_output=True, timeout=HANGS
        ).stdout:
            return path
    return None


def tinycdb_makes_the_same(folder, cdb):
    """The same bytes of a text and of a map, and of each mode."""
    folder.write("text", LARGE_TEXT)
    folder.write("map", ALIASES)
    for words, name in [("-c", "text"), ("-cm", "map"), ("-cmu", "map"), ("-cmr", "map")]:
        folder.run(cdb, words, "theirs", name)
        folder.ours(words, "ours", name)
        if folder.read("theirs") != folder.read("ours"):
            return f"cdb {words} made another file"
    return None


def tinycdb_reads_the_same(folder, cdb):
    """Dumps, lists and values of one file."""
    folder.write("x", LARGE_FILE)
    for words in (["-d", "x"], ["-l", "x"], ["-dm", "x"], ["-lm", "x"]):
        if folder.run(cdb, *words) != folder.ours(*words):
            return f"cdb {words[0]} wrote otherwise"
    folder.write("y", file_of(ALIAS_RECORDS))
    for words in (["-q", "y", "abuse"], ["-qm", "y", "abuse"], ["-q", "-n", "2", "y", "abuse"]):
        if folder.run(cdb, *words) != folder.ours(*words):
            return f"cdb {' '.join(words)} wrote otherwise"
    return None


def freecdb_makes_the_same(folder, cdbmake):
    """The same bytes of a text."""
    folder.run(cdbmake, "theirs", "theirs.tmp", stdin=LARGE_TEXT)
    folder.ours("-c", "ours", stdin=LARGE_TEXT)
    return None if folder.read("theirs") == folder.read("ours") else "another file"


def freecdb_reads_ours(folder, cdbdump):
    """The text of our file."""
    folder.ours("-c", "ours", stdin=LARGE_TEXT)
    return None if folder.run(cdbdump, stdin=folder.read("ours")) == LARGE_TEXT else "another text"


def freecdb_finds_in_ours(folder, cdbget):
    """The first value of some keys in our file."""
    folder.ours("-c", "ours", stdin=LARGE_TEXT)
    first = {}
    for key, value in LARGE:
        first.setdefault(key, value)
    # A key that is an argument has no zero byte, and looks like no option.
    keys = [key for key in first if key and bytes(1) not in key and not key.startswith(b"-")][:100]
    for key in keys:
        if folder.run(cdbget, key, stdin=folder.read("ours")) != first[key]:
            return f"another value of {key!r}"
    return None


def postmap_finds_in_ours(folder, postmap):
    """An alias in a map that is ours, in the form of postmap's: a key and a value end with a zero
    byte or not, as in the map."""
    records = [(b"postmaster", b"root"), (b"abuse", b"security")]
    folder.ours("-c", "map.cdb", stdin=text_of(records))
    os.environ["MAIL_CONFIG"] = folder.path
    folder.write("main.cf", b"compatibility_level = 3.6\n")
    for key, value in records:
        found = folder.run(postmap, "-c", folder.path, "-q", key, f"cdb:{folder.path}/map")
        if found != value + b"\n":
            return f"another value of {key!r}: {found!r}"
    return None


def postmap_maps_are_read(folder, postmap):
    """A map of postmap's is sound, and has its aliases."""
    folder.write("map", b"postmaster root\nabuse security\n")
    folder.write("main.cf", b"compatibility_level = 3.6\n")
    folder.run(postmap, "-c", folder.path, f"cdb:{folder.path}/map")
    folder.ours("-k", "map.cdb")
    found = {line.replace(b"\0", b"") for line in folder.ours("-dm", "map.cdb").splitlines()}
    wanted = {b"postmaster root", b"abuse security"}
    return None if found == wanted else f"another dump: {found!r}"


def tinydns_data_is_read(folder, tinydns):
    """The database of a zone is sound, and is made again by its dump."""
    folder.write("data", ZONE)
    folder.run(tinydns)
    folder.ours("-k", "data.cdb")
    folder.ours("-c", "again", stdin=folder.ours("-d", "data.cdb"))
    return None if folder.read("again") == folder.read("data.cdb") else "another file"


def perl_makes_the_same(folder, perl):
    """A file of Perl's is the one that we make of its dump."""
    folder.run(perl, "-e", PERL_MAKE, "theirs")
    folder.ours("-k", "theirs")
    folder.ours("-c", "again", stdin=folder.ours("-d", "theirs"))
    return None if folder.read("again") == folder.read("theirs") else "another file"


def perl_reads_ours(folder, perl):
    """The values of our file."""
    records = [(b"key%d" % n, b"value %d" % n) for n in range(500)]
    folder.ours("-c", "ours", stdin=text_of(records))
    wanted = b"".join(b"%s %s\n" % record for record in sorted(records))
    return None if folder.run(perl, "-e", PERL_READ, "ours") == wanted else "other values"


def an_old_processor_does_the_same(folder, qemu):
    """Each command on a processor of 2006."""
    old = (qemu, "-cpu", "core2duo", folder.program)
    folder.write("text", LARGE_TEXT)
    folder.run(*old, "-c", "ours", "text")
    if folder.read("ours") != LARGE_FILE:
        return "another file"
    key = next(key for key, _ in LARGE if key and key.isalnum())
    for words in (["-d", "ours"], ["-l", "ours"], ["-s", "ours"], ["-k", "ours"], ["-q", "ours", key]):
        if folder.run(*old, *words) != folder.ours(*words):
            return f"cdb {words[0]} wrote otherwise"
    return None


def emulator():
    """An emulator of this machine's kind."""
    return found("qemu-x86_64") if os.uname().machine == "x86_64" else None


def perl_with_cdb():
    """Perl, where it has CDB_File."""
    perl = shutil.which("perl")
    if perl is None:
        return None
    has = subprocess.run([perl, "-MCDB_File", "-e", "1"], capture_output=True, timeout=HANGS)
    return perl if has.returncode == 0 else None


def postmap_with_cdb():
    """postmap, where it has cdb maps."""
    postmap = shutil.which("postmap") or shutil.which("/usr/sbin/postmap")
    postconf = shutil.which("postconf") or shutil.which("/usr/sbin/postconf")
    if postmap is None or postconf is None:
        return None
    maps = subprocess.run([postconf, "-m"], capture_output=True, timeout=HANGS).stdout.split()
    return postmap if b"cdb" in maps else None


def found(name):
    """A program of this name."""
    return shutil.which(name) or shutil.which(f"/usr/sbin/{name}")


COMPARISONS = [
    ("tinycdb", other_cdb, [tinycdb_makes_the_same, tinycdb_reads_the_same]),
    ("freecdb's cdbmake", lambda: found("cdbmake"), [freecdb_makes_the_same]),
    ("freecdb's cdbdump", lambda: found("cdbdump"), [freecdb_reads_ours]),
    ("freecdb's cdbget", lambda: found("cdbget"), [freecdb_finds_in_ours]),
    ("postmap", postmap_with_cdb, [postmap_finds_in_ours, postmap_maps_are_read]),
    ("tinydns-data", lambda: found("tinydns-data"), [tinydns_data_is_read]),
    ("Perl's CDB_File", perl_with_cdb, [perl_makes_the_same, perl_reads_ours]),
    ("a processor of 2006", emulator, [an_old_processor_does_the_same]),
]


def main():
    if len(sys.argv) != 2:
        sys.exit(__doc__)
    program = os.path.abspath(sys.argv[1])
    passed = failed = skipped = 0
    for name, find, compares in COMPARISONS:
        other = find()
        if other is None:
            skipped += len(compares)
            print(f"{name}: not installed, passed over")
            continue
        for compare in compares:
            with tempfile.TemporaryDirectory() as path:
                try:
                    wrong = compare(Folder(path, program), other)
                except subprocess.CalledProcessError as error:
                    wrong = f"{error.cmd[0]} ended with {error.returncode}"
            failed += wrong is not None
            passed += wrong is None
            print(f"{name}: {compare.__name__}: {wrong or 'the same'}")
    print(f"{passed} passed, {failed} failed, {skipped} passed over")
    sys.exit(1 if failed else 0)


if __name__ == "__main__":
    main()
