#!/usr/bin/env python3
"""Runs installed programs on the C library, and compares it with tinycdb's where that is installed.

    tests/clib/interop.py ANSWERS FOLDER [ROOT]

ANSWERS is answers.c, built; FOLDER has libcdb.so.1 and makes.c, built. ROOT is a folder into which
packages of tinycdb were unpacked; without it those that are installed are taken. If the variable
TINYCDB_SOURCES of the environment names a folder of tinycdb's sources, its command is built with our
header and static library, and its own tests run on it; and its modules for the C library's name service
are compiled. A test whose program is missing is passed over with a word. On damaged files the two libraries may differ: the test says on
how many, and in what.
"""

import collections
import glob
import os
import shutil
import socket
import struct
import subprocess
import sys
import tempfile
import time

from drawn import drawn_files, good_files
from files import LARGE, LARGE_FILE, LARGE_TEXT, file_of
from maker import Maker, drawn_script
from making import Driver as Makes
from making import split as split_calls
from model import answers
from rows import HANGS
from run import Driver, compare_plain, split

ROOT = os.path.abspath(sys.argv[3]) if len(sys.argv) == 4 else ""
CALLS = ["walk", "cdb_findnext", "cdb_find", "cdb_seek", "cdb_hash"]
ALIASES = [(b"postmaster", b"root"), (b"abuse", b"root"), (b"abuse", b"security")]


def installed_library(root):
    """The folder of tinycdb's library."""
    for pattern in (f"{root}/usr/lib/*/libcdb.so.1", f"{root}/usr/lib/libcdb.so.1"):
        for path in glob.glob(pattern):
            return os.path.dirname(path)
    return None


def run(words, folder, library, data=b""):
    """The status and the output of a program, on a library."""
    environment = dict(os.environ, MAIL_CONFIG=folder, LD_LIBRARY_PATH=library)
    done = subprocess.run(words, cwd=folder, env=environment, input=data, capture_output=True,
                          timeout=HANGS)
    return done.returncode, done.stdout


def taken(path):
    """The bytes of a file, which is removed, or none if it is missing."""
    if not os.path.exists(path):
        return b""
    with open(path, "rb") as file:
        data = file.read()
    os.remove(path)
    return data


def tinycdb_makes(folder, library, cdb):
    """Files that tinycdb's program makes, on its library and on ours. After a removal its library may
    leave bytes behind the tables."""
    text = LARGE_TEXT[:-1] + b"".join(b"+%d,1:%s->x\n" % (len(key), key) for key, _ in LARGE[::7])
    for flags in (["-c"], ["-cw"], ["-cr"], ["-cu"], ["-ce"], ["-c", "-t", "-"]):
        made = []
        for where in (installed_library(ROOT), library):
            said = run([cdb, *flags, "made"], folder, where, text + b"\n")
            made.append((said, taken(os.path.join(folder, "made"))))
        (their_words, theirs), (our_words, ours) = made
        if their_words != our_words or theirs[:len(ours)] != ours:
            return f"cdb {' '.join(flags)} makes another file"
    return None


def tinycdb_runs(folder, library, cdb):
    """tinycdb's program, on its library and on ours."""
    keys = [key for key, _ in LARGE[:60] if key and key.isascii() and bytes(1) not in key]
    lines = [["-d", "large"], ["-l", "large"], ["-dm", "large"], ["-s", "large"]]
    lines += [["-q", "large", os.fsdecode(key)] for key in keys if key[:1] != b"-"]
    lines += [["-q", "small", key] for key in ("abuse", "postmaster", "none")]
    for words in lines:
        theirs = run([cdb, *words], folder, installed_library(ROOT))
        if theirs != run([cdb, *words], folder, library):
            return f"cdb {' '.join(words)} answers otherwise"
    return None


def configure_postfix(folder):
    """What Postfix needs to run its commands."""
    with open(os.path.join(folder, "main.cf"), "w") as config:
        config.write("compatibility_level = 3.6\n")


def postmap_runs(folder, library, postmap):
    """Postfix's look-ups in a map, with a key that has no value."""
    configure_postfix(folder)
    for key, wanted in [("postmaster", (0, b"root\n")), ("none", (1, b""))]:
        said = run([postmap, "-c", folder, "-q", key, f"cdb:{folder}/small"], folder, library)
        if said != wanted:
            return f"postmap -q {key}: {said}"
    return None


def same_makings(folder, library, makes):
    """Drawn scripts by tinycdb's library: its answers, and its files byte for byte up to the end of
    the tables."""
    scripts = [drawn_script(seed, 400, zeros=False) for seed in range(300)]
    driver = Makes(makes, library, folder)
    driver.place(scripts, b"")
    for n, said in enumerate(split_calls(driver.run().stdout)):
        maker = Maker()
        if [maker.answer(call) for call in scripts[n]] != said:
            return f"script {n}: other answers"
        if driver.file(n)[:len(maker.file)] != maker.file:
            return f"script {n}: another file"
    return None


def postmap_makes(folder, library, postmap):
    """A map that Postfix makes."""
    configure_postfix(folder)
    with open(os.path.join(folder, "map"), "w") as text:
        text.write("".join(f"{key.decode()} {value.decode()}\n" for key, value in ALIASES[:2]))
    said = run([postmap, "-c", folder, f"cdb:{folder}/map"], folder, library)
    if said != (0, b""):
        return f"postmap: {said}"
    said = run([postmap, "-c", folder, "-q", "abuse", f"cdb:{folder}/map"], folder, library)
    return None if said == (0, b"root\n") else f"postmap -q: {said}"


# The line of tinycdb's tests in which a file is limited. Our library writes it in another call.
LIMITED = (b"cdb_make_put: File too large", b"cdb_make_finish: File too large")
NAME_SERVICE = ["nss_cdb.c", "nss_cdb-passwd.c", "nss_cdb-group.c", "nss_cdb-spwd.c"]


def compile_there(folder, sources, name, words):
    """Compiles a source of tinycdb's with our header, whatever header lies beside it."""
    shutil.copy(os.path.join(sources, name), folder)
    header = os.path.join(os.path.dirname(os.path.abspath(__file__)), "..", "..", "clib")
    compiler = (os.environ.get("CC") or "cc").split()
    return subprocess.run([*compiler, "-I", header, name, *words], cwd=folder, capture_output=True,
                          check=False)


def own_tests_run(folder, library, sources):
    """tinycdb's own tests, on its command with our header and static library."""
    built = compile_there(folder, sources, "cdb.c", ["-o", "cdb", os.path.join(library, "libcdb.a")])
    if built.returncode:
        return built.stderr.decode()[:500]
    script = os.path.join(sources, "tests.sh")
    said = run(["sh", "-c", f"sh {script} ./cdb 2>&1"], folder, library)[1]
    with open(os.path.join(sources, "tests.ok"), "rb") as wanted:
        return None if said == wanted.read().replace(*LIMITED) else f"they say {said[-300:]}"


def own_modules_compile(folder, _, sources):
    """tinycdb's modules for the name service, with our header."""
    for name in ("nss_cdb.h", "cdb_int.h"):
        shutil.copy(os.path.join(sources, name), folder)
    for name in NAME_SERVICE:
        done = compile_there(folder, sources, name, ["-c"])
        if done.returncode:
            return f"{name}: {done.stderr.decode()[:500]}"
    return None


def dnsdist_runs(folder, library, dnsdist):
    """dnsdist's look-ups in a store of keys, by its script."""
    with open(os.path.join(folder, "script"), "w") as script:
        script.write(f'store = newCDBKVStore("{folder}/small", 0)\n')
        for key in ("postmaster", "none"):
            script.write(f'print("{key} " .. store:lookup("{key}"))\n')
    status, said = run([dnsdist, "--check-config", "-C", "script"], folder, library)
    lines = said.decode().splitlines()[:2]
    return None if (status, lines) == (0, ["postmaster root", "none "]) else f"dnsdist: {said}"


def name_of(text):
    """A domain's name, as DNS has it."""
    parts = [part.encode() for part in text.split(".")]
    return b"".join(bytes([len(part)]) + part for part in parts) + bytes(1)


def zone():
    """The database of a zone, as tinydns has it."""
    start = name_of("ns.zone.example") + name_of("host.zone.example") + struct.pack(">5I", 1, 2, 3, 4, 5)
    rows = [("zone.example", 6, start), ("zone.example", 2, name_of("ns.zone.example")),
            ("ns.zone.example", 1, bytes([127, 0, 0, 2])), ("www.zone.example", 1, WWW)]
    return file_of([(name_of(name), struct.pack(">HcI8x", kind, b"=", 300) + data)
                    for name, kind, data in rows])


# The address of www.zone.example, and how often a server that starts is asked for it.
WWW = bytes([127, 0, 0, 3])
TRIES = 100


def asked(port):
    """What a name server answers to a query of www.zone.example, or nothing."""
    query = struct.pack(">6H", 7, 0, 1, 0, 0, 0) + name_of("www.zone.example") + struct.pack(">2H", 1, 1)
    with socket.socket(socket.AF_INET, socket.SOCK_DGRAM) as udp:
        udp.settimeout(0.1)
        for _ in range(TRIES):
            try:
                udp.sendto(query, ("127.0.0.1", port))
                return udp.recv(512)
            except OSError:
                time.sleep(0.05)
    return b""


def pdns_runs(folder, library, pdns):
    """A query of a zone in a database to PowerDNS."""
    with open(os.path.join(folder, "zone"), "wb") as file:
        file.write(zone())
    with socket.socket(socket.AF_INET, socket.SOCK_DGRAM) as free:
        free.bind(("127.0.0.1", 0))
        port = free.getsockname()[1]
    words = [pdns, f"--config-dir={folder}", "--launch=tinydns", f"--tinydns-dbfile={folder}/zone",
             "--local-address=127.0.0.1", f"--local-port={port}", f"--socket-dir={folder}", "--daemon=no",
             "--guardian=no", "--disable-syslog", "--loglevel=0"]
    environment = dict(os.environ, LD_LIBRARY_PATH=library)
    with subprocess.Popen(words, env=environment, stdout=subprocess.DEVNULL,
                          stderr=subprocess.DEVNULL) as server:
        answer = asked(port)
        server.terminate()
    return None if answer.endswith(WWW) else f"pdns: {answer}"


def has_tinydns():
    """Whether PowerDNS has what reads such a database."""
    return bool(glob.glob("/usr/lib/*/pdns/libtinydnsbackend.so"))


def same_on_good_files(folder, library, ours):
    """Both libraries on files that are not damaged."""
    files = list(good_files())
    for where in (library, ours):
        fault = compare_plain(Driver(sys.argv[1], where, folder), files)
        if fault:
            return f"{where}: {fault}"
    return None


def first_difference(done, wanted):
    """In what the answers of a file differ, if they do."""
    if done.returncode:
        return "a value outside the file"
    for n, (theirs, plain) in enumerate(zip(split(done.stdout), wanted)):
        if theirs != plain:
            return CALLS[0 if n == 1 else 1 + (n - 2) % 4]
    return None


def differs_on_damaged_files(folder, library, _):
    """Says on how many drawn files tinycdb's library answers otherwise."""
    driver = Driver(sys.argv[1], library, folder)
    files = list(drawn_files())
    driver.place(files)
    counted = collections.Counter()
    for n, (file, keys) in enumerate(files):
        with open(os.path.join(folder, "list"), "w") as names:
            names.write(f"{n}.cdb {n}.keys\n")
        wanted = answers(file, keys)
        differs = first_difference(driver.answers(), wanted)
        damaged = any(status == 111 for status, _ in wanted)
        if differs:
            counted[(differs, "damage" if damaged else "no damage")] += 1
    for (call, damaged), many in sorted(counted.items()):
        print(f"  tinycdb differs on {many} of {len(files)} drawn files: {call}, {damaged} by ours")
    return "it differs in a hash" if any("hash" in call for call, _ in counted) else None


def main(library):
    theirs = installed_library(ROOT)
    sources = os.environ.get("TINYCDB_SOURCES")
    sources = sources and os.path.abspath(sources)
    cdb = f"{ROOT}/usr/bin/cdb" if theirs and os.path.exists(f"{ROOT}/usr/bin/cdb") else None
    makes = os.path.join(library, "makes")
    tests = [
        ("tinycdb's cdb -c on our library", tinycdb_makes, library, cdb),
        ("tinycdb's own tests on our library", own_tests_run, library, sources),
        ("tinycdb's modules for the name service with our header", own_modules_compile, library, sources),
        ("drawn scripts by tinycdb's library", same_makings, theirs, theirs and makes),
        ("tinycdb's cdb -q, -d, -l and -s on our library", tinycdb_runs, library, cdb),
        ("postmap -q on our library", postmap_runs, library,
         shutil.which("postmap") if theirs else None),
        ("postmap on our library", postmap_makes, library,
         shutil.which("postmap") if theirs else None),
        ("dnsdist on our library", dnsdist_runs, library, theirs and shutil.which("dnsdist")),
        ("pdns on our library", pdns_runs, library,
         theirs and has_tinydns() and shutil.which("pdns_server")),
        ("both libraries on good files", same_on_good_files, theirs, library),
        ("tinycdb's library on damaged files, which may differ as said above", differs_on_damaged_files, theirs, theirs),
    ]
    passed = failed = 0
    for name, test, where, needs in tests:
        if not needs:
            print(f"{name}: passed over, a program is missing")
            continue
        with tempfile.TemporaryDirectory() as folder:
            for file, records in [("large", None), ("small", ALIASES), ("small.cdb", ALIASES)]:
                with open(os.path.join(folder, file), "wb") as to:
                    to.write(LARGE_FILE if records is None else file_of(records))
            os.chmod(folder, 0o755)
            fault = test(folder, where, needs)
        failed += fault is not None
        passed += fault is None
        print(f"{name}: {fault or 'passed'}")
    print(f"{passed} passed, {failed} failed")
    return 1 if failed else 0


if __name__ == "__main__":
    if len(sys.argv) not in (3, 4):
        sys.exit(__doc__)
    sys.exit(main(os.path.abspath(sys.argv[2])))
