#!/usr/bin/env python3
"""Compares the databases that the C library makes with plain ones, and what its calls answer.

    tests/clib/making.py MAKES REFUSED EDGES FOLDER

MAKES is makes.c, built with the shared library, which FOLDER has; REFUSED is the same with the static
library and refuse.c; EDGES is edges.c. Scripts are drawn by chance. Each request for memory and each call of the system
of one script is refused in turn: every call must then answer that, or do as if nothing was refused,
and a file that is not finished must not be read as a database. The scripts are
made by `sanitized` of FOLDER too, which the address sanitizer watches, and some under valgrind and qemu.
"""

import errno
import os
import subprocess
import sys
import tempfile

sys.path.append(os.path.join(os.path.dirname(os.path.abspath(__file__)), "..", "cli"))

from crash import noted_calls, wrong_state
from maker import BEFORE, NO_MAKER, Maker, drawn_script, file_of, text_of
from model import HEAD, hash_of, walk
from rows import HANGS, has, leave_out

SCRIPTS = 300
CALLS = 400
WATCHED = 12
# A file that is there before, longer than those that are made, and one that is shorter.
OLD_FILES = [None, b"old" * 100_000, b"\x00" * 3000]
ERRORS = [errno.ENOSPC, errno.EFBIG, errno.EIO, errno.EDQUOT]
LAST = 2**31
CALLS_BY_NAME = ["pwrite", "pread", "ftruncate", "fsync", "lseek", "fstat", "fcntl"]
# The tests that need more than a C compiler.
SANITIZED, OLD_PROCESSOR = "drawn scripts under the address sanitizer", "drawn scripts on a processor of 2006"
WATCHED_SCRIPTS = "drawn scripts under valgrind"
# How many calls in a row are interrupted.
INTERRUPTED = 9


class Driver:
    """A driver in a folder of its scripts and their files."""

    def __init__(self, program, library, folder):
        self.words = [os.path.abspath(program), "list"]
        self.folder = folder
        self.environment = dict(os.environ, LD_LIBRARY_PATH=os.path.abspath(library))

    def path(self, name):
        """The path of a file in the folder."""
        return os.path.join(self.folder, name)

    def place(self, scripts, old=None):
        """Writes scripts and the files that are there before: of each script another, or this one."""
        with open(self.path("list"), "w") as names:
            for n, script in enumerate(scripts):
                names.write(f"{n}.script {n}.cdb\n")
                with open(self.path(f"{n}.script"), "w") as to:
                    to.write(text_of(script))
                before = OLD_FILES[n % len(OLD_FILES)] if old is None else old
                if os.path.exists(self.path(f"{n}.cdb")):
                    os.remove(self.path(f"{n}.cdb"))
                if before is not None:
                    with open(self.path(f"{n}.cdb"), "wb") as to:
                        to.write(before)

    def run(self, before=(), **refusing):
        """What the driver left."""
        named = {f"REFUSE_{name.upper()}": str(value) for name, value in refusing.items()}
        return subprocess.run(
            [*before, *self.words], cwd=self.folder, env=self.environment | named,
            capture_output=True, timeout=HANGS,
        )

    def file(self, n):
        """The file of a script."""
        with open(self.path(f"{n}.cdb"), "rb") as file:
            return file.read()


def split(printed):
    """The answers of each script, from what the driver printed."""
    scripts = printed.decode().split("end\n")[:-1]
    return [[tuple(map(int, line.split())) for line in it.splitlines()] for it in scripts]


def compare(driver, scripts, done):
    """What scripts answered and made, beside the plain answers."""
    if done.returncode:
        return f"status {done.returncode}: {done.stderr.decode()[:2000]}"
    for n, (script, said) in enumerate(zip(scripts, split(done.stdout), strict=True)):
        maker = Maker()
        for call, answer in zip(script, said, strict=True):
            if maker.answer(call) != answer:
                return f"script {n}: {call[0]} answers {answer}"
        if driver.file(n) != maker.file:
            return f"script {n}: another file"
    return None


def compare_drawn(driver):
    """Drawn scripts."""
    scripts = [drawn_script(seed, CALLS) for seed in range(SCRIPTS)]
    driver.place(scripts)
    return compare(driver, scripts, driver.run())


def compare_short(driver):
    """The same with writes that take few bytes each."""
    scripts = [drawn_script(seed, 40) for seed in range(5)]
    driver.place(scripts)
    return compare(driver, scripts, driver.run(short=701))


def compare_watched(driver):
    """Some of them under valgrind, which sees each block that is not freed."""
    scripts = [drawn_script(1000 + seed, 60) for seed in range(WATCHED)]
    driver.place(scripts)
    words = ["valgrind", "-q", "--leak-check=full", "--show-leak-kinds=all", "--error-exitcode=9"]
    return compare(driver, scripts, driver.run(words))


def compare_on_old_processor(driver):
    """Some of them on the oldest processor of this kind, which has no newer instructions."""
    scripts = [drawn_script(2000 + seed, 100) for seed in range(WATCHED)]
    driver.place(scripts)
    return compare(driver, scripts, driver.run(["qemu-x86_64", "-cpu", "core2duo"]))


def late_script():
    """Calls on a maker that has finished."""
    script = [("start",), ("add", b"a", b"1"), ("finish",)]
    late = [("add", b"b", b"2"), ("put", 2, b"a", b"2"), ("exists", b"a"), ("find", 1, b"a")]
    return script + late + [("finish",), ("walk",), ("read", b"a")]


def compare_late(driver):
    """Calls after a finish, and a start after them."""
    script = late_script() + [("start",), ("add", b"c", b"3"), ("finish",), ("read", b"c")]
    driver.place([script])
    return compare(driver, [script], driver.run())


def compare_starts(driver):
    """Starts on descriptors in which no database can be made, and calls after them."""
    script = [("start",), ("add", b"a", b"1"), ("finish",)]
    errors = {"pipe": errno.ESPIPE, "socket": errno.ESPIPE, "device": errno.ESPIPE, "closed": errno.EBADF,
              "reading": errno.EBADF, "folder": errno.EBADF, "append": errno.EINVAL}
    driver.place([script + [("on", kind) for kind in errors]])
    said = split(driver.run().stdout)[0][len(script):]
    wanted = [it for error in errors.values() for it in ((-1, error), NO_MAKER, NO_MAKER)]
    if said != wanted:
        return f"other answers: {said}"
    return None if driver.file(0) == file_of([(b"a", b"1")]) else "another file"


def compare_searches(driver):
    """A search that could not begin fails at each later call; one of no key ends."""
    file = file_of([(b"a", b"1")])
    slot = 8 * (hash_of(b"a") % 256)
    damaged = file[:slot] + b"\xff" * 4 + file[slot + 4:]
    answers = []
    for old in (damaged, file):
        driver.place([[("search", b"a"), ("search", b"none")]], old)
        answers.append(split(driver.run().stdout)[0])
    wanted = [[(-1, -1), (0, 0)], [(1, 1), (0, 0)]]
    return None if answers == wanted else f"other answers: {answers}"


def compare_closed(driver):
    """Calls on a database after cdb_free: each of them says so."""
    driver.place([[("closed",)]], file_of([(b"a", b"1")]))
    said = split(driver.run().stdout)[0]
    return None if said == [NO_MAKER] * 4 else f"other answers: {said}"


LONG_KEY = b"k" * 300
SEEKS = [b"a", LONG_KEY, b"none"]
SOUGHT = [(1, hash_of(b"1")), (1, hash_of(b"long")), (0, 0)]
# Which calls of the system a seek makes: one that measures the file (m), those that read (r) the pointer,
# the slots, and the record with up to 248 bytes of its key, and one that moves the offset (m). The table of
# the last key is empty.
SOUGHT_BY = ["mrrrm", "mrrrrm", "mr"]


def seek(driver, **refusing):
    """What seeks in a file answer, and how many calls of the system they make."""
    file = file_of([(b"a", b"1"), (LONG_KEY, b"long")])
    driver.place([[("seek", key) for key in SEEKS]], file)
    done = driver.run(calls=1, **refusing)
    return split(done.stdout)[0], int(done.stderr.split()[0])


def refuse_seeks(driver):
    """Seeks read what they need, and map nothing. A call that is refused is reported; a read that is
    short or interrupted is made again."""
    calls = "".join(SOUGHT_BY)
    if seek(driver) != (SOUGHT, len(calls)):
        return f"other answers or calls: {seek(driver)}"
    if seek(driver, short=3)[0] != SOUGHT:
        return "a short read changes an answer"
    owners = [n for n, made in enumerate(SOUGHT_BY) for _ in made]
    for n, call in enumerate(calls):
        number = n + 1
        for error in (errno.EIO, errno.EINTR):
            wanted = list(SOUGHT)
            if call != "r" or error != errno.EINTR:
                wanted[owners[n]] = -1, error
            said = seek(driver, first=number, last=number, errno=error)[0]
            if said != wanted:
                return f"call {number} of {call} by {errno.errorcode[error]}: {said}"
    return None


def is_database(file):
    """Whether a file is read as a whole database."""
    return len(file) >= HEAD and not walk(file)[1]


def refused_script():
    """A script in which each kind of call needs memory, and a file of more than one piece."""
    script = [("start",)]
    for n in range(300):
        key, value = b"%d" % (n % 70), b"value %d " % n * 60
        script.append(("put", n % 5, key, value))
    return script + [("find", 1, b"7"), ("exists", b"8"), ("finish",)]


def added_script():
    """A script that adds alone: small records, some that do not fit beside the others, and a large one."""
    sizes = [10] * 300 + [1500] * 9 + [5000] + [10] * 300
    script = [("add", b"%d" % (n % 70), b"v" * size) for n, size in enumerate(sizes)]
    return [("start",), *script, ("finish",)]


def follow(script, said, allowed):
    """What a script with refusals answered: calls that fail by an allowed number do nothing, the
    others are as ever, until one that moves records is refused in the midst of it: then each later call
    says that there is no maker. Answers the model, how many calls were refused, and what is wrong."""
    maker, refusals = Maker(), 0
    for n, (call, answer) in enumerate(zip(script, said, strict=True)):
        if answer[0] == -1 and answer[1] in allowed:
            refusals += 1
            if call[0] == "finish":
                maker.is_open = False
            continue
        if maker.is_open and refusals and all(it == NO_MAKER for it in said[n:]):
            return maker, refusals, None
        if maker.answer(call) != answer:
            return maker, refusals, f"{call[0]} answers {answer}"
    return maker, refusals, None


def fault_of(driver, script, old, done, allowed, may_do_without):
    """What is wrong after a refusal, without which a call may do what it does."""
    if done.returncode:
        return f"status {done.returncode}"
    if done.stderr.split()[1] != b"0":
        return "memory is not freed"
    maker, refusals, fault = follow(script, split(done.stdout)[0], allowed)
    if fault:
        return fault
    file = driver.file(0)
    if not refusals and not may_do_without:
        return "no call says that it was refused"
    if maker.file is not None:
        return None if file == maker.file else "another file"
    # Of a finish only the last flush may have failed.
    if file in (old, file_of(maker.records)):
        return None
    return "a file that was not finished is a database" if is_database(file) else None


def refuse_each(driver, allowed, many=LAST, olds=OLD_FILES, may_do_without=False, script=None,
                **refusing):
    """Refuses each request of a script in turn: that one alone, and that one with so many more."""
    script = script or refused_script()
    for old in olds:
        driver.place([script], old or b"")
        counted = int(driver.run(**refusing).stderr.split()[0])
        if counted < 1:
            return "no request was counted"
        for first in range(1, counted + 1):
            for last in (first, first + many):
                driver.place([script], old or b"")
                done = driver.run(first=first, last=last, **refusing)
                fault = fault_of(driver, script, old or b"", done, allowed, may_do_without)
                if fault:
                    return f"request {first} to {last} of {counted}: {fault}"
    return None


def refuse_memory(driver):
    """Each request for memory, of a script of all calls and of one that adds alone."""
    for script in (refused_script(), added_script()):
        fault = refuse_each(driver, [errno.ENOMEM], olds=OLD_FILES[1:2], may_do_without=True,
                            script=script)
        if fault:
            return fault
    return None


def refuse_calls(driver):
    """Each call of the system by its name, by several numbers, once and from then on."""
    for name in CALLS_BY_NAME:
        for error in ERRORS:
            fault = refuse_each(driver, [error], olds=OLD_FILES[1:], calls=1, name=name, errno=error)
            if fault:
                return f"{name}, {errno.errorcode[error]}: {fault}"
    return None


def interrupt_calls(driver):
    """A read or a write that is interrupted is made again; another call is that or reported."""
    for name in ("pwrite", "pread"):
        driver.place([refused_script()], b"")
        counted = int(driver.run(calls=1, name=name).stderr.split()[0])
        for first in range(1, counted + 1):
            driver.place([refused_script()], b"")
            done = driver.run(first=first, last=first + INTERRUPTED, calls=1, name=name, errno=errno.EINTR)
            fault = compare(driver, [refused_script()], done)
            if fault:
                return f"{name} {first}: {fault}"
    return refuse_each(driver, [errno.EINTR], INTERRUPTED, may_do_without=True, calls=1,
                       errno=errno.EINTR)


def give_up(driver):
    """A database that is given up leaves no memory and a damaged file, and each later call says so."""
    script = [("start",), ("add", b"a", b"1"), ("put", 1, b"a", b"2"), ("abort",)]
    late = [("add", b"b", b"2"), ("exists", b"a"), ("finish",)]
    for many in (2, 3, 4):
        calls = script[: many - 1] + [("abort",)] + late
        for old in OLD_FILES:
            driver.place([calls], old or b"")
            done = driver.run()
            if split(done.stdout)[0][many - 1 :] != [(0, BEFORE)] + [NO_MAKER] * 3:
                return f"other answers: {split(done.stdout)[0]}"
            if done.stderr.split()[1] != b"0" or is_database(driver.file(0)):
                return "memory is not freed, or the file is a database"
    return None


def lose_power(driver):
    """A finish in a new file, in one of an older database, and in one that was longer: whatever part of
    what was not flushed a loss of power takes, the file is read as it was, as the new one, or as damaged.
    Once the finish has answered, it is the new one."""
    new = [(b"%d" % n, b"new %d " % n * 400) for n in range(70)]
    script = [("start",)] + [("add", *it) for it in new] + [("finish",)]
    shorter = file_of([(key, b"old") for key, _ in new[::2]])
    longer = file_of([(key, b"old %s" % key * 100) for key, _ in new])
    for old in (b"", shorter, longer):
        driver.place([script], old)
        driver.run(notes=driver.path("notes"), calls=1)
        with open(driver.path("notes"), "rb") as notes:
            calls = noted_calls(notes.read())
        fault = wrong_state(old, driver.file(0), calls, [key for key, _ in new])
        if fault:
            return fault
        words = " ".join(word for word, _, _ in calls)
        if not words.endswith("cut sync write sync") or calls[-2][1] != 0:
            return f"the head is not flushed after all else: {words}"
    return None


def call_at_edges(driver):
    """The rows of edges.c."""
    done = subprocess.run(driver.words[:1], cwd=driver.folder, capture_output=True, timeout=HANGS,
                          check=False)
    return None if done.returncode == 0 else done.stdout.decode().strip().replace("\n", "; ")


def tests_of(makes, refused, edges, library):
    """Each test, with its function and the program."""
    tests = [
        ("drawn scripts", compare_drawn, makes),
        ("drawn scripts by the static library", compare_drawn, refused),
        ("short writes", compare_short, refused),
        ("calls after a finish", compare_late, makes),
        ("descriptors of other kinds", compare_starts, makes),
        ("searches that could not begin", compare_searches, makes),
        ("a database that is closed", compare_closed, makes),
        ("look-ups by reads", refuse_seeks, refused),
        ("memory that is refused", refuse_memory, refused),
        ("calls of the system that are refused", refuse_calls, refused),
        ("calls of the system that are interrupted", interrupt_calls, refused),
        ("a database that is given up", give_up, refused),
        ("a loss of power", lose_power, refused),
        ("calls at the edges of the page", call_at_edges, edges),
    ]
    sanitized = os.path.join(library, "sanitized")
    if os.path.exists(sanitized):
        tests.append((SANITIZED, compare_drawn, sanitized))
    else:
        leave_out(SANITIZED, "a C compiler with the address sanitizer")
    if os.uname().machine == "x86_64" and has("qemu-x86_64", OLD_PROCESSOR):
        tests.append((OLD_PROCESSOR, compare_on_old_processor, makes))
    if has("valgrind", WATCHED_SCRIPTS):
        tests.append((WATCHED_SCRIPTS, compare_watched, makes))
    return tests


def main(makes, refused, edges, library):
    passed = failed = 0
    for name, test, program in tests_of(makes, refused, edges, library):
        # A flush to a file system in memory takes no time.
        where = "/dev/shm" if os.access("/dev/shm", os.W_OK) else None
        with tempfile.TemporaryDirectory(dir=where) as folder:
            fault = test(Driver(program, library, folder))
        failed += fault is not None
        passed += fault is None
        if fault is not None:
            print(f"{name}: {fault}")
    print(f"{passed} passed, {failed} failed")
    return 1 if failed else 0


if __name__ == "__main__":
    if len(sys.argv) != 5:
        sys.exit(__doc__)
    sys.exit(main(*sys.argv[1:]))
