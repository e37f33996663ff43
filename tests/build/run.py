#!/usr/bin/env python3
"""Builds a small repository with a checker that proves nothing, and compares what tools/build.py does:
what it runs side by side, and what is left after a failure, an interrupt and a kill. In the end the toolchain's own checker
is to take no kept proof for that of something else.

    tests/build/run.py
"""

import errno
import os
import platform
import shutil
import signal
import subprocess
import sys
from types import SimpleNamespace
from unittest import mock

from planted import planted
from repository import BUILT, CHECKER, TOOLS, run_parts
from rows import HANGS, leave_out

sys.path.insert(0, TOOLS)
import build  # noqa: E402
import link  # noqa: E402
import trees  # noqa: E402

IS_BESIDE = min(build.processors(), build.memory() // build.CHECK_MEMORY) > 1


def two(*crates):
    """The crates that run side by side here, all if the machine runs two at once, else the first."""
    return crates if IS_BESIDE else crates[:1]


def side_by_side(it):
    """Crates that share those below them are proved at once; the one most waited for gets more jobs."""
    status, output, _ = it.build(MEET=" ".join(two("right", "left")))
    begun = it.noted("begins")
    yield "status", status == 0 and not it.noted("waits")
    yield "crates", sorted(begun) == sorted(BUILT) and begun[-1] == "top"
    made = trees.Trees(it.top, os.path.join(it.top, "bin", "trees"))
    yield "order", build.in_order(made, BUILT) == ["low", "other", "right", "left", "top"]
    jobs = [it.jobs_of("low"), it.jobs_of("other")]
    yield "jobs", jobs[0] >= jobs[1] and (sum(jobs) <= build.processors() or not IS_BESIDE)
    yield "program", os.path.isfile(os.path.join(it.top, "bin", "top"))
    yield "trees", it.kept() == list(BUILT) and not it.has_trees()
    yield "lines", "5 of 5 crates" in output and "GB of disk" in output


def processors(it):
    """A program and a static library are built for each processor of x86-64, in these words; no other crate names one."""
    named = ["--cpu", "x86-64"] if platform.machine() == "x86_64" else []
    for crate, target in (("top", "bin/top"), ("aside", "bin/libaside.a")):
        it.build(crate=crate, target=target)
        for words in it.lines_of("begins"):
            jobs = words.index("--jobs")
            after = ["--", "-h"] if words[1] == "top" else []
            yield words[1], words[jobs + 2 :] == (named if words[1] == crate else []) + after


def again(it):
    """A second build begins with all that was kept, without a tree of its own."""
    it.build()
    status, _, _ = it.build()
    yield "status", status == 0
    yield "kept", sorted(it.noted("has")) == sorted(BUILT)


def minutes(_):
    """What is left is said in minutes: of the longest chain, or of all crates if the processors are too few for that; and no
    fewer than those since a function was proved last."""
    progress = build.Progress({"low": 600, "left": 60, "right": 60}, {"low": 660, "left": 60, "right": 60})
    with mock.patch("build.processors", return_value=4):
        yield "chain", round(progress.minutes_left(), 2) == round(660 / build.CHAIN_SPEED / 60, 2)
        progress.functions["low"] = 5, 10
        yield "half", round(progress.minutes_left(), 2) == round((660 - 300 * build.OF_FUNCTIONS) / build.CHAIN_SPEED / 60, 2)
        progress.proved.add("low")
        yield "rest", round(progress.minutes_left(), 2) == round(60 / build.CHAIN_SPEED / 60, 2)
    with mock.patch("build.processors", return_value=1):
        yield "one processor", round(progress.minutes_left(), 2) == round(120 / build.USED / 60, 2)
    progress.moved -= 420
    yield "nothing proved for seven minutes", progress.minutes_left() >= 7
    with mock.patch.object(progress, "say"):
        progress.note("left", 1, 10)
        yield "one function more", progress.minutes_left() < 7
    yield "slower", build.at_pace(300, 600, 900) == 900 and build.at_pace(300, 600, 100) == 300
    yield "too soon to say", build.at_pace(590, 600, 900) == 590


def library(it):
    """A static library is built as a program is, and not run."""
    status, output, _ = it.build(crate="aside", target="bin/libaside.a")
    yield "status", status == 0 and "bin/libaside.a is built" in output
    yield "crates", it.noted("ends") == ["low", "aside"]
    with open(os.path.join(it.top, "bin", "libaside.a"), encoding="utf-8") as file:
        yield "archive", file.read() == "aside"


def failing(it):
    """A failure ends the build once what runs beside it has ended, and all is kept."""
    status, _, errors = it.build(MEET=" ".join(two("right", "left")), FAIL="right")
    place = os.path.join(it.top, "crates", "right", "src", "lib.rt:1:1: error: not so")
    yield "status", status == 1 and place in errors
    yield "kept", {"low", *two("right", "left")}.issubset(it.kept()) and not it.has_trees()
    yield "no more", "top" not in it.noted("begins")
    it.build()
    yield "goes on", {"low", "right"}.issubset(it.noted("has"))


def stopped(it):
    """An interrupt ends what runs, and keeps what it has proved."""
    for number in (signal.SIGINT, signal.SIGTERM):
        with it.running(HANG="right left") as process:
            it.wait_for(*two("right", "left"))
            process.send_signal(number)
            _, errors = process.communicate(timeout=HANGS)
        yield "status", process.returncode == 1 and "What is proved so far is kept" in errors
        yield "kept", {"low", *two("right", "left")}.issubset(it.kept()) and not it.has_trees()
        yield "ended", not {"right", "left", "top"} & set(it.noted("ends"))


def killed(it):
    """The trees of a build that was killed are taken back by the next one."""
    with it.running(HANG="right left") as process:
        it.wait_for(*two("right", "left"))
        process.kill()
        process.communicate(timeout=HANGS)
    yield "left", it.has_trees() == IS_BESIDE
    status, _, _ = it.build()
    yield "status", status == 0 and not it.has_trees()
    yield "kept", set(two("right", "left")).issubset(it.noted("has"))


def two_builds(it):
    """Two builds of one repository share its trees, a crate after the other."""
    builds = [it.begin(target="bin/top"), it.begin(target="bin/another")]
    for process in builds:
        process.communicate(timeout=HANGS)
    yield "status", [process.returncode for process in builds] == [0, 0]
    yield "kept", it.kept() == list(BUILT) and not it.has_trees()


def alone(it):
    """With one processor a crate is proved after the other, in its own folder."""
    one = {next(iter(os.sched_getaffinity(0)))}
    status, _, _ = it.build(one, MEET="low")
    yield "status", status == 0 and not it.has_trees()
    journal = [line.split()[:2] for line in open(it.journal, encoding="utf-8")]
    pairs = list(zip(journal[::2], journal[1::2]))
    yield "in turn", all(one == ["begins", two[1]] and two[0] == "ends" for one, two in pairs)


def copied(it):
    """A file system without hard links gets copies, or one crate after the other if the disk is small."""
    made = trees.Trees(it.top, os.path.join(it.top, "bin", "trees"))
    it.write("crates/low/out/rlib/library", "low")
    it.write("crates/low/out/incremental/much", "")
    it.write("crates/left/out/incremental/some", "")
    code = os.path.join("src", "lib.rt")
    for refusal in (None, OSError(errno.EXDEV, "no")):
        with mock.patch("os.link", side_effect=refusal) if refusal else mock.MagicMock():
            with made.tree_of("left") as folder:
                low = os.path.join(folder, "..", "low")
                is_link = os.path.samefile(os.path.join(low, code), os.path.join(it.top, "crates", "low", code))
                yield "links", is_link == (refusal is None) == made.has_links()
                yield "below", os.listdir(os.path.join(low, "out")) == ["rlib"]
                yield "crates", trees.libraries_of(os.path.join(folder, "..", "..")) == {"low": [], "left": ["low"]}
                yield "sources", not os.path.exists(os.path.join(folder, "must-fail"))
                yield "kept", os.path.isfile(os.path.join(folder, "out", "incremental", "some"))
            yield "back", it.kept() == ["low", "left"]
            for free, is_one in ((1 << 40, not IS_BESIDE), (build.DISK, refusal is not None or not IS_BESIDE)):
                with mock.patch("shutil.disk_usage", return_value=SimpleNamespace(free=free)):
                    yield "at once", (build.most_at_once(made) == 1) == is_one


def refused(it):
    """A build that cannot end is not begun."""
    made = trees.Trees(it.top, os.path.join(it.top, "bin", "trees"))
    with mock.patch.dict(os.environ, {"RT": CHECKER, "JOURNAL": it.journal}):
        yield "well", build.missing(made, BUILT) is None
        with mock.patch("shutil.disk_usage", return_value=SimpleNamespace(free=build.DISK - 1)):
            yield "disk", f"{build.DISK / 1e9:.1f} GB of disk" in build.missing(made, BUILT)
        with mock.patch("build.memory", return_value=build.CHECK_MEMORY - 1):
            yield "memory", "5 GB of memory" in build.missing(made, BUILT)
        it.write("README.md", "Proved with: `a-kit logic 5678`.\n")
        yield "logic", "README.md names" in build.missing(made, BUILT)


def linked(it):
    """A program is linked statically of its object, if there are one and a C compiler."""
    crate, target = os.path.join(it.top, "crates", "top"), os.path.join(it.top, "it")
    it.write("crates/top/out/top", "loaded")
    yield "no object", link.link(crate, target).startswith("dynamic") and os.path.getsize(target) == len("loaded")
    if shutil.which(link.compiler()[0]) is None:
        for row in ("static", "failing linker", "what it left out", "bits", "old program", "no compiler"):
            leave_out(f"linked: {row}", "a C compiler")
        return
    it.write("it.c", "int main(void) { return 7; }")
    made = os.path.join(crate, "out", "top.o")
    subprocess.run([*link.compiler(), "-fPIE", "-c", "-o", made, os.path.join(it.top, "it.c")], check=True)
    with mock.patch("link.archives", return_value=[]):
        yield "static", link.link(crate, target) == "static" and subprocess.run([target], check=False).returncode == 7
        for flags in ("", "-pie -Wl,--build-id=sha1"):
            with mock.patch.dict(os.environ, {"LDFLAGS": flags}):
                link.link(crate, target)
            with open(target, "rb") as file:
                data = file.read()
            yield f"flags {flags}", (b"\x03\0\0\0GNU\0" in data, b"/ld-linux" in data) == (flags != "", False)
        yield from linked_in_vain(crate, target)
        with mock.patch.dict(os.environ, {"CC": "no-such-compiler"}):
            yield "no compiler", link.link(crate, target).startswith("dynamic")


def linked_in_vain(crate, target):
    """A linker that fails leaves the loaded program, which takes the name at once and can be run."""
    os.chmod(os.path.join(crate, "out", "top"), 0o755)
    with open(target, "rb") as old:
        with mock.patch.dict(os.environ, {"CC": "false"}):
            yield "failing linker", link.link(crate, target).startswith("dynamic")
        yield "what it left out", os.path.getsize(target) == len("loaded") and not os.path.exists(f"{target}.new")
        yield "bits", os.stat(target).st_mode & 0o777 == 0o755
        yield "old program", os.fstat(old.fileno()).st_nlink == 0 and len(old.read()) > len("loaded")


if __name__ == "__main__":
    run_parts((side_by_side, processors, again, library, minutes, failing, stopped, killed, two_builds, alone, copied, refused, linked, planted))
