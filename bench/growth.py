#!/usr/bin/env python3
"""Times creates of more and more records beside tinycdb and freecdb, where they are installed, or draws both.

The inputs are those of run.py. Of each program the median of the processor times counts, and the greatest
peak of memory. The figures are printed. It needs GNU time.

    bench/growth.py [--most N] [--rounds N] [--cdb PATH]
    bench/growth.py --draw

With --draw nothing is timed: the pictures create-time.svg and create-memory.svg of docs/pictures are drawn of the table in
docs/PERFORMANCE.md, with Debian's python3-matplotlib. A picture has the figures that it shows as a line of text too, which
tests/docs/check.py compares with the table.
"""

import argparse
import os
import re
import shutil
import statistics
import subprocess
import tempfile

from run import run, tinycdb, write_text

LEAST = 10_000
KILOBYTES = 1024
COLORS = {"cdb": "#1b6ca8", "tinycdb": "#c0392b", "freecdb": "#7f8c8d"}
DOCS = os.path.join(os.path.dirname(os.path.abspath(__file__)), "..", "docs")
# The table of the page: its heads, and its rows. What each picture shows of a cell.
HEADS = re.compile(r"^\| create \|((?: [\d,]+ \|)+)$", re.M)
ROW = re.compile(r"^\| `?(cdb|tinycdb|freecdb)`? \|((?: [\d.]+ s, [\d.]+ MiB \|)+)$", re.M)
PICTURES = {"create-time": ("processor seconds", r"([\d.]+) s"), "create-memory": ("peak, MiB", r"([\d.]+) MiB")}


def programs(ours, folder):
    """The creates: a name, and the words."""
    made = os.path.join(folder, "made.cdb")
    temporary = os.path.join(folder, "made.tmp")
    yield "cdb", [ours, "-c", "-t", temporary, made]
    if tinycdb():
        yield "tinycdb", [tinycdb(), "-c", "-t", temporary, made]
    if shutil.which("cdbmake"):
        yield "freecdb", ["cdbmake", made, temporary]


def peak_of(words, text, folder):
    """The peak of a program in MiB. GNU time starts it: a program that Python starts has at least Python's."""
    report = os.path.join(folder, "peak")
    with open(text, "rb") as source:
        subprocess.run(["time", "-f", "%M", "-o", report, *words], stdin=source, check=True)
    with open(report, encoding="ascii") as file:
        return int(file.read()) / KILOBYTES


def measured(ours, records, rounds):
    """The seconds and the peak in MiB of each program, for so many records."""
    with tempfile.TemporaryDirectory() as folder:
        text = os.path.join(folder, "text")
        write_text(text, records)
        times = {name: [] for name, _ in programs(ours, folder)}
        for _ in range(rounds):
            for name, words in programs(ours, folder):
                seconds, _ = run(words, text, os.devnull, False)
                times[name].append(seconds)
        peaks = {name: peak_of(words, text, folder) for name, words in programs(ours, folder)}
    return {name: (statistics.median(times[name]), peaks[name]) for name in times}


def shown(picture):
    """What a picture shows: the numbers of records, and for each program its figures, as the page has them."""
    with open(os.path.join(DOCS, "PERFORMANCE.md"), encoding="utf-8") as file:
        page = file.read()
    counts = [int(it.replace(",", "")) for it in re.findall(r"[\d,]+", HEADS.search(page)[1])]
    return counts, {name: re.findall(PICTURES[picture][1], cells) for name, cells in ROW.findall(page)}


def told(picture):
    """The same in a line of text."""
    counts, lines = shown(picture)
    return "; ".join(f"{name} {' '.join(figures)}" for name, figures in {"records": map(str, counts), **lines}.items())


def draw(picture):
    """Draws a picture of one figure by the number of records, the same bytes for the same figures."""
    import matplotlib

    matplotlib.use("svg")
    matplotlib.rcParams["svg.hashsalt"] = "cdb"
    matplotlib.rcParams["svg.fonttype"] = "none"
    from matplotlib import pyplot

    counts, lines = shown(picture)
    figure, axes = pyplot.subplots(figsize=(6.4, 3.6))
    for name, figures in lines.items():
        axes.loglog(counts, [float(it) for it in figures], "o-", label=name, color=COLORS[name])
    axes.set_xlabel("records")
    axes.set_ylabel(PICTURES[picture][0])
    axes.grid(True, which="major", alpha=0.3)
    axes.legend(frameon=False)
    figure.tight_layout()
    figure.savefig(os.path.join(DOCS, "pictures", f"{picture}.svg"), metadata={"Date": None, "Description": told(picture)})
    pyplot.close(figure)


def main():
    here = os.path.dirname(os.path.abspath(__file__))
    parser = argparse.ArgumentParser()
    parser.add_argument("--most", type=int, default=10_000_000)
    parser.add_argument("--rounds", type=int, default=3)
    parser.add_argument("--cdb", default=os.path.join(here, "..", "bin", "cdb"))
    parser.add_argument("--draw", action="store_true")
    options = parser.parse_args()
    if options.draw:
        for picture in PICTURES:
            draw(picture)
        return
    records = LEAST
    while records <= options.most:
        found = measured(os.path.abspath(options.cdb), records, options.rounds)
        figures = "; ".join(f"{name} {seconds:.3f} s, {peak:.1f} MiB" for name, (seconds, peak) in found.items())
        print(f"create of {records} records: {figures}", flush=True)
        records *= 10


if __name__ == "__main__":
    main()
