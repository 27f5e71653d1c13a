#!/usr/bin/env python3
"""Measures `dnscanon canon`, `same` and `make` beside programs in plain C, ldns and dnspython, and prints tables.

The instructions are those that callgrind counts, less those on messages of twelve octets or of `make 0`; the milliseconds are the best
of many runs. What all programs print is compared first. If two differ, that is said in place of figures."""
import argparse
import math
import re
import subprocess
import sys
import tempfile
import time
from pathlib import Path

HERE = Path(__file__).resolve().parent
PROGRAM = HERE.parent / "crates" / "dnscanon" / "out" / "dnscanon"
CHAINS = ("chain", "full-of-chains", "rp-chain")
SAME = ("addresses", "mixed-types", "signed-zone")
MARKS = {"plain": "plain", "once": "follow_once", "keyed": "keyed"}
COUNTED = ("dnscanon", *MARKS, "ldns")


class Command:
    """A program and its words, whose input is a file."""

    def __init__(self, *words):
        self.words = [str(word) for word in words]

    def run(self, path, before=(), **kinds):
        with open(path, "rb") as text:
            return subprocess.run([*before, *self.words], stdin=text, **kinds)

    def printed(self, path):
        """What is printed, or None if the input is refused."""
        done = self.run(path, stdout=subprocess.PIPE, stderr=subprocess.DEVNULL)
        return done.stdout if done.returncode == 0 else None

    def instructions(self, path):
        counted = ["valgrind", "--tool=callgrind", "--callgrind-out-file=/dev/null"]
        done = self.run(path, counted, stdout=subprocess.DEVNULL, stderr=subprocess.PIPE, text=True)
        return int(re.search(r"Collected : (\d+)", done.stderr).group(1))

    def milliseconds(self, path, runs):
        best = math.inf
        for _ in range(runs):
            start = time.perf_counter()
            self.run(path, stdout=subprocess.DEVNULL, stderr=subprocess.DEVNULL)
            best = min(best, time.perf_counter() - start)
        return best * 1000


class Row:
    """The figures of some programs on one input: instructions, or why there are none, and milliseconds."""

    def __init__(self, title, commands, bases, path, runs):
        self.title = title
        self.counts, self.times = {}, {}
        prints = {name: command.printed(path) for name, command in commands.items()}
        for name, command in commands.items():
            wrong = "refused" if prints[name] is None else "differs" if prints[name] != prints["plain"] else None
            if name in bases:
                self.counts[name] = wrong or command.instructions(path) - bases[name]
            self.times[name] = wrong or command.milliseconds(path, runs if name != "dnspython" else min(runs, 3))

    def ratio(self, mark):
        figures = self.counts["dnscanon"], self.counts.get(mark)
        return figures[0] / figures[1] if all(isinstance(figure, int) for figure in figures) else None

    def line(self, names, marks):
        counts = [figure if isinstance(figure, str) else f"{figure // 1000:,}" for figure in self.counts.values()]
        ratios = [f"{ratio:.2f}" if ratio else "-" for ratio in map(self.ratio, marks)]
        times = [figure if isinstance(figure, str) else f"{figure:.1f}" for figure in (self.times[name] for name in names)]
        return f"| {' | '.join([self.title, *counts, *ratios, *times])} |"


def print_head(first, names, counted, marks):
    cells = [first, *(f"thousands of instructions: `{name}`" if name == "dnscanon" else name for name in counted)]
    cells += [f"ratio to {mark}" for mark in marks]
    cells += [f"ms: `{name}`" if name == "dnscanon" else name for name in names]
    print(f"| {' | '.join(cells)} |\n|{'---|' * len(cells)}")


def print_means(rows, marks):
    chains = [row for row in rows if row.title in CHAINS]
    groups = {"all": rows, "all but the chains": [row for row in rows if row not in chains], "the chains": chains}
    for title, group in groups.items():
        for mark in marks:
            ratios = [ratio for ratio in (row.ratio(mark) for row in group) if ratio]
            if ratios:
                mean = math.exp(sum(map(math.log, ratios)) / len(ratios))
                print(f"Geometric mean of the ratios to {mark}, {title}: {mean:.2f}")
    print()


def build(folder):
    """The programs in C, by name."""
    flags = {name: ["-std=c11", "-O3"] for name in (*MARKS.values(), "make")} | {"with_ldns": ["-O2", "-lldns"]}
    for name, words in flags.items():
        subprocess.run(["gcc", "-o", folder / name, HERE / f"{name}.c", *words], check=True)
    return {name: folder / name for name in flags}


def measure_canon(folder, built, only, runs):
    commands = {
        "dnscanon": Command(PROGRAM, "canon"),
        **{mark: Command(built[name], "canon") for mark, name in MARKS.items()},
        "ldns": Command(built["with_ldns"]),
        "dnspython": Command("/usr/bin/python3", HERE / "with_dnspython.py"),
    }
    bases = {name: commands[name].instructions(folder / "header.hex") for name in COUNTED}
    print_head("`canon`", commands, COUNTED, MARKS)
    rows = []
    for path in sorted(folder.glob("*.hex")):
        if path.stem == "header" or (only and path.stem not in only):
            continue
        rows.append(Row(path.stem, commands, bases, path, runs))
        print(rows[-1].line(commands, MARKS), flush=True)
    print()
    print_means(rows, (*MARKS, "ldns"))


def measure_same(folder, built, only, runs):
    """Each message beside itself."""
    commands = {"dnscanon": Command(PROGRAM, "same")} | {mark: Command(built[name], "same") for mark, name in MARKS.items()}
    titles = [title for title in SAME if not only or f"same-{title}" in only]
    if not titles:
        return
    for title in ("header", *titles):
        (folder / f"{title}.two").write_text((folder / f"{title}.hex").read_text() * 2)
    bases = {name: command.instructions(folder / "header.two") for name, command in commands.items()}
    print_head("`same`", commands, commands, MARKS)
    rows = []
    for title in titles:
        rows.append(Row(title, commands, bases, folder / f"{title}.two", runs))
        print(rows[-1].line(commands, MARKS), flush=True)
    print()
    print_means(rows, MARKS)


def measure_make(built, only, runs):
    if only and "make" not in only:
        return
    commands = {"dnscanon": Command(PROGRAM, "make", 1000), "plain": Command(built["make"], 1000)}
    nothing = {"dnscanon": Command(PROGRAM, "make", 0), "plain": Command(built["make"], 0)}
    bases = {name: command.instructions("/dev/null") for name, command in nothing.items()}
    print_head("", commands, commands, ("plain",))
    print(Row("`make 1000`", commands, bases, "/dev/null", runs).line(commands, ("plain",)))


def main():
    options = argparse.ArgumentParser()
    options.add_argument("--runs", type=int, default=50)
    options.add_argument("--only", action="append", help="a message by its name, same-NAME or make; more than once for more")
    chosen = options.parse_args()
    with tempfile.TemporaryDirectory() as name:
        folder = Path(name)
        subprocess.run([sys.executable, HERE / "messages.py", folder], check=True)
        built = build(folder)
        measure_canon(folder, built, chosen.only, chosen.runs)
        measure_same(folder, built, chosen.only, chosen.runs)
        measure_make(built, chosen.only, chosen.runs)


if __name__ == "__main__":
    main()
