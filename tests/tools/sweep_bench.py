"""A small benchmark for the tests of tools/sweep, and calls of it with a program that notes each of its runs."""

import csv
import os
import random
import re
import subprocess
import sys
from collections import Counter

from harness import SECONDS, TESTS, heed_signals

SWEEP = TESTS.parent / "tools" / "sweep"

# What differs from one call to the next.
MEASURED = ("solve_seconds", "check_seconds", "solve_kb", "check_kb")

# The numbers of agents that a sweep tries.
NUMBERS = [2, 6, 10]

MAPS = {
    "empty-6-6": ["." * 6] * 6,
    "pillars-9-7": [".........", ".@.@.@.@."] * 3 + ["........."],
    "room-8-8": ["...@....", "........", "...@....", "@.@@@.@@", "...@....", "........", "...@....", "...@...."],
}


def make_benchmark(folder):
    """Three maps and five scenarios of each, in the layout of MovingAI's benchmark, always the same. The first of each
    stands in scen-few also.
    """
    numbers = random.Random(28)
    for part in ("maps", "scen-even", "scen-few"):
        (folder / part).mkdir(parents=True)
    for name, rows in MAPS.items():
        (folder / "maps" / f"{name}.map").write_text(map_text(rows))
        for number in range(1, 6):
            text = scenario_text(name, rows, 10, numbers)
            for part in ("scen-even", "scen-few") if number == 1 else ("scen-even",):
                (folder / part / f"{name}-even-{number}.scen").write_text(text)
    return folder


def map_text(rows):
    return "\n".join(["type octile", f"height {len(rows)}", f"width {len(rows[0])}", "map", *rows, ""])


def scenario_text(name, rows, agents, numbers):
    cells = [(x, y) for y, row in enumerate(rows) for x, cell in enumerate(row) if cell == "."]
    ends = zip(numbers.sample(cells, agents), numbers.sample(cells, agents))
    lines = [f"0\t{name}.map\t{len(rows[0])}\t{len(rows)}\t{sx}\t{sy}\t{gx}\t{gy}\t0" for (sx, sy), (gx, gy) in ends]
    return "\n".join(["version 1", *lines, ""])


class Bench:
    """A benchmark and a program that notes each run in a file and then is the real one."""

    def __init__(self, folder):
        self.folder = folder
        self.notes = folder / "notes"
        make_benchmark(folder)
        self.program = self.script("noting", f'echo "$1 $3 $4" >>"{self.notes}"\nexec "{os.environ["MAPF"]}" "$@"\n')

    def script(self, name, lines):
        """A program in place of the real one, which has the real version."""
        path = self.folder / name
        path.write_text(f'#!/bin/sh\n[ "$1" != --version ] || exec "{os.environ["MAPF"]}" --version\n{lines}')
        path.chmod(0o755)
        return path

    def words(self, out, *more, python=sys.executable, scens="scen-even"):
        return [python, str(SWEEP), str(self.folder / "maps"), str(self.folder / scens), str(self.folder / out),
                "--agents", ",".join(map(str, NUMBERS)), "--limit", "20", *more]

    def environment(self, program=None):
        return {**os.environ, "MAPF": str(program or self.program)}

    def call(self, out, *more, program=None, **others):
        return subprocess.run(self.words(out, *more, **others), env=self.environment(program), capture_output=True,
                              text=True, timeout=SECONDS)

    def start(self, out, *more, program=None):
        return subprocess.Popen(self.words(out, *more), env=self.environment(program), stdout=subprocess.DEVNULL,
                                stderr=subprocess.DEVNULL, preexec_fn=heed_signals)

    def rows(self, out):
        with open(self.folder / out / "results.csv", newline="") as file:
            return list(csv.DictReader(file))

    def table(self, out):
        """The rows without what differs from one call to the next."""
        return [{name: value for name, value in row.items() if name not in MEASURED} for row in self.rows(out)]

    def plots(self, out):
        return re.findall("<figure>.*?</figure>", (self.folder / out / "report.html").read_text(), re.DOTALL)

    def noted(self):
        """How often each problem was solved since this was asked last."""
        lines = self.notes.read_text().splitlines() if self.notes.exists() else []
        self.notes.write_text("")
        return Counter(line for line in lines if line.startswith("solve "))

    def solve_of(self, row):
        return f"solve {self.folder / 'scen-even' / row['scenario']}.scen {row['agents']}"
