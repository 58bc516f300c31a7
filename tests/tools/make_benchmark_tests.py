"""Tries examples/make_benchmark: what it says, its statuses, its rooms and its maze. tests/tools/sweep_tests.py solves
what it makes.
"""

import importlib.machinery
import importlib.util
import subprocess
import sys
import tempfile
from pathlib import Path

from harness import TESTS

SCRIPT = TESTS.parent / "examples" / "make_benchmark"


def tests(tally):
    with tempfile.TemporaryDirectory() as name:
        folder = Path(name)
        (folder / "plain").write_text("no folder\n")
        (folder / "taken" / "maps" / "gen-empty-8-8.map").mkdir(parents=True)
        for title, (words, status, part) in calls().items():
            tally.add(f"make_benchmark, {title}", faults_of(folder, words, status, part))
        tally.add("make_benchmark, nothing is made by a wrong call", left(folder))
    tally.add("make_benchmark, rooms with a door in each wall between two", rooms())
    tally.add("make_benchmark, a maze without loops", maze())


def calls():
    """The words of each call, its status, and a part of what it says: on standard error, where the status is 2."""
    return {
        "-h": (["-h"], 0, "example:\n  examples/make_benchmark out/bench 5"),
        "no words": ([], 2, "FOLDER"),
        "no scenarios": (["new", "0"], 2, "number from 1 to 1,000"),
        "scenarios that are no number": (["new", "few"], 2, "number from 1 to 1,000"),
        "a file in place of a folder": (["plain/bench", "1"], 2, "Not a directory: name a FOLDER"),
        "a folder in place of a file": (["taken", "1"], 2, "Is a directory: name a FOLDER"),
    }


def faults_of(folder, words, status, part):
    ended = subprocess.run([sys.executable, str(SCRIPT), *words], cwd=folder, stdin=subprocess.DEVNULL,
                           capture_output=True, text=True)
    said = ended.stderr if status == 2 else ended.stdout
    is_plain = "Traceback" not in ended.stderr and "Errno" not in ended.stderr
    if ended.returncode == status and part in said and is_plain:
        return []
    return [f"status {ended.returncode}, {ended.stdout[-200:]!r}, {ended.stderr[-300:]!r}"]


def left(folder):
    made = [path.name for path in folder.iterdir()]
    return [] if sorted(made) == ["plain", "taken"] else [f"{made}"]


def rooms():
    """Four rooms of 16 cells, each with a door to two others: all of them are one part."""
    script = module()
    made = script.make_examples()
    rows = script.rooms(9, 9, 4, made)
    cells = made.largest_part(rows)
    return [] if len(cells) == "".join(rows).count(made.FREE) == 4 * 16 + 4 else rows


def maze():
    """Each room of the maze is reached, by as many steps between cells as there are cells but one."""
    script = module()
    made = script.make_examples()
    rows = script.maze(9, 9, 1, made)
    cells = set(made.largest_part(rows))
    steps = sum(((x + 1, y) in cells) + ((x, y + 1) in cells) for x, y in cells)
    is_whole = all((x, y) in cells for x in range(0, 9, 2) for y in range(0, 9, 2))
    return [] if is_whole and steps == len(cells) - 1 else rows


def module():
    """The script as a module."""
    loader = importlib.machinery.SourceFileLoader("make_benchmark", str(SCRIPT))
    script = importlib.util.module_from_spec(importlib.util.spec_from_loader("make_benchmark", loader))
    loader.exec_module(script)
    return script
