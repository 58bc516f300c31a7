"""The runs of other solvers, which a report shows beside those of a sweep: tables with the columns of results.csv, of
which four have to be there.
"""

import argparse
import csv
from collections.abc import Iterable, Sequence
from dataclasses import dataclass
from pathlib import Path

from .process import ToolError, in_words
from .sweep_rows import NAMES, SOLVED, Row
from .texts import is_digits

# The columns without which a table says nothing.
NEEDED = "map", "scenario", "agents", "status"


@dataclass(frozen=True)
class Beside:
    """The name of a solver, and the file of its table."""

    name: str
    path: Path


def named_table(word: str) -> Beside:
    """For argparse: a name and a file, as `EECBS=eecbs.csv`."""
    name, sign, path = word.partition("=")
    if not name.strip() or not sign or not path:
        raise argparse.ArgumentTypeError(f"{word} isn't NAME=FILE, as EECBS=eecbs.csv")
    return Beside(name.strip(), Path(path))


def tables_of(given: Sequence[Beside], maps: Iterable[str], own_name: str) -> dict[str, list[Row]]:
    """The rows of each solver by its name, which has to differ from the others and from that of the sweep."""
    names = [own_name, *(beside.name for beside in given)]
    for name in names:
        if names.count(name) > 1:
            raise ToolError(f"--beside: two solvers are called {name}: give each a name of its own")
    return {beside.name: rows_of(beside, maps) for beside in given}


def rows_of(beside: Beside, maps: Iterable[str]) -> list[Row]:
    """The rows of a table that are of these maps."""
    try:
        with open(beside.path, encoding="utf-8-sig", errors="surrogateescape", newline="") as file:
            lines = list(csv.DictReader(file))
    except (OSError, csv.Error) as error:
        said = in_words(error) if isinstance(error, OSError) else f"{beside.path}: {error}"
        raise ToolError(f"--beside: {said}") from None
    there = set(maps)
    rows = [row_of(beside, number, line) for number, line in enumerate(lines, 2)]
    found = [row for row in rows if row.map in there]
    if not found:
        raise ToolError(f"--beside: {beside.path} has no row of a map of this sweep, as {', '.join(sorted(there)[:3])}")
    return found


def row_of(beside: Beside, number: int, line: dict[str, str | None]) -> Row:
    """The row that this line tells. Other columns than those of results.csv are left out."""
    if not is_whole(line):
        raise ToolError(f"--beside: {beside.path}, row {number}: the columns {', '.join(NEEDED)} have to be there, and "
                        f"solve_seconds of a run that is '{SOLVED}'")
    return Row(**{name: line.get(name) or "" for name in NAMES})


def is_whole(line: dict[str, str | None]) -> bool:
    """Whether a line tells what has to be known."""
    is_needed_there = all(line.get(name) for name in NEEDED) and is_digits(line["agents"] or "")
    return is_needed_there and (line["status"] != SOLVED or is_number(line.get("solve_seconds") or ""))


def is_number(word: str) -> bool:
    """Whether a word is a number of seconds."""
    try:
        return 0 <= float(word) < float("inf")
    except ValueError:
        return False
