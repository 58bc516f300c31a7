"""The rows of a sweep and the file that keeps them, results.csv: one line for each run, appended whole."""

import csv
import io
import os
import re
from collections.abc import Iterable
from dataclasses import astuple, dataclass, fields
from pathlib import Path

from .process import ToolError

# What stands for a name where names are put in order.
Natural = list[tuple[int, str]]

# What became of a run: its answer is a cheapest plan, and the checker confirmed it. Any other status ends its scenario.
SOLVED = "solved"

# What ends a run without being a fault of the program, of its files or of the machine.
USUAL = (SOLVED, "limit", "time-out", "impossible")

# A scenario whose map isn't there, and one without agents. Such a row tells of no run, so it is made anew each time.
NO_MAP, NO_AGENTS = "no map", "no agents"


@dataclass(frozen=True)
class Row:
    """A run. Seconds are processor time. What isn't known is an empty text."""

    map: str
    scenario: str
    agents: str
    status: str
    cost: str = ""
    makespan: str = ""
    splits: str = ""
    solve_seconds: str = ""
    check_seconds: str = ""
    certificate_bytes: str = ""
    verdict: str = ""
    solve_kb: str = ""
    check_kb: str = ""
    search: str = ""
    note: str = ""
    bound: str = ""
    first_seconds: str = ""
    first_cost: str = ""
    first_bound: str = ""
    quick_seconds: str = ""
    quick_cost: str = ""
    quick_bound: str = ""

    def key(self) -> tuple[str, int]:
        """What no two runs share: the scenario and the number of agents."""
        return self.scenario, int(self.agents)

    def order(self) -> tuple[Natural, Natural, int]:
        """What stands for the row where rows are put in order."""
        return natural(self.map), natural(self.scenario), int(self.agents)


NAMES = [field.name for field in fields(Row)]

# The columns of a table from before sweeps of gaps.
OLD_NAMES = NAMES[:NAMES.index("bound")]


def natural(name: str) -> Natural:
    """Orders names as people do: the second before the tenth."""
    return [(int(part), "") if part.isdigit() else (0, part) for part in re.split("([0-9]+)", name)]


class Results:
    """The rows that are in results.csv. Each is added to the file at once."""

    def __init__(self, path: Path) -> None:
        self.path = path
        self.rows: dict[tuple[str, int], Row] = {}
        self.read()
        self.sort()

    def read(self) -> None:
        """Reads the rows. A last line that was cut doesn't count."""
        data = self.path.read_bytes() if self.path.exists() else b""
        whole = data.rfind(b"\n") + 1
        lines = list(csv.reader(io.StringIO(data[:whole].decode(errors="surrogateescape"), newline="")))
        if lines and lines[0] not in (NAMES, OLD_NAMES):
            raise ToolError(f"{self.path} isn't a table of this tool: give another OUT, or move that file away")
        for number, line in enumerate(lines[1:], 2):
            if len(line) != len(lines[0]) or not line[NAMES.index("agents")].isdigit():
                raise ToolError(f"{self.path}, row {number} isn't a row of this tool: remove that line and call again")
            row = Row(*line)
            if row.status not in (NO_MAP, NO_AGENTS):
                self.rows[row.key()] = row

    def forget(self, keys: Iterable[tuple[str, int]]) -> None:
        """Takes these rows for runs that weren't made. In the file they stand until others are in their place."""
        for key in keys:
            del self.rows[key]

    def add(self, row: Row) -> None:
        """Adds a row, also to the file."""
        self.rows[row.key()] = row
        self.append(astuple(row))

    def append(self, values: Iterable[str]) -> None:
        """Adds a line with one write, so that whatever stops the tool cuts no line but the last."""
        line = line_of(values)
        with open(self.path, "ab", buffering=0) as file:
            if file.write(line) != len(line):
                raise ToolError(f"{self.path} can't be written: is the disk full?")

    def sorted(self) -> list[Row]:
        """The rows in order."""
        return sorted(self.rows.values(), key=Row.order)

    def sort(self) -> None:
        """Puts the file's rows in order, in one step."""
        replace(self.path, b"".join(map(line_of, [NAMES, *map(astuple, self.sorted())])))


def line_of(values: Iterable[str]) -> bytes:
    """A line of the file, with its end."""
    text = io.StringIO()
    csv.writer(text, lineterminator="\n").writerow(values)
    return text.getvalue().encode(errors="surrogateescape")


def replace(path: Path, data: bytes) -> None:
    """Gives a file this content in one step."""
    beside = path.with_name(path.name + ".new")
    with open(beside, "wb") as file:
        file.write(data)
        file.flush()
        os.fsync(file.fileno())
    os.replace(beside, path)
