"""Problems and plans as arrays of cells, and the texts that spell them for the library."""

import operator
import os
from collections.abc import Iterable
from dataclasses import dataclass
from itertools import count
from pathlib import Path
from typing import SupportsIndex, TypeVar

from .errors import MapfError
from .library import number_of
from .limits import GREATEST_SIDE
from .tools.plans import Agent, Cell, Grid, faults_of, shown
from .tools.texts import read_agents
from .tools.texts import read_map as read_map_text

# What a call takes: a grid, or rows of truth values; cells; a text; and a text or the file that holds it.
Free = Grid | Iterable[Iterable[object]]
Cells = Iterable[Iterable[SupportsIndex]]
Text = str | bytes
Source = Text | os.PathLike[str]

Value = TypeVar("Value")

# How a map spells whether a cell is free.
SIGNS: dict[object, str] = {True: ".", False: "@"}

# The code of each kind of fault of a plan.
CODES = {"start": "V1", "step": "V2", "end": "V3", "vertex": "V4", "swap": "V5"}


# Problems.

@dataclass(frozen=True)
class Problem:
    """A grid, and the start and the goal of each agent on it."""

    grid: Grid
    agents: list[Agent]

    def texts(self) -> tuple[bytes, bytes, int]:
        """The map, the scenario, and the number of agents."""
        width, height = self.grid.width, self.grid.height
        map_lines = ["type octile", f"height {height}", f"width {width}", "map", *self.grid.rows, ""]
        ends = ["%d %d %d %d" % (*agent.start, *agent.goal) for agent in self.agents]
        scen_lines = ["version 1", *(f"0 map {width} {height} {cells} 0" for cells in ends), ""]
        return "\n".join(map_lines).encode(), "\n".join(scen_lines).encode(), len(ends)

    def fault_of(self, paths: list[list[Cell]], before: str) -> MapfError | None:
        """What is wrong first with a plan for this problem, if something is. `before` is the beginning of its code."""
        fault = next(iter(faults_of(self.grid, self.agents, paths)), None)
        if fault is None:
            return None
        numbers = fault.agents if fault.kind in ("start", "end") else (*fault.agents, fault.tick)
        code = " ".join([before, CODES[fault.kind], *map(str, numbers)])
        return MapfError(f"the plan isn't valid: {fault.words}", code)


def problem_of(grid: Free, starts: Cells, goals: Cells) -> Problem:
    """The problem that these arrays tell."""
    cells = grid_of(grid)
    begins, ends = cells_of("starts", starts), cells_of("goals", goals)
    if len(begins) != len(ends):
        raise MapfError(f"there are {len(begins)} starts and {len(ends)} goals, and each agent has one of each")
    number_of(len(begins))
    for agent, pair in enumerate(zip(begins, ends)):
        for name, cell in zip(("start", "goal"), pair):
            if not cells.is_free(cell):
                raise MapfError(f"the {name} {shown(cell)} of agent {agent} isn't a free cell", f"F2 S5 {agent}")
    return Problem(cells, [Agent(start, goal) for start, goal in zip(begins, ends)])


def grid_of(free: Free) -> Grid:
    """The grid of these rows of truth values, or this grid. Each row has to be as long as the first."""
    rows = free.rows if isinstance(free, Grid) else list(map(row_of, count(), listed("the grid", free)))
    width, height = len(rows[0]) if rows else 0, len(rows)
    if not 1 <= height <= GREATEST_SIDE:
        raise MapfError(f"a grid has 1 to {GREATEST_SIDE} rows, and this one has {height}", "F1 M4 2")
    if not 1 <= width <= GREATEST_SIDE:
        raise MapfError(f"a row of a grid has 1 to {GREATEST_SIDE} cells, and the first one has {width}", "F1 M4 3")
    for number, row in enumerate(rows):
        if len(row) != width:
            raise MapfError(f"row {number} of the grid has {len(row)} cells, and row 0 has {width}", f"F1 M6 {number}")
    return Grid(width, height, rows)


def row_of(number: int, free: Iterable[object]) -> str:
    """The row of a map for these truth values."""
    try:
        return "".join(map(SIGNS.__getitem__, listed("the row", free)))
    except (KeyError, TypeError):
        name = f"row {number} of the grid"
        raise TypeError(f"{name} can't be {free!r:.60}: give truth values, True or False, or 1 or 0") from None


def cells_of(name: str, cells: Cells) -> list[Cell]:
    """The cells of an array, of which errors speak by this name."""
    return [cell_of(f"cell {number} of the {name}", cell) for number, cell in enumerate(listed(f"the {name}", cells))]


def cell_of(name: str, cell: Iterable[SupportsIndex]) -> Cell:
    """A cell (x, y), of which errors speak by this name."""
    try:
        x, y = map(operator.index, cell)
    except (TypeError, ValueError):
        raise TypeError(f"{name} can't be {cell!r:.60}: give two whole numbers (x, y)") from None
    return x, y


def paths_of(paths: Iterable[Cells], agents: int) -> list[list[Cell]]:
    """The paths of so many agents."""
    found = [cells_of(f"path of agent {agent}", path) for agent, path in enumerate(listed("the plan", paths))]
    if len(found) != agents:
        raise MapfError(f"there are {agents} agents and {len(found)} paths")
    for agent, path in enumerate(found):
        if not path:
            raise MapfError(f"the path of agent {agent} has no cell")
    return found


def listed(name: str, values: Iterable[Value]) -> list[Value]:
    """The values of an array as a list. An array of numpy gives its own much faster by `tolist`."""
    try:
        return list(values.tolist() if hasattr(values, "tolist") else values)
    except TypeError:
        raise TypeError(f"{name} can't be {values!r:.60}: give a list or an array") from None


def whole(name: str, number: SupportsIndex) -> int:
    """A whole number, of which errors speak by this name."""
    try:
        return operator.index(number)
    except TypeError:
        raise TypeError(f"{name} can't be {number!r:.60}: give a whole number") from None


# Files and texts.

def read_map(source: Source) -> Grid:
    """Reads a map of the MovingAI benchmark: from a file, or from the text itself, which is `bytes`, or a `str` with a
    line end in it.

    >>> grid = read_map("type octile\\nheight 2\\nwidth 3\\nmap\\n..@\\n...\\n")
    >>> grid.width, grid.height, grid.is_free((2, 0)), grid.is_free((2, 1))
    (3, 2, False, True)

    A map that can't be used raises `MapfError`, and a file that can't be read `OSError`.
    """
    return read_map_text(*named("the map", source))


def read_scen(source: Source, grid: Grid, agents: int) -> tuple[list[Cell], list[Cell]]:
    """Reads the starts and the goals of the first agents of a scenario of the MovingAI benchmark, 1 to 200, on its map:
    from a file, or from the text itself, as `read_map` does.

    >>> grid = read_map("type octile\\nheight 2\\nwidth 3\\nmap\\n..@\\n...\\n")
    >>> read_scen("version 1\\n0 some.map 3 2 0 0 2 1 3\\n", grid, 1)
    ([(0, 0)], [(2, 1)])
    """
    name, text = named("the scenario", source)
    found = read_agents(name, grid, number_of(whole("agents", agents)), text)
    return [agent.start for agent in found], [agent.goal for agent in found]


def named(name: str, source: Source) -> tuple[str, bytes]:
    """The text of a source, and by which name errors speak of it."""
    if isinstance(source, bytes) or isinstance(source, str) and "\n" in source:
        return name, encoded(name, source)
    return os.fspath(source), Path(source).read_bytes()


def encoded(name: str, text: Text) -> bytes:
    """A text as bytes. An error speaks of it by this name."""
    if isinstance(text, str):
        return text.encode("utf-8", "surrogatepass")
    if isinstance(text, (bytes, bytearray, memoryview)):
        return bytes(text)
    raise TypeError(f"{name} can't be {text!r:.60}: give a text, as str or bytes")
