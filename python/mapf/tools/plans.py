"""Plans on a map: what a path costs, and what is wrong with a plan, in words. A cell is (x, y), a path the list of an
agent's cells, one for each tick from 0 on.
"""

from collections.abc import Hashable, Iterable, Iterator, Sequence
from dataclasses import dataclass
from itertools import chain, repeat

Cell = tuple[int, int]

# The characters of a map that stand for free cells.
FREE = ".GS"


@dataclass(frozen=True)
class Grid:
    """The cells of a map, by row."""

    width: int
    height: int
    rows: list[str]

    def is_free(self, cell: Cell) -> bool:
        """Whether an agent may be in this cell. Outside the map it may not."""
        x, y = cell
        return 0 <= x < self.width and 0 <= y < self.height and self.rows[y][x] in FREE


@dataclass(frozen=True)
class Agent:
    """Where an agent starts and where its goal is."""

    start: Cell
    goal: Cell


def shown(cell: Cell) -> str:
    """A cell, as words name it."""
    return f"({cell[0]},{cell[1]})"


# What a path costs.

def cut_waits(path: list[Cell]) -> list[Cell]:
    """The path without the waits at its end."""
    end = len(path)
    while end > 1 and path[end - 1] == path[end - 2]:
        end -= 1
    return path[:end]


def cost_of(path: list[Cell]) -> int:
    """The tick from which on the agent stays where its path ends."""
    return len(cut_waits(path)) - 1


def sum_of_costs(paths: Iterable[list[Cell]]) -> int:
    """The sum of the paths' costs."""
    return sum(map(cost_of, paths))


# What is wrong with a plan.

@dataclass(frozen=True)
class Fault:
    """What is wrong with a plan. Its kind is 'start', 'step' or 'end' with one agent, 'vertex' or 'swap' with two. The
    tick of a step and of a swap is that of leaving; the cells are those that the words name, in their order.
    """

    kind: str
    agents: tuple[int, ...]
    tick: int
    cells: tuple[Cell, ...]
    words: str


def faults_of(grid: Grid, agents: Iterable[Agent], paths: list[list[Cell]]) -> list[Fault]:
    """All that is wrong with a plan: first of each agent, then each conflict, by tick. None, where it is valid."""
    found: list[Fault] = []
    for agent, (task, path) in enumerate(zip(agents, paths)):
        found.extend(faults_of_path(grid, agent, task, path))
    for tick, here, there in ticks_of(paths):
        found.extend(conflicts_at(tick, here, there))
    return found


def ticks_of(paths: list[list[Cell]]) -> Iterator[tuple[int, tuple[Cell, ...], tuple[Cell, ...]]]:
    """Each tick, up to the last at which a path has a cell, with the agents' cells at it and at the next one."""
    cells = zip(*(chain(path, repeat(path[-1])) for path in paths))
    here = next(cells)
    for tick in range(max(map(len, paths))):
        there = next(cells)
        yield tick, here, there
        here = there


def faults_of_path(grid: Grid, agent: int, task: Agent, path: list[Cell]) -> Iterator[Fault]:
    """What is wrong with the path of this agent by itself, from its start on."""
    if path[0] != task.start:
        yield Fault("start", (agent,), 0, (path[0], task.start),
                    f"agent {agent} begins in {shown(path[0])}, and its start is {shown(task.start)}")
    good: set[tuple[Cell, Cell]] = set()
    for tick, step in enumerate(zip(path, path[1:])):
        if step in good:
            continue
        words = fault_of_step(grid, *step)
        if not words:
            good.add(step)
            continue
        yield Fault("step", (agent,), tick, step,
                    f"agent {agent} goes from {shown(step[0])} to {shown(step[1])} after tick {tick}, {words}")
    if path[-1] != task.goal:
        yield Fault("end", (agent,), len(path) - 1, (path[-1], task.goal),
                    f"agent {agent} ends in {shown(path[-1])}, and its goal is {shown(task.goal)}")


def fault_of_step(grid: Grid, here: Cell, there: Cell) -> str:
    """What is wrong with a step, in words; nothing, where it is good. The cell that is left was judged before."""
    if not (0 <= there[0] < grid.width and 0 <= there[1] < grid.height):
        return f"and {shown(there)} is outside the map"
    if not grid.is_free(there):
        return f"and {shown(there)} is blocked"
    if abs(here[0] - there[0]) + abs(here[1] - there[1]) > 1:
        return "which is further than one cell"
    return ""


def conflicts_at(tick: int, here: Sequence[Cell], there: Sequence[Cell]) -> Iterator[Fault]:
    """The conflicts of the tick: two agents in one cell, then two that exchange their cells after it."""
    if len(set(here)) < len(here):
        for one, other in pairs_of(here, here):
            yield Fault("vertex", (one, other), tick, (here[one],),
                        f"agents {one} and {other} are both in {shown(here[one])} at tick {tick}")
    moves, back = list(zip(here, there)), list(zip(there, here))
    if {move for move in moves if move[0] != move[1]}.isdisjoint(back):
        return
    for one, other in pairs_of(moves, back):
        if here[one] != there[one]:
            cells = f"{shown(here[one])} and {shown(there[one])}"
            yield Fault("swap", (one, other), tick, (here[one], there[one]),
                        f"agents {one} and {other} exchange {cells} after tick {tick}")


def pairs_of(values: Sequence[Hashable], sought: Sequence[Hashable]) -> list[tuple[int, int]]:
    """The pairs of agents, the lesser first, of which the first has the value that is sought of the second."""
    having: dict[Hashable, list[int]] = {}
    for agent, value in enumerate(values):
        having.setdefault(value, []).append(agent)
    return sorted((one, other) for other, value in enumerate(sought) for one in having.get(value, ()) if one < other)
