"""A cheapest path of one agent among others whose paths stay as they are. It closes no full cycle with them."""

import heapq
from collections import deque
from collections.abc import Iterable, Iterator, Mapping

from .plans import Agent, Cell, Grid, ticks_of

# How many places in time are looked at before a search gives up.
MOST_STATES = 2_000_000

# A cell at a tick. When all others have arrived, all later ticks are one.
State = tuple[Cell, int]


class Traffic:
    """The others: for each tick the cells in which they are, each with the cell that its agent goes to."""

    def __init__(self, paths: Iterable[list[Cell]]) -> None:
        kept = list(paths)
        self.ticks = [dict(zip(here, there)) for _, here, there in ticks_of(kept)] if kept else [{}]

    def add(self, path: list[Cell]) -> None:
        """Adds the path of one more agent. Each agent stays where its path ends."""
        self.ticks += [dict(self.ticks[-1]) for _ in range(len(path) - len(self.ticks))]
        for others, (_, here, there) in zip(self.ticks, ticks_of([path])):
            others[here[0]] = there[0]
        for others in self.ticks[len(path):]:
            others[path[-1]] = path[-1]

    def last(self) -> int:
        """The tick from which on nobody moves."""
        return len(self.ticks) - 1

    def at(self, tick: int) -> dict[Cell, Cell]:
        """The others at this tick. After the last one they stay where they are."""
        return self.ticks[min(tick, self.last())]

    def lets(self, tick: int, here: Cell, there: Cell) -> bool:
        """Whether one more agent may be here at this tick and there at the next one. Nobody else may be there, and the
        agents that make room for it may not end where it begins: that would be a swap or a full cycle.
        """
        if there in self.at(tick + 1):
            return False
        others, cell = self.at(tick), there
        while cell in others:
            cell = others[cell]
        return cell != here or here == there

    def is_free_from(self, cell: Cell) -> int | None:
        """From which tick on nobody else is in this cell; none where somebody stays there."""
        if cell in self.ticks[-1]:
            return None
        return next((tick + 1 for tick in range(self.last(), -1, -1) if cell in self.ticks[tick]), 0)


def neighbours(grid: Grid, cell: Cell) -> Iterator[Cell]:
    """The free cells beside a cell."""
    x, y = cell
    return filter(grid.is_free, ((x + 1, y), (x, y + 1), (x - 1, y), (x, y - 1)))


def distances(grid: Grid, goal: Cell) -> dict[Cell, int]:
    """The least number of steps to a goal, from each cell from which it can be reached."""
    found = {goal: 0}
    border = deque([goal])
    while border:
        near = border.popleft()
        new = [cell for cell in neighbours(grid, near) if cell not in found]
        found.update((cell, found[near] + 1) for cell in new)
        border.extend(new)
    return found


def cheapest_path(grid: Grid, task: Agent, traffic: Traffic, steps_left: Mapping[Cell, int]) -> list[Cell] | None:
    """A cheapest path among the others, by the search A*; none where there is none, or the search gives up. Of each
    cell that can lead to the goal the least number of steps left is given.
    """
    since = traffic.is_free_from(task.goal)
    if since is None or task.start in traffic.at(0) or task.start not in steps_left:
        return None
    last = traffic.last()
    reached: dict[State, tuple[int, State | None]] = {(task.start, 0): (0, None)}
    queue = [(steps_left[task.start], 0, task.start)]
    while queue and len(reached) < MOST_STATES:
        _, back, here = heapq.heappop(queue)
        tick, at = -back, (here, min(-back, last))
        if here == task.goal and tick >= since:
            return way_to(at, reached)
        for there in (here, *neighbours(grid, here)):
            state = there, min(tick + 1, last)
            is_new = state not in reached or tick + 1 < reached[state][0]
            if is_new and traffic.lets(tick, here, there):
                reached[state] = tick + 1, at
                heapq.heappush(queue, (tick + 1 + steps_left[there], -tick - 1, there))
    return None


def way_to(state: State, reached: Mapping[State, tuple[int, State | None]]) -> list[Cell]:
    """The cells on the way to a state, of which each that was reached has the one before it."""
    way: list[Cell] = []
    at: State | None = state
    while at is not None:
        way.append(at[0])
        at = reached[at][1]
    return way[::-1]
