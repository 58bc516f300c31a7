"""What the labels of a lemma rest on, in certificates of version 3: prices, constraints, and rules 2 to 4.

A cell is (x, y). Where a joint state says that an agent has arrived for good, its cell is None.
"""

from bisect import bisect_right
from collections.abc import Callable, Container, Iterable, Iterator
from typing import NamedTuple

INFINITE = float("inf")

Cell = tuple[int, int]
State = tuple[Cell, int]                                # A cell and a tick.
Label = int | float                                     # A number or INFINITE.
JointState = tuple[Cell | None, Cell | None, int]       # The cells of two agents, and the tick.


class Problem(NamedTuple):
    """The agents on their grid."""

    free: set[Cell]
    starts: list[Cell]
    goals: list[Cell]
    distances: list[dict[Cell, int]]                    # Of each agent, from each cell from which its goal is reached.
    steps_from: Callable[[Cell], list[Cell]]            # Where an agent may be one tick after it is in a free cell.

    def distance(self, agent: int, cell: Cell) -> Label:
        """The least number of steps from the cell to the agent's goal."""
        return self.distances[agent].get(cell, INFINITE)


class Constraint(NamedTuple):
    """What is asked of an agent. The kind is the first word of the line; 'arrived' is said of an agent I that no other
    agent is at its goal from the tick on.
    """

    kind: str
    agent: int
    cells: tuple[Cell, ...]     # One or two of 'not', one of 'clear', else none.
    number: int                 # The tick of 'not', 'clear' and 'arrived', else the cost.


class PriceList:
    """What cells at ticks and edges cost besides. Without prices it is that of lemmas and leaves that name no list."""

    def __init__(self, unit: int = 1) -> None:
        self.unit = unit
        self.total = 0
        self.cells: dict[State, int] = {}
        self.edges: dict[tuple[Cell, Cell, int], int] = {}
        self.ticks: dict[Cell, list[int]] = {}      # When a cell has prices,
        self.sums: dict[Cell, list[int]] = {}       # and the sums of its first 0, 1, 2 .. prices.

    def add(self, cells: tuple[Cell, ...], tick: int, price: int) -> None:
        """Adds a price of one cell or of an edge. The ticks don't fall from call to call."""
        self.total += price
        if len(cells) == 2:
            self.edges[cells[0], cells[1], tick] = self.edges[cells[1], cells[0], tick] = price
            return
        self.cells[cells[0], tick] = price
        self.ticks.setdefault(cells[0], []).append(tick)
        sums = self.sums.setdefault(cells[0], [0])
        sums.append(sums[-1] + price)

    def of_cell(self, cell: Cell, tick: int) -> int:
        """The price of a cell at a tick."""
        return self.cells.get((cell, tick), 0)

    def of_step(self, cell: Cell, other: Cell, tick: int) -> int:
        """What a step at a tick costs, with the prices of its edge and of the cell to which it leads."""
        return self.unit + self.edges.get((cell, other, tick), 0) + self.of_cell(other, tick + 1)

    def of_rest(self, cell: Cell, tick: int) -> int:
        """The sum of the cell's prices after a tick."""
        sums = self.sums.get(cell, [0])
        return sums[-1] - sums[bisect_right(self.ticks.get(cell, []), tick)]


class Limits:
    """What the constraints of a lemma ask of one agent."""

    def __init__(self, agent: int, problem: Problem, constraints: Iterable[Constraint]) -> None:
        self.goal, self.distances = problem.goals[agent], problem.distances[agent]
        self.steps_from = problem.steps_from
        self.most: Label = INFINITE
        self.least = 0
        self.cleared: dict[Cell, int] = {}          # From when on the agent isn't in a cell.
        self.forbidden: set[tuple[tuple[Cell, ...], int]] = set()
        self.last_forbidden_at_goal = -1
        for kind, of_agent, cells, number in constraints:
            if of_agent != agent:
                continue
            if kind == "most":
                self.most = min(self.most, number)
            elif kind == "least":
                self.least = max(self.least, number)
            elif kind == "clear":
                self.cleared[cells[0]] = min(number, self.cleared.get(cells[0], number))
            else:
                self.forbidden.add((cells, number))
                if cells == (self.goal,):
                    self.last_forbidden_at_goal = max(self.last_forbidden_at_goal, number)

    def is_barred(self, cell: Cell, tick: int) -> bool:
        """Whether the agent can't be there without having arrived for good before."""
        return (((cell,), tick) in self.forbidden or self.cleared.get(cell, INFINITE) <= tick
                or self.most < tick + self.distances.get(cell, INFINITE))

    def steps(self, cell: Cell, tick: int) -> list[Cell]:
        """To where the agent may step."""
        return [other for other in self.steps_from(cell)
                if ((cell, other), tick) not in self.forbidden and not self.is_barred(other, tick + 1)]

    def may_rest(self, cell: Cell, tick: int) -> bool:
        """Whether the agent may stay there for ever."""
        return (cell == self.goal and self.last_forbidden_at_goal < tick and cell not in self.cleared
                and self.least <= tick)


class Labels:
    """The labels of one agent in a lemma."""

    def __init__(self, limits: Limits, prices: PriceList, entries: dict[State, Label]) -> None:
        self.limits, self.prices, self.entries = limits, prices, entries

    def default(self, cell: Cell, tick: int) -> Label:
        """The label of a state without an entry."""
        return self.prices.unit * max(self.limits.distances.get(cell, INFINITE), self.limits.least - tick)

    def label(self, cell: Cell, tick: int) -> Label:
        """The label of a state."""
        entry = self.entries.get((cell, tick))
        return self.default(cell, tick) if entry is None else entry

    def steps(self, cell: Cell, tick: int) -> list[tuple[Cell, int]]:
        """To where the agent may step, with what that costs."""
        return [(other, self.prices.of_step(cell, other, tick)) for other in self.limits.steps(cell, tick)]

    def rest(self, cell: Cell, tick: int) -> Label:
        """What rest there costs. It is infinite where the agent may not rest."""
        return self.prices.of_rest(cell, tick) if self.limits.may_rest(cell, tick) else INFINITE

    def is_sound(self, cell: Cell, tick: int, label: Label) -> bool:
        """Rule 2, of an entry. Where the distance is infinite, the default is so too, and no label is greater."""
        if label <= self.default(cell, tick):
            return False
        if self.limits.is_barred(cell, tick):
            return True
        return label <= self.rest(cell, tick) and all(
            label <= cost + self.label(other, tick + 1) for other, cost in self.steps(cell, tick))


class JointLabels:
    """The labels of two agents together in a lemma."""

    def __init__(self, one: Labels, other: Labels, entries: dict[JointState, Label]) -> None:
        self.one, self.other, self.entries = one, other, entries

    def label(self, cell: Cell | None, other_cell: Cell | None, tick: int) -> Label:
        """The label of a joint state."""
        entry = self.entries.get((cell, other_cell, tick))
        if entry is not None:
            return entry
        return ((0 if cell is None else self.one.label(cell, tick))
                + (0 if other_cell is None else self.other.label(other_cell, tick)))

    def is_sound(self, cell: Cell | None, other_cell: Cell | None, tick: int, label: Label) -> bool:
        """Rule 3, of a joint entry of free cells."""
        if cell is None:
            following = ((cost + self.label(None, there, tick + 1), there)
                         for there, cost in self.other.steps(other_cell, tick))
            return is_sound_alone(self.other, self.one.limits.goal, (other_cell, tick), label, following)
        if other_cell is None:
            following = ((cost + self.label(there, None, tick + 1), there)
                         for there, cost in self.one.steps(cell, tick))
            return is_sound_alone(self.one, self.other.limits.goal, (cell, tick), label, following)
        return (cell == other_cell or self.one.limits.is_barred(cell, tick)
                or self.other.limits.is_barred(other_cell, tick)
                or self.is_below_arrivals(cell, other_cell, tick, label)
                and self.is_below_steps(cell, other_cell, tick, label))

    def is_below_arrivals(self, cell: Cell, other_cell: Cell, tick: int, label: Label) -> bool:
        """Rule 3 (a), of two agents that are under way."""
        return (label <= self.one.rest(cell, tick) + self.label(None, other_cell, tick)
                and label <= self.other.rest(other_cell, tick) + self.label(cell, None, tick))

    def is_below_steps(self, cell: Cell, other_cell: Cell, tick: int, label: Label) -> bool:
        """Rule 3 (b), of two agents that are under way."""
        other_steps = self.other.steps(other_cell, tick)
        return all(label <= cost + other_cost + self.label(there, other_there, tick + 1)
                   for there, cost in self.one.steps(cell, tick) for other_there, other_cost in other_steps
                   if not is_conflict(cell, other_cell, there, other_there))


def is_sound_alone(labels: Labels, goal: Cell, state: State, label: Label,
                   following: Iterator[tuple[Label, Cell]]) -> bool:
    """Rule 3, of an agent under way while the other is at its own goal, given what each step with the label after it
    adds up to, and where it leads.
    """
    cell, tick = state
    return (cell == goal or labels.limits.is_barred(cell, tick)
            or label <= labels.rest(cell, tick)
            and all(label <= rest for rest, there in following if there != goal))


def is_conflict(cell: Cell, other_cell: Cell, there: Cell, other_there: Cell) -> bool:
    """Whether two agents that step from two cells meet or exchange them."""
    return there == other_there or (there == other_cell and other_there == cell)


def is_closed(cell: Cell, other_cell: Cell, pairs: Container[tuple[Cell, Cell]], problem: Problem) -> bool:
    """Rule 4, of the steps from a pair: without a conflict two agents stay in the pairs."""
    return all((there, other_there) in pairs or is_conflict(cell, other_cell, there, other_there)
               for there in problem.steps_from(cell) for other_there in problem.steps_from(other_cell))
