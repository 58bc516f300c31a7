"""What a node of a tree may use, in certificates of version 3: the constraints that stand there, and rules 6, 8 and 9.
"""

from collections.abc import Callable, Iterable
from typing import NamedTuple

from .recheck3_labels import INFINITE, Cell, Constraint, Label, PriceList, Problem

Key = tuple[str, int, tuple[Cell, ...], int | None]     # All of a constraint but its number, if one implies others.
Undo = list[tuple[Key, int | None]]                     # The numbers that stood before, None where nothing stood.


class Lemma(NamedTuple):
    """What is kept of a lemma."""

    agents: frozenset[int]
    constraints: frozenset[Constraint]
    prices: PriceList | None    # None, if it names no list.
    bound: Label


class Standing:
    """The constraints that stand at a node. On the way through a tree it is told to `leave` nodes, and to `enter`."""

    def __init__(self, goals: list[Cell]) -> None:
        self.numbers: dict[Key, int] = {}           # The strictest number of each constraint.
        self.way: list[Undo] = []                   # What each node from the root on added.
        self.agents_to: dict[Cell, list[int]] = {}  # The agents with this goal.
        for agent, goal in enumerate(goals):
            self.agents_to.setdefault(goal, []).append(agent)

    def leave(self, depth: int) -> None:
        """Takes back what nodes of this depth or a greater one added."""
        while len(self.way) > depth:
            for key, before in reversed(self.way.pop()):
                if before is None:
                    del self.numbers[key]
                else:
                    self.numbers[key] = before

    def enter(self, constraints: Iterable[Constraint]) -> None:
        """Adds those of a node below the last one."""
        undo: Undo = []
        for constraint in constraints:
            key, number = key_of(constraint), constraint.number
            before = self.numbers.get(key)
            if before is not None:
                number = max(number, before) if constraint.kind == "least" else min(number, before)
            undo.append((key, before))
            self.numbers[key] = number
        self.way.append(undo)

    def is_met(self, constraint: Constraint) -> bool:
        """Whether a constraint is met at the last node."""
        number = self.numbers.get(key_of(constraint))
        if constraint.kind == "least":
            return number is not None and number >= constraint.number
        if number is not None and number <= constraint.number:
            return True
        return constraint.kind != "most" and len(constraint.cells) == 1 and self.is_cleared(constraint)

    def is_cleared(self, constraint: Constraint) -> bool:
        """Whether the agent of the constraint isn't in its cell from its tick on."""
        agent, cells, tick = constraint.agent, constraint.cells, constraint.number
        if self.numbers.get(("clear", agent, cells, None), INFINITE) <= tick:
            return True
        return any(self.numbers.get(("arrived", other, (), None), INFINITE) <= tick
                   for other in self.agents_to.get(cells[0], []) if other != agent)


def key_of(constraint: Constraint) -> Key:
    """What has to be equal of two constraints, so that one may imply the other by its number."""
    kind, agent, cells, number = constraint
    return kind, agent, cells, number if kind == "not" else None


class Scope:
    """What the leaves of a tree may use: the lemmas before it, of its agents."""

    def __init__(self, agents: Iterable[int], lemmas: list[Lemma], problem: Problem) -> None:
        self.agents, self.lemmas, self.standing = frozenset(agents), lemmas, Standing(problem.goals)
        self.distances = {agent: problem.distance(agent, problem.starts[agent]) for agent in self.agents}

    def usable(self, number: int) -> Lemma | None:
        """The lemma of this number, None if it may not be used where the constraints stand."""
        lemma = self.lemmas[number] if number < len(self.lemmas) else None
        if lemma and lemma.agents <= self.agents and all(map(self.standing.is_met, lemma.constraints)):
            return lemma
        return None

    def may_cost(self, agents: set[int], number: int, bound: int) -> bool:
        """Rule 6: whether the lemma says here that these agents cost at least the bound."""
        lemma = self.usable(number)
        return lemma is not None and lemma.prices is None and lemma.agents == agents and lemma.bound >= bound


class Leaf:
    """A leaf of a tree, which is told its uses in order. Each answers whether it is allowed (rule 8)."""

    def __init__(self, scope: Scope, prices: PriceList | None) -> None:
        self.scope, self.named, self.prices = scope, prices, PriceList() if prices is None else prices
        self.single: dict[int, Label] = {}          # What is counted for an agent outside the groups.
        self.groups: list[Group] = []
        self.grouped: set[int] = set()              # The agents of all groups but the last.

    def usable(self, number: int) -> Lemma | None:
        """A lemma that may be used here, and that has the list of the leaf or none."""
        lemma = self.scope.usable(number)
        return lemma if lemma and (lemma.prices is None or lemma.prices is self.named) else None

    def may_use(self, number: int) -> bool:
        """Adds a use outside the groups."""
        lemma = self.usable(number)
        if lemma is None or len(lemma.agents) != 1 or not self.single.keys().isdisjoint(lemma.agents):
            return False
        self.single.update(dict.fromkeys(lemma.agents, self.count(lemma)))
        return True

    def begin_group(self, divisor: int) -> None:
        """Begins the next group."""
        if self.groups:
            self.grouped |= self.groups[-1].weights.keys()
        self.groups.append(Group(divisor))

    def may_use_in_group(self, number: int, weight: int) -> bool:
        """Adds a use to the last group."""
        lemma = self.usable(number)
        if lemma is None or not self.grouped.isdisjoint(lemma.agents):
            return False
        return self.groups[-1].may_add(lemma, weight)

    def count(self, lemma: Lemma) -> Label:
        """What a lemma counts."""
        return self.prices.unit * lemma.bound if lemma.prices is None else lemma.bound

    def labels(self) -> dict[int, Label]:
        """What is counted for each agent outside the groups."""
        unit = self.prices.unit
        return {agent: self.single.get(agent, unit * far) for agent, far in self.scope.distances.items()}

    def worths(self, labels: dict[int, Label]) -> list[Label]:
        """What each group adds to these labels."""
        counts = [self.count(lemma) for group in self.groups for lemma, _ in group.uses]
        if INFINITE in labels.values() or INFINITE in counts:
            return [INFINITE]
        return [group.worth(lambda lemma: self.excess(lemma, labels)) for group in self.groups]

    def bound(self) -> Label:
        """What the uses show for the agents of the tree."""
        labels = self.labels()
        shown = sum(labels.values()) + sum(self.worths(labels))
        if shown == INFINITE:
            return INFINITE
        return rounded_up(max(0, shown - self.prices.total), self.prices.unit)

    def excess(self, lemma: Lemma, labels: dict[int, Label]) -> Label:
        """By how much what a lemma counts exceeds what is counted for its agents otherwise."""
        return max(0, self.count(lemma) - sum(labels[agent] for agent in lemma.agents))


class Group:
    """A group of uses: lemmas with weights."""

    def __init__(self, divisor: int) -> None:
        self.divisor = divisor
        self.uses: list[tuple[Lemma, int]] = []
        self.weights: dict[int, int] = {}           # Of each agent, the sum of the weights of its uses.

    def may_add(self, lemma: Lemma, weight: int) -> bool:
        """Adds a use, and answers whether no agent has more weight than the divisor."""
        self.uses.append((lemma, weight))
        for agent in lemma.agents:
            self.weights[agent] = self.weights.get(agent, 0) + weight
        return all(self.weights[agent] <= self.divisor for agent in lemma.agents)

    def worth(self, excess: Callable[[Lemma], Label]) -> int:
        """What the group adds to the bound."""
        return rounded_up(sum(weight * excess(lemma) for lemma, weight in self.uses), self.divisor)


def rounded_up(number: int, divisor: int) -> int:
    """The quotient, rounded up."""
    return -(-number // divisor)
