"""Judges what follows the claim in a certificate of version 3, for tools/recheck: price lists, lemmas and the tree.

This was written from the text of the format alone, as tools/recheck was. It reads the parts in order; what is asked of
labels is in recheck3_labels.py, and what a node may use in recheck3_trees.py.
"""

from collections.abc import Callable, Iterable
from typing import Any

from .recheck3_labels import (
    INFINITE, Cell, Constraint, JointLabels, JointState, Label, Labels, Limits, PriceList, Problem, State, is_closed)
from .recheck3_trees import Leaf, Lemma, Scope

# The lines after the claim, as tools/recheck has them. A letter stands for a number and has its range: T is a tick
# that a split may have, k a cost or tick of an arrival that `most` allows, t any other tick or cost, S a number of
# pairs. Q is the number of a price list.

PRICES, LIST, LEMMAS, END = "prices N", "list D M", "lemmas N", "end"
PRICE = ["price x,y T V", "price x,y x,y T V"]
LEMMA = ["one I F M -", "one I F M Q", "two I J F M N R -", "two I J F M N R Q", "never I J S", "cases A F P"]
CELLS, AGENT = "cells x,y x,y", "agent I"
CONSTRAINT = ["not I x,y T", "not I x,y x,y T", "clear I x,y k", "most I k", "least I t"]
ENTRY = "at x,y t L"
JOINT_ENTRY = ["at x,y x,y t L", r"at \* x,y t L", r"at x,y \* t L"]
NODE = ["vertex I J x,y T", "swap I J x,y x,y T", "cost I k", "costs I k J t N", "clash I J", "leaf U G -",
        "leaf U G Q"]
USE, GROUP, WEIGHTED_USE = "use N", "group H E", "use N W"
KINDS = [ENTRY, *JOINT_ENTRY, *NODE, USE, GROUP, WEIGHTED_USE, *CONSTRAINT, CELLS, AGENT, *LEMMA, *PRICE, LIST, PRICES,
         LEMMAS, END]

COUNT, COST = (0, 9_999_999_999), (0, 9_999_999)


def ranges_of(agents: int, lists: int) -> dict[str, tuple[int, int]]:
    """The ranges of version 3 beside those of cells, agents and ticks of splits."""
    return {"N": COUNT, "M": COUNT, "R": COUNT, "S": (1, COUNT[1]), "Q": (0, lists - 1), "F": (0, 1_000),
            "A": (1, agents), "U": (0, agents), "G": (0, agents), "H": (1, 200_000), "D": (1, 1_000), "E": (1, 1_000),
            "W": (1, 1_000), "V": (1, 9_999_999), "k": (0, COST[1] - 1), "t": COST, "L": (1, COUNT[1]),
            "P": (1, 1_999_999_800)}


def cells_of(numbers: list[int]) -> tuple[Cell, ...]:
    """The cells of which these are the columns and rows."""
    return tuple(zip(numbers[0::2], numbers[1::2]))


def order_of(*cells: Cell) -> list[tuple[int, int]]:
    """By what cells are ordered: their rows, then their columns."""
    return [(y, x) for x, y in cells]


class Judge:
    """Judges the parts of a certificate, in order. The lines, their ranges and `refuse_if` are those of recheck."""

    def __init__(self, lines: Any, ranges: dict[str, tuple[int, int]], problem: Problem,
                 refuse_if: Callable[[object, str], None]) -> None:
        self.lines, self.problem, self.refuse_if = lines, problem, refuse_if
        self.ranges = {**ranges, **ranges_of(len(problem.goals), 0)}
        self.lists: list[PriceList] = []
        self.lemmas: list[Lemma] = []

    def judge(self, least: Label) -> None:
        """Judges what follows the claim, of which the last tree has to show so much."""
        lists = self.take([PRICES])[1][0]
        self.ranges["Q"] = 0, lists - 1
        for _ in range(lists):
            self.lists.append(self.judged_list())
        for _ in range(self.take([LEMMAS])[1][0]):
            self.lemmas.append(self.judged_lemma())
        self.judge_tree(range(len(self.problem.goals)), [], least)
        self.take([END])
        self.lines.end()

    # Lines.

    def take(self, wanted: list[str]) -> tuple[str, list[Any]]:
        """The next line, which has one of the wanted shapes: its shape and its numbers."""
        return self.lines.take([*wanted, *KINDS], self.ranges, wanted)

    def refuse_line_if(self, is_wrong: object, code: str, line: int) -> None:
        """Refuses a line that was read before."""
        self.refuse_if(is_wrong, f"{code} {line}")

    def list_of(self, shape: str, numbers: list[Any]) -> PriceList | None:
        """The price list that the last word of a line names, which is taken from its numbers."""
        return self.lists[numbers.pop()] if shape.endswith("Q") else None

    def are_free(self, cells: Iterable[Cell]) -> bool:
        """Whether these cells are free."""
        return all(cell in self.problem.free for cell in cells)

    def is_edge(self, cells: tuple[Cell, ...]) -> bool:
        """Whether these are two adjacent free cells."""
        here, there = cells
        return self.are_free(cells) and here != there and there in self.problem.steps_from(here)

    def is_place(self, cells: tuple[Cell, ...]) -> bool:
        """Whether this is a free cell, an edge between two, or nothing, as it may stand in prices and constraints."""
        return self.is_edge(cells) if len(cells) == 2 else self.are_free(cells)

    # Prices and constraints.

    def judged_list(self) -> PriceList:
        """The next price list."""
        unit, count = self.take([LIST])[1]
        prices, places, last = PriceList(unit), [], None
        for _ in range(count):
            *pairs, tick, price = self.take(PRICE)[1]
            cells = cells_of(pairs)
            order = tick, len(cells), order_of(*cells)
            self.lines.refuse_if(last is not None and order <= last, 1)
            self.lines.refuse_if(len(cells) == 2 and order_of(cells[0]) >= order_of(cells[1]), 1)
            last = order
            prices.add(cells, tick, price)
            places.append((self.lines.number, cells))
        self.judge_places(places)
        return prices

    def judge_places(self, places: list[tuple[int, tuple[Cell, ...]]]) -> None:
        """Rule 1, of the cells of prices or constraints, each with its line."""
        for line, cells in places:
            self.refuse_line_if(not self.is_place(cells), "C10", line)

    def take_constraints(self, count: int, agents: set[int]) -> list[tuple[int, Constraint]]:
        """So many constraints of these agents, each with its line."""
        constraints = []
        for _ in range(count):
            shape, (agent, *pairs, number) = self.take(CONSTRAINT)
            self.lines.refuse_if(agent not in agents, 1)
            constraints.append((self.lines.number, Constraint(shape.split(" ")[0], agent, cells_of(pairs), number)))
        return constraints

    def judged_constraints(self, taken: list[tuple[int, Constraint]]) -> list[Constraint]:
        """Rule 1, of constraints with their lines. Answers them without these."""
        self.judge_places([(line, constraint.cells) for line, constraint in taken])
        return [constraint for _, constraint in taken]

    # Lemmas.

    def judged_lemma(self) -> Lemma:
        """The next lemma."""
        shape, numbers = self.take(LEMMA)
        prices = self.list_of(shape, numbers)
        kind = shape.split(" ")[0]
        if kind == "one":
            return self.judged_one(*numbers, prices)
        if kind == "two":
            return self.judged_two(numbers, prices)
        return self.judged_never(*numbers) if kind == "never" else self.judged_cases(*numbers)

    def judged_one(self, agent: int, constraint_count: int, entry_count: int, prices: PriceList | None) -> Lemma:
        """The rest of a lemma of one agent."""
        taken = self.take_constraints(constraint_count, {agent})
        entries = self.take_entries(entry_count)
        constraints = self.judged_constraints(taken)
        labels = self.labels_of(agent, constraints, prices, entries)
        self.judge_entries(labels, entries)
        start = self.problem.starts[agent]
        bound = labels.label(start, 0) + labels.prices.of_cell(start, 0)
        return Lemma(frozenset([agent]), frozenset(constraints), prices, bound)

    def judged_two(self, numbers: list[int], prices: PriceList | None) -> Lemma:
        """The rest of a lemma of two agents, of which the first line has these numbers."""
        one, other, constraint_count, *entry_counts, joint_count = numbers
        line = self.lines.number
        taken = self.take_constraints(constraint_count, {one, other})
        entries, other_entries = map(self.take_entries, entry_counts)
        joint_entries = self.take_joint_entries(joint_count)
        self.refuse_line_if(one == other, "C10", line)
        constraints = self.judged_constraints(taken)
        labels = self.labels_of(one, constraints, prices, entries)
        other_labels = self.labels_of(other, constraints, prices, other_entries)
        joint_labels = JointLabels(labels, other_labels, {state: label for _, state, label in joint_entries})
        self.judge_entries(labels, entries)
        self.judge_entries(other_labels, other_entries)
        for line, state, label in joint_entries:
            are_free = self.are_free(cell for cell in state[:2] if cell is not None)
            self.refuse_line_if(not are_free or not joint_labels.is_sound(*state, label), "C7", line)
        starts = self.problem.starts[one], self.problem.starts[other]
        bound = joint_labels.label(*starts, 0) + sum(labels.prices.of_cell(start, 0) for start in starts)
        return Lemma(frozenset([one, other]), frozenset(constraints), prices, bound)

    def take_entries(self, count: int) -> list[tuple[int, State, Label]]:
        """So many entries of one agent, each with its line."""
        entries, last = [], None
        for _ in range(count):
            x, y, tick, label = self.take([ENTRY])[1]
            self.lines.refuse_if(last is not None and (tick, y, x) <= last, 1)
            last = tick, y, x
            entries.append((self.lines.number, ((x, y), tick), label))
        return entries

    def take_joint_entries(self, count: int) -> list[tuple[int, JointState, Label]]:
        """So many joint entries, each with its line."""
        entries, last = [], None
        for _ in range(count):
            shape, (*pairs, tick, label) = self.take(JOINT_ENTRY)
            kind, cells = JOINT_ENTRY.index(shape), cells_of(pairs)
            order = tick, kind, order_of(*cells)
            self.lines.refuse_if(last is not None and order <= last, 1)
            last = order
            pair = (cells, (None, *cells), (*cells, None))[kind]
            entries.append((self.lines.number, (*pair, tick), label))
        return entries

    def labels_of(self, agent: int, constraints: list[Constraint], prices: PriceList | None,
                  entries: list[tuple[int, State, Label]]) -> Labels:
        """The labels of an agent of a lemma."""
        return Labels(Limits(agent, self.problem, constraints), PriceList() if prices is None else prices,
                      {state: label for _, state, label in entries})

    def judge_entries(self, labels: Labels, entries: list[tuple[int, State, Label]]) -> None:
        """Judges the entries of one agent."""
        for line, (cell, tick), label in entries:
            self.refuse_line_if(not labels.is_sound(cell, tick, label), "C7", line)

    def judged_never(self, one: int, other: int, count: int) -> Lemma:
        """The rest of a lemma of joint cells."""
        first_line = self.lines.number
        pairs: dict[tuple[Cell, Cell], int] = {}
        last = None
        for _ in range(count):
            cells = cells_of(self.take([CELLS])[1])
            self.lines.refuse_if(last is not None and order_of(*cells) <= last, 1)
            last = order_of(*cells)
            pairs[cells] = self.lines.number
        self.refuse_line_if(one == other, "C10", first_line)
        starts, goals = ((ends[one], ends[other]) for ends in (self.problem.starts, self.problem.goals))
        self.refuse_line_if(starts not in pairs, "C7", first_line)
        for cells, line in pairs.items():
            is_allowed = self.are_free(cells) and cells[0] != cells[1] and cells != goals
            self.refuse_line_if(not is_allowed or not is_closed(*cells, pairs, self.problem), "C7", line)
        return Lemma(frozenset([one, other]), frozenset(), None, INFINITE)

    def judged_cases(self, agent_count: int, constraint_count: int, least: Label) -> Lemma:
        """The rest of a lemma by cases."""
        agents: list[int] = []
        for _ in range(agent_count):
            agent = self.take([AGENT])[1][0]
            self.lines.refuse_if(agents and agent <= agents[-1], 1)
            agents.append(agent)
        constraints = self.judged_constraints(self.take_constraints(constraint_count, set(agents)))
        self.judge_tree(agents, constraints, least)
        return Lemma(frozenset(agents), frozenset(constraints), None, least)

    # Trees.

    def judge_tree(self, agents: list[int] | range, constraints: list[Constraint], least: Label) -> None:
        """Judges the next tree, about these agents, at whose root the constraints stand. It has to show so much."""
        scope = Scope(agents, self.lemmas, self.problem)
        due = [(0, constraints)]        # The depths of the nodes to come, and what the splits above them add.
        while due:
            depth, added = due.pop()
            scope.standing.leave(depth)
            scope.standing.enter(added)
            due.extend((depth + 1, below) for below in reversed(self.judged_node(scope, least)))

    def judged_node(self, scope: Scope, least: Label) -> list[list[Constraint]]:
        """Judges the next node. Answers what it adds to each of its children."""
        shape, numbers = self.take(NODE)
        prices = self.list_of(shape, numbers)
        kind, line = shape.split(" ")[0], self.lines.number
        if kind == "leaf":
            self.judge_leaf(Leaf(scope, prices), *numbers, least)
            return []
        if kind == "clash":
            one, other = numbers
            is_true = one != other and self.problem.goals[one] == self.problem.goals[other]
            self.refuse_line_if(not is_true, "C9", line)
            return []
        if kind == "cost":
            return children_of_cost(*numbers)
        if kind == "costs":
            one, cost, other, least_other, lemma = numbers
            self.refuse_line_if(one == other, "C6", line)
            self.refuse_line_if(not scope.may_cost({one, other}, lemma, cost + least_other), "C10", line)
            left, right = children_of_cost(one, cost)
            return [[*left, Constraint("least", other, (), least_other)], right]
        one, other, *pairs, tick = numbers
        cells = cells_of(pairs)
        self.refuse_line_if(one == other or not self.is_place(cells), "C6", line)
        return [[Constraint("not", one, cells, tick)], [Constraint("not", other, cells[::-1], tick)]]

    def judge_leaf(self, leaf: Leaf, use_count: int, group_count: int, least: Label) -> None:
        """Judges the rest of a leaf, which has to show so much."""
        line = self.lines.number
        uses = self.take_uses(USE, use_count)
        groups = []
        for _ in range(group_count):
            count, divisor = self.take([GROUP])[1]
            groups.append((divisor, self.take_uses(WEIGHTED_USE, count)))
        for use_line, use in uses:
            self.refuse_line_if(not leaf.may_use(*use), "C10", use_line)
        for divisor, weighted_uses in groups:
            leaf.begin_group(divisor)
            for use_line, use in weighted_uses:
                self.refuse_line_if(not leaf.may_use_in_group(*use), "C10", use_line)
        self.judge_bound(leaf, least, line)

    def judge_bound(self, leaf: Leaf, least: Label, line: int) -> None:
        """Rule 9, of the leaf in this line, which has to show so much."""
        self.refuse_line_if(leaf.bound() < least, "C8", line)

    def take_uses(self, shape: str, count: int) -> list[tuple[int, list[int]]]:
        """So many uses, each with its line. The numbers of their lemmas rise."""
        uses: list[tuple[int, list[int]]] = []
        for _ in range(count):
            use = self.take([shape])[1]
            self.lines.refuse_if(uses and use[0] <= uses[-1][1][0], 1)
            uses.append((self.lines.number, use))
        return uses


def children_of_cost(agent: int, cost: int) -> list[list[Constraint]]:
    """What a split on the cost of an agent adds to each of its children."""
    return [[Constraint("most", agent, (), cost), Constraint("arrived", agent, (), cost)],
            [Constraint("least", agent, (), cost + 1)]]
