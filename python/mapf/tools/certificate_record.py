"""Writes down what a certificate is made of while tools/recheck judges it: the nodes of its trees, its lemmas and its
price lists. Where a certificate is refused, what was read before stays written down.
"""

from collections.abc import Iterable
from dataclasses import dataclass, field
from typing import Any

from . import recheck
from .certificate_labels import Entry, Listed, listed
from .process import progress
from .recheck3 import CONSTRAINT, LEMMA, LIST, NODE, PRICE, USE, WEIGHTED_USE, Judge, cells_of
from .recheck3_labels import Cell, Label
from .recheck3_trees import Leaf

TERMINAL = "leaf", "clash"


@dataclass
class Group:
    """A group of a leaf: its divisor, and its uses, each with the number of a lemma and a weight, and, once the leaf is
    judged, what is counted for the lemma's agents alone, and what the lemma counts.
    """

    divisor: int
    uses: list[list[Label]] = field(default_factory=list)


@dataclass
class Sums:
    """What a leaf adds up to: `bound` is what it shows. In version 3 that is what the agents alone add up to and the
    worths of the groups, less the total of the prices, divided by the unit and rounded up.
    """

    bound: Label
    alone: Label | None = None
    worths: list[Label] = field(default_factory=list)
    total: int = 0
    unit: int = 1


@dataclass
class Block:
    """A block of a node: its agent, the label of the agent's start, and what it lists, once that was read whole."""

    agent: int
    label: Label
    listed: Listed | None = None


@dataclass
class Node:
    """A node of a tree: its line with its first word and the numbers behind it, and its place below a split, on side 0
    or 1.
    """

    line: int
    kind: str
    numbers: list[int]
    above: int | None
    side: int
    depth: int
    blocks: list[Block] = field(default_factory=list)
    uses: list[int] = field(default_factory=list)
    groups: list[Group] = field(default_factory=list)
    sums: Sums | None = None
    is_refused: bool = False


class Tree:
    """The nodes of a tree, in order, as far as they were read."""

    def __init__(self) -> None:
        self.nodes: list[Node] = []
        self.due: list[tuple[int | None, int, int]] = [(None, 0, 0)]

    def add(self, line: int, kind: str, numbers: list[int]) -> None:
        """Adds the next node."""
        above, side, depth = self.due.pop()
        number = len(self.nodes)
        self.nodes.append(Node(line, kind, numbers, above, side, depth))
        if kind not in TERMINAL:
            self.due += [(number, 1, depth + 1), (number, 0, depth + 1)]

    def last(self) -> Node:
        """The node that was added last."""
        return self.nodes[-1]


@dataclass
class Lemma:
    """A lemma: the line, the kind, the agents, the number of the price list if it names one, how many entries or joint
    cells it has, its constraints, the labels that it lists of each agent and of two together, as far as they were read,
    and its tree. The bound is unknown until the lemma is judged.
    """

    line: int
    kind: str
    agents: list[int]
    prices: int | None
    entries: int
    constraints: list[tuple[str, int, tuple[Cell, ...], int]] = field(default_factory=list)
    listed: list[Listed] = field(default_factory=list)
    tree: Tree | None = None
    bound: Label | None = None


@dataclass
class Prices:
    """A price list: the line, the unit, and the prices, each with its cells, its tick and itself."""

    line: int
    unit: int
    prices: list[tuple[tuple[Cell, ...], int, int]] = field(default_factory=list)


@dataclass
class Record:
    """What was read of a certificate for a map of so many columns."""

    width: int
    distances: list[Label] = field(default_factory=list)
    lists: list[Prices] = field(default_factory=list)
    lemmas: list[Lemma] = field(default_factory=list)
    tree: Tree = field(default_factory=Tree)

    def last_node(self) -> Node | None:
        """The node that was read last, if no part of a list or of a lemma was read after it."""
        tree = self.tree
        if not tree.nodes and self.lemmas and self.lemmas[-1].bound is None:
            tree = self.lemmas[-1].tree or tree
        return tree.nodes[-1] if tree.nodes else None


class Recorder(recheck.Tree):
    """Judges a certificate as recheck does, and keeps a record."""

    def __init__(self, record: Record, *given: Any) -> None:
        super().__init__(*given)
        self.record = record
        record.distances = [self.label({}, agent, start, 0) for agent, start in enumerate(self.starts)]

    def judge_parts(self) -> None:
        """As recheck's."""
        PartsRecorder(self.record, self.lines, self.ranges, self.problem(), recheck.refuse_if).judge(self.least)

    def take(self, wanted: list[str]) -> tuple[str, list[Any]]:
        """As recheck's."""
        shape, numbers = super().take(wanted)
        tell_line(self.lines.number)
        if shape == recheck.BLOCK:
            agent = numbers[0]
            self.record.tree.last().blocks.append(Block(agent, self.record.distances[agent]))
        elif shape == recheck.ENTRY:
            self.note_entry(*numbers)
        elif shape != recheck.END:
            of_node = numbers[:-1] if shape.endswith("N") else list(numbers)
            self.record.tree.add(self.lines.number, shape.split(" ")[0], of_node)
        return shape, numbers

    def note_entry(self, x: int, y: int, tick: int, label: Label) -> None:
        """Notes the entry of a start at tick 0."""
        block = self.record.tree.last().blocks[-1]
        if tick == 0 and (x, y) == self.starts[block.agent]:
            block.label = label

    def take_blocks(self, count: int) -> Any:
        """As recheck's."""
        blocks = super().take_blocks(count)
        for noted, (_, entries) in zip(self.record.tree.last().blocks, blocks):
            told = [((cell,), tick, label) for _, cell, tick, label in entries]
            noted.listed = listed(entries[0][0], told, self.record.width)
        return blocks

    def judge_sum(self, labels: Label, line: int) -> None:
        """As recheck's."""
        self.record.tree.last().sums = Sums(labels)
        super().judge_sum(labels, line)


class PartsRecorder(Judge):
    """Judges what follows the claim in version 3 as recheck does, and keeps a record."""

    def __init__(self, record: Record, *given: Any) -> None:
        super().__init__(*given)
        self.record = record
        self.tree = record.tree

    def take(self, wanted: list[str]) -> tuple[str, list[Any]]:
        """As recheck's."""
        shape, numbers = super().take(wanted)
        line, kind, numbered = self.lines.number, shape.split(" ")[0], list(numbers)
        tell_line(line)
        if shape == LIST:
            self.record.lists.append(Prices(line, numbered[0]))
        elif shape in PRICE:
            *pairs, tick, price = numbered
            self.record.lists[-1].prices.append((cells_of(pairs), tick, price))
        elif shape in CONSTRAINT:
            agent, *pairs, number = numbered
            self.record.lemmas[-1].constraints.append((kind, agent, cells_of(pairs), number))
        elif shape in LEMMA:
            self.record.lemmas.append(lemma_of(line, shape, numbered))
        elif shape == "agent I":
            self.record.lemmas[-1].agents += numbered
        elif shape in NODE:
            self.tree.add(line, kind, numbered)
        else:
            self.note_use(shape, numbered)
        return shape, numbers

    def note_use(self, shape: str, numbers: list[int]) -> None:
        """Notes a use of a leaf, or the beginning of a group of uses."""
        if shape == USE:
            self.tree.last().uses += numbers
        elif shape == "group H E":
            self.tree.last().groups.append(Group(numbers[1]))
        elif shape == WEIGHTED_USE:
            self.tree.last().groups[-1].uses.append([*numbers])

    def take_entries(self, count: int) -> Any:
        """As recheck's."""
        entries = super().take_entries(count)
        self.note_listed([((cell,), tick, label) for _, (cell, tick), label in entries])
        return entries

    def take_joint_entries(self, count: int) -> Any:
        """As recheck's."""
        entries = super().take_joint_entries(count)
        self.note_listed([(tuple(cells), tick, label) for _, (*cells, tick), label in entries])
        return entries

    def note_listed(self, entries: list[Entry]) -> None:
        """Notes the entries that end with the line that was read last."""
        first = self.lines.number - len(entries) + 1
        self.record.lemmas[-1].listed.append(listed(first, entries, self.record.width))

    def judged_lemma(self) -> Any:
        """As recheck's."""
        lemma = super().judged_lemma()
        self.record.lemmas[-1].bound = lemma.bound
        return lemma

    def judge_tree(self, agents: Iterable[int], constraints: Any, least: Label) -> None:
        """As recheck's."""
        is_of_lemma = len(self.record.lemmas) > len(self.lemmas)
        self.tree = self.record.tree
        if is_of_lemma:
            self.tree = self.record.lemmas[-1].tree = Tree()
        super().judge_tree(agents, constraints, least)

    def judge_bound(self, leaf: Leaf, least: Label, line: int) -> None:
        """As recheck's."""
        labels = leaf.labels()
        prices = leaf.prices
        alone = sum(labels.values())
        self.tree.last().sums = Sums(leaf.bound(), alone, leaf.worths(labels), prices.total, prices.unit)
        for noted, group in zip(self.tree.last().groups, leaf.groups):
            for use, (lemma, _) in zip(noted.uses, group.uses):
                use += [sum(labels[agent] for agent in lemma.agents), leaf.count(lemma)]
        super().judge_bound(leaf, least, line)


def tell_line(line: int) -> None:
    """Tells on a terminal how far the certificate is read."""
    if line % 10_000 == 0:
        progress(f"reading the certificate: line {line:,}")


def lemma_of(line: int, shape: str, numbers: list[int]) -> Lemma:
    """The lemma that begins with a line of this shape and these numbers."""
    kind = shape.split(" ")[0]
    prices = numbers.pop() if shape.endswith("Q") else None
    if kind == "one":
        return Lemma(line, kind, numbers[:1], prices, numbers[2])
    if kind == "cases":
        return Lemma(line, kind, [], None, 0)
    return Lemma(line, kind, numbers[:2], prices, sum(numbers[3:]) if kind == "two" else numbers[2])
