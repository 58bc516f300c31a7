"""Cuts a certificate down to what shows its claim."""

import argparse
import contextlib
import io
import sys
from collections import deque
from collections.abc import Iterator
from dataclasses import dataclass, field
from pathlib import Path
from typing import Any, NoReturn

from . import recheck
from .plans import Cell
from .process import ToolError, clear_progress, progress, run_tool
from .texts import problem_parser

EPILOG = """It takes certificates of versions 1 and 2. What is left out, so that mapf check accepts what is left as it
accepts the whole:
  - what stands below a node whose own labels show the claim: the node becomes a leaf
  - blocks that no leaf needs, and of the others the entries on which the start's doesn't rest; a label that is greater
    than the leaves need is made less
  - splits of which one side doesn't rest on what is forbidden there: that side takes the place of the split
  - if there is a clash, all but that: it shows each claim by itself

A leaf needs labels that add up to the claim. It takes those that others need too, then those of the blocks with the
fewest entries, so the result isn't always the shortest. The same texts give the same bytes. tools/recheck reads the
texts, and judges what is left once more. That is slow, and takes gigabytes for a certificate of 100 MB.

example:
  ./mapf solve examples/random-32-32.map examples/random-32-32.scen 16 100 plan.txt cert.txt
  tools/trim examples/random-32-32.map examples/random-32-32.scen 16 plan.txt cert.txt --out short.txt

exit status:
  0    the certificate is written
  2    an error, with a message on standard error; also if recheck refuses the texts"""

MOST_LABEL = 9_999_999

Label = int | float             # A number or INFINITE.
State = tuple[Cell, int]        # A cell and a tick.
Bar = tuple[Any, ...]           # What a split forbids to an agent, as recheck has it.

INFINITE: float = recheck.INFINITE


# The tree.

@dataclass
class Block:
    """Labels of an agent, among them that of its start, and how much of this the leaves below need."""

    agent: int
    entries: dict[State, Label]
    label: Label
    need: Label = 0


@dataclass(eq=False)
class Part:
    """A node: what the split above forbids to an agent, the sum of the labels that the starts have here, and blocks.
    `rests` are the bars, each with its agent, on which the blocks here and below rest; `cut_blocks` and `cut_splits`
    tell them.
    """

    above: "Part | None"
    agent: int | None
    bar: Bar | None
    sum: Label
    blocks: list[Block] = field(default_factory=list)
    below: list["Part"] = field(default_factory=list)
    rests: set[tuple[int, Bar]] = field(default_factory=set)

    def way_up(self) -> Iterator["Part"]:
        """The nodes from here to the root."""
        part: Part | None = self
        while part is not None:
            yield part
            part = part.above

    def way_through(self) -> Iterator["Part"]:
        """This node and all below it, in the order of the text."""
        due = [self]
        while due:
            part = due.pop()
            yield part
            due.extend(reversed(part.below))

    def chains(self) -> dict[int, list[Block]]:
        """The blocks here and above, by agent, the deepest first. Their labels fall from block to block."""
        chains: dict[int, list[Block]] = {}
        for part in self.way_up():
            for block in part.blocks:
                chains.setdefault(block.agent, []).append(block)
        return chains

    def become(self, side: "Part") -> None:
        """Puts a side of the split in its place."""
        others = {block.agent for block in side.blocks}
        self.blocks = sorted([*side.blocks, *(block for block in self.blocks if block.agent not in others)],
                             key=lambda block: block.agent)
        self.below = side.below
        for part in self.below:
            part.above = self

    def join_rests(self, sides: list["Part"]) -> None:
        """Takes the bars of these nodes over."""
        sets = [self.rests, *(side.rests for side in sides)]
        self.rests = max(sets, key=len)
        for other in sets:
            if other is not self.rests:
                self.rests |= other
        for side in sides:
            side.rests = set()

    def lines(self, version: int) -> Iterator[str]:
        """The lines of this node and its blocks."""
        count = f" {len(self.blocks)}" if version == 2 or not self.below else ""
        yield (split_above(*self.below) if self.below else "leaf") + count
        for block in self.blocks:
            yield f"agent {block.agent} {len(block.entries)}"
            for (x, y), tick in sorted(block.entries, key=lambda state: (state[1], state[0][1], state[0][0])):
                label = block.entries[(x, y), tick]
                yield f"at {x},{y} {tick} {'inf' if label == INFINITE else label}"


def split_above(one: Part, other: Part) -> str:
    """The line of the split of which these are the sides, but for the number of its blocks."""
    kind, *cells, tick = one.bar
    return " ".join(["vertex" if kind == "vertex" else "swap", str(one.agent), str(other.agent),
                     *("%d,%d" % cell for cell in cells), str(tick)])


class Trimmer(recheck.Tree):
    """Judges the items of a certificate, as recheck does, and keeps what isn't below a node that shows the claim."""

    def __init__(self, *given: Any) -> None:
        super().__init__(*given)
        self.grid = given[3]
        self.items = 0
        self.root: Part | None = None
        self.open: dict[Any, Part] = {}     # What is kept of the nodes, recheck's, that don't show the claim.
        self.clash: list[int] | None = None

    def judge_parts(self) -> None:
        """Ends, since a certificate of version 3 has no blocks."""
        raise ToolError("this certificate is of version 3, and only those of versions 1 and 2 can be cut")

    def take(self, wanted: list[str]) -> tuple[str, list[Any]]:
        """As recheck's."""
        shape, numbers = super().take(wanted)
        if shape.startswith("clash"):
            self.clash = numbers
        return shape, numbers

    def judge_item(self, node: Any) -> list[Any]:
        """As recheck's."""
        below = super().judge_item(node)
        above = self.open.get(self.way.nodes[-2]) if node.depth > 0 else None
        if self.root is None or above is not None:
            part = Part(above, node.agent, node.bar, above.sum if above else sum(map(self.distance, self.agents())))
            self.keep(node, part)
        self.items += 1
        if self.items % 100 == 0:
            progress(f"trim: {self.items:,} nodes are read")
        return below

    def keep(self, node: Any, part: Part) -> None:
        """Keeps a node with the blocks by which a label rises."""
        chains = part.chains() if node.blocks else {}
        for agent, entries in node.blocks.items():
            label = self.label(entries, agent, self.starts[agent], 0)
            rise = label - (chains[agent][0].label if agent in chains else self.distance(agent))
            if rise > 0:
                part.blocks.append(Block(agent, entries, label))
                part.sum += rise
        if part.sum < self.least:
            self.open[node] = part
        if part.above:
            part.above.below.append(part)
        else:
            self.root = part

    def agents(self) -> range:
        """All agents."""
        return range(len(self.starts))

    def distance(self, agent: int) -> Label:
        """The label of the agent's start where it has no block."""
        return self.label({}, agent, self.starts[agent], 0)

    def text(self, claim: str) -> str:
        """The certificate of what is left, of this claim."""
        if self.clash and self.root.sum < self.least:
            tree = ["clash %d %d" % tuple(self.clash)]
        else:
            self.cut()
            tree = [line for part in self.root.way_through() for line in part.lines(self.version)]
        head = [f"mapf-cert {self.version}", f"agents {len(self.starts)}", f"claim {claim}"]
        return "\n".join([*head, *tree, "end", ""])

    # What is left out.

    def cut(self) -> None:
        """Leaves out what no leaf needs of labels, entries, blocks and splits."""
        is_cut = True
        while is_cut:
            leaves = [part for part in self.root.way_through() if not part.below]
            for leaf in sorted(leaves, key=lambda leaf: leaf.sum):
                self.need(leaf)
            for part in self.root.way_through():
                self.cut_blocks(part)
            is_cut = self.cut_splits()

    def need(self, leaf: Part) -> None:
        """Tells the blocks that hold at a leaf how much of them it needs."""
        chains = leaf.chains()
        labels = [max([self.distance(agent), *(block.need for block in chains.get(agent, []))])
                  for agent in self.agents()]
        missing = self.least - sum(labels) if sum(labels) < self.least else 0
        for chain in sorted(chains.values(), key=lambda chain: (len(chain[0].entries), chain[0].agent)):
            more = min(missing, chain[0].label - labels[chain[0].agent])
            if more > 0 and (self.least < INFINITE or more == INFINITE):
                label = labels[chain[0].agent] + more
                label = label if label <= MOST_LABEL else INFINITE
                next(block for block in reversed(chain) if block.label >= label).need = label
                missing = missing - more if more < missing else 0

    def cut_blocks(self, part: Part) -> None:
        """Cuts the blocks of a node to what is needed of them."""
        part.blocks = [block for block in part.blocks if block.need > 0]
        part.rests = set()
        for block in part.blocks:
            bars = {node.bar for node in part.way_up() if node.agent == block.agent}
            block.entries, used = self.needed(block, bars)
            block.label, block.need = block.need, 0
            part.rests |= {(block.agent, bar) for bar in used}

    def needed(self, block: Block, bars: set[Bar]) -> tuple[dict[State, Label], set[Bar]]:
        """The entries on which that of the start rests, and the bars on which they all rest. A label that is greater
        than what is needed at the start, less the tick, is cut to this: that keeps the others sound.
        """
        goal = self.goals[block.agent]
        kept: dict[State, Label] = {}
        used: set[Bar] = set()
        due = deque([(self.starts[block.agent], 0)])
        while due:
            cell, tick = due.popleft()
            if (cell, tick) in kept:
                continue
            kept[cell, tick] = label = min(block.entries[cell, tick], block.need - tick)
            if ("vertex", cell, tick) in bars:
                used.add(("vertex", cell, tick))
                continue
            if cell == goal:
                used.add(max((bar for bar in bars if bar[:2] == ("vertex", goal)), key=lambda bar: bar[2]))
            for other in recheck.steps_from(cell, self.free):
                if label <= 1 + self.label({}, block.agent, other, tick + 1):
                    continue
                barred = bars & {("vertex", other, tick + 1), ("edge", cell, other, tick)}
                if not barred:
                    due.append((other, tick + 1))
                elif not barred & used:
                    used.add(min(barred))
        return kept, used

    def cut_splits(self) -> bool:
        """Puts each side that doesn't rest on what its split forbids in the place of the split, from below. Answers
        whether there was one.
        """
        is_cut = False
        for part in reversed(list(self.root.way_through())):
            free = [side for side in part.below if (side.agent, side.bar) not in side.rests]
            if len(free) == 2:
                free = [min(free, key=lambda side: sum(1 for _ in side.way_through()))]
            part.join_rests(free or part.below)
            if free:
                part.become(free[0])
                is_cut = True
        return is_cut


# The command.

def main() -> int:
    given = words()
    text = trimmed(given)
    clear_progress()
    if given.out is None:
        sys.stdout.write(text)
        return 0
    try:
        Path(given.out).write_text(text)
    except OSError as error:
        raise ToolError(f"{given.out} can't be written: {error.strerror}") from None
    return 0


def words() -> argparse.Namespace:
    """What the words of the call ask for."""
    parser = problem_parser("trim", __doc__, EPILOG)
    parser.add_argument("plan", metavar="PLAN", help="the plan text")
    parser.add_argument("cert", metavar="CERT", help="the certificate")
    parser.add_argument("--out", metavar="FILE", help="where what is left goes, which may be CERT; without it, to "
                                                      "standard output")
    return parser.parse_args()


def trimmed(given: argparse.Namespace) -> str:
    """The certificate that is left. It was judged once more."""
    paths = given.map, given.scen, given.plan, given.cert
    try:
        with contextlib.ExitStack() as at_end:
            files = [at_end.enter_context(open(path, "rb")).fileno() for path in paths]
            answer, tree = recheck.judged(files, given.k, given.plan, Trimmer)
    except recheck.Refused as refused:
        raise ToolError(f"recheck says 'refused {refused}': docs/FORMATS.md tells what it means") from None
    except recheck.Fault as fault:
        raise ToolError(f"recheck says '{fault}': docs/FORMATS.md tells what it means") from None
    text = tree.text(" ".join(str(word) for word in answer if word is not None))
    try:
        recheck.judge_cert(io.BytesIO(text.encode()), answer, tree.grid, tree.starts, tree.goals, recheck.Tree)
    except recheck.Refused as refused:
        raise ToolError(f"recheck refuses what is left ({refused}): please report it") from None
    return text


def command() -> NoReturn:
    """Runs the tool with the words of the call."""
    run_tool(main)
