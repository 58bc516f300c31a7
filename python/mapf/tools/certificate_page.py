"""What the page of a plan knows of a certificate: its claim, the verdict of tools/recheck, and the upper part of its
trees, as much of it as a page can hold.
"""

import functools
import io
from collections.abc import Sequence
from pathlib import Path
from typing import Any

from . import recheck
from .certificate_heads import head_in
from .certificate_labels import Listed
from .certificate_record import Group, Lemma, Node, Prices, Record, Recorder, Sums, Tree
from .plans import Agent, Cell, Grid
from .process import clear_progress
from .recheck3_labels import INFINITE, Label
from .texts import plan_text, read_bytes

# So many lines of the last tree the page holds, and so many of what comes before it in version 3. Labels fill what all
# else leaves of them, and so many are kept for labels, if there are such.
MOST_LINES = 20_000
LABEL_LINES = 5_000

# So many uses of a group, and so many constraints of a lemma.
MOST_USES = 200

# What the codes of refusals mean (docs/FORMATS.md, section 8).
MEANINGS = {
    "C1": "the plan isn't one that a plan text can hold",
    "C2": "the certificate isn't of its grammar, or a number is out of range",
    "C3": "the certificate is about another number of agents",
    "C4": "the claim doesn't fit the plan",
    "C5": "the plan isn't valid, so nothing of its certificate is judged or shown",
    "C6": "bad split",
    "C7": "unsound label",
    "C8": "leaf too weak for what has to be shown",
    "C9": "false clash",
    "C10": "a line that isn't allowed",
}

# The refusals that name a line of a part that was read, and those that name any line of the certificate.
OF_PARTS = "C6", "C7", "C8", "C9", "C10"
OF_CERTIFICATE = "C2", *OF_PARTS


class Room:
    """How many lines the page may still hold, and how many of them are kept for labels, which want so many."""

    def __init__(self, wanted: int) -> None:
        self.kept = min(wanted, LABEL_LINES)
        self.lines = MOST_LINES - self.kept

    def takes(self, lines: int) -> bool:
        """Whether so many lines have room. Once something had none, nothing has."""
        self.lines -= lines
        return self.lines >= 0

    def takes_labels(self, lines: int) -> bool:
        """Whether labels of so many lines have room, once all else was taken. Fewer may have room where more had none.
        """
        left = max(self.lines, 0) + self.kept - lines
        if left >= 0:
            self.lines, self.kept = 0, left
        return left >= 0


def certificate_data(path: str | Path, grid: Grid, agents: Sequence[Agent],
                     paths: Sequence[list[Cell]]) -> dict[str, Any]:
    """What the page knows of the certificate in a file."""
    text = read_bytes(path)
    head = head_in(text)
    record = Record(grid.width)
    line = shows = line_of(text, grid, agents, paths, record)
    if line == "refused C4" and head:
        shows = line_of(text, grid, agents, paths, record, (head.claim, head.number))
    clear_progress()
    code, *rest = shows.removeprefix("refused ").split(" ")
    if code in OF_PARTS and (node := record.last_node()):
        node.is_refused = True
    return {
        "name": Path(path).name,
        "version": head and head.version,
        "claim": head and head.claim,
        "number": head and head.number,
        "verdict": line,
        "meaning": MEANINGS.get(line.removeprefix("refused ").split(" ")[0]),
        "shows": shows,
        "reason": MEANINGS.get(code),
        "refused": int(rest[-1]) if code in OF_CERTIFICATE else None,
        "distances": [told(far) for far in record.distances],
        "tree": tree_data(record.tree, Room(wanted_of(record.tree))),
        **parts_data(record),
    }


def parts_data(record: Record) -> dict[str, Any]:
    """What comes before the last tree in version 3."""
    room = Room(sum(listed.lines() for lemma in record.lemmas for listed in lemma.listed))
    lists = [prices_data(prices, room) for prices in record.lists if room.takes(1)]
    lemmas = [lemma_data(lemma, room) for lemma in record.lemmas if room.takes(1)]
    for lemma, data in zip(record.lemmas, lemmas):
        data["labels"] = [listed_data(listed, room) for listed in lemma.listed]
    return {"lists": lists, "lemmas": lemmas, "lemmaCount": len(record.lemmas)}


def line_of(text: bytes, grid: Grid, agents: Sequence[Agent], paths: Sequence[list[Cell]], record: Record,
            claim: recheck.Answer | None = None) -> str:
    """The line of tools/recheck for the plan and the certificate, of which a record is kept. With a claim it is that
    beside a plan text which says so.
    """
    free = {(x, y) for y in range(grid.height) for x in range(grid.width) if grid.is_free((x, y))}
    ground = grid.width, grid.height, free
    starts, goals = [agent.start for agent in agents], [agent.goal for agent in agents]
    try:
        _, cost, plan = recheck.read_plan(plan_text(list(paths)).encode(), ground)
        recheck.judge_plan(plan, free, starts, goals)
        answer = claim or cost
        judge = functools.partial(Recorder, record)
        tree = recheck.judge_cert(io.BytesIO(text), answer, ground, starts, goals, judge)
        return recheck.verdict_of(answer, tree.least)
    except recheck.Refused as refused:
        return f"refused {refused}"


def told(label: Label | None) -> int | str | None:
    """A number as JSON has it."""
    return "inf" if label == INFINITE else label


def tree_data(tree: Tree, room: Room) -> dict[str, Any]:
    """The upper part of a tree that has room: its nodes by their depths."""
    places: dict[int | None, int] = {}
    nodes: list[dict[str, Any]] = []
    held: list[Node] = []
    for number in sorted(range(len(tree.nodes)), key=lambda number: tree.nodes[number].depth):
        node = tree.nodes[number]
        if not room.takes(lines_of(node)):
            break
        places[number] = len(nodes)
        nodes.append(node_data(node, places.get(node.above)))
        held.append(node)
    for node, data in zip(held, nodes):
        for block, told_block in zip(node.blocks, data.get("blocks", [])):
            told_block += listed_data(block.listed, room) if block.listed else []
    return {"count": len(tree.nodes), "nodes": nodes}


def wanted_of(tree: Tree) -> int:
    """How many lines the labels want of the nodes that have room where none is kept for labels."""
    room, wanted = Room(0), 0
    for node in sorted(tree.nodes, key=lambda node: node.depth):
        if not room.takes(lines_of(node)):
            break
        wanted += sum(block.listed.lines() for block in node.blocks if block.listed)
    return wanted


def listed_data(listed: Listed, room: Room) -> list[int | str]:
    """Labels that are listed together: the line of the first, how many there are, and the text of all if it has room.
    """
    return [listed.line, listed.count, *([listed.text] if room.takes_labels(listed.lines()) else [])]


def lines_of(node: Node) -> int:
    """How many lines of a node the page holds."""
    return 1 + len(node.blocks) + len(node.uses) + sum(1 + min(len(group.uses), MOST_USES) for group in node.groups)


def node_data(node: Node, above: int | None) -> dict[str, Any]:
    """A node, without what it doesn't have."""
    parts = {
        "line": node.line, "kind": node.kind, "is": node.numbers, "above": above, "side": node.side,
        "blocks": [[block.agent, told(block.label)] for block in node.blocks],
        "uses": node.uses,
        "groups": list(map(group_data, node.groups)),
        "sums": node.sums and sums_data(node.sums),
        "refused": node.is_refused or None,
    }
    return {name: part for name, part in parts.items() if part is not None and part != []}


def group_data(group: Group) -> dict[str, Any]:
    """A group of uses."""
    uses = [list(map(told, use)) for use in group.uses[:MOST_USES]]
    return {"divisor": group.divisor, "uses": uses, "count": len(group.uses)}


def sums_data(sums: Sums) -> dict[str, Any]:
    """What a leaf adds up to."""
    if sums.alone is None:
        return {"bound": told(sums.bound)}
    return {"bound": told(sums.bound), "alone": told(sums.alone), "worths": list(map(told, sums.worths)),
            "total": sums.total, "unit": sums.unit}


def lemma_data(lemma: Lemma, room: Room) -> dict[str, Any]:
    """A lemma."""
    return {
        "line": lemma.line, "kind": lemma.kind, "agents": lemma.agents, "list": lemma.prices, "entries": lemma.entries,
        "bound": told(lemma.bound),
        "constraints": [one for one in lemma.constraints[:MOST_USES] if room.takes(1)],
        "count": len(lemma.constraints),
        "least": [least_of(lemma, agent) for agent in lemma.agents],
        "tree": lemma.tree and tree_data(lemma.tree, room),
    }


def least_of(lemma: Lemma, agent: int) -> int:
    """What the constraints of a lemma say that the agent costs at least, 0 where they say nothing."""
    return max((number for kind, of, _, number in lemma.constraints if kind == "least" and of == agent), default=0)


def prices_data(prices: Prices, room: Room) -> dict[str, Any]:
    """A price list."""
    return {
        "line": prices.line, "unit": prices.unit, "count": len(prices.prices),
        "total": sum(price for _, _, price in prices.prices),
        "prices": [one for one in prices.prices if room.takes(1)],
    }
