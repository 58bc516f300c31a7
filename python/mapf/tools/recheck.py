"""Judges a plan text and a certificate once more.

    tools/recheck MAP SCEN K PLAN CERT

The line and the status are those of `mapf check`: 'optimal C', 'within B C', 'bound B' or 'impossible' with status 0,
'refused ..' with status 1, a fault on standard error with status 2. This is for whoever would rather read a checker
than trust the one that is proved: it shares nothing with mapf, and was written from the text of the formats and
docs/DEFINITIONS.md alone. What follows the claim in a certificate of version 3 is judged by recheck3.py beside it.
In place of a plan text PLAN may be what another solver left, which tools/verify reads. That is made a plan text first.
It is slow: about 200 times slower than mapf. Large maps with many agents take gigabytes. Of the limits on sizes it
leaves out one, that a certificate has at most 2^40 bytes.

A cell is (x, y). A bar is ('vertex', cell, tick) or ('edge', cell, next cell, tick of leaving).
"""

import argparse
import functools
import io
import os
import re
import sys
from collections import deque
from collections.abc import Callable, Sequence
from typing import Any, NoReturn, TypeVar

from .answers import as_plan_text
from .process import ToolError, called
from .recheck3 import Judge
from .recheck3_labels import Problem

MOST_TEXT_BYTES = 67_108_864
LONGEST_LINE = 64                               # Of a certificate, in bytes.
INFINITE = float("inf")

Cell = tuple[int, int]
Grid = tuple[int, int, set[Cell]]               # The width, the height and the free cells.
Ranges = dict[str, tuple[int, int]]
Label = int | float                             # A number or INFINITE.
Numbers = list[Any]                             # The numbers of a line. A label may be INFINITE.
Bar = tuple[str, Cell, int] | tuple[str, Cell, Cell, int]
Block = dict[tuple[Cell, int], Label]           # The labels by cell and tick.
Entry = tuple[int, Cell, int, Label]            # The line, the cell, the tick and the label.
Answer = tuple[str, int | None]                 # The kind of an answer, and its number.
Given = TypeVar("Given")

EPILOG = """PLAN is a plan text, or what another solver left: all that tools/verify reads, of which the first line
tells the format. mapf check refuses such an answer, and recheck judges the plan in it.

example:
  tools/recheck tests/cases/solve-crossing/{map,scen} 2 tests/cases/solve-crossing/{plan,cert}
prints 'optimal 5', as mapf check does. It is slow: it is there to be read, and to judge a certificate a second time
without the program that is proved.

exit status, as that of mapf check:
  0    'optimal C', 'within B C', 'bound B' or 'impossible': the certificate shows that
  1    'refused ..': it doesn't, and docs/FORMATS.md tells why
  2    an error, with a line on standard error"""


class Refused(Exception):
    """Why the plan text or the certificate is refused."""


class Fault(Exception):
    """Why nothing can be judged: a file, the map or the scenario."""


def fault_if(is_wrong: object, line: str) -> None:
    if is_wrong:
        raise Fault(line)


def refuse_if(is_wrong: object, line: str) -> None:
    if is_wrong:
        raise Refused(line)


def value(digits: str) -> int:
    """The number that digits spell. One of more than 20 digits is greater than any that may stand in a text."""
    digits = digits.lstrip("0") or "0"
    return int(digits) if len(digits) <= 20 else 10 ** 20


# Maps and scenarios.

def is_digits(word: str) -> bool:
    """Whether the word is a whole number."""
    return re.fullmatch("[0-9]+", word) is not None


def words_of(line: str) -> list[str]:
    """The words of a line. Between them are spaces and tabs."""
    return re.findall("[^ \t]+", line)


def lines_of(text: bytes) -> list[str]:
    """The lines of a map or a scenario. One CR before a line's end belongs to the end."""
    lines = text.decode("latin-1").split("\n")
    if lines[-1] == "":
        lines.pop()
    return [line.removesuffix("\r") for line in lines]


def read_map(text: bytes) -> Grid:
    """The width, the height and the set of the free cells."""
    lines = lines_of(text)
    first, second, third, fourth = [words_of(line) for line in [*lines, "", "", "", ""][:4]]
    fault_if(first != ["type", "octile"], "F1 M1")
    height, width = read_side(second, "height", 2), read_side(third, "width", 3)
    fault_if(fourth != ["map"], "F1 M5")
    free = set()
    for y in range(height):
        fault_if(4 + y == len(lines), f"F1 M8 {y}")
        fault_if(len(lines[4 + y]) != width, f"F1 M6 {y}")
        for x, byte in enumerate(lines[4 + y]):
            fault_if(byte not in ".GS@OTW", f"F1 M7 {x} {y}")
            if byte in ".GS":
                free.add((x, y))
    for number, line in enumerate(lines[4 + height:], 5 + height):
        fault_if(words_of(line), f"F1 M9 {number}")
    return width, height, free


def read_side(words: list[str], name: str, line: int) -> int:
    """The height or the width, which this line names."""
    fault_if(len(words) != 2 or words[0] != name or not is_digits(words[1]), f"F1 M{line}")
    fault_if(not 1 <= value(words[1]) <= 2048, f"F1 M4 {line}")
    return value(words[1])


def read_scenario(text: bytes, grid: Grid, agents: int) -> tuple[list[Cell], list[Cell]]:
    """The starts and the goals of so many agents."""
    rows = [words for words in map(words_of, lines_of(text)) if words]
    fault_if(not rows or rows[0] not in (["version", "1"], ["version", "1.0"]), "F2 S1")
    for row in range(agents):
        fault_if(row + 1 == len(rows), f"F2 S7 {row}")
        judge_row(rows[row + 1], row, grid)
    ends = [[value(word) for word in words[4:8]] for words in rows[1:agents + 1]]
    return [(x, y) for x, y, _, _ in ends], [(x, y) for _, _, x, y in ends]


def judge_row(words: list[str], row: int, grid: Grid) -> None:
    """Judges the row of an agent."""
    width, height, free = grid
    fault_if(len(words) != 9, f"F2 S2 {row}")
    for field in (1, 3, 4, 5, 6, 7, 8):
        fault_if(not is_digits(words[field - 1]) or value(words[field - 1]) > 4_294_967_295, f"F2 S3 {row} {field}")
    numbers = [value(word) for word in words[2:8]]
    fault_if(numbers[:2] != [width, height], f"F2 S4 {row}")
    fault_if(tuple(numbers[2:4]) not in free or tuple(numbers[4:6]) not in free, f"F2 S5 {row}")
    fault_if(not re.fullmatch(r"[+-]?[0-9]+(\.[0-9]+)?([eE][+-]?[0-9]+)?", words[8]), f"F2 S6 {row}")


# Lines of plan texts and certificates, as docs/FORMATS.md shows them: each single letter stands for a number and has
# its range. N is a number of splits in a plan text and of blocks in a certificate; T is the tick of a split, U that
# of an entry, P the cost of a path. L is a number or 'inf', and so is P in version 3 of certificates.

ANSWERS = {1: ["cost C", "impossible", "limit N", "limit ticks"],
           2: ["cost C", "impossible", "limit N bound B", "limit ticks bound B"]}
CLAIMS = {1: ["claim cost C", "claim impossible"], 2: ["claim cost C", "claim impossible", "claim bound B"],
          3: ["claim cost C", "claim impossible", "claim bound B"]}
ITEMS = {1: ["vertex I J x,y T", "swap I J x,y x,y T", "leaf N", "clash I J"],
         2: ["vertex I J x,y T N", "swap I J x,y x,y T N", "leaf N", "clash I J"]}
BLOCK, ENTRY, END = "agent I M", "at x,y U L", "end"

LETTER = r"\b[A-Za-z]\b"
NUMBER = "(0|[1-9][0-9]*)"


def ranges_of(grid: Grid, agents: int, greatest_n: int) -> Ranges:
    """The range of each letter. N is at most greatest_n."""
    width, height, _ = grid
    return {"K": (1, 200), "C": (0, 1_999_999_800), "B": (0, 1_999_999_800), "P": (0, 9_999_999),
            "I": (0, agents - 1), "J": (0, agents - 1), "x": (0, width - 1), "y": (0, height - 1),
            "N": (0, greatest_n), "T": (0, 999_999), "U": (0, 9_999_999), "M": (1, 18_446_744_073_709_551_615),
            "L": (1, 9_999_999)}


@functools.cache
def pattern_of(shape: str) -> re.Pattern[str]:
    """What the lines of this shape match."""
    return re.compile(re.sub(LETTER, lambda found: "(inf|[1-9][0-9]*|0)" if found[0] in "LP" else NUMBER, shape))


class Lines:
    """The lines of a plan text or a certificate, taken one after another."""

    def __init__(self, file: io.BufferedIOBase, name: str, longest: int) -> None:
        self.file = file
        self.name = name            # What stands before the number of each fault.
        self.longest = longest
        self.number = 0

    def refuse_if(self, is_wrong: object, kind: int) -> None:
        """Refuses the line that was taken last."""
        refuse_if(is_wrong, f"{self.name}{kind} {self.number}")

    def line(self) -> str:
        """The next line, without its end."""
        self.number += 1
        line = self.file.readline(self.longest + 1)
        self.refuse_if(len(line.removesuffix(b"\n")) > self.longest, 1)
        self.refuse_if(not line.endswith(b"\n"), 2)
        return line[:-1].decode("latin-1")

    def take(self, shapes: list[str], ranges: Ranges, wanted: list[str] | None = None) -> tuple[str, Numbers]:
        """The next line, which has one of these shapes: its shape, of those that are wanted, and its numbers."""
        line = self.line()
        shape = next((shape for shape in shapes if pattern_of(shape).fullmatch(line)), None)
        self.refuse_if(shape is None, 1)
        words = pattern_of(shape).fullmatch(line).groups()
        numbers = self.numbers(re.findall(LETTER, shape), words, ranges)
        self.refuse_if(wanted is not None and shape not in wanted, 1)
        return shape, numbers

    def numbers(self, letters: list[str], words: Sequence[str], ranges: Ranges) -> Numbers:
        """The numbers that the words spell, each in the range of its letter."""
        numbers = [INFINITE if word == "inf" else value(word) for word in words]
        for letter, number in zip(letters, numbers):
            least, most = ranges[letter]
            self.refuse_if(number != INFINITE and not least <= number <= most, 3)
        return numbers

    def title(self, word: str, versions: int) -> int:
        """The version that the first line tells, of so many."""
        titles = [f"{word} {version}" for version in range(1, versions + 1)]
        return 1 + titles.index(self.take(titles, {})[0])

    def end(self) -> None:
        """Refuses whatever follows the last line."""
        self.number += 1
        self.refuse_if(self.file.read(1), 4)


# Plan texts.

def read_plan(text: bytes, grid: Grid) -> tuple[int, Answer, list[list[Cell]]]:
    """The number of agents, the kind of answer with its number, and the paths."""
    lines = Lines(io.BytesIO(text), "C1 P", MOST_TEXT_BYTES)
    version = lines.title("mapf-plan", 2)
    agents = lines.take(["agents K"], ranges_of(grid, 0, 0))[1][0]
    ranges = ranges_of(grid, agents, 100_000)
    answer, numbers = lines.take(ANSWERS[version], ranges)
    paths = [take_path(lines, agent, ranges) for agent in range(agents)] if answer == "cost C" else []
    lines.take([END], ranges)
    lines.end()
    refuse_if(answer == "cost C" and sum(len(path) - 1 for path in paths) != numbers[0], "C1 P1 3")
    if answer.startswith("limit"):
        return agents, ("limit" if version == 1 else "bound", numbers[-1] if numbers else None), paths
    return agents, (answer.split(" ")[0], numbers[0] if numbers else None), paths


def take_path(lines: Lines, agent: int, ranges: Ranges) -> list[Cell]:
    """The next line, which is the path of this agent."""
    line = lines.line()
    lines.refuse_if(not re.fullmatch(f"path {NUMBER} {NUMBER}( {NUMBER},{NUMBER})+", line), 1)
    words = re.findall("[0-9]+", line)
    number, cost, *pairs = lines.numbers(["I", "P"] + ["x", "y"] * (len(words) // 2 - 1), words, ranges)
    path = list(zip(pairs[0::2], pairs[1::2]))
    lines.refuse_if(number != agent or len(path) != cost + 1 or (cost > 0 and path[-1] == path[-2]), 1)
    return path


def steps_from(cell: Cell, free: set[Cell]) -> list[Cell]:
    """Where an agent may be one tick after it is in a free cell."""
    x, y = cell
    return [other for other in ((x, y), (x, y - 1), (x - 1, y), (x + 1, y), (x, y + 1)) if other in free]


def judge_plan(paths: list[list[Cell]], free: set[Cell], starts: list[Cell], goals: list[Cell]) -> None:
    """Refuses a plan that isn't valid."""
    for agent, path in enumerate(paths):
        refuse_if(path[0] != starts[agent], f"C5 V1 {agent}")
        for tick, (here, there) in enumerate(zip(path, path[1:])):
            refuse_if(there not in steps_from(here, free), f"C5 V2 {agent} {tick}")
        refuse_if(path[-1] != goals[agent], f"C5 V3 {agent}")
    pairs = [(one, other) for one in range(len(paths)) for other in range(one + 1, len(paths))]
    for tick in range(max(map(len, paths), default=0)):
        here = [path[min(tick, len(path) - 1)] for path in paths]
        there = [path[min(tick + 1, len(path) - 1)] for path in paths]
        for one, other in pairs:
            refuse_if(here[one] == here[other], f"C5 V4 {one} {other} {tick}")
        for one, other in pairs:
            refuse_if(here[one] == there[other] and here[other] == there[one], f"C5 V5 {one} {other} {tick}")


# Certificates.

class Node:
    """A place in the tree: how many nodes are above it, the bar that it adds for one agent, and its blocks, which are
    labels of an agent by cell and tick.
    """

    def __init__(self, depth: int, agent: int | None, bar: Bar | None) -> None:
        self.depth, self.agent, self.bar = depth, agent, bar
        self.is_new = False         # Whether no node above adds the same bar.
        self.blocks: dict[int, Block] = {}


class Way:
    """The nodes from the root to the last one, with what they bar each agent and with its blocks."""

    def __init__(self, goals: list[Cell]) -> None:
        self.goals = goals
        self.nodes: list[Node] = []
        self.bars: list[set[Bar]] = [set() for _ in goals]
        self.goal_ticks: list[list[int]] = [[-1] for _ in goals]    # The last of an agent's bars of its goal, so far.
        self.blocks: list[list[Block]] = [[{}] for _ in goals]      # The last one of an agent holds.

    def leave(self, depth: int) -> None:
        """Leaves the nodes of this depth and greater ones."""
        while len(self.nodes) > depth:
            node = self.nodes.pop()
            if node.is_new:
                self.bars[node.agent].remove(node.bar)
            if node.bar:
                self.goal_ticks[node.agent].pop()
            for agent in node.blocks:
                self.blocks[agent].pop()

    def enter(self, node: Node) -> None:
        """Enters a node below the last one."""
        self.nodes.append(node)
        if node.bar:
            bars, ticks = self.bars[node.agent], self.goal_ticks[node.agent]
            node.is_new = node.bar not in bars
            bars.add(node.bar)
            is_of_goal = node.bar[:2] == ("vertex", self.goals[node.agent])
            ticks.append(max(ticks[-1], node.bar[2]) if is_of_goal else ticks[-1])

    def add_block(self, agent: int, block: Block) -> None:
        """Adds a block of the last node."""
        self.nodes[-1].blocks[agent] = block
        self.blocks[agent].append(block)


def distances_to(goal: Cell, free: set[Cell]) -> dict[Cell, int]:
    """The least number of steps to the goal, from each cell from which it can be reached."""
    distances = {goal: 0}
    queue = deque([goal])
    while queue:
        cell = queue.popleft()
        for other in steps_from(cell, free):
            if other not in distances:
                distances[other] = distances[cell] + 1
                queue.append(other)
    return distances


class Tree:
    """Judges the items of a certificate, in order."""

    def __init__(self, lines: Lines, version: int, least: Label, grid: Grid, starts: list[Cell],
                 goals: list[Cell]) -> None:
        self.lines, self.version, self.free, self.starts, self.goals = lines, version, grid[2], starts, goals
        self.least = least          # What the labels of the starts have to add up to at each leaf.
        self.distances = [distances_to(goal, self.free) for goal in goals]
        self.ranges = ranges_of(grid, len(goals), len(goals))
        self.way = Way(goals)

    def take(self, wanted: list[str]) -> tuple[str, Numbers]:
        """The next line, which has one of the wanted shapes: its shape and its numbers."""
        return self.lines.take([*ITEMS[self.version], BLOCK, ENTRY, END], self.ranges, wanted)

    def judge(self) -> None:
        """Judges all items, from the root on, and what follows them."""
        if self.version == 3:
            self.judge_parts()
            return
        due = [Node(0, None, None)]
        while due:
            due.extend(reversed(self.judge_item(due.pop())))
        self.take([END])
        self.lines.end()

    def judge_parts(self) -> None:
        """Judges the parts of a certificate of version 3, and what follows them."""
        Judge(self.lines, self.ranges, self.problem(), refuse_if).judge(self.least)

    def problem(self) -> Problem:
        """The agents on their grid."""
        return Problem(self.free, self.starts, self.goals, self.distances,
                       functools.partial(steps_from, free=self.free))

    def judge_item(self, node: Node) -> list[Node]:
        """Judges the next item with its blocks, and answers the nodes below it."""
        self.way.leave(node.depth)
        self.way.enter(node)
        shape, numbers = self.take(ITEMS[self.version])
        kind, line = shape.split(" ")[0], self.lines.number
        if kind == "clash":
            one, other = numbers
            refuse_if(one == other or self.goals[one] != self.goals[other], f"C9 {line}")
            return []
        blocks = self.take_blocks(numbers.pop() if shape.endswith("N") else 0)
        children = [] if kind == "leaf" else children_of(node, kind, numbers, self.free)
        refuse_if(children is None, f"C6 {line}")
        for agent, entries in blocks:
            self.way.add_block(agent, {(cell, tick): label for _, cell, tick, label in entries})
            self.judge_entries(entries, self.way.blocks[agent][-1], self.way.bars[agent], agent)
        if kind == "leaf":
            labels = [self.label(self.way.blocks[agent][-1], agent, start, 0)
                      for agent, start in enumerate(self.starts)]
            self.judge_sum(sum(labels), line)
        return children

    def judge_sum(self, total: Label, line: int) -> None:
        """Rule 4, of the leaf in this line, given the sum of its start labels."""
        refuse_if(total < self.least, f"C8 {line}")

    def take_blocks(self, count: int) -> list[tuple[int, list[Entry]]]:
        """The blocks of a line: of each its agent and its entries, which are line, cell, tick and label."""
        blocks = []
        for _ in range(count):
            agent, entry_count = self.take([BLOCK])[1]
            self.lines.refuse_if(blocks and agent <= blocks[-1][0], 1)
            entries = []
            for _ in range(entry_count):
                x, y, tick, label = self.take([ENTRY])[1]
                self.lines.refuse_if(entries and (tick, y, x) <= last, 1)
                last = (tick, y, x)
                entries.append((self.lines.number, (x, y), tick, label))
            blocks.append((agent, entries))
        return blocks

    def label(self, block: Block, agent: int, cell: Cell, tick: int) -> Label:
        """The label of a state: its entry, else the distance of its cell."""
        return block.get((cell, tick), self.distances[agent].get(cell, INFINITE))

    def judge_entries(self, entries: list[Entry], block: Block, bars: set[Bar], agent: int) -> None:
        """Judges the labels of one block, under all that bars the agent here."""
        goal = self.goals[agent]
        last_bar_of_goal = self.way.goal_ticks[agent][-1]
        for line, cell, tick, label in entries:
            refuse_if(label <= self.distances[agent].get(cell, INFINITE), f"C7 {line}")
            if ("vertex", cell, tick) in bars:
                continue
            refuse_if(cell == goal and last_bar_of_goal < tick, f"C7 {line}")
            for other in steps_from(cell, self.free):
                is_barred = ("vertex", other, tick + 1) in bars or ("edge", cell, other, tick) in bars
                refuse_if(not is_barred and label > 1 + self.label(block, agent, other, tick + 1), f"C7 {line}")


def children_of(node: Node, kind: str, numbers: Numbers, free: set[Cell]) -> list[Node] | None:
    """The two nodes below a split, each with its agent's part of the conflict barred. None, where the split is bad."""
    depth = node.depth + 1
    one, other, *pairs, tick = numbers
    cells = list(zip(pairs[0::2], pairs[1::2]))
    if one == other or any(cell not in free for cell in cells):
        return None
    if kind == "vertex":
        return [Node(depth, one, ("vertex", cells[0], tick)), Node(depth, other, ("vertex", cells[0], tick))]
    here, there = cells
    if here == there or there not in steps_from(here, free):
        return None
    return [Node(depth, one, ("edge", here, there, tick)), Node(depth, other, ("edge", there, here, tick))]


AnyTree = TypeVar("AnyTree", bound=Tree)


def judge_cert(file: io.BufferedIOBase, answer: Answer, grid: Grid, starts: list[Cell], goals: list[Cell],
               judge_type: Callable[..., AnyTree]) -> AnyTree:
    """Judges a certificate, of which the claim has to fit this answer, and answers what judged its tree."""
    lines = Lines(file, "C2 K", LONGEST_LINE)
    version = lines.title("mapf-cert", 3)
    ranges = ranges_of(grid, 0, 0)
    agents = lines.take(["agents K"], ranges)[1][0]
    claim, numbers = lines.take(CLAIMS[version], ranges)
    refuse_if(agents != len(goals), "C3")
    is_less = version == 3 and claim == "claim bound B" and answer[0] == "cost" and numbers[0] <= answer[1]
    refuse_if((claim.split(" ")[1], numbers[0] if numbers else None) != answer and not is_less, "C4")
    tree = judge_type(lines, version, numbers[0] if numbers else INFINITE, grid, starts, goals)
    tree.judge()
    return tree


# The verdict.

def verdict(files: list[int], agents: int, plan: str) -> str:
    """The line for the four files, which are open. The third has this name."""
    told, tree = judged(files, agents, plan, Tree)
    return verdict_of(told, tree.least)


def verdict_of(told: Answer, least: Label) -> str:
    """The line for an answer beside a certificate that shows so much."""
    kind, number = told
    if kind == "impossible":
        return kind
    if kind == "bound":
        return f"bound {number}"
    return f"optimal {number}" if least == number else f"within {least} {number}"


def judged(files: list[int], agents: int, plan: str, judge_type: type[AnyTree]) -> tuple[Answer, AnyTree]:
    """The answer that both texts tell, and what judged the tree, which is of this type."""
    grid = read_map(read_whole(files[0], "map"))
    starts, goals = read_scenario(read_whole(files[1], "scen"), grid, agents)
    text = plan_text_of(read_whole(files[2], "plan"), starts, plan)
    told_agents, (kind, number), paths = read_plan(text, grid)
    refuse_if(told_agents != agents, "C3")
    refuse_if(kind == "limit", "C4")
    judge_plan(paths, grid[2], starts, goals)
    told = kind, number
    return told, tried(
        "cert", lambda: judge_cert(open(files[3], "rb", closefd=False), told, grid, starts, goals, judge_type))


def plan_text_of(text: bytes, starts: list[Cell], path: str) -> bytes:
    """What another solver left as a plan text. Other texts stay as they are."""
    if text.startswith(b"mapf-plan "):
        return text
    try:
        return as_plan_text(path, text, starts)
    except ToolError as error:
        raise Fault(f"recheck: {error}") from None


def read_whole(file: int, name: str) -> bytes:
    """The bytes of a file, which may not be too long."""
    text = tried(name, lambda: open(file, "rb", closefd=False).read(MOST_TEXT_BYTES + 1))
    fault_if(len(text) > MOST_TEXT_BYTES, f"F4 {name}")
    return text


def tried(name: str, call: Callable[[], Given]) -> Given:
    """What the call gives. Where it fails, the file of this name is at fault."""
    try:
        return call()
    except OSError:
        raise Fault(f"F4 {name}") from None


def answer(paths: Sequence[str], agents: int) -> tuple[int, str, int]:
    """The number of a standard stream, the line for it, and the status."""
    files = []
    try:
        for name, path in zip(("map", "scen", "plan", "cert"), paths):
            files.append(tried(name, lambda: os.open(path, os.O_RDONLY)))
        return 1, verdict(files, agents, paths[2]), 0
    except Refused as refused:
        return 1, f"refused {refused}", 1
    except Fault as fault:
        return 2, str(fault), 2
    finally:
        for file in files:
            os.close(file)


def number_of_agents(word: str) -> int:
    """For argparse: the number of agents that a word tells."""
    if not is_digits(word) or not 1 <= value(word) <= 200:
        raise argparse.ArgumentTypeError("the number of agents is 1 to 200")
    return value(word)


def main() -> int:
    parser = argparse.ArgumentParser(
        prog=called("recheck"), description="Judges a plan text and a certificate once more, as mapf check does.",
        epilog=EPILOG, formatter_class=argparse.RawDescriptionHelpFormatter)
    for name in ("MAP", "SCEN", "K", "PLAN", "CERT"):
        parser.add_argument(name, type=number_of_agents if name == "K" else str)
    given = parser.parse_args()
    stream, line, status = answer((given.MAP, given.SCEN, given.PLAN, given.CERT), given.K)
    try:
        os.write(stream, f"{line}\n".encode())
    except OSError:
        return 2
    return status


def command() -> NoReturn:
    """Judges with the words of the call."""
    sys.exit(main())
