"""Texts as docs/FORMATS.md describes them: the words of a line, maps, scenarios and plan texts."""

import argparse
import re
from collections.abc import Callable, Iterable
from dataclasses import dataclass, field
from pathlib import Path

from ..limits import GREATEST_SIDE, GREATEST_SUM, MOST_AGENTS
from .plans import FREE, Agent, Cell, Grid, cut_waits, shown, sum_of_costs
from .process import ToolError, called

# The characters of a map that stand for blocked cells.
BLOCKED = "@OTW"


# Lines and words.

@dataclass(frozen=True)
class Text:
    """The lines of a file, without their ends. Each byte is one character."""

    path: str
    lines: list[str]

    def line(self, number: int) -> str | None:
        """The line of this number, counted from 1; none behind the last."""
        return self.lines[number - 1] if number <= len(self.lines) else None

    def words(self, number: int) -> list[str]:
        """The words of the line of this number; none behind the last."""
        return words_of(self.line(number) or "")

    def fault(self, number: int, said: str) -> ToolError:
        """The error that says this of the line of this number, and shows that line."""
        found = self.line(number)
        end = "the file ends here" if found is None else f"here is {shortened(found)}"
        return ToolError(f"{self.path}, line {number}: {said}; {end}")


def read_bytes(path: str | Path) -> bytes:
    """The bytes of a file."""
    try:
        return Path(path).read_bytes()
    except OSError as error:
        raise ToolError(f"{path} can't be read: {error.strerror}") from None


def read_text(path: str | Path, data: bytes | None = None) -> Text:
    """A file's lines. One CR before a line's end belongs to the end. Bytes that are given were read from it before."""
    lines = (read_bytes(path) if data is None else data).decode("latin-1").split("\n")
    if lines[-1] == "":
        lines.pop()
    return Text(str(path), [line.removesuffix("\r") for line in lines])


def words_of(line: str) -> list[str]:
    """The words of a line. Between them are spaces and tabs."""
    return re.findall("[^ \t]+", line)


def is_digits(word: str) -> bool:
    """Whether it is a whole number, of no more digits than any number has that is meant."""
    return re.fullmatch("[0-9]{1,20}", word) is not None


def shortened(line: str) -> str:
    """The line as an error shows it: in quotes, and of a long one the beginning."""
    return repr(line) if len(line) <= 60 else f"{line[:60]!r}.."


class Cells(dict[str, Cell]):
    """The cells that words of this form spell. Each word is read once, and each cell is made once."""

    def __init__(self, form: str, is_row_first: bool = False) -> None:
        super().__init__()
        self.form = re.compile(form)
        self.x, self.y = (2, 1) if is_row_first else (1, 2)

    def __missing__(self, word: str) -> Cell:
        found = self.form.fullmatch(word)
        if found is None:
            raise KeyError(word)
        self[word] = cell = int(found[self.x]), int(found[self.y])
        return cell

    def of(self, words: Iterable[str]) -> tuple[list[Cell], None] | tuple[None, str]:
        """The cells of these words, and the first word that spells none: one of the two is None."""
        try:
            return [self[word] for word in words], None
        except KeyError as error:
            return None, error.args[0]


def number_between(least: int, most: int) -> Callable[[str], int]:
    """For argparse: the number of a word, which has to be in this range."""
    def number(word: str) -> int:
        if not is_digits(word) or not least <= int(word) <= most:
            raise ValueError
        return int(word)
    number.__name__ = f"number from {least} to {most:,}"
    return number


def problem_parser(name: str, about: str, epilog: str) -> argparse.ArgumentParser:
    """For the tool of this name: what reads the words of a call, of which the first three tell the problem."""
    parser = argparse.ArgumentParser(prog=called(name), description=about, epilog=epilog,
                                     formatter_class=argparse.RawDescriptionHelpFormatter)
    parser.add_argument("map", metavar="MAP", help="the grid: a MovingAI map")
    parser.add_argument("scen", metavar="SCEN", help="the agents: a MovingAI scenario for that map")
    parser.add_argument("k", metavar="K", type=number_between(1, MOST_AGENTS),
                        help=f"how many agents: the first K of SCEN, 1 to {MOST_AGENTS}")
    return parser


def seconds_of(word: str) -> float:
    """For argparse: a number of seconds, which may have a fraction."""
    try:
        seconds = float(word)
    except ValueError:
        seconds = 0
    if not 0 < seconds < 1e9:
        raise argparse.ArgumentTypeError(f"{word} isn't a number of seconds above 0")
    return seconds


# Maps.

def read_map(path: str | Path, data: bytes | None = None) -> Grid:
    """The map of a file. Bytes that are given were read from it before."""
    text = read_text(path, data)
    if text.words(1) != ["type", "octile"]:
        raise text.fault(1, "a map begins with 'type octile'")
    height, width = side(text, 2, "height"), side(text, 3, "width")
    if text.words(4) != ["map"]:
        raise text.fault(4, "'map' stands before the rows")
    for number in range(5, 5 + height):
        row = text.line(number)
        if row is None or len(row) != width or not all(cell in FREE + BLOCKED for cell in row):
            raise text.fault(number, f"row {number - 5} has to be {width} of the characters {FREE}{BLOCKED}")
    for number in range(5 + height, len(text.lines) + 1):
        if text.words(number):
            raise text.fault(number, f"only blank lines may follow the {height} rows")
    return Grid(width, height, text.lines[4:4 + height])


def side(text: Text, number: int, name: str) -> int:
    """The height or the width, which this line names."""
    words = text.words(number)
    if len(words) != 2 or words[0] != name or not is_digits(words[1]) or not 1 <= int(words[1]) <= GREATEST_SIDE:
        raise text.fault(number, f"'{name}' and a number from 1 to {GREATEST_SIDE} stand here")
    return int(words[1])


# Scenarios.

def read_agents(path: str | Path, grid: Grid, count: int, data: bytes | None = None) -> list[Agent]:
    """The first agents of a scenario, so many. Bytes that are given were read from it before."""
    text = read_text(path, data)
    numbers = [number for number in range(1, len(text.lines) + 1) if text.words(number)]
    if not numbers or text.words(numbers[0]) not in (["version", "1"], ["version", "1.0"]):
        raise text.fault(numbers[0] if numbers else 1, "a scenario begins with 'version 1'")
    agents = [agent_of(text, number, grid) for number in numbers[1:count + 1]]
    if len(agents) < count:
        raise ToolError(f"{path} has {len(agents)} agents, and {count} were asked for: ask for at most {len(agents)}")
    return agents


def agent_of(text: Text, number: int, grid: Grid) -> Agent:
    """The agent of this line, whose start and goal are free cells of the map."""
    words = text.words(number)
    if len(words) != 9:
        raise text.fault(number, "an agent has nine words: bucket, map, width, height, start x y, goal x y, length")
    if not all(is_digits(word) for word in (words[0], *words[2:8])):
        raise text.fault(number, "all words but the second and the last are whole numbers")
    if not re.fullmatch(r"[+-]?[0-9]+(\.[0-9]+)?([eE][+-]?[0-9]+)?", words[8]):
        raise text.fault(number, "the last word, the length, is a decimal number")
    width, height, *ends = map(int, words[2:8])
    if (width, height) != (grid.width, grid.height):
        raise text.fault(number, f"the map has {grid.width} columns and {grid.height} rows: is it this scenario's map?")
    start, goal = (ends[0], ends[1]), (ends[2], ends[3])
    for name, cell in (("start", start), ("goal", goal)):
        if not grid.is_free(cell):
            raise text.fault(number, f"the {name} {shown(cell)} isn't a free cell: is it this scenario's map?")
    return Agent(start, goal)


# Plan texts.

@dataclass(frozen=True)
class Plan:
    """What a plan text says. Its kind is 'cost', with the sum of the costs and the paths; 'impossible'; or 'limit',
    with the number of splits (or 'ticks'), and the bound, none in version 1.
    """

    kind: str
    agents: int
    cost: int | None = None
    paths: list[list[Cell]] = field(default_factory=list)
    limit: int | str | None = None
    bound: int | None = None


NUMBER = "(0|[1-9][0-9]{0,19})"
PAIR = f"{NUMBER},{NUMBER}"
LIMITS = {1: "limit S", 2: "limit S bound B"}


def read_plan(path: str | Path, data: bytes | None = None) -> Plan:
    """A plan text. Of its cells nothing is asked but their form. Bytes that are given were read from it before."""
    data = read_bytes(path) if data is None else data
    text = Text(str(path), data.decode("latin-1").split("\n"))
    if text.lines[-1] == "":
        text.lines.pop()
    version = 1 + wanted(text, 1, "mapf-plan 1", "mapf-plan 2")
    agents = number_in(text, 2, "agents ", 1, MOST_AGENTS)
    plan = answer_of(text, version, agents)
    last = 4 + len(plan.paths)
    wanted(text, last, "end")
    if len(text.lines) > last:
        raise text.fault(last + 1, "nothing follows 'end'")
    if not data.endswith(b"\n"):
        raise ToolError(f"{path}, line {last}: the line has no end: put a line feed behind 'end'")
    return plan


def wanted(text: Text, number: int, *lines: str) -> int:
    """Which of these lines stands here."""
    if text.line(number) not in lines:
        raise text.fault(number, f"{' or '.join(map(repr, lines))} stands here")
    return lines.index(text.line(number))


def number_in(text: Text, number: int, before: str, least: int, most: int) -> int:
    """The number that stands behind these words in a line, where nothing else does."""
    line = text.line(number) or ""
    word = line[len(before):]
    if not line.startswith(before) or not re.fullmatch(NUMBER, word) or not least <= int(word) <= most:
        raise text.fault(number, f"'{before}' and a number from {least} to {most:,} stand here")
    return int(word)


def answer_of(text: Text, version: int, agents: int) -> Plan:
    """The answer of a plan text, with its paths."""
    line = text.line(3) or ""
    limit = re.fullmatch(f"limit ({NUMBER}|ticks)" + (f" bound {NUMBER}" if version == 2 else ""), line)
    if line == "impossible":
        return Plan("impossible", agents)
    if limit:
        bound = int(limit[3]) if version == 2 else None
        return Plan("limit", agents, limit="ticks" if limit[1] == "ticks" else int(limit[1]), bound=bound)
    if not line.startswith("cost "):
        raise text.fault(3, f"'cost C', 'impossible' or '{LIMITS[version]}' stands here")
    cost = number_in(text, 3, "cost ", 0, GREATEST_SUM)
    cells = Cells(PAIR)
    paths = [path_of(text, 4 + agent, agent, cells) for agent in range(agents)]
    if sum_of_costs(paths) != cost:
        raise text.fault(3, f"the costs of the paths add up to {sum_of_costs(paths)}")
    return Plan("cost", agents, cost, paths)


def path_of(text: Text, number: int, agent: int, cells: Cells) -> list[Cell]:
    """The path of this agent, which the line has to spell."""
    line = text.line(number) or ""
    found = re.match(f"path {agent} {NUMBER} ", line)
    path, _ = cells.of(line[found.end():].split(" ")) if found else (None, None)
    if path is None:
        raise text.fault(number, f"'path {agent}', the path's cost and its cells x,y stand here, between single spaces")
    if len(path) != int(found[1]) + 1:
        raise text.fault(number, f"a path of cost {found[1]} has {int(found[1]) + 1} cells, and {len(path)} stand here")
    if len(path) > 1 and path[-1] == path[-2]:
        raise text.fault(number, "the last two cells of a path differ")
    return path


def plan_text(paths: list[list[Cell]]) -> str:
    """The plan text of these paths. Waits at the end of a path aren't written, since a plan text has none."""
    lines = ["mapf-plan 2", f"agents {len(paths)}", f"cost {sum_of_costs(paths)}"]
    for agent, path in enumerate(map(cut_waits, paths)):
        spelled = {cell: "%d,%d" % cell for cell in set(path)}
        lines.append(f"path {agent} {len(path) - 1} " + " ".join(map(spelled.__getitem__, path)))
    return "\n".join([*lines, "end", ""])
