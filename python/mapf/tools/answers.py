"""Plans as other solvers write them, each in the format in which it leaves them:

paths   the path files of CBSH2-RTC, EECBS, PBS and MAPF-LNS: for each agent a line
        `Agent 0: (row,column)->(row,column)->`, row before column, with or without the last arrow. A line above them,
        as a count, is left out, and so are lines below them
lacam   the logs of LaCAM and PIBT: lines `name=value`, among them `solution=`, and then for each tick a line
        `0:(x,y),(x,y),` with a cell for each agent; or these lines alone
yaml    the schedules of libMultiRobotPlanning, which schedules.py reads
moves   lines of moves, and
json    plans in JSON, both of which moves.py reads
replies logs of `mapf follow` and `mapf dispatch`, which replies.py reads
plan    plan texts of mapf
"""

import argparse
import re
from collections.abc import Sequence
from itertools import islice
from pathlib import Path

from .moves import LINE, read_json, read_moves
from .plans import Cell, cut_waits
from .process import ToolError
from .replies import LINE as REPLY
from .replies import read_replies
from .schedules import read_schedule
from .texts import Cells, Text, plan_text, read_bytes, read_plan, shortened

FORMATS = "paths", "lacam", "yaml", "moves", "json", "replies", "plan"

CELL = r"\((-?[0-9]{1,10}),(-?[0-9]{1,10})\)"
AGENT = re.compile(r"\s*Agent\s+([0-9]{1,10})\s*:(.*)")
TICK_0 = r"\s*0\s*:\s*\("

# How the first line of each format begins.
BEGINNINGS = {"paths": AGENT.pattern, "lacam": rf"\w+=|{TICK_0}", "yaml": r"\w+:", "moves": LINE, "json": r"\s*[\[{]",
              "replies": REPLY, "plan": "mapf-plan "}


def add_options(parser: argparse.ArgumentParser) -> None:
    """Lets a tool's words say how its answer is to be read."""
    parser.add_argument("--format", choices=FORMATS, help="the answer's format, if the first line doesn't tell it")
    parser.add_argument("--exchange-xy", action="store_true",
                        help="exchange x and y of each cell, if the solver wrote them the other way round")
    parser.add_argument("--exchange-ud", action="store_true",
                        help="exchange up and down of moves, if the solver counts rows from below")


def read_answer(path: str | Path, starts: Sequence[Cell], name: str | None = None, is_exchanged: bool = False,
                is_mirrored: bool = False) -> list[list[Cell]]:
    """The paths of agents with these starts, in their order, without waits at their ends. Unless the format is named it
    is told by the first line. x and y may be exchanged, and of moves up and down.
    """
    paths = paths_in(path, read_bytes(path), exchanged(starts) if is_exchanged else starts, name)
    paths = list(map(mirrored, paths)) if is_mirrored else paths
    return list(map(exchanged, paths)) if is_exchanged else paths


def mirrored(path: list[Cell]) -> list[Cell]:
    """The path with up and down exchanged of each move."""
    row = path[0][1]
    return [(x, 2 * row - y) for x, y in path]


def exchanged(path: Sequence[Cell]) -> list[Cell]:
    """The path with x and y of each cell exchanged."""
    others = {(x, y): (y, x) for x, y in set(path)}
    return [others[cell] for cell in path]


def paths_in(path: str | Path, data: bytes, starts: Sequence[Cell], name: str | None = None) -> list[list[Cell]]:
    """The paths of agents with these starts in the bytes of a file."""
    text = text_of(path, data)
    if not any(text.lines):
        raise ToolError(f"{path} is empty: let the solver write its answer there")
    name = name or format_of(text)
    if name is None:
        raise no_format(text)
    if name == "plan":
        paths = read_own(path, data)
    else:
        paths = READERS[name](text) if name in READERS else READERS_OF_MOVES[name](text, starts)
    return [cut_waits(paths[agent]) for agent in numbered(text, paths, len(starts))]


def as_plan_text(path: str | Path, data: bytes, starts: Sequence[Cell]) -> bytes:
    """An answer of another solver as a plan text of mapf. A plan text, and what has no format, stays as it is."""
    is_foreign = format_of(text_of(path, data)) not in (None, "plan")
    return plan_text(paths_in(path, data, starts)).encode() if is_foreign else data


def text_of(path: str | Path, data: bytes) -> Text:
    """The lines of an answer, without the blanks at their ends."""
    lines = data.decode("utf-8-sig", errors="replace").replace("\r\n", "\n").split("\n")
    return Text(str(path), [line.rstrip() for line in lines])


def format_of(text: Text) -> str | None:
    """The format, None where it is none of them. The second line tells of paths, and the first of all formats."""
    lines = [text.line(number) for number in first_lines(text)]
    if len(lines) == 2 and AGENT.match(lines[1]):
        return "paths"
    return next((name for name, begins in BEGINNINGS.items() if lines and re.match(begins, lines[0])), None)


def first_lines(text: Text) -> list[int]:
    """The numbers of the first two lines that are neither blank nor a remark nor a mark of YAML."""
    lines = enumerate(text.lines, 1)
    return list(islice((number for number, line in lines if line and not line.startswith(("#", "---"))), 2))


def no_format(text: Text) -> ToolError:
    """The error of an answer that has none of the formats."""
    numbers = first_lines(text)
    if not numbers:
        return ToolError(f"{text.path} holds remarks alone: let the solver write its answer there")
    return text.fault(numbers[0], f"none of the formats {', '.join(FORMATS)} begins so: give the answer in one of "
                                  "them, as tools/verify --help shows them")


def numbered(text: Text, paths: dict[int, list[Cell]], count: int) -> range:
    """The numbers of the agents, of which each has to have a path, and nobody else."""
    missing = [agent for agent in range(count) if agent not in paths]
    if missing and len(paths) < count:
        raise ToolError(f"{text.path} has no path of agent {missing[0]}, only {len(paths)} in all, and K is {count}: "
                        f"see whether the file is whole, or give the number of agents that were planned for as K")
    if missing:
        raise ToolError(f"{text.path} has no path of agent {missing[0]}: agents are counted from 0")
    if len(paths) > count:
        raise ToolError(f"{text.path} has the paths of {len(paths)} agents, and K is {count}: give {len(paths)} as K")
    return range(count)


def read_paths(text: Text) -> dict[int, list[Cell]]:
    """The paths, by agent, of a path file."""
    found = {number: AGENT.match(line) for number, line in enumerate(text.lines, 1) if line}
    agents = [number for number, line in found.items() if line]
    paths: dict[int, list[Cell]] = {}
    cells = Cells(CELL, is_row_first=True)
    for number, line in found.items():
        if agents and not agents[0] <= number <= agents[-1]:
            continue
        if not line:
            raise text.fault(number, "'Agent N: (row,column)->(row,column)->' stands here")
        if int(line[1]) in paths:
            raise text.fault(number, f"agent {line[1]} has a line above: leave one of them")
        paths[int(line[1])] = cells_of(text, number, cells, line[2], "->")
    return paths


def cells_of(text: Text, number: int, cells: Cells, listed: str, between: str) -> list[Cell]:
    """The cells of a line. What stands between them may also end it."""
    words = "".join(listed.split()).removesuffix(between).replace(f"){between}", ") ").split(" ")
    found, wrong = cells.of(words)
    if found is None:
        raise text.fault(number, f"cells (a,b) with '{between}' between them stand here, and {shortened(wrong)} is "
                                 "none: see whether the line is whole")
    return found


def read_lacam(text: Text) -> dict[int, list[Cell]]:
    """The paths, by agent, of a log with the cells of each tick."""
    is_log = not any(re.match(TICK_0, line) for line in text.lines[:1])
    if is_log and "solution=" not in text.lines:
        raise ToolError(f"{text.path} has no line 'solution=': short logs leave it out, so let the solver write the "
                        "long one")
    begin = text.lines.index("solution=") + 1 if is_log else 0
    ticks: list[list[Cell]] = []
    cells = Cells(CELL)
    for number, line in enumerate(text.lines[begin:], begin + 1):
        if re.match(r"\w+=", line):
            break
        if line:
            ticks.append(tick_of(text, number, cells, line, ticks))
    if not ticks:
        why = " and says solved=0" if "solved=0" in text.lines else ""
        raise ToolError(f"{text.path} has no line behind 'solution='{why}: the solver wrote no plan")
    return dict(enumerate(map(list, zip(*ticks))))


def tick_of(text: Text, number: int, cells: Cells, line: str, ticks: list[list[Cell]]) -> list[Cell]:
    """The cells of the next tick, of each agent one."""
    found = re.fullmatch(r"\s*([0-9]+)\s*:(.*)", line)
    if not found or found[1] != str(len(ticks)):
        raise text.fault(number, f"the cells of tick {len(ticks)} stand here, as '{len(ticks)}:(x,y),(x,y),'")
    here = cells_of(text, number, cells, found[2], ",")
    if ticks and len(here) != len(ticks[0]):
        raise text.fault(number, f"tick {len(ticks)} has {len(here)} cells, and tick 0 has {len(ticks[0])}: see "
                                 "whether the line is whole")
    return here


def read_own(path: str | Path, data: bytes) -> dict[int, list[Cell]]:
    """The paths, by agent, of a plan text of mapf."""
    plan = read_plan(path, data)
    if plan.kind != "cost":
        raise ToolError(f"{path} holds no plan: its answer is '{data.splitlines()[2].decode()}'")
    return dict(enumerate(plan.paths))


READERS = {"paths": read_paths, "lacam": read_lacam, "yaml": read_schedule}
READERS_OF_MOVES = {"moves": read_moves, "json": read_json, "replies": read_replies}
