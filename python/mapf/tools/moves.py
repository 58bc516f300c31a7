"""Plans as moves from the agents' starts, and plans in JSON. A move is a letter: u, d, l, r for a step up, down, left
or right, where rows are counted from the top, and w for a wait.

moves   for each agent a line with its moves, `rrdw` or `R,R,D,W`; an agent that doesn't move has a blank line
json    one of these:
        a list of paths, each a list of cells [x, y];
        the schedule of libMultiRobotPlanning, as an object: {"schedule": {"agent0": [{"x": 0, "y": 1, "t": 0}, ..]}};
        the output of the League of Robot Runners, of which the lists `actualPaths` and `start` count, the one of moves
        and the other of [row, column, ..]
"""

import json
import re
from collections.abc import Sequence
from itertools import accumulate
from typing import Any

from .plans import Cell
from .process import ToolError
from .texts import Text, shortened

MOVES = {"u": (0, -1), "d": (0, 1), "l": (-1, 0), "r": (1, 0), "w": (0, 0)}

# What a line of moves is, of which the case doesn't matter.
LINE = r"(?i:[udlrw]([ ,]*[udlrw])*,?$)"


def path_along(start: Cell, moves: str) -> list[Cell] | None:
    """The path of these moves, None where a letter is none of them."""
    try:
        steps = [MOVES[letter] for letter in re.sub("[ ,]", "", moves).lower()]
    except KeyError:
        return None
    return list(accumulate(steps, lambda cell, step: (cell[0] + step[0], cell[1] + step[1]), initial=start))


def read_moves(text: Text, starts: Sequence[Cell]) -> dict[int, list[Cell]]:
    """The paths, by agent, of lines of moves. Blank lines after those of the agents are left out."""
    lines = [(number, line) for number, line in enumerate(text.lines, 1) if not line.startswith("#")]
    if lines and not lines[-1][1]:
        lines.pop()  # what follows the last line's end
    while len(lines) > len(starts) and not lines[-1][1]:
        lines.pop()
    paths: dict[int, list[Cell]] = {}
    for agent, (number, line) in enumerate(lines):
        path = path_along(starts[agent] if agent < len(starts) else (0, 0), line)
        if path is None:
            raise text.fault(number, f"the moves of agent {agent} stand here, each one of the letters {''.join(MOVES)}")
        paths[agent] = path
    return paths


def read_json(text: Text, starts: Sequence[Cell]) -> dict[int, list[Cell]]:
    """The paths, by agent, of an answer in JSON."""
    try:
        told = json.loads("\n".join(text.lines))
    except json.JSONDecodeError as error:
        raise text.fault(error.lineno, f"this isn't JSON ({error.msg}): see whether the file is whole") from None
    except (RecursionError, ValueError):
        raise ToolError(f"{text.path} has lists in lists, or digits, beyond measure: give a list of paths") from None
    if isinstance(told, list):
        return {agent: cells_of(text, agent, path) for agent, path in enumerate(told)}
    if isinstance(told, dict) and isinstance(told.get("schedule"), dict):
        return dict(scheduled(text, name, entries) for name, entries in told["schedule"].items())
    if isinstance(told, dict) and isinstance(told.get("actualPaths"), list):
        return moved(text, told, starts)
    raise ToolError(f"{text.path} is neither a list of paths, nor has it a 'schedule' or a list 'actualPaths': give "
                    "one of them, as tools/verify --help shows them")


def cells_of(text: Text, agent: int, path: Any) -> list[Cell]:
    """The cells of a path in a list of paths."""
    if not isinstance(path, list) or not path or not all(is_cell(cell, 2) for cell in path):
        raise ToolError(f"{text.path}: the path of agent {agent} has to be a list of cells [x, y], and is "
                        f"{shortened(json.dumps(path))}")
    return [(x, y) for x, y in path]


def is_cell(cell: Any, count: int) -> bool:
    """Whether it is a list of so many parts of which the first two are whole numbers."""
    return isinstance(cell, list) and len(cell) == count and all(type(number) is int for number in cell[:2])


def scheduled(text: Text, name: str, entries: Any) -> tuple[int, list[Cell]]:
    """The number of an agent of a schedule, and its path."""
    found = re.fullmatch("agent([0-9]{1,10})", name)
    if not found or not isinstance(entries, list) or not entries:
        raise ToolError(f"{text.path}, 'schedule': {shortened(name)} has to be 'agentN' with a list of x, y and t")
    path = []
    for tick, entry in enumerate(entries):
        numbers = [entry.get(part) if isinstance(entry, dict) else None for part in ("x", "y", "t")]
        if not all(type(number) is int for number in numbers) or numbers[2] != tick:
            raise ToolError(f"{text.path}, '{name}', entry {tick + 1}: whole numbers x and y and the t {tick} have to "
                            f"stand here, and here is {shortened(json.dumps(entry))}")
        path.append((numbers[0], numbers[1]))
    return int(found[1]), path


def moved(text: Text, told: dict[str, Any], starts: Sequence[Cell]) -> dict[int, list[Cell]]:
    """The paths of an output of the League of Robot Runners. The starts are those of the scenario where it has none."""
    model = told.get("actionModel", "MAPF")
    if model != "MAPF":
        raise ToolError(f"{text.path} has the action model {shortened(str(model))}: only plans of 'MAPF', where agents "
                        "needn't turn, can be compared")
    places = told.get("start", [[y, x] for x, y in starts])
    paths: dict[int, list[Cell]] = {}
    for agent, moves in enumerate(told["actualPaths"]):
        place = places[agent] if isinstance(places, list) and agent < len(places) else None
        if not is_cell(place, 2) and not is_cell(place, 3):
            raise ToolError(f"{text.path}, 'start': agent {agent} has to have a [row, column] there")
        path = path_along((place[1], place[0]), moves) if isinstance(moves, str) else None
        if path is None:
            raise ToolError(f"{text.path}, 'actualPaths': the moves of agent {agent} have to be letters of "
                            f"{''.join(MOVES)} with commas between, and are {shortened(json.dumps(moves))}")
        paths[agent] = path
    return paths
