"""Logs of replies, as `mapf follow` and `mapf dispatch` print them. From a line `go I x,y` on agent I is in the cell
x,y. Moves of different agents one after another are made at one tick; lines of other kinds move nobody.
"""

import re
from collections.abc import Sequence

from .plans import Cell
from .process import ToolError
from .texts import Text

# What a line of a log is. Of `cycle` and `done` not even the agents matter.
LINE = r"(go|hold|done|error|cycle)( |$)"
GO = re.compile(r"go ([0-9]{1,10}) ([0-9]{1,10}),([0-9]{1,10})")


def read_replies(text: Text, starts: Sequence[Cell]) -> dict[int, list[Cell]]:
    """The paths, by agent, of agents with these starts that were told what a log says."""
    paths = [[start] for start in starts]
    tick = 1
    moved: set[int] = set()
    for number, line in enumerate(text.lines, 1):
        if line and not re.match(LINE, line):
            raise text.fault(number, "a line 'go I x,y', 'hold I by J', 'done I', 'cycle ..' or 'error ..' stands here")
        if line.startswith("go"):
            agent, cell = move_of(text, number, len(starts))
            if agent in moved:
                tick += 1
                moved.clear()
            moved.add(agent)
            path = paths[agent]
            path += [path[-1]] * (tick - len(path)) + [cell]
    return dict(enumerate(paths))


def move_of(text: Text, number: int, count: int) -> tuple[int, Cell]:
    """The agent of a line, of so many, and the cell in which it is from then on."""
    found = GO.fullmatch(text.line(number) or "")
    if not found:
        raise text.fault(number, "an agent and its new cell stand here, as 'go I x,y'")
    agent, x, y = map(int, found.groups())
    if agent >= count:
        raise ToolError(f"{text.path}, line {number}: agent {agent} moves, and K is {count}: give the number of agents "
                        "that were followed as K")
    return agent, (x, y)
