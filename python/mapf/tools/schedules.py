"""The schedules of libMultiRobotPlanning: YAML whose lines have one form, so that they are read without a parser of
YAML. Below `schedule:` stands for each agent a line `agent0:`, and below it for each tick an entry

    - x: 3
      y: 4
      t: 0

with x, y and t in any order, or in one line `- {x: 3, y: 4, t: 0}`. Other names of an entry are left out, and so is all
that stands under other names than `schedule:`.
"""

import re
from collections.abc import Iterator

from .plans import Cell
from .process import ToolError
from .texts import Text, shortened

AGENT = re.compile("""(["']?)agent([0-9]{1,10})\\1 *:""")
NUMBER = re.compile("-?[0-9]{1,10}")
REMARK = re.compile("(^|[ \t])#.*")


def read_schedule(text: Text) -> dict[int, list[Cell]]:
    """The paths, by agent."""
    schedule = Schedule(text)
    for number, line in lines_of_schedule(text):
        schedule.take(number, line)
    schedule.end_agent()
    if not schedule.paths:
        raise ToolError(f"{text.path} has no agents under 'schedule:': the solver wrote no plan, or the file is cut")
    return schedule.paths


def lines_of_schedule(text: Text) -> Iterator[tuple[int, str]]:
    """The lines below `schedule:`, each with its number, without blanks at its ends."""
    is_inside = False
    begun: int | None = None
    for number, line in enumerate(text.lines, 1):
        line = REMARK.sub("", line).rstrip() if "#" in line else line
        if line[:1] in (" ", "\t"):
            if is_inside and (word := line.strip()):
                yield number, word
        elif line and not line.startswith(("---", "...")):
            is_inside = line.startswith("schedule:")
            if is_inside and begun:
                raise text.fault(number, f"line {begun} has a 'schedule:': leave one of them")
            if is_inside and line != "schedule:":
                raise text.fault(number, "'schedule:' stands alone on its line, and below it the agents do")
            begun = number if is_inside else begun


class Schedule:
    """What was read of a schedule: the paths of whole agents, and the agent and the entry that are being read."""

    def __init__(self, text: Text) -> None:
        self.text = text
        self.paths: dict[int, list[Cell]] = {}
        self.name: str | None = None
        self.path: list[Cell] = []
        self.entry: dict[str, str] | None = None
        self.cells: dict[Cell, Cell] = {}
        self.numbers: dict[str | None, int | None] = {}

    def take(self, number: int, line: str) -> None:
        """Reads the next line."""
        if line[0] == "-":
            self.end_entry()
            if self.name is None:
                raise self.text.fault(number, "'agentN:' stands above the first entry")
            self.entry = {}
            line = line[1:].strip()
            if line[:1] == "{" and line[-1] == "}":
                for part in line[1:-1].split(","):
                    self.take_part(number, part)
                return
        if AGENT.fullmatch(line):
            self.begin_agent(number, AGENT.fullmatch(line)[2])
        elif line:
            self.take_part(number, line)

    def begin_agent(self, number: int, digits: str) -> None:
        """Begins the path of the agent with this number."""
        self.end_agent()
        if int(digits) in self.paths:
            raise self.text.fault(number, f"agent {int(digits)} stands above: leave one of them")
        self.name = f"agent{int(digits)}"
        self.path = self.paths[int(digits)] = []

    def take_part(self, number: int, part: str) -> None:
        """Reads a part of an entry, as `x: 3`."""
        name, colon, value = part.partition(":")
        name, value = name.strip("\"' "), value.strip()
        if colon and not value and name not in ("x", "y", "t"):
            raise ToolError(f"{self.text.path}, line {number}: {shortened(name)} has to be 'agentN' with a list of x, "
                            "y and t")
        if self.entry is None or not value:
            raise self.text.fault(number, "'x: N', 'y: N' or 't: N' of an entry stands here: see whether the file is "
                                          "whole")
        if name in self.entry:
            raise self.text.fault(number, f"the entry has two values of {name}: leave one of them")
        self.entry[name] = value

    def end_entry(self) -> None:
        """Adds the cell of the entry that is being read, if there is one, to the agent's path."""
        if self.entry is None:
            return
        x, y, tick = (self.number(self.entry.get(name)) for name in ("x", "y", "t"))
        place = f"{self.text.path}, '{self.name}:', entry {len(self.path) + 1}"
        if None in (x, y, tick):
            raise ToolError(f"{place}: x, y and t have to be whole numbers: see whether the file is whole")
        if tick != len(self.path):
            raise ToolError(f"{place}: its t is {tick}, and {len(self.path)} is due: give an entry for each tick from "
                            "0 on")
        self.path.append(self.cells.setdefault((x, y), (x, y)))
        self.entry = None

    def number(self, word: str | None) -> int | None:
        """What a word spells, None where it is no whole number."""
        if word not in self.numbers:
            self.numbers[word] = int(word) if word and NUMBER.fullmatch(word) else None
        return self.numbers[word]

    def end_agent(self) -> None:
        """Ends the path of the agent that is being read, if there is one."""
        self.end_entry()
        if self.name is not None and not self.path:
            raise ToolError(f"{self.text.path}, 'schedule:': '{self.name}' has to be 'agentN' with a list of x, y and "
                            "t")
