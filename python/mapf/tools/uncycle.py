"""Changes a plan so that it has no full cycle, and says what that costs."""

import argparse
import random
import sys
from collections import deque
from collections.abc import Iterator, Sequence
from pathlib import Path
from typing import NoReturn

from .answers import add_options, read_answer
from .cycles import Cycle, full_cycles
from .one_agent import Traffic, cheapest_path, distances, neighbours
from .plans import Agent, Cell, Grid, faults_of, sum_of_costs
from .process import ToolError, clear_progress, progress, run_tool
from .texts import plan_text, problem_parser, read_agents, read_map

# The status where no plan was found.
NONE_FOUND = 1

# In how many orders the agents of a group are planned, and how many steps from the cycle the groups reach.
ORDERS, REACHES = 60, (0, 1, 2, 4, 8, 16)

EPILOG = """In a full cycle agents move at one tick, each into the cell that the next one leaves. Agents that follow the
plan by mapf dispatch wait there for ever, since each may go on only when the next one has left its cell. A plan without
full cycles can be followed to its end (docs/USE.md says why).

PLAN is a valid plan, in any format that tools/verify reads. For each full cycle one of its agents gets another path:
it waits, or goes through a free cell. The others keep theirs, and of all such paths one of least cost is taken. If no
agent can do so alone, those of the cycle and others near it are planned anew, one after another, in several orders.
The plan needn't be the cheapest of its kind. The same texts give the same bytes.

A line on standard error says how many full cycles PLAN has, and the sums of costs before and after.

example:
  tools/uncycle examples/empty-8-8.map examples/empty-8-8.scen 6 examples/empty-8-8-answer.txt --out smooth.txt

exit status:
  0    a valid plan without full cycles is written, which is PLAN itself if that has none
  1    no such plan was found, or there is none since no cell is free; nothing is written
  2    an error, with a message on standard error; also if PLAN isn't valid"""


def main() -> int:
    given = words()
    grid = read_map(given.map)
    agents = read_agents(given.scen, grid, given.k)
    starts = [agent.start for agent in agents]
    paths = read_answer(given.plan, starts, given.format, given.exchange_xy, given.exchange_ud)
    if faults := faults_of(grid, agents, paths):
        raise ToolError(f"{given.plan} isn't valid, {faults[0].words}: tools/verify lists all that is wrong")
    cycles = full_cycles(paths)
    found = Repair(grid, agents).without_cycles(paths)
    clear_progress()
    if found is None:
        print(f"uncycle: {reason(grid, agents, cycles)}", file=sys.stderr)
        return NONE_FOUND
    if faults_of(grid, agents, found) or full_cycles(found):
        raise ToolError("the plan that was made isn't valid or has a full cycle: please report it")
    write(given.out, plan_text(found))
    print(f"uncycle: full cycles before: {len(cycles)}; sum of costs: {sum_of_costs(paths)} before, "
          f"{sum_of_costs(found)} now", file=sys.stderr)
    return 0


def words() -> argparse.Namespace:
    """What the words of the call ask for."""
    parser = problem_parser("uncycle", __doc__, EPILOG)
    parser.add_argument("plan", metavar="PLAN", help="the plan")
    add_options(parser)
    parser.add_argument("--out", metavar="FILE", help="where the plan text goes; without it, to standard output")
    return parser.parse_args()


def write(place: str | None, text: str) -> None:
    """Writes the plan text to this file, or to standard output."""
    if place is None:
        sys.stdout.write(text)
        return
    try:
        Path(place).write_text(text)
    except OSError as error:
        raise ToolError(f"{place} can't be written: {error.strerror}") from None


def reason(grid: Grid, agents: Sequence[Agent], cycles: Sequence[Cycle]) -> str:
    """Why no plan was found: some full cycle is on a part of the map that has no free cell, or it isn't known."""
    for cycle in cycles:
        part = distances(grid, agents[cycle.agents[0]].start)
        if sum(agent.start in part for agent in agents) == len(part):
            return (f"no cell is free around agent {cycle.agents[0]}, which moves in a full cycle after tick "
                    f"{cycle.tick}: so agents can move there in full cycles alone")
    return f"full cycles: {len(cycles)}, and no way to do without all of them was found"


class Repair:
    """Plans agents of a problem anew."""

    def __init__(self, grid: Grid, agents: Sequence[Agent]) -> None:
        self.grid = grid
        self.agents = agents
        self.chance = random.Random(0)
        self.distances: dict[Cell, dict[Cell, int]] = {}

    def without_cycles(self, paths: list[list[Cell]]) -> list[list[Cell]] | None:
        """A plan without full cycles; none where none was found. Each change leaves fewer of them."""
        while cycles := full_cycles(paths):
            progress(f"full cycles: {len(cycles)}")
            changed = self.without(cycles[0], paths)
            if changed is None:
                return None
            paths = changed
        return paths

    def without(self, cycle: Cycle, paths: list[list[Cell]]) -> list[list[Cell]] | None:
        """The plan without this full cycle: the cheapest in which one agent alone changed, else that of some group."""
        alone = [plan for agent in cycle.agents if (plan := self.replanned(paths, [agent]))]
        if alone:
            return min(alone, key=sum_of_costs)
        for order in self.orders(cycle, paths):
            if plan := self.replanned(paths, order):
                return plan
        return None

    def orders(self, cycle: Cycle, paths: list[list[Cell]]) -> Iterator[list[int]]:
        """Orders in which groups of agents are planned anew: those of the cycle, and more and more agents around it."""
        here = [path[min(cycle.tick, len(path) - 1)] for path in paths]
        near = {here[agent]: 0 for agent in cycle.agents}
        tried = 0
        for reach in REACHES:
            grow(self.grid, near, reach)
            group = [agent for agent, cell in enumerate(here) if cell in near]
            if len(group) > tried:
                tried = len(group)
                for _ in range(ORDERS):
                    yield self.chance.sample(group, len(group))

    def replanned(self, paths: list[list[Cell]], order: Sequence[int]) -> list[list[Cell]] | None:
        """The plan in which these agents are planned anew, one after another; none where one finds no way."""
        kept = {agent: path for agent, path in enumerate(paths) if agent not in order}
        traffic = Traffic(kept.values())
        for agent in order:
            path = cheapest_path(self.grid, self.agents[agent], traffic, self.distances_to(agent))
            if path is None:
                return None
            kept[agent] = path
            traffic.add(path)
        return [kept[agent] for agent in range(len(paths))]

    def distances_to(self, agent: int) -> dict[Cell, int]:
        """The least numbers of steps to the goal of this agent."""
        goal = self.agents[agent].goal
        if goal not in self.distances:
            self.distances[goal] = distances(self.grid, goal)
        return self.distances[goal]


def grow(grid: Grid, near: dict[Cell, int], reach: int) -> None:
    """Adds the cells that are so many steps away from those that are 0 away."""
    border = deque(cell for cell, steps in near.items() if steps < reach)
    while border:
        cell = border.popleft()
        new = [other for other in neighbours(grid, cell) if other not in near]
        near.update((other, near[cell] + 1) for other in new)
        border.extend(other for other in new if near[other] < reach)


def command() -> NoReturn:
    """Runs the tool with the words of the call."""
    run_tool(main)
