"""What the package offers to other programs beside the readers and rules of plans.py and texts.py. A fault of a file is
the exception ToolError, whose text is one line that says what to do.
"""

from collections.abc import Sequence
from dataclasses import dataclass
from pathlib import Path

from ..library import number_of
from . import recheck
from .answers import read_answer
from .certificate_heads import Certificate, read_certificate
from .draw import data_of, page_of
from .pictures import Scene, gif_of, png_of
from .plans import Agent, Cell, Fault, Grid, faults_of
from .process import ToolError
from .texts import read_agents


@dataclass(frozen=True)
class Verdict:
    """What a checker says of a plan and a certificate: its line, which is that of `mapf check`."""

    line: str

    def is_accepted(self) -> bool:
        """Whether the certificate shows its claim, and the plan is valid if there is one."""
        return not self.line.startswith("refused ")


def read_scenario(path: str | Path, grid: Grid, count: int) -> list[Agent]:
    """The first agents of a scenario for this map, so many: 1 to 200."""
    return read_agents(path, grid, number_of(count))


def read_plan(path: str | Path, agents: Sequence[Agent], name: str | None = None, is_exchanged: bool = False,
              is_mirrored: bool = False) -> list[list[Cell]]:
    """The plan in a file, in each format that tools/verify reads. Unless the format is named, the first line tells it.
    If so asked, x and y are exchanged, and of moves up and down.
    """
    return read_answer(path, [agent.start for agent in agents], name, is_exchanged, is_mirrored)


def faults_of_plan(grid: Grid, agents: Sequence[Agent], plan: Sequence[list[Cell]]) -> list[Fault]:
    """All that is wrong with a plan for these agents on this map. The list is empty where the plan is valid."""
    if len(plan) != len(agents):
        raise ValueError(f"{len(agents)} agents have {len(plan)} paths")
    if not all(plan):
        raise ValueError("a path has no cell")
    return faults_of(grid, agents, list(plan)) if plan else []


def recheck_certificate(map_file: str | Path, scenario_file: str | Path, count: int, plan_file: str | Path,
                        certificate_file: str | Path) -> Verdict:
    """What tools/recheck says of these four files: whether the certificate shows its claim for so many agents."""
    files = [str(path) for path in (map_file, scenario_file, plan_file, certificate_file)]
    stream, line, _ = recheck.answer(files, count)
    if stream == 2:
        raise ToolError(f"recheck says '{line}' of {', '.join(files)}: docs/FORMATS.md tells what it means")
    return Verdict(line)


def draw_page(grid: Grid, agents: Sequence[Agent], plan: Sequence[list[Cell]],
              names: tuple[str, str, str] = ("map", "scenario", "plan")) -> str:
    """A page of HTML that plays the plan and marks its faults. The names are those that it shows of the three texts."""
    faults = faults_of_plan(grid, agents, plan)
    return page_of(names, data_of(names, grid, agents, plan, faults))


def draw_picture(grid: Grid, agents: Sequence[Agent], plan: Sequence[list[Cell]], tick: int) -> bytes:
    """A picture of a tick of the plan, as PNG."""
    return png_of(scene_of(grid, agents, plan), tick)


def draw_film(grid: Grid, agents: Sequence[Agent], plan: Sequence[list[Cell]]) -> bytes:
    """A film of the plan, as GIF."""
    return b"".join(gif_of(scene_of(grid, agents, plan)))


def scene_of(grid: Grid, agents: Sequence[Agent], plan: Sequence[list[Cell]]) -> Scene:
    """What is drawn of a plan."""
    return Scene(grid, agents, plan, faults_of_plan(grid, agents, plan))
