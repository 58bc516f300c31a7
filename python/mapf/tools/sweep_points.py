"""What a sweep's rows tell of each map: how many scenarios were solved with so many agents, and what that took."""

import re
from dataclasses import dataclass
from statistics import median

from .sweep_rows import NO_AGENTS, NO_MAP, SOLVED, Row, natural
from .sweep_scenarios import Scenario


@dataclass(frozen=True)
class Point:
    """What is known of the scenarios of one map and kind with so many agents. Medians are those of solved runs."""

    map: str
    kind: str
    agents: int
    tried: int
    solved: int
    pending: int
    makespan: float | None
    solve: float | None
    check: float | None
    splits: float | None
    certificate: float | None
    memory: int

    def rate(self) -> float:
        """Of the scenarios that were tried, the share that was solved."""
        return self.solved / self.tried


def kind_of(scenario: str) -> str:
    """`even` or `random`, where the name of a scenario ends as those of the benchmark do."""
    found = re.search(r"-(even|random)-[0-9]+$", scenario)
    return found[1] if found else ""


def label(solver: str, kind: str) -> str:
    """How a curve is called: by the solver, where there are several, and the kind of its scenarios."""
    return " ".join(part for part in (solver, kind) if part)


def points(rows: list[Row], scenarios: list[Scenario], solver: str = "") -> list[Point]:
    """The points of each map, by its name, its kinds and the number of agents. The solver of these rows is named where
    there are several.
    """
    there = [row for row in rows if row.status not in (NO_MAP, NO_AGENTS)]
    groups = {(row.map, kind_of(row.scenario)) for row in there}
    found: list[Point] = []
    for name, kind in sorted(groups, key=lambda group: (natural(group[0]), group[1])):
        of_group = [row for row in there if (row.map, kind_of(row.scenario)) == (name, kind)]
        most = {scenario.name: scenario.agents for scenario in scenarios
                if (scenario.map, kind_of(scenario.name)) == (name, kind) and scenario.grid is not None}
        for agents in sorted({int(row.agents) for row in of_group}):
            with_so_many = [own for own, count in most.items() if count >= agents]
            found.append(point(name, label(solver, kind), agents, of_group, with_so_many))
    return [one for one in found if one.tried]


def point(name: str, kind: str, agents: int, rows: list[Row], scenarios: list[str]) -> Point:
    """The point of one number of agents. A scenario that wasn't solved with fewer agents counts as tried, and not
    solved, with so many.
    """
    ended = {row.scenario for row in rows if row.status != SOLVED and int(row.agents) < agents}
    here = [row for row in rows if int(row.agents) == agents]
    solved = [row for row in here if row.status == SOLVED]
    tried = ended | {row.scenario for row in here}
    return Point(name, kind, agents, len(tried), len(solved), len(set(scenarios) - tried), middle(solved, "makespan"),
                 middle(solved, "solve_seconds"), middle(solved, "check_seconds"), middle(solved, "splits"),
                 middle(solved, "certificate_bytes"),
                 max((int(kb) for row in here for kb in (row.solve_kb, row.check_kb) if kb), default=0))


def middle(rows: list[Row], name: str) -> float | None:
    """The median of what the rows have under this name, None where none has something."""
    values = [float(value) for row in rows if (value := getattr(row, name))]
    return median(values) if values else None
