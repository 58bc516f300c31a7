"""What the rows of tools/sweep --gap tell of each map: how far plans for so many agents may be from the cheapest."""

from collections.abc import Iterable
from dataclasses import dataclass
from statistics import mean, median

from .sweep_rows import NO_AGENTS, NO_MAP, SOLVED, Row, natural
from .sweep_scenarios import Scenario


@dataclass(frozen=True)
class GapPoint:
    """What is known of the problems of one map with so many agents: how many were tried and are due, how many have a
    plan and are shown to have a cheapest one, the seconds to their first plans, and the gaps of both answers.
    """

    map: str
    agents: int
    tried: int
    pending: int
    plans: int
    cheapest: int
    first_seconds: tuple[float, ...]
    quick_gaps: tuple[float, ...]
    last_gaps: tuple[float, ...]

    def share(self) -> float:
        """Of the problems that were tried, the share that is shown to have a cheapest plan."""
        return self.cheapest / self.tried

    def seconds(self) -> float | None:
        """The median of the seconds to the first plan, None where no problem has one."""
        return median(self.first_seconds) if self.first_seconds else None


def mean_of(gaps: Iterable[float]) -> float | None:
    """The mean of gaps, None where there are none."""
    there = list(gaps)
    return mean(there) if there else None


def gap(cost: str, bound: str) -> float | None:
    """By what part of its bound a cost may be too high, None where one of them isn't known, or the bound is 0 and the
    cost isn't.
    """
    if not cost or not bound or int(bound) == 0 < int(cost):
        return None
    return (int(cost) - int(bound)) / max(int(bound), 1)


def points(rows: list[Row], scenarios: list[Scenario]) -> list[GapPoint]:
    """The points of each map, by its name and the number of agents."""
    groups: dict[tuple[str, int], list[Row]] = {}
    for row in rows:
        if row.status not in (NO_MAP, NO_AGENTS):
            groups.setdefault((row.map, int(row.agents)), []).append(row)
    return [point(name, agents, groups[name, agents], scenarios)
            for name, agents in sorted(groups, key=lambda group: (natural(group[0]), group[1]))]


def point(name: str, agents: int, rows: list[Row], scenarios: list[Scenario]) -> GapPoint:
    """The point of a map and a number of agents, of which these are the rows."""
    tried = {row.scenario for row in rows}
    due = {scenario.name for scenario in scenarios
           if scenario.map == name and scenario.grid is not None and scenario.agents >= agents}
    return GapPoint(name, agents, len(rows), len(due - tried),
                    sum(bool(row.first_cost or row.quick_cost or row.cost) for row in rows),
                    sum(row.status == SOLVED for row in rows),
                    tuple(float(row.first_seconds) for row in rows if row.first_cost),
                    known(gap(row.quick_cost, row.quick_bound) for row in rows),
                    known(gap(row.cost, row.bound) for row in rows))


def known(gaps: Iterable[float | None]) -> tuple[float, ...]:
    """The gaps that there are."""
    return tuple(one for one in gaps if one is not None)
