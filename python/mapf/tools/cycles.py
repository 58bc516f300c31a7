"""Full cycles of a plan: agents that move at one tick, each into the cell that the next one leaves, round a cycle. Such
a plan is valid, but agents that each wait until the next cell is left wait for ever.
"""

from collections.abc import Iterator, Sequence
from dataclasses import dataclass

from .plans import Cell, ticks_of


@dataclass(frozen=True)
class Cycle:
    """A full cycle: the tick after which its agents move, each into the cell of the next."""

    tick: int
    agents: tuple[int, ...]


def full_cycles(paths: list[list[Cell]]) -> list[Cycle]:
    """The full cycles of a valid plan, by tick."""
    return [cycle for tick, here, there in ticks_of(paths) for cycle in cycles_at(tick, here, there)]


def cycles_at(tick: int, here: Sequence[Cell], there: Sequence[Cell]) -> Iterator[Cycle]:
    """The full cycles of a tick, of which these are the cells at it and at the next one."""
    moving = {cell: agent for agent, cell in enumerate(here) if there[agent] != cell}
    seen: set[int] = set()
    for first in moving.values():
        chain: list[int] = []
        agent: int | None = first
        while agent is not None and agent not in seen:
            seen.add(agent)
            chain.append(agent)
            agent = moving.get(there[agent])
        if chain and agent == first:
            yield Cycle(tick, tuple(chain))
