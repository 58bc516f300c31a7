"""Certificates that a search wouldn't write: well formed, true, and long or lopsided in one way each."""

from dataclasses import dataclass

@dataclass(frozen=True)
class Rest:
    """Agents that rest beside each other in one row, the first of them in the first cell, and a certificate that
    no plan costs less than 0."""

    name: str
    agents: int
    width: int
    tree: bytes
    wanted = b"optimal 0\n"        # What `check` has to print.
    used_bytes = 0                 # It has no uses of lemmas.

    def map(self):
        return b"type octile\nheight 1\nwidth %d\nmap\n%s\n" % (self.width, b"." * self.width)

    def scen(self):
        rows = (b"0 rest.map %d 1 %d 0 %d 0 0\n" % (self.width, x, x) for x in range(self.agents))
        return b"version 1\n" + b"".join(rows)

    def plan(self):
        paths = (b"path %d 0 %d,0\n" % (x, x) for x in range(self.agents))
        return b"mapf-plan 1\nagents %d\ncost 0\n" % self.agents + b"".join(paths) + b"end\n"

    def certificate(self):
        return b"mapf-cert 2\nagents %d\nclaim cost 0\n" % self.agents + self.tree + b"end\n"


# The last tick at which a split may bar an agent.
LAST_TICK = 999_999


def nested(splits):
    """A tree in which the left child of each split is the next one."""
    return b"".join(splits) + b"leaf 0\n" * (len(splits) + 1)


def vertex(i, j, x, tick, blocks=0):
    return b"vertex %d %d %d,0 %d %d\n" % (i, j, x, tick, blocks)


def late_bar(agent, agents):
    """A split whose left child bars the agent's goal at the last tick, so that at each tick before a label of one
    more than the distance is sound wherever the next tick has such labels too."""
    return vertex(agent, (agent + 1) % agents, agent, LAST_TICK)


def block(agent, entries):
    """A block of entries, each a cell's place in the row, a tick and a label."""
    return b"agent %d %d\n" % (agent, len(entries)) + b"".join(b"at %d,0 %d %d\n" % entry for entry in entries)


def splits_on_one_bar(count):
    """The same split again and again."""
    return Rest("splits on one bar", 2, 2, nested([vertex(0, 1, 0, 7)] * count))


def splits_at_all_ticks(count):
    """A tick of its own for each split, on one cell and agent."""
    return Rest("splits at all ticks", 2, 2, nested([vertex(0, 1, 0, tick) for tick in range(count)]))


def splits_in_all_cells(count):
    """A cell of its own for each split, as far as there are cells, on one tick."""
    return Rest("splits in all cells", 2, 2048, nested([vertex(0, 1, at % 2048, 7) for at in range(count)]))


def splits_of_alternating_agents(count):
    """The agent that is barred on the way changes from split to split."""
    splits = [vertex(at % 2, 1 - at % 2, 0, at) for at in range(count)]
    return Rest("splits of alternating agents", 2, 2, nested(splits))


def splits_with_an_entry(count):
    """A block of one entry at each split."""
    splits = [vertex(0, 1, 1, tick, 1) + block(0, [(0, tick, 1)]) for tick in range(count)]
    return Rest("splits with an entry", 2, 2, nested([late_bar(0, 2), *splits]))


def splits_with_one_block(count, entries):
    """The same block at each split."""
    same = block(0, [(0, tick, 1) for tick in range(entries)])
    splits = [vertex(0, 1, 1, tick, 1) + same for tick in range(count)]
    return Rest("splits with one block", 2, 2, nested([late_bar(0, 2), *splits]))


def splits_with_a_block_of_each_agent(count, agents):
    """A block of each agent at each split."""
    blocks = b"".join(block(agent, [(agent, 0, 1)]) for agent in range(agents))
    bars = [late_bar(agent, agents) for agent in range(agents)]
    splits = [vertex(0, 1, 0, tick, agents) + blocks for tick in range(count)]
    return Rest("splits with a block of each agent", agents, agents, nested([*bars, *splits]))


def leaf_of_entries(ticks, width):
    """One leaf with a block of an entry for each cell and tick, but where the last ticks leave no later one."""
    entries = [(x, tick, x + 1) for tick in range(ticks) for x in range(min(width, ticks - tick))]
    tree = late_bar(0, 2) + b"leaf 1\n" + block(0, entries) + b"leaf 0\n"
    return Rest("a leaf of entries", 2, width, tree)


def all_certificates():
    yield splits_on_one_bar(1_000_000)
    yield splits_at_all_ticks(1_000_000)
    yield splits_in_all_cells(1_000_000)
    yield splits_of_alternating_agents(1_000_000)
    yield splits_with_an_entry(1_000_000)
    yield splits_with_one_block(20_000, 100)
    yield splits_with_a_block_of_each_agent(5_000, 200)
    yield leaf_of_entries(750_000, 4)
