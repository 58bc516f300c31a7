"""Certificates of version 3 that a search wouldn't write: well formed, true, and long or lopsided in one way each."""

from dataclasses import dataclass, replace
from itertools import combinations


@dataclass(frozen=True)
class Made:
    """Agents on an open grid with a cheapest plan, or without a plan, and what follows the claim in a certificate of
    that."""

    name: str
    width: int
    height: int
    paths: list[list[tuple[int, int]]]
    parts: bytes
    is_possible: bool = True
    # A use counts as the bytes of its lemma's constraints: how many bytes all uses count.
    used_bytes: int = 0

    @property
    def agents(self):
        return len(self.paths)

    @property
    def wanted(self):
        """What `check` has to print."""
        return b"optimal %d\n" % self.cost() if self.is_possible else b"impossible\n"

    def cost(self):
        return sum(len(path) - 1 for path in self.paths)

    def map(self):
        return b"type octile\nheight %d\nwidth %d\nmap\n" % (self.height, self.width) + self.rows()

    def rows(self):
        return (b"." * self.width + b"\n") * self.height

    def scen(self):
        rows = (b"0 made.map %d %d %d %d %d %d 0\n" % (self.width, self.height, *path[0], *path[-1])
                for path in self.paths)
        return b"version 1\n" + b"".join(rows)

    def plan(self):
        answer = b"impossible\n"
        if self.is_possible:
            paths = (b"path %d %d %s\n" % (agent, len(path) - 1, b" ".join(b"%d,%d" % cell for cell in path))
                     for agent, path in enumerate(self.paths))
            answer = b"cost %d\n" % self.cost() + b"".join(paths)
        return b"mapf-plan 2\nagents %d\n" % self.agents + answer + b"end\n"

    def certificate(self):
        claim = b"cost %d" % self.cost() if self.is_possible else b"impossible"
        return b"mapf-cert 3\nagents %d\nclaim %s\n" % (self.agents, claim) + self.parts + b"end\n"


# The greatest number of agents, and of pairs of them that share no agent.
AGENTS = 200
PAIRS = AGENTS // 2

LEAF = b"leaf 0 0 -\n"

# The last tick of a constraint and of a price.
LAST_TICK = 999_999


def crowd(name, agents, parts, side=None):
    """Agents below each other, of which each goes one cell to the right. So their distances are their costs."""
    paths = [[(0, y), (1, y)] for y in range(agents)]
    return Made(name, side or 2, side or agents, paths, parts)


def parts_of(lemmas, tree, lists=()):
    """What follows the claim: lists, lemmas and the tree."""
    return (b"prices %d\n" % len(lists) + b"".join(lists) + b"lemmas %d\n" % len(lemmas) + b"".join(lemmas) + tree)


def tree_of(leaves):
    """A tree with these leaves, in which the left child of each split is the next one."""
    splits = (b"vertex 0 1 0,0 %d\n" % tick for tick in range(len(leaves) - 1))
    return b"".join(splits) + b"".join(leaves)


def one(agent, constraints=(), entries=(), prices=b"-"):
    head = b"one %d %d %d %s\n" % (agent, len(constraints), len(entries), prices)
    return head + b"".join(constraints) + b"".join(entries)


def two(i, j):
    return b"two %d %d 0 0 0 0 -\n" % (i, j)


def cases(agents, bound, tree=LEAF, constraints=()):
    lines = (b"agent %d\n" % agent for agent in agents)
    return (b"cases %d %d %d\n" % (len(agents), len(constraints), bound) + b"".join(lines) + b"".join(constraints)
            + tree)


def group(divisor, uses):
    return b"group %d %d\n" % (len(uses), divisor) + b"".join(b"use %d %d\n" % use for use in uses)


def bars(agent, x, y, count):
    """So many constraints that keep an agent from a cell, at the first ticks."""
    return [b"not %d %d,%d %d\n" % (agent, x, y, tick) for tick in range(count)]


# Labels and joint cells.

def entries_at_all_joint_states(side, ticks):
    """Two agents and an entry of 1 at each joint state of so many ticks, where it is sound."""
    cells = [(x, y) for y in range(side) for x in range(side)]
    goals = (1, 0), (1, 1)
    joint = [(u, v) for u in cells for v in cells if u != v and (u, v) != goals]
    entries = []
    for tick in range(ticks):
        entries += [b"at %d,%d %d,%d %d 1\n" % (*u, *v, tick) for u, v in joint]
        entries += [b"at * %d,%d %d 1\n" % (*v, tick) for v in cells if v != goals[1]]
        entries += [b"at %d,%d * %d 1\n" % (*u, tick) for u in cells if u != goals[0]]
    lemma = b"two 0 1 0 0 0 %d -\n" % len(entries) + b"".join(entries)
    return crowd("entries at all joint states", 2, parts_of([lemma], LEAF), side)


def entries_under_many_constraints(count):
    """One agent with as many constraints as a lemma has, and entries at its goal, on which one of them comes last."""
    constraints = [*bars(0, 0, 1, 999), b"not 0 1,0 %d\n" % LAST_TICK]
    entries = [b"at 1,0 %d 1\n" % tick for tick in range(count)]
    return crowd("entries under many constraints", 2, parts_of([one(0, constraints, entries)], LEAF))


def entries_above_many_prices(count):
    """A price at each tick, and entries at the goal that have prices after them."""
    prices = b"list 1 %d\n" % (count + 1) + b"".join(b"price 1,0 %d 1\n" % tick for tick in range(count + 1))
    entries = [b"at 1,0 %d 1\n" % tick for tick in range(count)]
    return crowd("entries above many prices", 2, parts_of([one(0, (), entries, b"0")], LEAF, [prices]))


def joint_cells_of_a_corridor(width):
    """Two agents that would have to pass each other in a corridor, and all joint cells that they can reach."""
    lines = [b"cells %d,0 %d,0\n" % cells for cells in combinations(range(width), 2)]
    never = b"never 0 1 %d\n" % len(lines) + b"".join(lines)
    ends = [[(0, 0), (width - 1, 0)], [(width - 1, 0), (0, 0)]]
    tree = b"leaf 0 1 -\n" + group(1, [(0, 1)])
    return Made("joint cells of a corridor", width, 1, ends, parts_of([never], tree), False)


# Many lemmas.

def small_lemmas(count):
    """Lemmas of one line."""
    return crowd("small lemmas", 2, parts_of([one(0)] * count, LEAF))


def small_lemmas_of_two_agents(count):
    """Lemmas of two agents, of one line."""
    return crowd("small lemmas of two agents", 2, parts_of([two(0, 1)] * count, LEAF))


def small_lemmas_with_a_long_list(prices, count):
    """Lemmas of one line that name a long price list."""
    listed = b"list 1 %d\n" % prices + b"".join(b"price 0,1 %d 1\n" % tick for tick in range(prices))
    return crowd("small lemmas with a long list", 2, parts_of([one(0, prices=b"0")] * count, LEAF, [listed]))


def small_cases(count):
    """Lemmas by cases with one leaf each."""
    return crowd("small cases", 2, parts_of([cases([0], 1)] * count, LEAF))


def cases_by_cases(count):
    """Lemmas by cases, each of which uses the one before it."""
    lemmas = [cases([0], 1, b"leaf 1 0 -\nuse %d\n" % (number - 1) if number else LEAF) for number in range(count)]
    return crowd("cases by cases", 2, parts_of(lemmas, b"leaf 1 0 -\nuse %d\n" % (count - 1)))


# Trees.

def leaves_of_many_agents(count):
    """Leaves without uses, of as many agents as there may be."""
    return crowd("leaves of many agents", AGENTS, parts_of([], tree_of([LEAF] * count)))


def leaves_with_uses_of_each_agent(count):
    """Leaves with a use of each agent outside groups and one in a group."""
    lemmas = [one(agent) for agent in range(AGENTS)]
    uses = b"".join(b"use %d\n" % agent for agent in range(AGENTS))
    leaf = b"leaf %d 1 -\n" % AGENTS + uses + group(1000, [(agent, 1000) for agent in range(AGENTS)])
    return crowd("leaves with uses of each agent", AGENTS, parts_of(lemmas, tree_of([leaf] * count)))


def uses_under_many_constraints(count):
    """Leaves that use a lemma with as many constraints as it may have."""
    constraints = bars(0, 1, 1, 1000)
    tree = tree_of([b"leaf 1 0 -\nuse 0\n"] * count)
    lemmas = [one(0, constraints), cases([0], 1, tree, constraints)]
    made = crowd("uses under many constraints", 2, parts_of(lemmas, LEAF))
    return replace(made, used_bytes=count * len(b"".join(constraints)))


def uses_of_what_another_agent_clears(count):
    """Many agents with one goal, and leaves that use a lemma under many constraints. The last agent's arrival at the
    goal meets all of these.
    """
    ends = [[(0, y), (1, 0)] for y in range(AGENTS)]
    constraints = [b"clear 0 1,0 %d\n" % tick for tick in range(500)] + bars(0, 1, 0, 500)
    tree = b"cost %d 0\n" % (AGENTS - 1) + tree_of([b"leaf 1 0 -\nuse 0\n"] * count) + LEAF
    parts = parts_of([one(0, constraints), cases([0], 1, tree)], b"clash 0 1\n")
    used_bytes = count * len(b"".join(constraints))
    return Made("uses of what another agent clears", 2, AGENTS, ends, parts, False, used_bytes)


def splits_on_a_cost(count):
    """Splits on the cost of one of many agents, each of which says something of all others."""
    splits = b"".join(b"cost 0 %d\n" % (count - at) for at in range(count))
    return crowd("splits on a cost", AGENTS, parts_of([], splits + LEAF * (count + 1)))


def splits_on_two_costs(count):
    """Splits on the costs of two agents."""
    return crowd("splits on two costs", 2, parts_of([two(0, 1)], b"costs 0 1 1 1 0\n" * count + LEAF * (count + 1)))


# Groups.

def pairs_of_agents():
    return [two(2 * at, 2 * at + 1) for at in range(PAIRS)]


def groups_of_pairs(count):
    """Leaves with a group of pairs that share no agent, with the greatest divisor and weights."""
    leaf = b"leaf 0 1 -\n" + group(1000, [(at, 1000) for at in range(PAIRS)])
    return crowd("groups of pairs", AGENTS, parts_of(pairs_of_agents(), tree_of([leaf] * count)))


def groups_of_one_pair_each(count):
    """Leaves with a group for each of these pairs."""
    groups = b"".join(group(1000, [(at, 1000)]) for at in range(PAIRS))
    leaf = b"leaf 0 %d -\n" % PAIRS + groups
    return crowd("groups of one pair each", AGENTS, parts_of(pairs_of_agents(), tree_of([leaf] * count)))


def groups_of_all_pairs(count):
    """Leaves with a group of all pairs of agents."""
    lemmas = [two(i, j) for i, j in combinations(range(AGENTS), 2)]
    leaf = b"leaf 0 1 -\n" + group(1000, [(at, 5) for at in range(len(lemmas))])
    return crowd("groups of all pairs", AGENTS, parts_of(lemmas, tree_of([leaf] * count)))


def groups_of_lemmas_of_all_agents(lemma_count, count):
    """Leaves with a group of lemmas by cases, each of all agents."""
    lemmas = [cases(range(AGENTS), AGENTS)] * lemma_count
    leaf = b"leaf 0 1 -\n" + group(1000, [(at, 1) for at in range(lemma_count)])
    return crowd("groups of lemmas of all agents", AGENTS, parts_of(lemmas, tree_of([leaf] * count)))


def all_lemma_certificates():
    yield entries_at_all_joint_states(5, 200)
    yield entries_under_many_constraints(100_000)
    yield entries_above_many_prices(100_000)
    yield joint_cells_of_a_corridor(400)
    yield small_lemmas(1_000_000)
    yield small_lemmas_of_two_agents(200_000)
    yield small_lemmas_with_a_long_list(100_000, 100_000)
    yield small_cases(100_000)
    yield cases_by_cases(100_000)
    yield leaves_of_many_agents(100_000)
    yield leaves_with_uses_of_each_agent(500)
    yield uses_under_many_constraints(20_000)
    yield uses_of_what_another_agent_clears(20_000)
    yield splits_on_a_cost(100_000)
    yield splits_on_two_costs(100_000)
    yield groups_of_pairs(1_000)
    yield groups_of_one_pair_each(500)
    yield groups_of_all_pairs(10)
    yield groups_of_lemmas_of_all_agents(1_000, 100)
