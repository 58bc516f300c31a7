"""The small problems on which plant_faults tries a search: some of cases/, some examples, and drawn ones."""

from dataclasses import dataclass
from importlib.machinery import SourceFileLoader
from types import ModuleType

from harness import TESTS, Case

EXAMPLES = TESTS.parent / "examples"

# The script that draws maps and scenarios.
MADE = ModuleType("make_examples")
SourceFileLoader("make_examples", str(EXAMPLES / "make_examples")).exec_module(MADE)

# With so many splits either search solves each of these problems of fewer than 13 agents that has a valid plan.
AMPLE = 100

# Cases of `solve`: tiny problems, those without a valid plan among them, at limits of 0 and up.
CASES = ["search-cbsh-alone", "search-cbsh-shared-goal", "search-cbsh-wall", "search-cbsh-without-splits",
         "solve-corridor", "solve-crossing", "solve-niche", "solve-rotation", "solve-seventeen-agents-replanned",
         "solve-shared-start", "solve-shared-start-without-splits"]

# Examples, each with its number of agents and a limit.
SOLVED = [("empty-8-8", 6, AMPLE), ("random-32-32", 8, AMPLE)]

MAPS = {
    "maze": """
        .........
        .@.@@@.@.
        .@...@.@.
        .@@@.@.@.
        .........
        .@.@.@@@.
        .@.@...@.
        .@.@@@.@.
        .........""",
    "corridors": """
        @.@@.@@.@
        .........
        @.@@@@@.@
        .........
        @@@.@@.@@
        .........
        @.@@@.@@@""",
    "rooms": """
        ...@...
        ...@...
        .......
        ...@...
        @@.@@.@
        ...@...
        .......""",
    "pillars": """
        .....
        .@.@.
        .@...
        .@.@.
        .....""",
}

# Drawn problems: a map, the number of agents, the seed of starts and goals, and the limit.
DRAWN = [("open", 8, 2, AMPLE), ("open", 8, 2, 1), ("open", 10, 2, AMPLE), ("open", 10, 2, 0),
         ("random", 4, 1, AMPLE), ("random", 4, 1, 5), ("random", 4, 1, 2), ("random", 8, 1, AMPLE),
         ("random", 8, 1, 0), ("random", 10, 1, AMPLE), ("random", 10, 2, AMPLE), ("random", 10, 2, 2),
         ("maze", 5, 1, AMPLE), ("maze", 5, 1, 5), ("maze", 6, 2, AMPLE), ("maze", 6, 3, AMPLE), ("maze", 6, 3, 1),
         ("corridors", 3, 1, AMPLE), ("corridors", 3, 1, 2), ("corridors", 4, 2, AMPLE), ("corridors", 5, 1, AMPLE)]

# More agents, of which the second search searches groups by themselves, or packs what they cost more together. Each
# takes `rt try` some seconds at most.
CROWDED = [("open", 13, 1, AMPLE), ("open", 15, 1, AMPLE), ("open", 16, 3, AMPLE), ("open", 18, 1, AMPLE),
           ("random", 13, 4, AMPLE), ("random", 14, 1, AMPLE), ("random", 15, 2, AMPLE), ("random", 16, 3, AMPLE),
           ("rooms", 9, 3, AMPLE), ("rooms", 10, 5, AMPLE), ("pillars", 6, 3, AMPLE),
           ("small", 12, 5, AMPLE), ("dense", 8, 5, AMPLE)]

# At once at the limit, so that prices are tried. On each of these grids, of at most 49 cells, they show more than pairs
# and groups do.
PRICED = [("small", 9, 1, 0), ("small", 12, 5, 0), ("small", 12, 6, 0), ("dense", 7, 3, 0), ("dense", 7, 4, 0),
          ("rooms", 5, 1, 0), ("rooms", 5, 6, 0), ("pillars", 5, 1, 0), ("pillars", 5, 3, 0), ("open", 18, 1, 0)]


@dataclass(frozen=True)
class Problem:
    """The texts of a call of `solve`, and its numbers."""

    name: str
    grid: str
    scenario: str
    agents: int
    limit: int

    def put(self, folder, height=0):
        """Writes both files. If a height is named, rows of blocked cells below the others fill the map up to it."""
        folder.mkdir()
        grid, scenario = (self.grid, self.scenario) if height == 0 else self.filled(height)
        (folder / "map").write_text(grid)
        (folder / "scen").write_text(scenario)

    def filled(self, height):
        rows = self.grid.split("map\n")[1].splitlines()
        rows += ["@" * len(rows[0])] * (height - len(rows))
        title, *lines = self.scenario.splitlines()
        lines = ["\t".join([*words[:3], str(height), *words[4:]]) for words in map(str.split, lines)]
        return MADE.map_text(rows), "\n".join([title, *lines, ""])


def problems():
    return [*(problem_of(Case(TESTS / "cases" / name)) for name in CASES), *(example(*words) for words in SOLVED),
            *drawn_problems(DRAWN + CROWDED), *priced_problems()]


def priced_problems():
    return drawn_problems(PRICED)


def drawn_problems(listed):
    maps = {name: text.split() for name, text in MAPS.items()}
    maps |= {"open": MADE.empty(8, 8), "random": MADE.random_obstacles(8, 8, 20, MADE.Numbers(8))}
    maps |= {"small": MADE.empty(5, 5), "dense": MADE.random_obstacles(6, 6, 20, MADE.Numbers(8))}
    return [drawn(maps[name], name, *numbers) for name, *numbers in listed]


def problem_of(case):
    """The problem of a case, of whose words the numbers are those of agents and splits."""
    agents, limit = (int(word) for word in case.words if word.isdigit())
    return Problem(case.name, (case.folder / "map").read_text(), (case.folder / "scen").read_text(), agents, limit)


def example(name, agents, limit):
    texts = ((EXAMPLES / f"{name}.{ending}").read_text() for ending in ("map", "scen"))
    return Problem(f"{name}, {agents} agents", *texts, agents, limit)


def drawn(rows, name, agents, seed, limit):
    scenario = MADE.scenario_text(name, rows, agents, MADE.Numbers(1000 * seed + agents))
    return Problem(f"{name} {seed}, {agents} agents, limit {limit}", MADE.map_text(rows), scenario, agents, limit)
