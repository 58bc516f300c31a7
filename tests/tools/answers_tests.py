"""Tries what the tools share of plans, without the program: large answers in each format, and the faults of a plan,
which are told here once more from the rules.
"""

import random
import subprocess
import sys
import tempfile
from pathlib import Path

from harness import TESTS

from mapf.tools.answers import as_plan_text, read_answer
from mapf.tools.plans import Agent, Grid, faults_of
from mapf.tools.process import ToolError
from mapf.tools.texts import plan_text

PYTHON = TESTS.parent / "python"

# Two agents go to and fro for so many ticks. Of each format a file has some 5 MB, and is read with so much memory.
TICKS = 200_000
MOST_BYTES = 256 << 20

# Starts of two agents, on which no answer depends here.
STARTS = [(0, 0), (0, 1)]

# Reads an answer of two agents with little memory, and prints the sum of the ticks and the last cells.
READS = ("import resource, sys; resource.setrlimit(resource.RLIMIT_AS, (int(sys.argv[2]),) * 2); "
         "from mapf.tools.answers import read_answer; paths = read_answer(sys.argv[1], [(0, 0), (0, 1)]); "
         "print(sum(map(len, paths)), *(path[-1] for path in paths))")


def tests(tally):
    with tempfile.TemporaryDirectory() as name:
        folder = Path(name)
        for title, text in large_answers().items():
            tally.add(f"answers, a large one, {title}", large_faults(folder, text))
        tally.add("answers, a number of very many digits", digits_faults(folder))
        tally.add("answers, as plan texts", plan_faults(folder))
    tally.add("answers, the faults of a plan", faults_that_differ())


# Formats.

def spelled(paths):
    """The paths in each format, as tools/verify --help shows these."""
    ticks = range(max(map(len, paths)))
    entry = "    - x: {}\n      y: {}\n      t: {}\n"
    return {
        "paths": "".join(f"Agent {agent}: " + "".join(f"({y},{x})->" for x, y in path) + "\n"
                         for agent, path in enumerate(paths)),
        "lacam": "solution=\n" + "".join(
            f"{tick}:" + "".join("({},{}),".format(*path[min(tick, len(path) - 1)]) for path in paths) + "\n"
            for tick in ticks),
        "yaml": "schedule:\n" + "".join(
            f"  agent{agent}:\n" + "".join(entry.format(x, y, tick) for tick, (x, y) in enumerate(path))
            for agent, path in enumerate(paths)),
        "plan": f"mapf-plan 2\nagents {len(paths)}\ncost {sum(len(path) - 1 for path in paths)}\n" + "".join(
            f"path {agent} {len(path) - 1} " + " ".join(f"{x},{y}" for x, y in path) + "\n"
            for agent, path in enumerate(paths)) + "end\n",
    }


def large_answers():
    return spelled([[(tick % 2, row) for tick in range(TICKS)] for row in (0, 1)])


def large_faults(folder, text):
    path = folder / "large"
    path.write_text(text)
    ended = subprocess.run([sys.executable, "-c", READS, str(path), str(MOST_BYTES)], cwd=PYTHON, capture_output=True,
                           text=True)
    wanted = f"{2 * TICKS} (1, 0) (1, 1)\n"
    return [] if ended.stdout == wanted else [f"{len(text)} bytes: {ended.stdout!r}, {ended.stderr[-200:]!r}"]


def digits_faults(folder):
    """More digits than Python makes a number of: a line says that none stands there."""
    many = "1" * 5000
    faults = []
    for text in (f"Agent 0: ({many},0)->\n", f"solution=\n0:({many},0),\n", f"mapf-plan 2\nagents {many}\n",
                 f"mapf-plan 2\nagents 1\ncost {many}\n", f"mapf-plan 2\nagents 1\ncost 0\npath 0 0 {many},0\nend\n",
                 f"schedule:\n  agent0:\n    - x: {many}\n      y: 0\n      t: 0\n"):
        (folder / "digits").write_text(text)
        try:
            faults.append(f"{text[:40]} is {read_answer(folder / 'digits', [(0, 0)])}")
        except ToolError as error:
            faults += [] if len(str(error)) < 400 else [f"{text[:40]} has an error of {len(str(error))} letters"]
    return faults


def plan_faults(folder):
    """Each format gives the same plan text, and other bytes stay as they are."""
    paths = [[(0, 1), (0, 1), (1, 1)], [(5, 5), (5, 4)]]
    texts = spelled(paths)
    faults = [name for name, text in texts.items()
              if as_plan_text(name, text.encode(), STARTS).decode() != texts["plan"]]
    if plan_text(paths) != texts["plan"]:
        faults.append("the plan text differs")
    for data in (b"", b"\n", b"#\n", b"mapf-plan 3\n", b"\xff\x00", b"version 1\n"):
        faults += [] if as_plan_text("data", data, STARTS) == data else [f"{data} becomes another text"]
    return faults


# Faults.

def faults_that_differ():
    """On small plans drawn at random the faults are those of the rules, in the order that is told."""
    draw = random.Random(16)
    faults = []
    for _ in range(400):
        grid = Grid(4, 3, ["".join(draw.choice("...@") for _ in range(4)) for _ in range(3)])
        paths = [wander(draw) for _ in range(draw.randint(1, 5))]
        agents = [Agent(draw.choice(path), draw.choice(path)) for path in paths]
        found = [(fault.kind, fault.agents, fault.tick) for fault in faults_of(grid, agents, paths)]
        wanted = [*wrong_paths(grid, agents, paths), *conflicts(paths)]
        faults += [] if found == wanted else [f"{paths}: {found}, wanted {wanted}"]
    return faults[:3]


def wander(draw):
    path = [(draw.randint(0, 3), draw.randint(0, 2))]
    for _ in range(draw.randint(0, 8)):
        dx, dy = draw.choice([(0, 0), (1, 0), (-1, 0), (0, 1), (0, -1), (0, 0), (1, 1)])
        path.append((path[-1][0] + dx, path[-1][1] + dy))
    return path


def wrong_paths(grid, agents, paths):
    for number, (agent, path) in enumerate(zip(agents, paths)):
        if path[0] != agent.start:
            yield "start", (number,), 0
        for tick in range(len(path) - 1):
            (x, y), (to_x, to_y) = path[tick:tick + 2]
            is_free = 0 <= to_x < grid.width and 0 <= to_y < grid.height and grid.rows[to_y][to_x] == "."
            if not is_free or abs(x - to_x) + abs(y - to_y) > 1:
                yield "step", (number,), tick
        if path[-1] != agent.goal:
            yield "end", (number,), len(path) - 1


def conflicts(paths):
    def at(agent, tick):
        return paths[agent][min(tick, len(paths[agent]) - 1)]

    pairs = [(one, other) for one in range(len(paths)) for other in range(one + 1, len(paths))]
    for tick in range(max(map(len, paths))):
        yield from (("vertex", pair, tick) for pair in pairs if at(pair[0], tick) == at(pair[1], tick))
        for one, other in pairs:
            is_move = at(one, tick) != at(one, tick + 1)
            if is_move and (at(one, tick), at(one, tick + 1)) == (at(other, tick + 1), at(other, tick)):
                yield "swap", (one, other), tick
