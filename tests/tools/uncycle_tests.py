"""Tries tools/uncycle on problems made by hand, of which it is known what is left, and on plans drawn by lot: what it
writes is valid by `mapf play`, and agents which follow it by `mapf dispatch` come to their ends.
"""

import os
import random
import subprocess
import sys
import tempfile
from pathlib import Path

from harness import TESTS
from sweep_bench import map_text

UNCYCLE = TESTS.parent / "tools" / "uncycle"
CROSSING = TESTS / "cases" / "solve-crossing"

# Four agents that move round a square.
SQUARE = [[(0, 0), (1, 0)], [(1, 0), (1, 1)], [(1, 1), (0, 1)], [(0, 1), (0, 0)]]

# With two free cells beside it, agent 1 alone can go round by them: after the first tick all others are at their goals.
WIDE = ["...", "..."]
ROUND = [SQUARE[0], [(1, 0), (2, 0), (2, 1), (1, 1)], *SQUARE[2:]]

# With one, the free cell and the agents move as in the 15 puzzle: the free cell comes back after an even number of
# moves, and the agents move round the square by an odd permutation.
NARROW = ["..@", "..."]

# A part of the map that is full, beside one that isn't.
FULL = ["..@..", "..@.."]

# Agents in a row, each of which goes where the next one was: this is no full cycle.
ROW = [[(x, 0), (x + 1, 0), (x + 2, 0)] for x in (2, 1, 0)]

# How many plans are drawn, of so many agents on a square of this side, in so many ticks.
DRAWN, AGENTS, SIDE, TICKS = 25, 12, 5, 6


def tests(tally):
    with tempfile.TemporaryDirectory() as name:
        folder = Path(name)
        for title, (rows, paths, status, wanted, said) in by_hand().items():
            tally.add(f"uncycle, {title}", hand_faults(folder, rows, paths, status, wanted, said))
        for title, faults in refusals(folder).items():
            tally.add(f"uncycle, {title}", faults)
        numbers = random.Random(7)
        stuck_before = 0
        for number in range(DRAWN):
            rows, paths = drawn(numbers)
            stuck_before += bool(stuck(paths))
            tally.add(f"uncycle, drawn plan {number}", drawn_faults(folder, rows, paths))
        few = [] if 2 * stuck_before > DRAWN else [f"in {stuck_before} of {DRAWN} plans agents wait for ever"]
        tally.add("uncycle, the plans that are drawn", few)


def by_hand():
    """The map, the paths, the status, the paths that are left, and what is said."""
    return {
        "a square with room beside it": (WIDE, SQUARE, 0, ROUND, "before: 1; sum of costs: 4 before, 6 now"),
        "a square with one free cell": (NARROW, SQUARE, 1, None, "no way to do without all of them was found"),
        "a full map": (["..", ".."], SQUARE, 1, None, "no cell is free around agent 0"),
        "a full part of a map": (FULL, SQUARE, 1, None, "no cell is free around agent 0"),
        "a row": (["....."], ROW, 0, ROW, "full cycles before: 0; sum of costs: 6 before, 6 now"),
        "agents that are at their goals": (WIDE, [[(0, 0)], [(1, 0)]], 0, [[(0, 0)], [(1, 0)]], "0 before, 0 now"),
    }


def hand_faults(folder, rows, paths, status, wanted, said):
    ended = uncycled(written(folder, rows, paths))
    text = "" if wanted is None else text_of(wanted)
    is_right = ended.returncode == status and ended.stdout == text and said in ended.stderr
    return [] if is_right and ended.stderr.count("\n") == 1 else [
        f"status {ended.returncode}, {ended.stdout!r}, {ended.stderr!r}"]


def refusals(folder):
    """What is told of a plan that isn't valid, of a file that can't be written, and of an answer in another format."""
    given = written(folder, WIDE, SQUARE)
    met = [str(CROSSING / "map"), str(CROSSING / "scen"), "2", str(folder / "met")]
    (folder / "met").write_text(text_of([[(0, 1), (1, 1), (2, 1)], [(1, 0), (1, 1), (1, 2)]]))
    asked = {
        "a plan that isn't valid": (met, 2, "", "isn't valid, agents 0 and 1 are both in (1,1) at tick 1"),
        "--out in no folder": ([*given, "--out", str(folder / "none" / "left")], 2, "", "can't be written"),
        "--out": ([*given, "--out", str(folder / "left")], 0, "", "sum of costs: 4 before, 6 now"),
        "moves": ([*given[:2], "2", moves_in(folder)], 0, text_of(SQUARE[:2]), "full cycles before: 0"),
        "no plan": (given[:3], 2, "", "usage: "),
    }
    found = {}
    for title, (words, status, out, said) in asked.items():
        ended = uncycled(words)
        is_right = ended.returncode == status and ended.stdout == out and said in ended.stderr
        found[title] = [] if is_right else [f"status {ended.returncode}, {ended.stdout!r}, {ended.stderr!r}"]
    found["--out"] += [] if (folder / "left").read_text() == text_of(ROUND) else ["another text is written"]
    return found


def moves_in(folder):
    """An answer as moves: the first agent goes to the right, and the second down."""
    (folder / "moves").write_text("r\nd\n")
    return str(folder / "moves")


# Texts and calls.

def written(folder, rows, paths):
    """The words that name a problem and its plan, in files of this folder."""
    lines = [f"0 a.map {len(rows[0])} {len(rows)} {path[0][0]} {path[0][1]} {path[-1][0]} {path[-1][1]} 0"
             for path in paths]
    (folder / "map").write_text(map_text(rows))
    (folder / "scen").write_text("\n".join(["version 1", *lines, ""]))
    (folder / "plan").write_text(text_of(paths))
    return [str(folder / "map"), str(folder / "scen"), str(len(paths)), str(folder / "plan")]


def text_of(paths):
    """The plan text, told here once more."""
    lines = [f"path {agent} {len(path) - 1} {' '.join(f'{x},{y}' for x, y in path)}"
             for agent, path in enumerate(paths)]
    return "\n".join(["mapf-plan 2", f"agents {len(paths)}", f"cost {sum(len(path) - 1 for path in paths)}", *lines,
                      "end", ""])


def paths_in(text):
    return [[tuple(map(int, cell.split(","))) for cell in line.split()[3:]]
            for line in text.splitlines() if line.startswith("path ")]


def uncycled(words):
    return subprocess.run([sys.executable, str(UNCYCLE), *words], stdin=subprocess.DEVNULL, capture_output=True,
                          text=True)


# Plans that are drawn.

def drawn(numbers):
    """A map of free cells and a valid plan: at each tick some squares of four agents turn, and others go into cells
    that were free before."""
    cells = [(x, y) for x in range(SIDE) for y in range(SIDE)]
    paths = [[cell] for cell in numbers.sample(cells, AGENTS)]
    for _ in range(TICKS):
        here = {path[-1]: path for path in paths}
        there = turned(numbers, here)
        for cell in numbers.sample(sorted(here), AGENTS):
            free = [other for other in beside(cell) if other not in here and other not in there.values()]
            if cell not in there:
                there[cell] = numbers.choice(free) if free and numbers.random() < 0.6 else cell
        for cell, path in here.items():
            path.append(there[cell])
    return ["." * SIDE] * SIDE, [without_waits(path) for path in paths]


def turned(numbers, here):
    """Where the agents of some squares go, each of which turns one way or the other."""
    there = {}
    for _ in range(12):
        x, y = numbers.randrange(SIDE - 1), numbers.randrange(SIDE - 1)
        square = [(x, y), (x + 1, y), (x + 1, y + 1), (x, y + 1)][::numbers.choice((1, -1))]
        if all(cell in here and cell not in there for cell in square):
            there.update(zip(square, square[1:] + square[:1]))
    return there


def beside(cell):
    x, y = cell
    found = [(x + 1, y), (x - 1, y), (x, y + 1), (x, y - 1)]
    return [(x, y) for x, y in found if 0 <= x < SIDE and 0 <= y < SIDE]


def without_waits(path):
    while len(path) > 1 and path[-1] == path[-2]:
        path = path[:-1]
    return path


def drawn_faults(folder, rows, paths):
    """What is wrong with what is written of a plan that is drawn, which has room enough."""
    words = written(folder, rows, paths)
    ended = uncycled(words)
    if ended.returncode != 0:
        return [f"status {ended.returncode}, {ended.stderr!r}"]
    left = paths_in(ended.stdout)
    (folder / "plan").write_text(ended.stdout)
    played = mapf("play", *words)
    cost = sum(len(path) - 1 for path in left)
    faults = [] if played.returncode == 0 else [f"mapf play says {played.stderr!r}"]
    faults += [] if ended.stderr.endswith(f" before, {cost} now\n") else [f"{ended.stderr!r} isn't the cost"]
    faults += [] if uncycled(words).stdout == ended.stdout else ["the second time it changes"]
    return faults + [f"agents {stuck(left)} wait for ever"] * bool(stuck(left)) + follow_faults(folder, words, left)


def follow_faults(folder, words, paths):
    """All agents ask in turn, in more rounds than there are moves, and in the last round all are at their ends."""
    rounds = sum(len(path) for path in paths)
    asking = "".join(f"{agent}\n" for agent in range(len(paths))) * rounds
    (folder / "events").write_text(f"mapf-events 1\n{asking}end\n")
    said = mapf("dispatch", *words, str(folder / "events")).stdout.splitlines()[-len(paths):]
    return [] if said == [f"done {agent}" for agent in range(len(paths))] else [f"mapf dispatch ends with {said}"]


def mapf(*words):
    return subprocess.run([os.environ["MAPF"], *words], stdin=subprocess.DEVNULL, capture_output=True, text=True)


def stuck(paths):
    """The agents that wait for ever, if each goes on once all have left its next cell that enter it earlier."""
    visits = [[(tick, cell) for tick, cell in enumerate(path) if tick == 0 or cell != path[tick - 1]] for path in paths]
    goes = True
    while goes:
        goes = False
        for own in visits:
            entry, next_cell = own[1] if len(own) > 1 else (0, None)
            if next_cell and not any(cell == next_cell and tick < entry for left in visits for tick, cell in left):
                del own[0]
                goes = True
    return [agent for agent, own in enumerate(visits) if len(own) > 1]
