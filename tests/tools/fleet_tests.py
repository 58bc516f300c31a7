"""Tries examples/fleet: 50 robots follow a plan of the second search without full cycles, all of them at once and with
one that stands still; robots in a full cycle are told so. And tries how tools/draw reads the logs, by texts written by
hand.
"""

import os
import subprocess
import sys
import tempfile
from pathlib import Path

from draw_tests import cells_of, data_in, drawn
from harness import SECONDS, TESTS
from uncycle_tests import SQUARE, UNCYCLE, paths_in, written

from mapf.tools.answers import read_answer
from mapf.tools.process import ToolError

TOP = TESTS.parent
FLEET = TOP / "examples" / "fleet"
GRID, SCENARIO = (str(TOP / "examples" / f"warehouse-161-63.{name}") for name in ("map", "scen"))

ROBOTS = 50

# How long a robot waits after a move, on average, and how long the one that stands still does.
DELAY, STILL = "0.001", "2"

# Logs of agents that start in (0,1) and (1,0), and their paths.
STARTS = [(0, 1), (1, 0)]
LOGS = {
    "of all kinds of lines": (
        "hold 0 by 1\ngo 1 1,1\ncycle\nerror E1 5\nhold 0 by 1\ngo 1 1,2\ngo 0 1,1\ngo 0 2,1\ndone 0\n",
        [[(0, 1), (0, 1), (1, 1), (2, 1)], [(1, 0), (1, 1), (1, 2)]]),
    "of one agent": ("done 1\ngo 0 1,1\ngo 0 1,2\n", [[(0, 1), (1, 1), (1, 2)], [(1, 0)]]),
    "without a move": ("cycle 0 1\n", [[(0, 1)], [(1, 0)]]),
    "whose agents wait for long": ("go 0 0,2\ngo 0 0,1\ngo 0 0,2\ngo 1 2,0\n",
                                   [[(0, 1), (0, 2), (0, 1), (0, 2)], [(1, 0), (1, 0), (1, 0), (2, 0)]]),
}
REFUSED = {
    "an agent that isn't there": ("go 0 1,1\ngo 2 1,1\n", "line 2: agent 2 moves, and K is 2"),
    "a move without a cell": ("done 0\ngo 1\n", "line 2: an agent and its new cell stand here"),
    "another line": ("go 0 1,1\nstop 1\n", "line 2: a line 'go I x,y'"),
}

WRONG_WORDS = {
    "moves that take no time": ["--delay", "0"],
    "moves that take less": ["--delay", "-1"],
    "a robot that isn't there": ["--stop", str(ROBOTS), "1"],
    "seconds that are no number": ["--stop", "7", "nan"],
}


def tests(tally):
    with tempfile.TemporaryDirectory() as name:
        folder = Path(name)
        for title, (text, wanted) in LOGS.items():
            tally.add(f"fleet, a log {title}", log_faults(folder, text, wanted))
        for title, (text, said) in REFUSED.items():
            tally.add(f"fleet, a log with {title}", refusal_faults(folder, text, said))
        plan = smooth_plan(folder)
        for title, more in (("all at once", []), ("one stands still", ["--stop", "7", STILL])):
            tally.add(f"fleet, {ROBOTS} robots, {title}", fleet_faults(folder, plan, more))
        tally.add("fleet, robots in a full cycle", cycle_faults(folder))
        tally.add("fleet, answers that can't be printed", unprinted_faults(plan))
        for title, more in WRONG_WORDS.items():
            ended = called([GRID, SCENARIO, str(ROBOTS), str(plan), *more])
            is_told = ended.returncode == 2 and f"error: {more[0]}: " in ended.stderr and not ended.stdout
            tally.add(f"fleet, {title}", [] if is_told else [f"status {ended.returncode}, {ended.stderr[-300:]!r}"])


def log_faults(folder, text, wanted):
    (folder / "log").write_text(text)
    got = read_answer(folder / "log", STARTS)
    return [] if got == wanted else [f"{got}, wanted {wanted}"]


def refusal_faults(folder, text, said):
    (folder / "log").write_text(text)
    try:
        return [f"it is read as {read_answer(folder / 'log', STARTS)}"]
    except ToolError as error:
        return [] if said in str(error) else [str(error)]


def smooth_plan(folder):
    """A plan for the robots without full cycles."""
    plan, smooth = folder / "plan.txt", folder / "smooth.txt"
    for words in ([os.environ["MAPF"], "solve", "--search", "cbsh", GRID, SCENARIO, str(ROBOTS), "0", str(plan),
                   str(folder / "cert.txt")],
                  [sys.executable, str(UNCYCLE), GRID, SCENARIO, str(ROBOTS), str(plan), "--out", str(smooth)]):
        subprocess.run(words, stdin=subprocess.DEVNULL, capture_output=True, timeout=SECONDS)
    return smooth


def called(words):
    return subprocess.run([sys.executable, str(FLEET), *words], stdin=subprocess.DEVNULL, capture_output=True,
                          text=True, timeout=SECONDS)


def fleet_faults(folder, plan, more):
    """The robots come to their goals along their paths, and the page of the log shows so."""
    ended = called([GRID, SCENARIO, str(ROBOTS), str(plan), "--delay", DELAY, *more])
    if ended.returncode != 0 or f"{ROBOTS} robots are at their goals" not in ended.stderr:
        return [f"status {ended.returncode}, {ended.stderr[-300:]!r}"]
    log = folder / "log.txt"
    log.write_text(ended.stdout)
    page = drawn([GRID, SCENARIO, ROBOTS, log])
    data = data_in(page.stdout.decode())
    faults = [f"the page lists {data['faults'][0]['words']}"] if data["faults"] else []
    told = [without_waits(cells_of(agent["path"])) for agent in data["agents"]]
    wanted = list(map(without_waits, paths_in(plan.read_text())))
    return faults + ([] if told == wanted else ["the log has other cells than the plan"])


def cycle_faults(folder):
    """Robots in a full cycle end the run, with a line that says what to do."""
    ended = called([*written(folder, ["..", ".."], SQUARE), "--delay", DELAY])
    is_told = ended.returncode == 1 and "robots 0, 1, 2, 3 stand in a full cycle: tools/uncycle" in ended.stderr
    faults = [] if is_told else [f"status {ended.returncode}, {ended.stderr[-300:]!r}"]
    return faults + ([] if "cycle 0 1 2 3\n" in ended.stdout else ["the answers have no line of the cycle"])


def unprinted_faults(plan):
    """Where the answers can't be printed the run ends, and doesn't tell of robots at their goals."""
    with open("/dev/full", "w") as full:
        ended = subprocess.run([sys.executable, str(FLEET), GRID, SCENARIO, str(ROBOTS), str(plan)], stdout=full,
                               stdin=subprocess.DEVNULL, stderr=subprocess.PIPE, text=True, timeout=SECONDS)
    is_told = ended.returncode == 2 and "the answers can't be printed" in ended.stderr
    return [] if is_told else [f"status {ended.returncode}, {ended.stderr[-300:]!r}"]


def without_waits(path):
    """The cells of a path one after another, each once while an agent stays in it."""
    return [cell for number, cell in enumerate(path) if number == 0 or cell != path[number - 1]]
