"""Tries the package `mapf` for Python with a library that is built: that it says of the cases what is wanted of the
program, over texts and over arrays; that its calls run in threads, end by Ctrl-C and get by with little memory; and
that the examples in its docstrings are true. python_misuse_tests.py has what it refuses.
"""

import contextlib
import doctest
import os
import signal
import subprocess
import sys
import tempfile
import threading
import time
from concurrent.futures import ThreadPoolExecutor
from dataclasses import replace
from importlib import import_module
from pathlib import Path

from cargo_builds import taken_library
from harness import SECONDS, TESTS, cases_of
from json_objects import line_of

import mapf
from mapf import library
from mapf.tools import Grid

PYTHON = TESTS.parent / "python"
EXAMPLE = str(TESTS.parent / "examples" / "random-32-32")

MODULES = "mapf", "mapf.errors", "mapf.library", "mapf.problems", "mapf.solver"

# A problem of two agents, with the paths of a cheapest plan.
FREE = [[True] * 3] * 3
STARTS, GOALS = [(0, 1), (1, 0)], [(2, 1), (1, 2)]
PATHS = [[(0, 1), (1, 1), (2, 1)], [(1, 0), (1, 0), (1, 1), (1, 2)]]

# Cases with numbers of more digits than the readers of the package take.
OVER_TEXTS = ("map-size-with-leading-zeros",)

# How long a map of 2,048 columns and rows may take to be read as an array, in seconds of the processor.
MOST_SECONDS = 5

# How many addresses a process has left in which a small problem is solved.
LITTLE = 128 << 20

# A search that takes long, and what a process does that limits its addresses and then solves a small problem.
LONG = """
import sys
import mapf
grid = mapf.read_map(sys.argv[1] + ".map")
ends = mapf.read_scen(sys.argv[1] + ".scen", grid, 90)
print("begun", flush=True)
mapf.solve(grid, *ends, splits=100_000)
"""
FRUGAL = """
import resource, sys
import mapf
from mapf.library import library
library()
pages = int(open("/proc/self/statm").read().split()[0])
resource.setrlimit(resource.RLIMIT_AS, (pages * resource.getpagesize() + int(sys.argv[1]),) * 2)
print(mapf.solve([[True] * 3] * 3, [(0, 1), (1, 0)], [(2, 1), (1, 2)]))
"""


def tests(tally):
    with taken_library() as file:
        if file is None:
            tally.skip("python", "./library hasn't made the library, and cargo isn't there")
            return
        for case in [*cases_of(TESTS / "cases"), *cases_of(TESTS / "version3")]:
            if not case.places and all(text is not None for _, text in case.inputs()):
                try_case(tally, case)
        tally.add("python, arrays of other types", array_faults())
        tally.add("python, answers without a plan", planless_faults())
        tally.add("python, files and texts", source_faults())
        tally.add("python, a search whose texts find no room at first", room_faults())
        tally.add("python, a map of the greatest size", large_faults())
        tally.add("python, calls side by side", thread_faults())
        tally.add("python, Ctrl-C", interrupted_faults())
        tally.add("python, little memory", frugal_faults())
        tally.add("python, which library is taken", library_faults(file))
        for name in MODULES:
            tally.add(f"python, the examples of {name}", doctest_faults(name))


# Cases.

def try_case(tally, case):
    if case.words[:3] == ["check", "MAP", "SCEN"] and case.words[4:] == ["PLAN", "CERT"]:
        tally.add(f"python, {case.name}", check_faults(case))
    elif case.is_solve() and options_of(case) is not None:
        tally.add(f"python, {case.name}", solve_faults(case))


def options_of(case):
    """What the words of a case of `solve` ask for, None where the package can't be asked so."""
    words, options = case.words[1:], {"search": "cbs"}
    for word, name in (("--search", "search"), ("--improve", "improvements")):
        if word in words:
            at = words.index(word)
            options[name] = "".join(words[at + 1:at + 2])
            words[at:at + 2] = []
    if len(words) != 6 or words[:2] + words[4:] != ["MAP", "SCEN", "PLAN", "CERT"]:
        return None
    numbers = {"agents": words[2], "splits": words[3], "improvements": options.get("improvements", "0")}
    if not all(number.isdigit() for number in numbers.values()):
        return None
    if "improvements" not in options:
        del numbers["improvements"]
    return options | {name: int(number) for name, number in numbers.items()}


def solve_faults(case):
    """The answer over texts has the line and the texts of the case, and the one over arrays is the same."""
    options, texts, wanted = options_of(case), dict(case.inputs()), line_of(case)
    agents = options.pop("agents")
    try:
        answer = mapf.solve_texts(texts["map"], texts["scen"], agents, **options)
    except mapf.MapfError as error:
        return error_faults(error, wanted)
    faults = [] if wanted in lines_of(answer) else [f"it answers {answer}, wanted {wanted!r}"]
    faults += [] if answer.plan_text.encode() == case.wanted("plan") else ["the plan text differs"]
    faults += [] if answer.certificate.encode() == case.wanted("cert") else ["the certificate differs"]
    if case.name in OVER_TEXTS:
        return faults
    grid = mapf.read_map(texts["map"])
    starts, goals = mapf.read_scen(texts["scen"], grid, agents)
    faults += [] if mapf.solve(grid, starts, goals, **options) == answer else ["the answer over arrays differs"]
    if answer.paths is None:
        return faults
    checked = mapf.check(grid, starts, goals, answer.paths, answer.certificate)
    faults += [] if checked == answer else [f"its check says {checked}"]
    cost = mapf.validate(grid, starts, goals, answer.paths)
    return faults + ([] if cost == answer.cost else [f"its plan costs {cost}"])


def check_faults(case):
    texts, wanted = dict(case.inputs()), line_of(case)
    try:
        answer = mapf.check_texts(texts["map"], texts["scen"], int(case.agents()), texts["plan"], texts["cert"])
    except mapf.MapfError as error:
        return error_faults(error, wanted)
    return [] if wanted in lines_of(answer) else [f"it answers {answer}, wanted {wanted!r}"]


def lines_of(answer):
    """The lines by which the program tells an answer: that of `check`, and that of `solve`."""
    limit = next(line for line in answer.plan_text.splitlines()[2:])
    lines = {
        "optimal": [f"optimal {answer.cost}", f"cost {answer.cost}"],
        "within": [f"within {answer.bound} {answer.cost}"],
        "bound": [f"bound {answer.bound}", limit],
        "impossible": ["impossible"],
    }
    return [f"{line}\n".encode() for line in lines[answer.kind]]


def error_faults(error, wanted):
    """An error has the code that the program tells, and one that the program has no code for has none."""
    if error.code is None:
        return [] if wanted is None else [f"{error}, wanted {wanted!r}"]
    is_right = f"{error.code}\n".encode() == wanted and str(error).endswith(f" ({error.code})")
    return [] if is_right else [f"{error}, wanted {wanted!r}"]


# Arrays, files and texts.

class Array:
    """An array that is no list, as those of numpy are."""

    def __init__(self, values):
        self.values = values

    def __iter__(self):
        return iter(self.values)


class Listed(Array):
    """One that can list its values, and would be slow to be asked for one after another."""

    def __iter__(self):
        raise AssertionError("its values are taken one by one")

    def tolist(self):
        return self.values


def array_faults():
    wanted = mapf.solve(FREE, STARTS, GOALS)
    others = {
        "numbers": ([[1, 1.0, True]] * 3, STARTS, GOALS),
        "tuples": (tuple(map(tuple, FREE)), tuple(STARTS), tuple(GOALS)),
        "lists": (FREE, [list(cell) for cell in STARTS], [list(cell) for cell in GOALS]),
        "iterators": (map(iter, FREE), iter(STARTS), map(iter, GOALS)),
        "arrays": (Array(map(Array, FREE)), Array(map(Array, STARTS)), Array(GOALS)),
        "arrays that list": (Listed(FREE), Listed([[0, 1], [1, 0]]), [Array([2, 1]), Array([1, 2])]),
        "a grid": (Grid(3, 3, ["...", ".G.", "S.."]), STARTS, GOALS),
        "bytes": ([bytes([1, 1, 1])] * 3, STARTS, GOALS),
    }
    return [f"{name} give another answer" for name, given in others.items() if mapf.solve(*given) != wanted]


def planless_faults():
    """What isn't there is None, and what shows such an answer is checked by its plan text."""
    faults = []
    for kind, grid, starts, goals, bound in (("impossible", [[1, 1, 0, 1]], [(0, 0)], [(3, 0)], None),
                                             ("impossible", FREE, STARTS, [(1, 2), (1, 2)], None),
                                             ("bound", FREE, STARTS, GOALS, 4)):
        answer = mapf.solve(grid, starts, goals, splits=0, search="cbs" if kind == "bound" else "cbsh")
        if replace(answer, plan_text="", certificate="") != mapf.Answer(
                kind=kind, cost=None, bound=bound, paths=None, plan_text="", certificate=""):
            faults.append(f"{answer}, wanted {kind}")
        if mapf.check(grid, starts, goals, answer.plan_text, answer.certificate.encode()) != answer:
            faults.append(f"the check of {answer} differs")
    return faults


def source_faults():
    """A map and a scenario are read from a file, whatever names it, and from a text."""
    path, faults = Path(EXAMPLE + ".map"), []
    grids = [mapf.read_map(source) for source in (path, str(path), path.read_bytes(), path.read_text())]
    faults += [] if all(grid == grids[0] for grid in grids) else ["the maps differ"]
    path = path.with_suffix(".scen")
    ends = [mapf.read_scen(source, grids[0], 50) for source in (path, str(path), path.read_bytes(), path.read_text())]
    faults += [] if all(end == ends[0] for end in ends) and len(ends[0][0]) == 50 else ["the scenarios differ"]
    texts = Path(EXAMPLE + ".map").read_text(), path.read_text()
    options = {"splits": 0, "improvements": 0}
    answer = mapf.solve_texts(*texts, 50, **options)
    faults += [] if mapf.solve(grids[0], *ends[0], **options) == answer else ["the answers differ"]
    faults += [] if answer.kind == "within" and answer.bound < answer.cost else [f"{answer}"]
    return faults + ([] if mapf.validate_texts(*texts, 50, answer.plan_text) == answer.cost else ["the cost differs"])


# Rooms, time, threads and memory.

def room_faults():
    """A search that is made twice, since its texts are longer than their room, has the same answer."""
    wanted, rooms = mapf.solve(FREE, STARTS, GOALS), library.ROOMS
    library.ROOMS = (1 << 62, 1)
    try:
        return [] if mapf.solve(FREE, STARTS, GOALS) == wanted else ["another answer"]
    finally:
        library.ROOMS = rooms


def large_faults():
    free = [[True] * 2048 for _ in range(2048)]
    began = time.process_time()
    answer = mapf.solve(free, [(0, 0)], [(2047, 2047)], improvements=0)
    seconds = time.process_time() - began
    faults = [] if answer.cost == 2 * 2047 else [f"{answer}"]
    return faults + ([f"it takes {seconds:.1f} s"] if seconds > MOST_SECONDS else [])


def thread_faults():
    """Several threads solve side by side, and one that counts goes on meanwhile."""
    grid = mapf.read_map(EXAMPLE + ".map")
    ends = mapf.read_scen(EXAMPLE + ".scen", grid, 50)
    is_over, counts = threading.Event(), [0]

    def count():
        while not is_over.wait(0.001):
            counts[0] += 1

    counter = threading.Thread(target=count)
    counter.start()
    with ThreadPoolExecutor(3) as pool:
        answers = list(pool.map(lambda _: mapf.solve(grid, *ends), range(3)))
    is_over.set()
    counter.join()
    faults = [] if answers[0].kind == "optimal" and answers == answers[:1] * 3 else [f"{answers}"]
    return faults + ([] if counts[0] > 10 else [f"the other thread counts to {counts[0]}"])


def interrupted_faults():
    """Ctrl-C ends a process that searches, at once and as Python says so."""
    with started(LONG, EXAMPLE) as process:
        begun = process.stdout.readline()
        time.sleep(0.3)
        process.send_signal(signal.SIGINT)
        began = time.monotonic()
        _, said = process.communicate(timeout=SECONDS)
        seconds = time.monotonic() - began
    is_right = begun == "begun\n" and process.returncode == -signal.SIGINT and said.endswith("KeyboardInterrupt\n")
    return [] if is_right and seconds < 20 else [f"{begun!r}, status {process.returncode}, {seconds:.1f} s, {said!r}"]


@contextlib.contextmanager
def started(code, *words):
    """A process of Python with this code, in which the package of this tree is found."""
    process = subprocess.Popen(
        [sys.executable, "-B", "-c", code, *words], stdin=subprocess.DEVNULL, stdout=subprocess.PIPE,
        stderr=subprocess.PIPE, text=True, env={**os.environ, "PYTHONPATH": str(PYTHON)},
        preexec_fn=lambda: signal.signal(signal.SIGINT, signal.default_int_handler))
    try:
        yield process
    finally:
        process.kill()
        process.wait()


def frugal_faults():
    """In few addresses a problem is solved, and in fewer that is a MemoryError."""
    faults = []
    with started(FRUGAL, str(LITTLE)) as process:
        told, said = process.communicate(timeout=SECONDS)
        faults += [] if told == "Answer(kind='optimal', cost=5, bound=5)\n" else [f"{told!r}, {said[-300:]!r}"]
    with started(FRUGAL, "0") as process:
        told, said = process.communicate(timeout=SECONDS)
        faults += [] if "MemoryError" in said or "can't start new thread" in said else [f"{told!r}, {said[-300:]!r}"]
    return faults


def library_faults(file):
    """The library that MAPF_LIBRARY names is taken, and what is none is told in words; so is where none is there."""
    faults = []
    for named, words in (("/dev/null", "/dev/null can't be used as the library of mapf"), ("", "isn't here")):
        with tempfile.TemporaryDirectory() as name:
            (Path(name) / "mapf").symlink_to(PYTHON / "mapf")
            code = f"import mapf.library as library; library.PLACES = (); library.library()"
            ended = subprocess.run([sys.executable, "-B", "-c", code], cwd=name, capture_output=True, text=True,
                                   env={**os.environ, "MAPF_LIBRARY": named})
            last = ended.stderr.splitlines()[-1:]
            faults += [] if last and last[0].startswith("OSError: ") and words in last[0] else [ended.stderr]
    return faults + ([] if library.library().path == file else [f"{library.library().path} is taken"])


def doctest_faults(name):
    """What differs from the examples of a module."""
    told = []
    runner = doctest.DocTestRunner(verbose=False)
    for test in doctest.DocTestFinder().find(import_module(name)):
        runner.run(test, out=told.append)
    return told
