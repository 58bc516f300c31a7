"""Tries what the package `mapf` for Python refuses: arguments of other types, shapes and ranges, and plans that aren't
valid, each with a sentence; and that it has the words of the program for each code of include/mapf.h.
"""

import os
import random
import subprocess

from cargo_builds import taken_library
from harness import TESTS
from python_api_tests import FREE, GOALS, PATHS, STARTS

import mapf
from mapf.errors import DEFECTS, SUBJECTS, words_of
from mapf.tools.texts import plan_text

# Paths of the same agents, who exchange their cells after tick 1.
EXCHANGED = [[(0, 1), (0, 0), (1, 0), (2, 0), (2, 1)], [(1, 0), (1, 0), (0, 0), (0, 1), (0, 2), (1, 2)]]

# How many plans with a change are judged.
COUNT = 400

CERT = "mapf-cert 2\nagents 2\nclaim cost 5\nleaf 0\nend\n"
MAP = "type octile\nheight 3\nwidth 3\nmap\n...\n...\n...\n"
SCEN = "version 1\n0 map 3 3 0 1 2 1 0\n0 map 3 3 1 0 1 2 0\n"


class Raising:
    """A value that can't be listed."""

    def __iter__(self):
        raise TypeError("never listed")


# Calls that are refused: the call, its arguments, and what the error has to say.
WORDS = [
    # How many agents there are.
    (mapf.solve, (FREE, [], []), "0 agents are asked for, and there may be 1 to 200"),
    (mapf.solve, (FREE, STARTS * 101, GOALS * 101), "202 agents are asked for"),
    (mapf.solve, ([[1] * 201], [(x, 0) for x in range(201)], [(x, 0) for x in range(201)]), "201 agents are asked for"),
    (mapf.solve, (FREE, STARTS, GOALS[:1]), "there are 2 starts and 1 goals"),
    (mapf.solve, (FREE, [], GOALS), "there are 0 starts and 2 goals"),
    (mapf.solve_texts, (MAP, SCEN, 0), "0 agents are asked for"),
    (mapf.solve_texts, (MAP, SCEN, 201), "201 agents are asked for"),
    (mapf.solve_texts, (MAP, SCEN, -1), "-1 agents are asked for"),
    (mapf.solve_texts, (MAP, SCEN, 2 ** 32 + 1), "4294967297 agents are asked for"),
    (mapf.solve_texts, (MAP, SCEN, "2"), "agents can't be '2': give a whole number"),
    (mapf.solve_texts, (MAP, SCEN, 2.0), "agents can't be 2.0: give a whole number"),
    (mapf.check_texts, (MAP, SCEN, 2 ** 64 + 2, "", CERT), "agents are asked for"),
    (mapf.validate_texts, (MAP, SCEN, None, ""), "agents can't be None: give a whole number"),
    # The grid.
    (mapf.solve, ([], STARTS, GOALS), "a grid has 1 to 2048 rows, and this one has 0 (F1 M4 2)"),
    (mapf.solve, ([[]], STARTS, GOALS), "the first one has 0 (F1 M4 3)"),
    (mapf.solve, ([[], [], []], STARTS, GOALS), "the first one has 0 (F1 M4 3)"),
    (mapf.solve, ([[1]] * 2049, [(0, 0)], [(0, 0)]), "this one has 2049 (F1 M4 2)"),
    (mapf.solve, ([[1] * 2049], [(0, 0)], [(0, 0)]), "the first one has 2049 (F1 M4 3)"),
    (mapf.solve, ([[1, 1, 1], [1, 1, 1], [1, 1]], STARTS, GOALS), "row 2 of the grid has 2 cells, and row 0 has 3"),
    (mapf.solve, (None, STARTS, GOALS), "the grid can't be None: give a list or an array"),
    (mapf.solve, (3, STARTS, GOALS), "the grid can't be 3: give a list or an array"),
    (mapf.solve, ([1, 1, 1], STARTS, GOALS), "row 0 of the grid can't be "),
    (mapf.solve, ("...\n...\n...", STARTS, GOALS), "row 0 of the grid can't be "),
    (mapf.solve, (["...", "...", "..."], STARTS, GOALS), "row 0 of the grid can't be "),
    (mapf.solve, ([[1, 1, 1], [1, 2, 1], [1, 1, 1]], STARTS, GOALS), "row 1 of the grid can't be "),
    (mapf.solve, ([[1, 1, float("nan")]] * 3, STARTS, GOALS), "row 0 of the grid can't be "),
    (mapf.solve, ([[[1], [1], [1]]] * 3, STARTS, GOALS), "row 0 of the grid can't be "),
    (mapf.solve, ([[1, 1, None]] * 3, STARTS, GOALS), "row 0 of the grid can't be "),
    (mapf.solve, (Raising(), STARTS, GOALS), "give a list or an array"),
    (mapf.solve, (mapf.Grid(3, 3, ["...", "..x", "..."]), [(0, 0)], [(2, 0)]), "the character in column 2 of row 1"),
    (mapf.solve, (mapf.Grid(3, 3, ["...", "..", "..."]), STARTS, GOALS), "row 1 of the grid has 2 cells, and row 0"),
    (mapf.solve, (mapf.Grid(3, 3, []), STARTS, GOALS), "a grid has 1 to 2048 rows, and this one has 0"),
    # Starts and goals.
    (mapf.solve, ([[1, 0, 1]] * 3, [(0, 0), (1, 0)], [(2, 1), (0, 2)]), "start (1,0) of agent 1 isn't a free cell (F2"),
    (mapf.solve, ([[1, 0, 1]] * 3, [(0, 0)], [(1, 1)]), "the goal (1,1) of agent 0 isn't a free cell (F2 S5 0)"),
    (mapf.solve, (FREE, [(3, 0)], [(0, 0)]), "the start (3,0) of agent 0 isn't a free cell (F2 S5 0)"),
    (mapf.solve, (FREE, [(0, -1)], [(0, 0)]), "the start (0,-1) of agent 0 isn't a free cell"),
    (mapf.solve, (FREE, [(0, 0)], [(10 ** 30, 0)]), "isn't a free cell"),
    (mapf.solve, (FREE, [(0.5, 1)], [(0, 0)]), "cell 0 of the starts can't be (0.5, 1): give two whole numbers"),
    (mapf.solve, (FREE, [("0", "1")], [(0, 0)]), "cell 0 of the starts can't be ('0', '1'): give"),
    (mapf.solve, (FREE, [(0, 0)], ["01"]), "cell 0 of the goals can't be '01': give two whole numbers (x, y)"),
    (mapf.solve, (FREE, [(0, 0)], [(0, 0, 0)]), "cell 0 of the goals can't be (0, 0, 0): give two whole numbers"),
    (mapf.solve, (FREE, [0, 1], GOALS), "cell 0 of the starts can't be 0: give two whole numbers"),
    (mapf.solve, (FREE, (0, 1), (2, 1)), "cell 0 of the starts can't be 0: give two whole numbers"),
    (mapf.solve, (FREE, None, GOALS), "the starts can't be None: give a list or an array"),
    # Texts.
    (mapf.solve_texts, ("", SCEN, 2), "the map can't be used: line 1 isn't 'type octile' (F1 M1)"),
    (mapf.solve_texts, ("\udcff", SCEN, 2), "(F1 M1)"),
    (mapf.solve_texts, (MAP, SCEN, 3), "the text ends after 2 rows, and each agent needs one (F2 S7 2)"),
    (mapf.solve_texts, (MAP, MAP, 2), "the scenario can't be used: it doesn't begin with 'version 1' (F2 S1)"),
    (mapf.solve_texts, (None, SCEN, 2), "the map can't be None: give a text, as str or bytes"),
    (mapf.solve_texts, (5, SCEN, 2), "the map can't be 5: give a text, as str or bytes"),
    (mapf.solve_texts, (MAP, [SCEN], 2), "give a text, as str or bytes"),
    (mapf.read_map, ("type octile\n",), "the map, line 2: 'height' and a number from 1 to 2048 stand here"),
    (mapf.read_map, (b"",), "the map, line 1: a map begins with 'type octile'"),
    (mapf.read_map, (7,), "not int"),
    (mapf.read_scen, (SCEN, mapf.Grid(3, 3, ["..."] * 3), 3), "the scenario has 2 agents, and 3 were asked for"),
    (mapf.read_scen, (SCEN, mapf.Grid(2, 3, [".."] * 3), 2), "the map has 2 columns and 3 rows"),
    (mapf.read_scen, (SCEN, mapf.Grid(3, 3, ["..."] * 3), 0), "0 agents are asked for"),
    # Plans and certificates.
    (mapf.check, (FREE, STARTS, GOALS, PATHS, None), "the certificate can't be None: give a text, as str or bytes"),
    (mapf.check, (FREE, STARTS, GOALS, None, CERT), "the plan can't be None: give a list or an array"),
    (mapf.check, (FREE, STARTS, GOALS, "", CERT), "the plan text has an error"),
    (mapf.check, (FREE, STARTS, GOALS, PATHS, ""), "the certificate has an error"),
    (mapf.check, (FREE, STARTS, GOALS, PATHS, CERT), "doesn't show what it has to (refused C8 4)"),
    (mapf.check, (FREE, STARTS[:1], GOALS[:1], PATHS[:1], CERT), "isn't that of the problem (refused C3)"),
    (mapf.check, (FREE, STARTS, GOALS, PATHS[::-1], CERT), "agent 0 begins in (1,0), and its start is (0,1) (refused"),
    (mapf.check, (FREE, STARTS, GOALS, [PATHS[0], [(9, 9)]], CERT), "agent 1 begins in (9,9), and its start is (1,0)"),
    (mapf.validate, (FREE, STARTS, GOALS, []), "there are 2 agents and 0 paths"),
    (mapf.validate, (FREE, STARTS, GOALS, PATHS * 2), "there are 2 agents and 4 paths"),
    (mapf.validate, (FREE, STARTS, GOALS, [PATHS[0], []]), "the path of agent 1 has no cell"),
    (mapf.validate, (FREE, STARTS, GOALS, [PATHS[0], "1,0"]), "cell 0 of the path of agent 1 can't be '1': give"),
    (mapf.validate, (FREE, STARTS, GOALS, [PATHS[0], [(1.0, 0)]]), "cell 0 of the path of agent 1 can't be (1.0, 0)"),
    (mapf.validate, (FREE, STARTS, GOALS, [PATHS[0], [(1, 0), (1, -1)]]), "and (1,-1) is outside the map (F3 V2 1 0)"),
    (mapf.validate, (FREE, STARTS, GOALS, None), "the plan can't be None: give a list or an array"),
    (mapf.validate_texts, (MAP, SCEN, 2, "mapf-plan 2\nagents 2\nimpossible\nend\n"), "holds no plan (F3 none)"),
    (mapf.validate_texts, (MAP, SCEN, 1, plan_text(PATHS)), "isn't that of the problem (F3 count)"),
    (mapf.validate_texts, (MAP, SCEN, 2, "x\n"), "(F3 P1 1)"),
]

# Options that are refused, and what the error has to say.
OPTIONS = [
    ({"splits": -1}, "-1 splits are asked for, and there may be 0 to 100,000"),
    ({"splits": 100_001}, "100001 splits are asked for, and there may be 0 to 100,000"),
    ({"splits": 2 ** 32}, "4294967296 splits are asked for"),
    ({"splits": 10.0}, "splits can't be 10.0: give a whole number"),
    ({"splits": "10"}, "splits can't be '10': give a whole number"),
    ({"splits": None}, "splits can't be None: give a whole number"),
    ({"search": "CBS"}, "no search is named 'CBS': say 'cbsh' or 'cbs'"),
    ({"search": None}, "no search is named None"),
    ({"search": ["cbs"]}, "no search is named ['cbs']"),
    ({"improvements": -1}, "-1 improvements are asked for, and there may be 0 to 1,000,000"),
    ({"improvements": 1_000_001}, "1000001 improvements are asked for"),
    ({"improvements": 0.5}, "improvements can't be 0.5: give a whole number"),
    ({"search": "cbs", "improvements": 5}, "improvements are for the search 'cbsh' alone"),
]


def tests(tally):
    tally.add("python, the words of codes", [fault for code in codes() for fault in word_faults(code)])
    with taken_library() as file:
        if file is None:
            tally.skip("python, misuse", "./library hasn't made the library, and cargo isn't there")
            return
        for number, (call, given, words) in enumerate(WORDS):
            tally.add(f"python, misuse {number} of {call.__name__}", refusal_faults(call, given, {}, words))
        for options, words in OPTIONS:
            faults = refusal_faults(mapf.solve, (FREE, STARTS, GOALS), options, words)
            tally.add(f"python, solve with {options}", faults)
        tally.add("python, options without their names", refusal_faults(
            mapf.solve, (FREE, STARTS, GOALS, 10), {}, "positional arguments"))
        tally.add("python, files that can't be read", file_faults())
        tally.add("python, plans that are judged", judged_faults())


def refusal_faults(call, given, options, words):
    """A call is refused by a TypeError or a MapfError with these words."""
    try:
        return [f"it answers {call(*given, **options)}"]
    except (mapf.MapfError, TypeError) as error:
        return [] if words in str(error) and "\n" not in str(error) else [f"{error!r}, wanted {words!r}"]


def file_faults():
    """A file that isn't there, a folder, and one that no name can have are told as Python tells them."""
    faults = []
    for name, kind in ((str(TESTS / "none"), FileNotFoundError), (TESTS, IsADirectoryError), ("a\0b", ValueError)):
        try:
            faults.append(f"{name!r} is {mapf.read_map(name)}")
        except (OSError, ValueError) as error:
            faults += [] if isinstance(error, kind) else [f"{name!r}: {error!r}"]
    return faults


# Plans.

def judged_faults():
    """Of plans in which a cell is changed, an error over arrays has the code of the one over texts, and words."""
    lot, faults, seen = random.Random("plans"), [], set()
    for _ in range(COUNT):
        paths = [list(path) for path in lot.choice([PATHS, EXCHANGED])]
        path = lot.choice(paths)
        path[lot.randrange(len(path))] = lot.randrange(3), lot.randrange(3)
        over_arrays = code_of(mapf.validate, FREE, STARTS, GOALS, paths)
        over_texts = code_of(mapf.validate_texts, MAP, SCEN, 2, plan_text(paths))
        faults += [] if over_arrays == over_texts else [f"{paths}: {over_arrays} and {over_texts}"]
        checked = code_of(mapf.check, FREE, STARTS, GOALS, paths, CERT)
        if over_arrays is not None:
            faults += [] if checked == over_arrays.replace("F3", "refused C5") else [f"{paths}: {checked}"]
            seen.add(over_arrays.split()[1])
    return faults + ([] if seen == {"V1", "V2", "V3", "V4", "V5"} else [f"only {seen} occur"])


def code_of(call, *given):
    """The code of the error of a call, None where it answers."""
    try:
        call(*given)
    except mapf.MapfError as error:
        return error.code
    return None


# Words.

def codes():
    """A code for each error and refusal that include/mapf.h names, as the program would print it."""
    kinds = {"F1": "M", "F2": "S", "F3": "PV", "refused C1": "P", "refused C2": "K", "refused C5": "V"}
    for first, letters in kinds.items():
        for name in DEFECTS:
            if name[0] in letters:
                yield numbered(f"{first} {name}", DEFECTS[name])
    yield from ("F3 none", "F3 count", "F6", *(f"F4 {name}" for name in ("map", "scen", "plan", "cert")))
    yield from (numbered(f"refused {name}", words) for name, words in SUBJECTS.items()
                if name[0] == "C" and name not in ("C1", "C2", "C5"))


def numbered(code, words):
    """The code with a number for each that its words have."""
    return " ".join([code, *(str(7 + number) for number in range(words.count("#")))])


def word_faults(code):
    """The words for a code are those by which the program explains it, but for those of files, of runs and of K."""
    told = subprocess.run([os.environ["MAPF"], "explain", code], capture_output=True, text=True).stdout
    wanted = told.rstrip("\n")
    for theirs, own in (("isn't K", "isn't that of the problem"), ("can't be played or followed", "can't be judged"),
                        ("a file can't be read, or is too long", "a text is too long"),
                        ("the texts don't show what the plan text says: ", "")):
        wanted = wanted.replace(theirs, own)
    return [] if wanted and words_of(code) == wanted else [f"{code}: {words_of(code)!r}, wanted {wanted!r}"]
