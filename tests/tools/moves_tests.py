"""Tries tools/verify and tools/recheck on answers as moves and in JSON, written by hand from what `tools/verify --help`
says of them: as verify_tests.py tries the other formats.
"""

import json
import subprocess
import sys
import tempfile
from pathlib import Path

from harness import TESTS
from verify_tests import ANSWERED, Asked, faults_of

RECHECK = TESTS.parent / "tools" / "recheck"
CROSSING = TESTS / "cases" / "solve-crossing"

MOVES = {
    "cheapest": "rr\nwdd\n",
    "dearer": "rr\nwwdd\n",
    "vertex": "rr\ndd\n",
    "swap": "wrr\nrdld\n",
    "elsewhere": "rr\n\n",
}

# What the League of Robot Runners writes, of which other names than these count for nothing.
LEAGUE = {"actionModel": "MAPF", "version": "2024", "teamSize": 2, "start": [[1, 0, "E"], [0, 1, "E"]],
          "numTaskFinished": 2}

JSON = {
    "cheapest": [[[0, 1], [1, 1], [2, 1]], [[1, 0], [1, 0], [1, 1], [1, 2]]],
    "dearer": LEAGUE | {"actualPaths": ["R,R", "W,W,D,D"]},
    "vertex": {"schedule": {"agent0": [{"x": 0, "y": 1, "t": 0}, {"x": 1, "y": 1, "t": 1}, {"x": 2, "y": 1, "t": 2}],
                            "agent1": [{"x": 1, "y": 0, "t": 0}, {"x": 1, "y": 1, "t": 1}, {"x": 1, "y": 2, "t": 2}]}},
    "swap": [[[0, 1], [0, 1], [1, 1], [2, 1]], [[1, 0], [2, 0], [2, 1], [1, 1], [1, 2]]],
    "elsewhere": {"statistics": {"cost": 2}, "schedule": {
        "agent1": [{"t": 0, "x": 1, "y": 0}],
        "agent0": [{"x": 0, "y": 1, "t": 0}, {"x": 1, "y": 1, "t": 1}, {"x": 2, "y": 1, "t": 2}]}},
}


def tests(tally):
    for name, answers in (("moves", MOVES), ("json", {kind: json.dumps(told) for kind, told in JSON.items()})):
        for kind, answer in answers.items():
            tally.add(f"verify, {name}, {kind}", faults_of(Asked(kind, answer, *ANSWERED[kind])))
        tally.add(f"recheck, {name}", recheck_faults(answers["cheapest"]))
    for name, text in as_files_are().items():
        tally.add(f"verify, {name}", faults_of(Asked(name, text, 0, "cheapest: 5\n")))
    for asked in by_options() + that_cannot_be_read():
        tally.add(f"verify, {asked.name}", faults_of(asked))


def as_files_are():
    cheapest = MOVES["cheapest"]
    league = LEAGUE | {"actualPaths": ["r,r", "w,d,d"]}
    return {
        "moves in capitals with commas": "R,R\nW,D,D\n",
        "moves with blanks, behind a remark": "# by hand\nR R,\nW D D\n",
        "moves with CR LF": cheapest.replace("\n", "\r\n"),
        "moves without the last line end": cheapest.removesuffix("\n"),
        "moves with waits at the ends and blank lines": "rrww\nwddwww\n\n\n",
        "json in lines": json.dumps(JSON["cheapest"], indent=1),
        "json without starts": json.dumps({name: told for name, told in league.items() if name != "start"}),
        "json with starts of two numbers": json.dumps(league | {"start": [[1, 0], [0, 1]]}),
    }


def by_options():
    """Up and down exchanged, and x and y, for which the moves to the right and down change places."""
    upward = Asked("moves that count rows from below", "rr\nwuu\n", 0, "cheapest: 5\n", more=["--exchange-ud"])
    return [
        upward,
        Asked("such moves read as they are", upward.answer, 1, "not valid: agent 1 goes from (1,0) to (1,-1) after "
              "tick 1, and (1,-1) is outside the map\nand agent 1 goes from (1,-1) to (1,-2) after tick 2, and (1,-2) "
              "is outside the map\nand agent 1 ends in (1,-2), and its goal is (1,2)\nwith up and down exchanged the "
              "plan is valid: add --exchange-ud\n"),
        Asked("such moves with another fault", "r\nwuu\n", 1, "not valid: agent 0 ends in (1,1), and its goal is (2,1)"
              "\nand agent 1 goes from (1,0) to (1,-1) after tick 1, and (1,-1) is outside the map\nand agent 1 goes "
              "from (1,-1) to (1,-2) after tick 2, and (1,-2) is outside the map\nand agent 1 ends in (1,-2), and its "
              "goal is (1,2)\nwith up and down exchanged no agent leaves the map: see whether rows are counted from "
              "below, and add --exchange-ud\n"),
        Asked("moves with x and y exchanged", "dd\nwrr\n", 0, "cheapest: 5\n", more=["--exchange-xy"]),
        Asked("moves that are named", "\nwdd\n", 1, "not valid: agent 0 ends in (0,1), and its goal is (2,1)\n",
              more=["--format", "moves"]),
        Asked("a league that starts elsewhere", json.dumps(LEAGUE | {"start": [[1, 1], [0, 1]],
                                                                     "actualPaths": ["R", "W,W,D,D"]}), 1,
              "not valid: agent 0 begins in (1,1), and its start is (0,1)\n"),
    ]


def that_cannot_be_read():
    entries = [{"x": 0, "y": 1, "t": 0}, {"x": 1, "y": 1, "t": 2}]
    texts = {
        "moves of one agent": ("rr\n", ["no path of agent 1"]),
        "moves of three agents": ("rr\nwdd\n\nr\n", ["paths of 4 agents", "give 4 as K"]),
        "a letter that is no move": ("rr\nwdx\n", ["line 2:", "moves of agent 1", "udlrw"]),
        "json that is cut": ("[[[0, 1], [1,", ["line 1:", "isn't JSON"]),
        "brackets in brackets": ("[" * 1_000_000, ["answer"]),
        "a number of very many digits": ("[[[" + "1" * 5000 + ", 1]]]", ["beyond measure"]),
        "json of one agent": ("[[[0, 1]]]", ["no path of agent 1"]),
        "json of no form": ('{"paths": []}', ["'schedule'", "'actualPaths'"]),
        "a path without cells": ("[[[0, 1]], []]", ["path of agent 1", "[x, y]"]),
        "a cell of three numbers": ("[[[0, 1]], [[1, 0, 0]]]", ["path of agent 1"]),
        "a cell that is no number": ("[[[0, 1]], [[1, true]]]", ["path of agent 1"]),
        "a tick left out": (json.dumps({"schedule": {"agent0": entries}}), ["'agent0', entry 2", "t 1"]),
        "an agent of another name": (json.dumps({"schedule": {"robot0": entries}}), ["'robot0' has to be 'agentN'"]),
        "a model in which agents turn": (json.dumps(LEAGUE | {"actionModel": "MAPF_T", "actualPaths": ["F", "F"]}),
                                         ["'MAPF_T'", "turn"]),
        "a start that is missing": (json.dumps(LEAGUE | {"start": [[1, 0]], "actualPaths": ["R", "D"]}),
                                    ["'start'", "agent 1"]),
        "moves of no letter": (json.dumps(LEAGUE | {"actualPaths": ["R", "F"]}), ["'actualPaths'", "agent 1"]),
    }
    return [Asked(name, text, 2, "", told) for name, (text, told) in texts.items()]


def recheck_faults(text):
    """tools/recheck reads such an answer too."""
    with tempfile.TemporaryDirectory() as name:
        answer = Path(name, "answer")
        answer.write_text(text)
        words = [CROSSING / "map", CROSSING / "scen", 2, answer, CROSSING / "cert"]
        ended = subprocess.run([sys.executable, str(RECHECK), *map(str, words)], capture_output=True, text=True)
        return [] if ended.stdout == "optimal 5\n" else [f"{ended.stdout!r}, {ended.stderr!r}"]
