"""Tries tools/verify on answers of each kind in each format, written by hand from what `tools/verify --help` says of
the formats, and checks by mapf alone what it leaves for others.
"""

import os
import re
import subprocess
import sys
import tempfile
from dataclasses import dataclass, field
from pathlib import Path

from harness import TESTS

VERIFY = TESTS.parent / "tools" / "verify"
EXAMPLES = TESTS.parent / "examples"

# Two agents cross on an open square. One of them has to wait, so that the least sum of costs is 5.
CROSSING_MAP = "type octile\nheight 3\nwidth 3\nmap\n...\n...\n...\n"
CROSSING_SCEN = "version 1\n0 c.map 3 3 0 1 2 1 2\n0 c.map 3 3 1 0 1 2 2\n"

# A third agent goes against the first. One of these two has to go round, by two steps more, and of the other one and
# the second agent one has to wait, so that the least sum is 9. Each two of the three show less: without prices a search
# that may not split ends with the bound 8.
THREE_SCEN = CROSSING_SCEN + "0 c.map 3 3 2 1 0 1 2\n"

# Below the three, behind a wall, a fourth agent goes along a corridor that is so long that `cbsh` tries no prices, which
# would show the 9.
LONG = 600
FOUR_MAP = ("type octile\nheight 5\nwidth %d\nmap\n" % LONG + ("..." + "@" * (LONG - 3) + "\n") * 3
            + "@" * LONG + "\n" + "." * LONG + "\n")
FOUR_SCEN = (THREE_SCEN + f"0 c.map 3 3 0 4 {LONG - 1} 4 {LONG - 1}\n").replace("c.map 3 3", f"c.map {LONG} 5")

# Beside the two, behind a wall, two agents that have a way round each other of the same cost. The least sum is 9, and
# plain search, if it may split once, on the first two, ends with the bound 9.
ROOMS_MAP = "type octile\nheight 3\nwidth 7\nmap\n...@...\n...@...\n...@...\n"
ROOMS_SCEN = ("version 1\n0 r.map 7 3 0 1 2 1 2\n0 r.map 7 3 1 0 1 2 2\n"
              "0 r.map 7 3 4 0 5 1 2\n0 r.map 7 3 6 0 4 0 2\n")

PATHS = {
    "cheapest": "Agent 0: (1,0)->(1,1)->(1,2)->\nAgent 1: (0,1)->(0,1)->(1,1)->(2,1)->\n",
    "dearer": "Agent 0: (1,0)->(1,1)->(1,2)->\nAgent 1: (0,1)->(0,1)->(0,1)->(1,1)->(2,1)->\n",
    "vertex": "Agent 0: (1,0)->(1,1)->(1,2)->\nAgent 1: (0,1)->(1,1)->(2,1)->\n",
    "swap": "Agent 0: (1,0)->(1,0)->(1,1)->(1,2)->\nAgent 1: (0,1)->(0,2)->(1,2)->(1,1)->(2,1)->\n",
    "elsewhere": "Agent 0: (1,0)->(1,1)->(1,2)->\nAgent 1: (0,1)->\n",
    "missing": "Agent 0: (1,0)->(1,1)->(1,2)->\n",
    "cut": "Agent 0: (1,0)->(1,1)->(1,2)->\nAgent 1: (0,1)->(0,1)->(1,",
    "empty": "",
}

# Answers on the rooms, and what a call of them has besides. In the second agent 3 waits once where it needn't.
BEST = PATHS["cheapest"] + "Agent 2: (0,4)->(1,4)->(1,5)->\nAgent 3: (0,6)->(0,5)->(0,4)->\n"
WAITS = PATHS["cheapest"] + "Agent 2: (0,4)->(1,4)->(1,5)->\nAgent 3: (0,6)->(0,6)->(0,5)->(0,4)->\n"
ROOMS = {"grid": ROOMS_MAP, "scenario": ROOMS_SCEN, "agents": "4"}

# A cheapest answer of the three, and what a call of it has besides.
BEST_OF_THREE = PATHS["cheapest"] + "Agent 2: (1,2)->(0,2)->(0,1)->(0,0)->(1,0)->\n"
THREE = {"scenario": THREE_SCEN, "agents": "3"}

# Those of the three and of the fourth.
BEST_OF_FOUR = BEST_OF_THREE + f"Agent 3: {''.join(f'(4,{column})->' for column in range(LONG))}\n"
FOUR = {"grid": FOUR_MAP, "scenario": FOUR_SCEN, "agents": "4"}
WITHIN = f"within {8 + LONG - 1}..{9 + LONG - 1}, a certificate of {8 + LONG - 1} is in CERT"

LACAM_HEAD = """agents=2
map_file=c.map
solver=planner
solved=1
soc=5
soc_lb=4
makespan=3
makespan_lb=2
comp_time=0
seed=0
starts=(0,1),(1,0),
goals=(2,1),(1,2),
solution=
"""

LACAM = {
    "cheapest": LACAM_HEAD + "0:(0,1),(1,0),\n1:(1,1),(1,0),\n2:(2,1),(1,1),\n3:(2,1),(1,2),\n",
    "dearer": LACAM_HEAD + "0:(0,1),(1,0),\n1:(1,1),(1,0),\n2:(2,1),(1,0),\n3:(2,1),(1,1),\n4:(2,1),(1,2),\n",
    "vertex": LACAM_HEAD + "0:(0,1),(1,0),\n1:(1,1),(1,1),\n2:(2,1),(1,2),\n",
    "swap": LACAM_HEAD + "0:(0,1),(1,0),\n1:(0,1),(2,0),\n2:(1,1),(2,1),\n3:(2,1),(1,1),\n4:(2,1),(1,2),\n",
    "elsewhere": LACAM_HEAD + "0:(0,1),(1,0),\n1:(1,1),(1,0),\n2:(2,1),(1,0),\n",
    "missing": LACAM_HEAD + "0:(0,1),\n1:(1,1),\n2:(2,1),\n",
    "cut": LACAM_HEAD + "0:(0,1),(1,0),\n1:(1,1),(1,0),\n2:(2,1),(1",
    "empty": "\n",
}

YAML_HEAD = """statistics:
  cost: 5
  makespan: 3
  runtime: 0.000123
  highLevelExpanded: 2
  lowLevelExpanded: 9
"""

YAML_AGENT_0 = """  agent0:
    - x: 0
      y: 1
      t: 0
    - x: 1
      y: 1
      t: 1
    - x: 2
      y: 1
      t: 2
"""

YAML_AGENT_0_THAT_WAITS = """  agent0:
    - x: 0
      y: 1
      t: 0
    - x: 0
      y: 1
      t: 1
    - x: 1
      y: 1
      t: 2
    - x: 2
      y: 1
      t: 3
"""

YAML_AGENT_1 = """  agent1:
    - x: 1
      y: 0
      t: 0
"""

YAML = {
    "cheapest": YAML_HEAD + "schedule:\n" + YAML_AGENT_0 + YAML_AGENT_1 + """    - x: 1
      y: 0
      t: 1
    - x: 1
      y: 1
      t: 2
    - x: 1
      y: 2
      t: 3
""",
    "dearer": YAML_HEAD + "schedule:\n" + YAML_AGENT_0 + YAML_AGENT_1 + """    - x: 1
      y: 0
      t: 1
    - x: 1
      y: 0
      t: 2
    - x: 1
      y: 1
      t: 3
    - x: 1
      y: 2
      t: 4
""",
    "vertex": YAML_HEAD + "schedule:\n" + YAML_AGENT_0 + YAML_AGENT_1 + """    - x: 1
      y: 1
      t: 1
    - x: 1
      y: 2
      t: 2
""",
    "swap": YAML_HEAD + "schedule:\n" + YAML_AGENT_0_THAT_WAITS + YAML_AGENT_1 + """    - x: 2
      y: 0
      t: 1
    - x: 2
      y: 1
      t: 2
    - x: 1
      y: 1
      t: 3
    - x: 1
      y: 2
      t: 4
""",
    "elsewhere": YAML_HEAD + "schedule:\n" + YAML_AGENT_0 + YAML_AGENT_1,
    "missing": YAML_HEAD + "schedule:\n" + YAML_AGENT_0,
    "cut": YAML_HEAD + "schedule:\n" + YAML_AGENT_0 + YAML_AGENT_1 + "    - x: 1\n      y",
    "empty": " \n",
}

PLAN = {
    "cheapest": "mapf-plan 2\nagents 2\ncost 5\npath 0 2 0,1 1,1 2,1\npath 1 3 1,0 1,0 1,1 1,2\nend\n",
    "dearer": "mapf-plan 1\nagents 2\ncost 6\npath 0 2 0,1 1,1 2,1\npath 1 4 1,0 1,0 1,0 1,1 1,2\nend\n",
    "vertex": "mapf-plan 2\nagents 2\ncost 4\npath 0 2 0,1 1,1 2,1\npath 1 2 1,0 1,1 1,2\nend\n",
    "swap": "mapf-plan 2\nagents 2\ncost 7\npath 0 3 0,1 0,1 1,1 2,1\npath 1 4 1,0 2,0 2,1 1,1 1,2\nend\n",
    "elsewhere": "mapf-plan 2\nagents 2\ncost 2\npath 0 2 0,1 1,1 2,1\npath 1 0 1,0\nend\n",
    "missing": "mapf-plan 2\nagents 1\ncost 2\npath 0 2 0,1 1,1 2,1\nend\n",
    "cut": "mapf-plan 2\nagents 2\ncost 5\npath 0 2 0,1 1,1 2,1\npath 1 3 1,0 1,0 1",
    "empty": "",
}

FORMATS = {"paths": PATHS, "lacam": LACAM, "yaml": YAML, "plan": PLAN}

# What is answered on each kind, whatever the format: the status, and the line on standard output. FOUND stands for the
# name of the file with the cheaper plan.
ANSWERED = {
    "cheapest": (0, "cheapest: 5\n"),
    "dearer": (1, "not cheapest: 6, a plan of 5 is in FOUND\n"),
    "vertex": (1, "not valid: agents 0 and 1 are both in (1,1) at tick 1\n"),
    "swap": (1, "not valid: agents 0 and 1 exchange (1,1) and (2,1) after tick 2\n"),
    "elsewhere": (1, "not valid: agent 1 ends in (1,0), and its goal is (1,2)\n"),
}

# The kinds that can't be read, each with what the line on standard error has to say.
TOLD = {
    ("paths", "missing"): ["no path of agent 1", "K is 2", "see whether the file is whole"],
    ("lacam", "missing"): ["no path of agent 1", "K is 2", "see whether the file is whole"],
    ("yaml", "missing"): ["no path of agent 1", "K is 2", "see whether the file is whole"],
    ("plan", "missing"): ["no path of agent 1", "K is 2", "see whether the file is whole"],
    ("paths", "cut"): ["answer, line 2:", "'(1,'", "see whether the line is whole"],
    ("lacam", "cut"): ["answer, line 16:", "'(1'", "see whether the line is whole"],
    ("yaml", "cut"): ["answer, line 2", "see whether the file is whole"],
    ("plan", "cut"): ["answer, line 5:", "'path 1'"],
    ("paths", "empty"): ["answer is empty", "let the solver write"],
    ("lacam", "empty"): ["answer is empty", "let the solver write"],
    ("yaml", "empty"): ["answer is empty", "let the solver write"],
    ("plan", "empty"): ["answer is empty", "let the solver write"],
}


@dataclass
class Asked:
    """One call, and what is wanted of it: the status, the standard output, parts of the standard error, which only the
    status 2 has, and of the note that --keep leaves, and what the search says on standard error.
    """

    name: str
    answer: str | bytes
    status: int
    out: str = ""
    told: list = field(default_factory=list)
    more: list = field(default_factory=list)
    noted: str = "prints '"
    agents: str = "2"
    grid: str = CROSSING_MAP
    scenario: str = CROSSING_SCEN
    environment: dict = field(default_factory=dict)
    said: str = ""


def tests(tally):
    for name, answers in FORMATS.items():
        for kind, answer in answers.items():
            status, out = ANSWERED.get(kind, (2, ""))
            asked = Asked(f"verify, {name}, {kind}", answer, status, out, TOLD.get((name, kind), []))
            tally.add(asked.name, faults_of(asked))
    for asked in as_files_are() + that_cannot_be_read() + that_are_not_valid() + by_bound() + by_options():
        tally.add(asked.name, faults_of(asked))
    tally.add("verify, an example", faults_of(example()))
    tally.add("verify, no file is changed or left", files_left())
    tally.add("verify, a folder that isn't empty", folder_kept())
    for name in FORMATS:
        tally.add(f"verify, pipes in place of files, {name}", piped(FORMATS[name]["cheapest"]))
    for title, lines, asked in in_time() + by_cbs():
        tally.add(f"verify, {title}", faults_behind(lines, asked))


def as_files_are():
    """Answers with what real files have: other line ends, blanks, other orders."""
    cheapest = {name: answers["cheapest"] for name, answers in FORMATS.items()}
    paths, lacam, yaml = cheapest["paths"], cheapest["lacam"], cheapest["yaml"]
    first, second = paths.splitlines(keepends=True)
    schedule = yaml.removeprefix(YAML_HEAD)
    texts = {
        "paths with CR LF": paths.replace("\n", "\r\n"),
        "paths without the last arrows": paths.replace("->\n", "\n"),
        "paths without the last line end": paths.removesuffix("\n"),
        "paths with blanks at the ends of lines": paths.replace("\n", "  \t\n"),
        "paths without a blank behind the colon": paths.replace(": ", ":"),
        "paths out of order": second + first,
        "paths between blank lines": f"\n{first}\n{second}\n",
        "paths behind a byte order mark": "\ufeff" + paths,
        "paths with waits at the ends": paths.replace("(1,2)->\n", "(1,2)->(1,2)->(1,2)->\n"),
        "paths below a count": "2\n" + paths,
        "paths below a line of words and above others": f"\nplanned: 5\n{paths}\ncost 5\ndone\n",
        "lacam with CR LF": lacam.replace("\n", "\r\n"),
        "lacam without the last commas": lacam.replace(",\n", "\n"),
        "lacam with blanks": lacam.replace("),(", "), (").replace("\n", " \n"),
        "lacam without a head": lacam.removeprefix(LACAM_HEAD),
        "lacam with a name behind the ticks": lacam + "\nnote=none\n",
        "yaml with CR LF": yaml.replace("\n", "\r\n"),
        "yaml with the statistics behind": schedule + YAML_HEAD,
        "yaml without statistics": schedule,
        "yaml with the agents out of order": "schedule:\n" + schedule[schedule.index("  agent1"):] + YAML_AGENT_0,
        "yaml behind a mark and a remark": "---\n# by hand\n" + yaml,
        "yaml with its dashes below the names": yaml.replace("    - x", "  - x").replace("      ", "    "),
        "yaml with t first": re.sub(r"x: (.)\n +y: (.)\n +t: (.)", r"t: \3\n      x: \1\n      y: \2", yaml),
        "yaml with an entry in a line": re.sub(r"x: (.)\n +y: (.)\n +t: (.)", r"{t: \3, x: \1, y: \2}", yaml),
        "yaml with remarks": yaml.replace(": 1\n", ": 1  # one\n").replace("schedule:", "# all\nschedule:   # two"),
        "yaml with a name more in each entry": yaml.replace("      t", "      z: 0\n      t"),
        "yaml with lists beside the schedule": "obstacles:\n- [1, 2]\n" + yaml + "rest:\n  agent0:\n",
    }
    return [Asked(f"verify, {name}", text, 0, "cheapest: 5\n") for name, text in texts.items()]


def that_cannot_be_read():
    paths, lacam = PATHS["cheapest"], LACAM["cheapest"]
    third = "Agent 2: (0,0)->\n"
    log = lacam[:lacam.index("starts=")]
    asked = [
        ("paths of three agents", paths + third, ["3 agents, and K is 2", "give 3 as K"]),
        ("paths that count from 1", paths.replace("Agent 1", "Agent 2").replace("Agent 0", "Agent 1"),
         ["no path of agent 0", "counted from 0"]),
        ("an agent twice", paths + paths.splitlines()[1], ["line 3:", "agent 1 has a line above"]),
        ("an agent without cells", PATHS["missing"] + "Agent 1: \n", ["line 2:", "''"]),
        ("another line between paths", paths.replace("\n", "\ndone\n", 1), ["line 2:", "'Agent N: (row,column)"]),
        ("two lines above paths", "2\n3\n" + paths, ["line 1:", "none of the formats"]),
        ("a remark alone", "#\n", ["remarks alone", "let the solver write"]),
        ("a mark of YAML alone", "---\n", ["remarks alone", "let the solver write"]),
        ("a short log", log, ["no line 'solution='", "the long one"]),
        ("a log without a plan", log.replace("solved=1", "solved=0") + "solution=\n", ["solved=0", "wrote no plan"]),
        ("a tick left out", lacam.replace("2:(2,1),(1,1),\n", ""), ["line 16:", "tick 2 stand here"]),
        ("a tick with a cell less", lacam.replace("2:(2,1),(1,1),", "2:(2,1),"), ["line 16:", "tick 2 has 1 cell"]),
        ("a text of no format", "path of agent 0\n", ["line 1:", "moves, json, replies, plan", "--help"]),
        ("bytes that are no text", bytes(range(128, 256)), ["line 1:", "paths, lacam, yaml, moves, json, replies"]),
        ("a plan text that tells a limit", "mapf-plan 2\nagents 2\nlimit 0 bound 4\nend\n",
         ["holds no plan", "'limit 0 bound 4'"]),
        ("a plan text of which the cost isn't the sum", PLAN["cheapest"].replace("cost 5", "cost 4"),
         ["line 3:", "add up to 5"]),
    ]
    calls = [Asked(f"verify, {name}", answer, 2, "", told) for name, answer, told in asked]
    return calls + yaml_that_cannot_be_read() + words_that_are_wrong()


def words_that_are_wrong():
    """Words, maps, scenarios and programs with which no answer is judged."""
    paths = PATHS["cheapest"]
    return [
        Asked("verify, paths said to be lacam", paths, 2, "", ["'solution='"], ["--format", "lacam"]),
        Asked("verify, an unknown format", paths, 2, "", ["invalid choice: 'text'"], ["--format", "text"]),
        Asked("verify, no agents", paths, 2, "", ["number from 1 to 200"], agents="0"),
        Asked("verify, more agents than the scenario has", paths, 2, "", ["has 2 agents", "at most 2"], agents="3"),
        Asked("verify, a limit too great", paths, 2, "", ["number from 0 to 100,000"], ["--limit", "100001"]),
        Asked("verify, a scenario of another map", paths, 2, "", ["scen, line 2:", "this scenario's map?"],
              grid=ROOMS_MAP),
        Asked("verify, a map with a bad row", paths, 2, "", ["map, line 6:", "row 1"],
              grid=CROSSING_MAP.replace("...\n", "..\n").replace("..\n", "...\n", 1)),
        Asked("verify, no program", paths, 2, "", ["MAPF names /nowhere", "set it"], environment={"MAPF": "/nowhere"}),
        Asked("verify, a program that is another", paths, 2, "", ["true --version tells no version", "isn't mapf"],
              environment={"MAPF": "/bin/true"}),
        Asked("verify, no seconds", paths, 2, "", ["number of seconds above 0"], ["--seconds", "0"]),
    ]


def yaml_that_cannot_be_read():
    yaml = YAML["cheapest"]
    lines, deep = yaml.count("\n"), 100_000
    texts = {
        "statistics alone": (YAML_HEAD, ["no agents under 'schedule:'"]),
        "a schedule of nobody": (YAML_HEAD + "schedule:\n", ["no agents under 'schedule:'"]),
        "an agent of another name": (yaml.replace("agent1", "robot1"), ["'robot1' has to be 'agentN'"]),
        "an agent without entries": (YAML["missing"] + "  agent1:\n", ["'agent1' has to be 'agentN'"]),
        "a tick left out": (yaml.replace("t: 3", "t: 4"), ["'agent1:', entry 4", "its t is 4, and 3 is due"]),
        "an entry cut": (YAML["elsewhere"] + "    - x: 1\n      y: 0\n", ["'agent1:', entry 2", "whether the file"]),
        "an agent twice": (yaml + YAML_AGENT_1, [f"line {lines + 1}:", "agent 1 stands above"]),
        "a schedule twice": (yaml + "schedule:\n", [f"line {lines + 1}:", "line 7 has a 'schedule:'"]),
        "a value twice": (yaml.replace("      y: 2\n", "      y: 2\n      y: 2\n"), [f"line {lines}:", "values of y"]),
        "a part that is no number": (yaml.replace("y: 2", "y: two"), ["'agent1:', entry 4", "whole numbers"]),
        "an entry of nobody": (yaml.replace("  agent0:\n", ""), ["line 8:", "'agentN:' stands above"]),
        "brackets in brackets": ("schedule: " + "[" * deep, ["line 1:", "below it the agents"]),
        "brackets below an agent": ("schedule:\n  agent0:\n    - " + "[" * deep, ["line 3:", "'x: N'"]),
        "lists in lists": ("schedule:\n  agent0:\n    " + "- " * deep, ["line 3:", "'x: N'"]),
        "braces in braces": ("schedule:\n  agent0:\n    - " + "{x: " * deep, ["'agent0:', entry 1"]),
    }
    return [Asked(f"verify, yaml, {name}", text, 2, "", told) for name, (text, told) in texts.items()]


def that_are_not_valid():
    """Plans with faults of other kinds, and with several."""
    column_first = "Agent 0: (0,1)->(1,1)->(2,1)->\nAgent 1: (1,0)->(1,0)->(1,1)->(1,2)->\n"
    texts = {
        "a column before the row": (column_first, [
            "agent 0 begins in (1,0), and its start is (0,1)", "agent 0 ends in (1,2), and its goal is (2,1)",
            "agent 1 begins in (0,1), and its start is (1,0)", "agent 1 ends in (2,1), and its goal is (1,2)"],
            "with x and y exchanged each agent begins at its start: see whether the format is the right one, or add "
            "--exchange-xy\n"),
        "cells counted from 1": ("Agent 0: (2,1)->\nAgent 1: (1,2)->\n", [
            "agent 0 begins in (1,2), and its start is (0,1)", "agent 0 ends in (1,2), and its goal is (2,1)",
            "agent 1 begins in (2,1), and its start is (1,0)", "agent 1 ends in (2,1), and its goal is (1,2)"],
            "with 1 less in x and y each agent begins at its start: cells are counted from 0, and here from 1\n"),
        "another problem": ("Agent 0: (2,2)->\nAgent 1: (0,0)->\n", [
            "agent 0 begins in (2,2), and its start is (0,1)", "agent 0 ends in (2,2), and its goal is (2,1)",
            "agent 1 begins in (0,0), and its start is (1,0)", "agent 1 ends in (0,0), and its goal is (1,2)"],
            "no agent begins at its start: see whether MAP and SCEN are those of the answer\n"),
        "a cell outside the map": (PATHS["missing"] + "Agent 1: (0,1)->(-1,1)->(0,1)->(0,1)->(1,1)->(2,1)->\n", [
            "agent 1 goes from (1,0) to (1,-1) after tick 0, and (1,-1) is outside the map"], ""),
        "a cell beyond the width": (PATHS["missing"] + "Agent 1: (0,1)->(0,2)->(0,3)->(2,1)\n", [
            "agent 1 goes from (2,0) to (3,0) after tick 1, and (3,0) is outside the map",
            "agent 1 goes from (3,0) to (1,2) after tick 2, which is further than one cell"], ""),
        "more faults than are told": ("Agent 0: " + "(1,0)->" * 13 + "(1,1)->(1,2)\nAgent 1: (0,1)->(0,0)->(1,0)\n", [
            "agent 1 ends in (0,1), and its goal is (1,2)",
            *(f"agents 0 and 1 are both in (0,1) at tick {tick}" for tick in range(2, 11))], "and 2 more\n"),
        "a jump": (PATHS["missing"] + "Agent 1: (0,1)->(2,1)->\n", [
            "agent 1 goes from (1,0) to (1,2) after tick 0, which is further than one cell"], ""),
    }
    return [Asked(f"verify, {name}", text, 1, "not valid: " + "\nand ".join(faults) + "\n" + advice)
            for name, (text, faults, advice) in texts.items()]


def by_bound():
    """Searches that meet their limit with a bound below the cost, and with one that is the cost; and those that go
    beyond the first.
    """
    apart = "Agent 0: (0,4)->(0,5)->(1,5)->\n"
    return [
        Asked("verify, a limit of no splits", BEST_OF_FOUR, 4, f"{WITHIN} (limit of 0 splits)\n",
              more=["--limit", "0"], noted=f"prints 'within {8 + LONG - 1} {9 + LONG - 1}': ", **FOUR),
        Asked("verify, a limit of no splits and a bound that is the cost", PATHS["cheapest"], 0, "cheapest: 5\n",
              more=["--limit", "0"]),
        Asked("verify, a search beyond that bound", BEST_OF_THREE, 0, "cheapest: 9\n", **THREE),
        Asked("verify, two that have to wait and two that don't", BEST, 0, "cheapest: 9\n", **ROOMS),
        Asked("verify, a wait too many", WAITS, 1, "not cheapest: 10, a plan of 9 is in FOUND\n", **ROOMS),
        Asked("verify, one agent by its distance", apart, 0, "cheapest: 2\n", more=["--limit", "0"], agents="1",
              grid=ROOMS_MAP, scenario="version 1\n0 r.map 7 3 4 0 5 1 2\n"),
    ]


def by_cbs():
    """Searches of which mapf says that the answer is that of cbs. After one split that has the bound 9 and no plan."""
    by_one = {**ROOMS, "more": ["--limit", "1"], "said": f"{REFUSAL}\n"}
    return [
        ("a bound that is the cost, by cbs", BY_CBS,
         Asked("", BEST, 0, "cheapest: 9\n", **by_one,
               noted="its line 'claim bound 9' was changed into 'claim cost 9'")),
        ("a bound below the cost, by cbs", BY_CBS,
         Asked("", WAITS, 4, "within 9..10, a certificate of 9 is in CERT (limit of 1 splits)\n",
               **{**by_one, "noted": "prints 'refused C4': "})),
    ]


def by_options():
    """Words that change how an answer is read, or what a call ends with."""
    column_first = "Agent 0: (0,1)->(1,1)->(2,1)->\nAgent 1: (1,0)->(1,0)->(1,1)->(1,2)->\n"
    meet = ANSWERED["vertex"][1]
    return [
        Asked("verify, x and y exchanged", column_first, 0, "cheapest: 5\n", more=["--exchange-xy"]),
        Asked("verify, x and y exchanged in error", PATHS["vertex"], 1, more=["--exchange-xy"],
              out="not valid: agent 0 begins in (1,0), and its start is (0,1)\n"
                  "and agent 0 ends in (1,2), and its goal is (2,1)\n"
                  "and agent 1 begins in (0,1), and its start is (1,0)\n"
                  "and agent 1 ends in (2,1), and its goal is (1,2)\n"
                  "and agents 0 and 1 are both in (1,1) at tick 1\n"
                  "with x and y exchanged each agent begins at its start: see whether the format is the right one, or "
                  "add --exchange-xy\n"),
        Asked("verify, a status of its own, not valid", PATHS["vertex"], 5, meet, more=["--distinct-status"]),
        Asked("verify, a status of its own, not cheapest", PATHS["dearer"], 1, ANSWERED["dearer"][1],
              more=["--distinct-status"]),
        Asked("verify, time enough", PATHS["dearer"], 1, ANSWERED["dearer"][1], more=["--seconds", "60"]),
        Asked("verify, time enough, and a limit of no splits", BEST_OF_FOUR, 4, f"{WITHIN} (limit of 0 splits)\n",
              more=["--limit", "0", "--seconds", "60"], **FOUR),
    ]


# In place of the program, in the shell's words: one that never ends a search, or only those of no splits.
HANGS = '[ "$1" != solve ] || exec sleep 100\n'
HANGS_LATER = '[ "$1" != solve ] || [ "$7" = 0 ] || exec sleep 100\n'

# One that answers by the search cbs, as mapf does if it refuses what cbsh finds.
REFUSAL = "mapf: the answer of cbsh was refused (C8 12); this is the answer of cbs"
BY_CBS = f'[ "$1" != solve ] || {{ echo "{REFUSAL}" >&2; shift 3; set -- solve "$@"; }}\n'


def in_time():
    """Searches that don't end in the time that they have. A search of no splits ends in 5 seconds, also on a machine
    that has much to do.
    """
    return [
        ("no time for a search", HANGS,
         Asked("", WAITS, 4, "unknown: 10 (limit of 0.5 seconds)\n", more=["--seconds", "0.5"],
               noted="one leaf doesn't show that it is cheapest", **ROOMS)),
        ("time for a search of no splits", HANGS_LATER,
         Asked("", BEST_OF_FOUR, 4, f"{WITHIN} (limit of 5 seconds)\n",
               noted="mapf solve --search cbsh problem.map problem.scen 4 0 found.txt cert.txt",
               more=["--seconds", "5"], **FOUR)),
    ]


def faults_behind(lines, asked):
    """As `faults_of`, with a script in the program's place."""
    with tempfile.TemporaryDirectory() as name:
        asked.environment["MAPF"] = str(script(Path(name), lines))
        return faults_of(asked)


def script(folder, lines):
    """A program that is the real one, but for what these lines do."""
    path = folder / "mapf"
    path.write_text(f'#!/bin/sh\n{lines}exec "{os.environ["MAPF"]}" "$@"\n')
    path.chmod(0o755)
    return path


def example():
    """The answer that README.md tries."""
    answer, grid, scenario = [(EXAMPLES / f"empty-8-8{tail}").read_text() for tail in ("-answer.txt", ".map", ".scen")]
    return Asked("verify, an example", answer, 0, "cheapest: 43\n", agents="6", grid=grid, scenario=scenario)


def called(asked, folder, *more):
    """Runs tools/verify in a folder, with the temporary files in a folder in it."""
    for name, text in (("map", asked.grid), ("scen", asked.scenario), ("answer", asked.answer)):
        (folder / name).write_bytes(text.encode() if isinstance(text, str) else text)
    (folder / "tmp").mkdir(exist_ok=True)
    words = [sys.executable, str(VERIFY), "map", "scen", asked.agents, "answer", *asked.more, *more]
    environment = {**os.environ, "TMPDIR": str(folder / "tmp"), **asked.environment}
    return subprocess.run(words, cwd=folder, env=environment, stdin=subprocess.DEVNULL, capture_output=True, text=True)


def faults_of(asked):
    """How a call, and the same with --keep, differ from what is wanted, and how what is kept does."""
    with tempfile.TemporaryDirectory() as name:
        folder = Path(name)
        faults = ended_faults(asked, called(asked, folder), rf"{folder}/tmp/mapf-verify-\w+")
        if asked.status != 2:
            faults += ended_faults(asked, called(asked, folder, "--keep", "kept"), "kept")
            faults += kept_faults(folder / "kept", asked)
        return faults


# The words of what is wanted that stand for files in the folder that shows the answer.
NAMED = {"FOUND": "found.txt", "CERT": "cert.txt"}


def ended_faults(asked, ended, folder):
    """What differs in a call. Where its answer names a file in a folder that nobody named, it says that this stays."""
    wanted = re.escape(asked.out)
    for word, name in NAMED.items():
        wanted = wanted.replace(word, f"{folder}/{re.escape(name)}")
    is_named = wanted != re.escape(asked.out)
    stays = re.escape(asked.said) + ("verify: (.*) stays, .*\n" if is_named and "/tmp/" in folder else "")
    faults = []
    if ended.returncode != asked.status:
        faults.append(f"status {ended.returncode}, wanted {asked.status}")
    if not re.fullmatch(wanted, ended.stdout):
        faults.append(f"it says {ended.stdout!r}, wanted {asked.out!r}")
    if asked.status != 2 and not re.fullmatch(stays, ended.stderr):
        faults.append(f"it says {ended.stderr!r} on standard error")
    missing = [part for part in asked.told if part not in ended.stderr]
    return faults + [f"standard error has no {part!r}: {ended.stderr!r}" for part in missing]


def kept_faults(kept, asked):
    """The note begins with the answer, and mapf check says in the folder what the note says."""
    if not (kept / "commands.txt").exists():
        return ["no commands.txt is kept"]
    note = (kept / "commands.txt").read_text()
    answer = asked.out
    for word, name in NAMED.items():
        answer = answer.replace(word, f"kept/{name}")
    wanted = [answer, asked.noted]
    faults = [f"the note has no {part!r}: {note!r}" for part in wanted if part not in note]
    for words, line in re.findall(r"^    mapf (check .*)\n\nprints '(.*)': ", note, re.MULTILINE):
        ended = subprocess.run([os.environ["MAPF"], *words.split(" ")], cwd=kept, capture_output=True, text=True)
        if ended.stdout != line + "\n":
            faults.append(f"mapf {words} prints {ended.stdout!r} of what is kept, wanted {line!r}")
    return faults


def files_left():
    """A call leaves no file behind, unless it names one, and changes none."""
    faults = []
    for kind in ("cheapest", "vertex", "cut"):
        with tempfile.TemporaryDirectory() as name:
            called(Asked(kind, PATHS[kind], 0), Path(name))
            there = sorted(str(path.relative_to(name)) for path in Path(name).rglob("*"))
            if there != ["answer", "map", "scen", "tmp"] or (Path(name) / "answer").read_text() != PATHS[kind]:
                faults.append(f"{kind} leaves {there}")
    return faults


def piped(answer):
    """Each file is read once, so that a pipe may stand in its place."""
    with tempfile.TemporaryDirectory() as name:
        folder = Path(name)
        for part, text in (("map", CROSSING_MAP), ("scen", CROSSING_SCEN), ("answer", answer)):
            (folder / part).write_text(text)
        words = f"{sys.executable} {VERIFY} <(cat map) <(cat scen) 2 <(cat answer) --keep kept"
        ended = subprocess.run(["bash", "-c", words], cwd=folder, capture_output=True, text=True)
        is_good = (ended.returncode, ended.stdout, ended.stderr) == (0, "cheapest: 5\n", "")
        return [] if is_good else [f"status {ended.returncode}, {ended.stdout!r}, {ended.stderr!r}"]


def folder_kept():
    with tempfile.TemporaryDirectory() as name:
        asked = Asked("", PATHS["cheapest"], 2, "", ["kept isn't empty", "name a new folder"])
        (Path(name) / "kept").mkdir()
        (Path(name) / "kept" / "mine").write_text("mine")
        faults = ended_faults(asked, called(asked, Path(name), "--keep", "kept"), "")
        return faults + [path.name for path in (Path(name) / "kept").iterdir() if path.name != "mine"]
