"""Tries tools/trim on certificates of which what has to be left is written by hand, and on all that are accepted of the
cases, of the vectors and of what mapf solves: mapf and tools/recheck judge what is left as they judge the whole.
"""

import argparse
import os
import re
import subprocess
import sys
import tempfile
from pathlib import Path

from harness import TESTS, run
from recheck_tests import accepted_cases, solved_cases, solved_examples
from rule_vectors import vectors_of
from versions import TITLE, TITLE_TWO

from mapf.tools import trim

TRIM = TESTS.parent / "tools" / "trim"
CASES = TESTS / "cases"

# The crossing's only split with its leaves, as version 1 spells it.
CROSSING = """
    vertex 0 1 1,1 1
    leaf 1
    agent 0 1
    at 0,1 0 3
    leaf 1
    agent 1 1
    at 1,0 0 3"""

# What is left between the claim and the end of the certificates of some cases.
LEFT = {
    "solve-wall": "leaf 0",
    "solve-shared-goal": "clash 0 1",
    # The distances show the cost.
    "solve-seventeen-agents-replanned": "leaf 0",
    # A split whose sides are whole trees, and an entry for which no other asks.
    "check-split-that-was-not-needed": CROSSING,
    "check-label-late-at-a-cell-not-asked-for": CROSSING,
    # The claim is 4: two leaves show as much without a split more, and a block needs but one entry for that.
    "solve-niche": """
        vertex 0 1 1,0 1 0
        vertex 0 1 1,0 2 1
        agent 0 1
        at 0,0 0 3
        leaf 1
        agent 0 2
        at 0,0 0 4
        at 0,0 1 3
        leaf 1
        agent 1 1
        at 1,0 0 1
        leaf 1
        agent 1 1
        at 1,0 0 2""",
    # A claim below what the tree shows.
    "check-bound-lowered": """
        swap 0 1 0,0 1,0 0 0
        leaf 1
        agent 0 1
        at 0,0 0 2
        leaf 1
        agent 1 1
        at 1,0 0 2""",
    # No number is as much as this claim.
    "solve-shared-start": """
        vertex 0 1 0,0 0 0
        leaf 1
        agent 0 1
        at 0,0 0 inf
        leaf 1
        agent 1 1
        at 0,0 0 inf""",
}

# Agents 0 and 1 cross, and agent 2 goes down behind a wall. That bound needs the split of the first two alone.
BESIDE = {
    "map": "type octile\nheight 3\nwidth 5\nmap\n...@.\n...@.\n...@.\n",
    "scen": "version 1\n0 b.map 5 3 0 1 2 1 2\n0 b.map 5 3 1 0 1 2 2\n0 b.map 5 3 4 0 4 2 2\n",
    "plan": "mapf-plan 2\nagents 3\nlimit 3 bound 7\nend\n",
}
HEAD, LATER = "mapf-cert 2\nagents 3\nclaim bound 7\n", "leaf 1\nagent 0 1\nat 0,1 0 3\n"
CROSSED = f"vertex 0 1 1,1 1 0\n{LATER}leaf 1\nagent 1 1\nat 1,0 0 3\n"


def tests(tally):
    for name, left in LEFT.items():
        tally.add(f"trim, what is left of {name}", left_faults(name, left))
    with tempfile.TemporaryDirectory() as name:
        folder = Path(name)
        examples = list(solved_examples(folder))
        for title, agents, place in [*solved_cases(folder), *accepted_cases(folder), *examples]:
            given = {file: place / file for file in ("map", "scen", "plan", "cert")}
            if given["cert"].read_bytes().startswith((TITLE, TITLE_TWO)):
                tally.add(f"trim, {title}", faults_of(given, agents, folder / "trimmed"))
        for vector in vectors_of("check"):
            if vector.is_accepted():
                tally.add(f"trim, {vector.name}", faults_of(vector.files, vector.agents, folder / "trimmed"))
        tally.add("trim, the examples", example_faults(examples))
        for title, tree in (("of which no side is needed", CROSSED + CROSSED),
                            ("of which the shorter side is needed", LATER + CROSSED)):
            tally.add(f"trim, a split {title}", beside_faults(tree, folder))
    for title, faults in calls().items():
        tally.add(f"trim, {title}", faults)


def trimmed(files, agents):
    """What is left of a certificate. The files are by their names."""
    places = {name: str(files[name]) for name in ("map", "scen", "plan", "cert")}
    return trim.trimmed(argparse.Namespace(k=agents, **places))


def tree_of(text):
    """The lines between the claim and the end."""
    return text.splitlines()[3:-1]


def left_faults(name, left):
    """What differs from these lines in what is left of the certificate of a case."""
    given = (CASES / name / "cert").read_text()
    agents = int(re.search("agents ([0-9]+)", given)[1])
    text = trimmed({file: CASES / name / file for file in ("map", "scen", "plan", "cert")}, agents)
    return [] if text == with_tree(given, left) else [f"it is {text!r}"]


def with_tree(certificate, tree):
    """The certificate with these lines, which are indented, for its tree."""
    lines = [*certificate.splitlines()[:3], *(line.strip() for line in tree.strip().splitlines()), "end", ""]
    return "\n".join(lines)


def faults_of(files, agents, place):
    """What is left isn't longer, and judged as the whole is. What is left of it is no longer either."""
    whole = files["cert"].read_text(encoding="latin-1")
    text = trimmed(files, agents)
    place.write_text(text)
    faults = [f"{len(text)} bytes are left of {len(whole)}"] if len(text) > len(whole) else []
    left = {**files, "cert": place}
    if len(trimmed(left, agents)) > len(text):
        faults.append("what is left of what is left is longer")
    for given in (files, left):
        words = [str(given["map"]), str(given["scen"]), str(agents), str(given["plan"]), str(given["cert"])]
        told = run(["check", *words], program=os.environ["MAPF"])
        line = told.stdout.decode().removesuffix("\n")
        if told.status != 0 or trim.recheck.answer([*words[:2], *words[3:]], agents) != (1, line, 0):
            faults.append(f"the judges differ, or refuse it: {told}")
    return faults


def example_faults(examples):
    """Of some examples the root alone is left, and of the others at most half."""
    faults = []
    for title, agents, place in examples:
        files = {file: place / file for file in ("map", "scen", "plan", "cert")}
        text, whole = trimmed(files, agents), files["cert"].read_text()
        if tree_of(whole) != ["leaf 0"] and 2 * len(text) > len(whole):
            faults.append(f"of {title} {len(text)} bytes are left of {len(whole)}")
    return faults


def beside_faults(tree, folder):
    """Of a split of agents 0 and 2 that isn't needed what is left is that of agents 0 and 1."""
    texts = {**BESIDE, "cert": f"{HEAD}vertex 0 2 1,1 1 0\n{tree}end\n"}
    files = {name: folder / name for name in texts}
    for name, text in texts.items():
        files[name].write_text(text)
    text = trimmed(files, 3)
    return [] if text == f"{HEAD}{CROSSED}end\n" else [f"it is {text!r}"]


def calls():
    """What calls of the command print and write, and how they end."""
    case, bad = CASES / "check-bound-lowered", CASES / "check-label-too-high"
    given = [case / "map", case / "scen", "2", case / "plan", case / "cert"]
    wanted = with_tree((case / "cert").read_text(), LEFT["check-bound-lowered"])
    newer = TESTS / "version3" / "never-in-a-winding-corridor"
    usage = "usage: "
    asked = [
        ("standard output", given, 0, wanted, ""),
        ("--out", [*given, "--out", "left"], 0, "", ""),
        ("--out in the certificate's place", [*given[:4], "cert", "--out", "cert"], 0, "", ""),
        ("--help", ["--help"], 0, usage, ""),
        ("--out in no folder", [*given, "--out", "none/left"], 2, "", "none/left can't be written: No such file"),
        ("no certificate", [*given[:4], "none"], 2, "", "none: No such file or directory"),
        ("a certificate that is refused", [bad / "map", bad / "scen", "2", bad / "plan", bad / "cert"], 2, "",
         "recheck says 'refused C7 7': docs/FORMATS.md tells what it means"),
        ("a certificate of version 3", [newer / "map", newer / "scen", "3", newer / "plan", newer / "cert"], 2, "",
         "this certificate is of version 3, and only those of versions 1 and 2 can be cut"),
        ("no map", [case / "scen", *given[1:]], 2, "", "recheck says 'F1 M1': docs/FORMATS.md tells what it means"),
        ("no agents", [*given[:2], "0", *given[3:]], 2, "", "number from 1 to 200"),
    ]
    found = {}
    for title, words, status, out, err in asked:
        with tempfile.TemporaryDirectory() as folder:
            Path(folder, "cert").write_bytes((case / "cert").read_bytes())
            ended = subprocess.run([sys.executable, str(TRIM), *map(str, words)], cwd=folder, stdin=subprocess.DEVNULL,
                                   capture_output=True, text=True)
            is_right = ended.returncode == status and err in ended.stderr and bool(err) == bool(ended.stderr)
            is_right = is_right and (ended.stdout.startswith(out) if out == usage else ended.stdout == out)
            if status == 0 and "--out" in words:
                is_right = is_right and Path(folder, words[-1]).read_text() == wanted
        found[title] = [] if is_right else [f"status {ended.returncode}, {ended.stdout!r}, {ended.stderr!r}"]
    return found
