"""Tests of tools/sweep --beside: the plots have the runs of other solvers too, as tables that are written by hand tell
them.
"""

import re
import tempfile
from pathlib import Path
from xml.etree import ElementTree

from sweep_bench import Bench

# What two solvers tell of one map. The first tries no scenario again after the number of agents with which it isn't
# solved, so that it counts as not solved with more; the second leaves out columns, and has one of its own.
FIRST = """map,scenario,agents,status,solve_seconds
empty-6-6,empty-6-6-even-1,2,solved,0.5
empty-6-6,empty-6-6-even-2,2,solved,0.25
empty-6-6,empty-6-6-even-3,2,timeout,
empty-6-6,empty-6-6-even-4,2,solved,2
empty-6-6,empty-6-6-even-5,2,solved,0.001
empty-6-6,empty-6-6-even-1,6,solved,40
empty-6-6,empty-6-6-even-2,6,timeout,
another-map,another-map-even-1,2,solved,1
"""
SECOND = """agents,solve_seconds,scenario,mine,map,status
2,3,empty-6-6-even-1,x,empty-6-6,solved
"""
RATES = {"A* & Co even": ["2 agents: 4 of 5 solved", "6 agents: 1 of 3 solved"], "B even": ["2 agents: 1 of 1 solved"]}
MEDIANS = {"A* & Co even": ["2 agents: 375 ms, median of 4", "6 agents: 40.0 s, median of 1"],
           "B even": ["2 agents: 3.00 s, median of 1"]}
COUNTS = {"A* & Co even": ["5 runs solved, each in at most 40.0 s"],
          "B even": ["1 runs solved, each in at most 3.00 s"]}


def tests(tally):
    with tempfile.TemporaryDirectory() as folder:
        bench = Bench(Path(folder) / "bench")
        for name, text in (("first.csv", FIRST), ("second.csv", SECOND)):
            (bench.folder / name).write_text(text)
        tally.add("a sweep beside other solvers", beside_faults(bench))
        tally.add("a sweep without them once more", without_faults(bench))
        for name, faults in refusals(bench):
            tally.add(f"--beside, {name}", faults)


def given(bench, *tables):
    return [word for name, file in tables for word in ("--beside", f"{name}={bench.folder / file}")]


def few(bench, *more):
    """A sweep of one scenario of each map."""
    return bench.call("out", *more, scens="scen-few")


def beside_faults(bench):
    """The plots of the map have curves of each solver, with one look in each plot, and the table has rows of each."""
    ended = few(bench, *given(bench, ("A* & Co", "first.csv"), ("B", "second.csv")))
    if ended.returncode != 0:
        return [f"status {ended.returncode}, {ended.stderr}"]
    faults = []
    page = (bench.folder / "out" / "report.html").read_text()
    for kind, wanted in (("", RATES), (' class="runtime"', MEDIANS), (' class="cactus"', COUNTS)):
        plots = re.findall(f"<figure{kind}>(.*?)</figure>", page, re.DOTALL)
        plot = next(plot for plot in plots if "empty-6-6" in plot)
        found = curves(ElementTree.fromstring(plot))
        for number, (name, titles) in enumerate(wanted.items(), 1):
            faults += [] if found.get(f"kind{number}") == titles else [f"{name} has {found}, wanted {titles}"]
        names = [text.text for text in ElementTree.fromstring(plot).findall("text") if text.get("class") == "key"]
        faults += [] if names == ["mapf cbs even", *wanted] else [f"the curves are called {names}"]
    if "those of tables that were given" not in page or "A* &amp; Co, B are" not in page or "another-map" in page:
        faults.append("the page doesn't say whose runs they are")
    lines = [line.split("|") for line in ended.stdout.splitlines()]
    told = [(line[2].strip(), line[3].strip(), line[4].strip()) for line in lines if line[1].strip() == "empty-6-6"]
    wanted = [("A* & Co even", "2", "4 of 5"), ("A* & Co even", "6", "1 of 3"), ("B even", "2", "1 of 1")]
    return faults + ([] if told[-3:] == wanted and told[0][0] == "mapf cbs even" else [f"the table is {ended.stdout}"])


def curves(plot):
    """Of each curve the titles of its marks, by the class that gives its look."""
    found = {}
    for group in plot.findall("g"):
        titles = [title.text for title in group.findall(".//title")]
        if titles:
            found[group.get("class")] = titles
    return found


def without_faults(bench):
    """The same command without --beside makes the report anew, and runs nothing."""
    bench.noted()
    ended = few(bench)
    page = (bench.folder / "out" / "report.html").read_text()
    is_alone = ended.returncode == 0 and "given" not in page + ended.stdout and "mapf cbs even" not in page
    return ([] if is_alone else [f"{ended}"]) + (["it runs again"] if bench.noted() else [])


def refusals(bench):
    texts = {"none.csv": "", "short.csv": "map,scenario,agents\nempty-6-6,empty-6-6-even-1,2\n",
             "untimed.csv": FIRST.replace("0.25", ""), "words.csv": FIRST.replace("0.25", "soon"),
             "agents.csv": FIRST.replace(",2,solved,2", ",two,solved,2"), "other.csv": FIRST.replace("empty", "full")}
    for name, text in texts.items():
        (bench.folder / name).write_text(text)
    calls = {
        "no name": (few(bench, "--beside", "first.csv"), "isn't NAME=FILE"),
        "a name twice": (few(bench, *given(bench, ("A", "first.csv"), ("A", "second.csv"))), "solvers are called A"),
        "the name of the sweep": (few(bench, *given(bench, ("mapf cbs", "first.csv"))), "two solvers are called mapf"),
        "no file": (few(bench, *given(bench, ("A", "nowhere.csv"))), "nowhere.csv: No such file"),
        "a file that is empty": (few(bench, *given(bench, ("A", "none.csv"))), "no row of a map of this sweep"),
        "rows of other maps": (few(bench, *given(bench, ("A", "other.csv"))), "no row of a map of this sweep"),
        "a column that is missing": (few(bench, *given(bench, ("A", "short.csv"))), "row 2: the columns map, scenario"),
        "no time of a solved run": (few(bench, *given(bench, ("A", "untimed.csv"))), "row 3: "),
        "a time that is no number": (few(bench, *given(bench, ("A", "words.csv"))), "row 3: "),
        "agents that are no number": (few(bench, *given(bench, ("A", "agents.csv"))), "row 5: "),
        "a sweep of gaps": (few(bench, "--gap", *given(bench, ("A", "first.csv"))), "not --gap"),
    }
    for name, (ended, part) in calls.items():
        is_told = ended.returncode == 2 and part in ended.stderr and "Traceback" not in ended.stderr
        yield name, [] if is_told else [f"status {ended.returncode}, {ended.stderr}"]
