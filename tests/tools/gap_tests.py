"""Tests of tools/sweep --gap: with a script in the program's place that gives the answers of a table, and with the
program.
"""

import json
import re
import signal
import tempfile
from collections import Counter
from pathlib import Path
from xml.etree import ElementTree

from harness import SECONDS, awaited
from sweep_bench import Bench

from mapf.tools import gap_points, gap_report

# What the script answers for a scenario and a number of agents: the first plan, then with LIMIT 0, 4, 16 and 20. A
# problem that isn't here has the cost 10.
ANSWERS = {
    ("empty-6-6-even-1", 2): ("within 40 44", "within 40 42", "cost 41"),
    ("empty-6-6-even-2", 2): ("cost 30", "cost 30"),
    ("empty-6-6-even-1", 6): ("within 100 120", "within 100 110", "within 104 110", "within 104 110", "within 105 110"),
    ("empty-6-6-even-2", 6): ("limit 0 bound 90", "limit 0 bound 90", "limit 4 bound 92", "limit 16 bound 95",
                              "limit 20 bound 96"),
    ("empty-6-6-even-1", 10): ("impossible", "impossible"),
    ("empty-6-6-even-2", 10): ("limit ticks bound 80", "limit ticks bound 80"),
    ("room-8-8-even-1", 2): ("within 0 5", "within 0 5", "within 0 5", "within 0 5", "within 0 5"),
    ("room-8-8-even-1", 6): ("limit 0 bound 200", "limit 0 bound 200", "limit 4 bound 200", "within 200 201",
                             "within 200 201"),
}

# The rows of these: the status, the answers as cost and bound (the first, the quick and the last one), the verdict, and
# the note.
ROWS = {
    ("empty-6-6-even-1", 2): ("solved", "44 40", "42 40", "41 41", "optimal 41", ""),
    ("empty-6-6-even-2", 2): ("solved", "30 30", "30 30", "30 30", "optimal 30", ""),
    ("empty-6-6-even-1", 6): ("limit", "120 100", "110 100", "110 105", "within 105 110", ""),
    ("empty-6-6-even-2", 6): ("limit", " 90", " 90", " 96", "bound 96", "no plan in hand"),
    ("empty-6-6-even-1", 10): ("impossible", " ", " ", " ", "impossible", ""),
    ("empty-6-6-even-2", 10): ("limit", " 80", " 80", " 80", "bound 80", "no plan in hand"),
    ("room-8-8-even-1", 2): ("limit", "5 0", "5 0", "5 0", "within 0 5", ""),
    ("room-8-8-even-1", 6): ("limit", " 200", " 200", "201 200", "within 200 201", ""),
}

# The table that is printed of these rows, with T for a time. The mean of 5% and 0% is 2.5%, 5 of 105 are 4.76%, and 1
# of 200 is 0.5%.
TABLE = """\
| map       | agents | problems | plans found | first plan | quick gap | gap after 60 s | shown cheapest |
| --------- | -----: | -------: | ----------: | ---------: | --------: | -------------: | -------------: |
| empty-6-6 |      2 |        2 |           2 |          T |     2.50% |          0.00% |           1.00 |
| empty-6-6 |      6 |        2 |           1 |          T |    10.00% |          4.76% |           0.00 |
| empty-6-6 |     10 |        2 |           0 |            |           |                |           0.00 |
| room-8-8  |      2 |        1 |           1 |          T |           |                |           0.00 |
| room-8-8  |      6 |        1 |           1 |            |           |          0.50% |           0.00 |
"""

# Answers that are late, or no answers; what comes of each: the status, the answers as above, the verdict, and a part of
# the note.
LATE = {
    ("empty-6-6-even-1", 2): (("within 100 120", "within 100 110", "within 104 110", "late"),
                              ("limit", "120 100", "110 100", "110 104", "within 104 110", "")),
    ("empty-6-6-even-2", 2): (("within 100 120", "within 100 110", "late"),
                              ("limit", "120 100", "110 100", "110 100", "within 100 110", "")),
    ("empty-6-6-even-3", 2): (("within 100 120", "late"),
                              ("time-out", "120 100", " ", " ", "", "the quick answer: solve took more than 4 s")),
    ("empty-6-6-even-4", 2): (("late",),
                              ("time-out", " ", " ", " ", "", "the first plan: solve took more than 4 seconds")),
    ("empty-6-6-even-5", 2): (("within 70 79", "within 70 77"),
                              ("unchecked", "79 70", " ", " ", "",
                               "the quick answer, within 70 77: check: check took more than 4 seconds")),
}
WRONG = {
    ("pillars-9-7-even-1", 2): (("killed",),
                                ("killed", " ", " ", " ", "", "the first plan: solve was killed by signal 9")),
    ("pillars-9-7-even-2", 2): (("cost 9", "cost few"),
                                ("failed", "9 9", " ", " ", "", "the quick answer: solve: status 0, 'cost few'")),
    ("pillars-9-7-even-3", 2): (("within 50 55", "within 50 55"),
                                ("refused", "55 50", " ", " ", "refused C8 4",
                                 "the quick answer, within 50 55: check refused what solve answered")),
    ("pillars-9-7-even-4", 2): (("within 40 44", "within 40 44", "killed"),
                                ("killed", "44 40", "44 40", " ", "",
                                 "the answer of LIMIT 4: solve was killed by signal 9")),
    ("pillars-9-7-even-5", 2): (("within 40 44", "within 40 44", "within 60 66", "within 60 66", "within 60 66"),
                                ("unchecked", "44 40", "44 40", " ", "",
                                 "the answer of LIMIT 20, within 60 66: check: status 0, 'within 60 67'")),
    ("room-8-8-even-1", 2): (("cost 8", "told 8"),
                             ("solved", "8 8", "8 8", "8 8", "optimal 8", "mapf: the answer of cbsh was refused")),
}

# What `check` says in place of these verdicts.
CHECKS = {"within 50 55": "echo refused C8 4; exit 1", "within 60 66": "echo within 60 67", "within 70 77": "sleep 100"}

# The script: it notes each call, and finds its answer. A certificate is the verdict that fits the answer.
SCRIPT = """\
echo "$@" >>"NOTES"
if [ "$1" = check ]; then
  verdict=$(cat "$6")
  case $verdict in
CHECKS
  *) echo "$verdict" ;;
  esac
  exit 0
fi
[ "$1 $2 $3" = "solve --search cbsh" ] || exit 9
shift 3
when=
[ "$1 $2" != "--improve 0" ] || { shift 2; when=first; }
name=${2##*/}
case "$name $3 ${when:-$4}" in
ANSWERS
*) answer="cost 10" ;;
esac
status=4
case $answer in
late) echo spoilt | tee "$5" >"$6"; exec sleep 100 ;;
killed) kill -9 $$ ;;
told*) echo "mapf: the answer of cbsh was refused" >&2; answer="cost ${answer#told }" ;;
esac
case $answer in
cost*) verdict="optimal ${answer#cost }"; status=0 ;;
impossible) verdict=impossible; status=3 ;;
limit*) verdict="bound ${answer##* }" ;;
*) verdict=$answer ;;
esac
echo "path 0 7 0,0" >"$5"
echo "$verdict" >"$6"
echo "$answer"
exit $status
"""


def tests(tally):
    tally.add("gap, of a cost and a bound", gaps_faults())
    with tempfile.TemporaryDirectory() as folder:
        bench = GapBench(Path(folder) / "bench")
        tally.add("gap, a sweep", whole(bench))
        tally.add("gap, its page", page_faults(bench))
        tally.add("gap, a sweep that is done", done(bench))
        for sent in (signal.SIGTERM, signal.SIGKILL):
            tally.add(f"gap, a sweep that signal {sent} stops", stopped(bench, sent))
        tally.add("gap, answers that are late", others(bench, "late", LATE, 1, "--seconds", "4"))
        tally.add("gap, answers that are wrong", others(bench, "wrong", WRONG, 1))
        tally.add("gap, wrong answers are asked for again", again(bench))
        tally.add("gap, a limit of no splits", no_splits(bench))
        for name, faults in refusals(bench):
            tally.add(f"gap, {name}", faults)
        tally.add("gap, by the program", by_program(bench))


def gaps_faults():
    """The gaps of costs and bounds, and how gaps are spelled."""
    gaps = {("42", "40"): 0.05, ("40", "40"): 0, ("0", "0"): 0, ("5", "0"): None, ("", "40"): None, ("", ""): None}
    spelled = {0: "0.00%", 0.05: "5.00%", 0.00001: "<0.01%", 1.5: "150.00%", None: ""}
    faults = [f"{key} is {gap_points.gap(*key)}" for key, wanted in gaps.items() if gap_points.gap(*key) != wanted]
    faults += [f"{gap} isn't {word}" for gap, word in spelled.items() if gap_report.percent(gap) != word]
    scales = {(0.0,): ["0%", "0.2%", "0.4%", "0.6%", "0.8%", "1%"], (0.1, 0.05): ["0%", "2%", "4%", "6%", "8%", "10%"]}
    for means, words in scales.items():
        found = list(gap_report.Scale.of(list(means)).ticks().values())
        faults += [] if found == words else [f"the scale of {means} is {found}"]
    return faults


class GapBench(Bench):
    """A benchmark with a folder of three scenarios more, of which the last has six agents."""

    def __init__(self, folder):
        super().__init__(folder)
        self.calls = folder / "calls"
        (folder / "scen-gap").mkdir()
        for name, lines in (("empty-6-6-even-1", 11), ("empty-6-6-even-2", 11), ("room-8-8-even-1", 7)):
            text = (folder / "scen-even" / f"{name}.scen").read_text().splitlines()[:lines]
            (folder / "scen-gap" / f"{name}.scen").write_text("\n".join([*text, ""]))
        self.answering = self.answering_by("answering", ANSWERS)

    def answering_by(self, name, answers):
        """The script with these answers."""
        lines = [f'"{scenario}.scen {agents} {when}") answer="{answer}" ;;' for (scenario, agents), there in
                 answers.items() for when, answer in zip(("first", 0, 4, 16, 20), there)]
        checks = [f'  "{verdict}") {said} ;;' for verdict, said in CHECKS.items()]
        return self.script(name, SCRIPT.replace("ANSWERS", "\n".join(lines)).replace("CHECKS", "\n".join(checks))
                           .replace("NOTES", str(self.calls)))

    def sweep(self, out, *more, program=None, scens="scen-gap"):
        return self.call(out, "--gap", *more, program=program or self.answering, scens=scens)

    def called(self):
        """How often each problem was solved with which limit since this was asked last."""
        lines = self.calls.read_text().splitlines() if self.calls.exists() else []
        self.calls.write_text("")
        words = [line.split() for line in lines if line.startswith("solve ")]
        return Counter((Path(said[-5]).stem, int(said[-4]), "first" if "--improve" in said else int(said[-3]))
                       for said in words)

    def made(self, out):
        """What the rows say: for each problem what ROWS has."""
        return {(row["scenario"], int(row["agents"])): told(row) for row in self.rows(out)}


def told(row):
    pairs = [f"{row[cost]} {row[bound]}" for cost, bound in (
        ("first_cost", "first_bound"), ("quick_cost", "quick_bound"), ("cost", "bound"))]
    return (row["status"], *pairs, row["verdict"], row["note"])


def wanted_calls(answers):
    return Counter((*problem, when) for problem, there in answers.items()
                   for when, _ in zip(("first", 0, 4, 16, 20), there))


def whole(bench):
    """A row for each problem, each call once, and the table."""
    ended = bench.sweep("gap")
    faults = [] if ended.returncode == 0 else [f"status {ended.returncode}, {ended.stderr}"]
    made, called = bench.made("gap"), bench.called()
    faults += [f"{key}: {made.get(key)}, wanted {row}" for key, row in ROWS.items() if made.get(key) != row]
    if len(made) != len(ROWS) or called != wanted_calls(ANSWERS):
        faults.append(f"the problems are {list(made)}, the calls {called}")
    for row in bench.rows("gap"):
        has_plan = row["cost"] != ""
        is_measured = all(row[name] for name in ("first_seconds", "quick_seconds", "solve_seconds", "check_seconds",
                                                 "solve_kb", "check_kb", "certificate_bytes", "splits"))
        if row["search"] != "cbsh" or not is_measured or row["makespan"] != ("7" if has_plan else ""):
            faults.append(f"what was measured is {row}")
    if untimed(ended.stdout) != TABLE:
        faults.append(f"the table is\n{ended.stdout}")
    measure = json.loads((bench.folder / "gap" / "settings.json").read_text())["measure"]
    return faults + ([] if measure == "gap" else [f"the settings have the measure {measure}"])


def untimed(text):
    """A table with T for each time, as wide as before."""
    return re.sub(r"(?<=\|) +[0-9.]+ m?s \|", lambda found: "T |".rjust(len(found[0])), text)


def page_faults(bench):
    """A plot of each map with a gap, with a mark for each mean of each answer; and the table."""
    page = (bench.folder / "gap" / "report.html").read_text()
    marks = {}
    for plot in bench.plots("gap"):
        figure = ElementTree.fromstring(plot)
        marks[figure.find(".//text[@class='title']").text] = [title.text for title in figure.findall(".//title")]
    faults = [] if marks == {
        "empty-6-6": ["2 agents: 2.50%, mean of 2", "6 agents: 10.00%, mean of 1", "2 agents: 0.00%, mean of 2",
                      "6 agents: 4.76%, mean of 1"],
        "room-8-8": ["6 agents: 0.50%, mean of 1"]} else [f"the marks are {marks}"]
    parts = ("<title>Gaps of mapf</title>", "<th>gap after 60 s</th>", "<td>4.76%</td>", "within 60 seconds",
             ">quick answer</text>", "8 runs: 5 limit, 2 solved, 1 impossible.")
    faults += [f"the page hasn't {part}" for part in parts if part not in page]
    return faults + (["the page tells of failed runs"] if "Runs that failed" in page else [])


def done(bench):
    """A sweep that is done calls nothing, and with more agents makes what is missing."""
    ended = bench.sweep("gap")
    faults = [] if untimed(ended.stdout) == TABLE and not bench.called() else [f"it runs again, {ended}"]
    ended = bench.sweep("gap", "--agents", "2,3,6,10")
    problems = {problem[:2] for problem in bench.called()}
    wanted = {(name, 3) for name, _ in ANSWERS}
    return faults + ([] if ended.returncode == 0 and problems == wanted else [f"{problems} were solved, {ended}"])


def stopped(bench, number):
    """What is in results.csv isn't made twice. A sweep that was stopped leaves a report of what there is."""
    out = f"stopped-{number}"
    bench.called()
    path = bench.folder / out / "results.csv"
    process = bench.start(out, "--gap", "--jobs", "2", program=bench.answering)
    has_rows = awaited(lambda: path.exists() and path.read_bytes().count(b"\n") > 4)
    process.send_signal(number)
    status = process.wait(SECONDS)
    there = bench.made(out)
    bench.called()
    faults = [] if has_rows and 0 < len(there) < 45 else [f"it was stopped after {len(there)} runs"]
    report = bench.folder / out / "report.html"
    if number != signal.SIGKILL and (status != 130 or 'class="partly"' not in report.read_text()):
        faults.append(f"status {status}, or a report that doesn't tell what is due")
    ended = bench.sweep(out, "--jobs", "4", scens="scen-even")
    made = bench.made(out)
    again = {problem[:2] for problem in bench.called()}
    if ended.returncode != 0 or len(made) != 45 or {**made, **there} != made or again != set(made) - set(there):
        faults.append(f"{len(made)} rows, {len(again & set(there))} of {len(there)} were made again, {ended.stderr}")
    return faults + [f"{key}: {made.get(key)}" for key, row in ROWS.items() if key in made and made[key] != row]


def others(bench, out, wanted, status, *more):
    """The rows of these problems tell what ended them. All others are solved."""
    program = bench.answering_by(f"{out}.sh", {key: answers for key, (answers, _) in wanted.items()})
    ended = bench.sweep(out, "--agents", "2", "--jobs", "8", *more, program=program, scens="scen-even")
    made = bench.made(out)
    faults = [] if ended.returncode == status and len(made) == 15 else [f"status {ended.returncode}, {ended.stderr}"]
    usual = ("solved", *["10 10"] * 3, "optimal 10", "")
    for key, row in made.items():
        _, due = wanted.get(key, (None, usual))
        if row[:-1] != due[:-1] or not row[-1].startswith(due[-1]) or bool(row[-1]) != bool(due[-1]):
            faults.append(f"{key}: {row}, wanted {due}")
    page = (bench.folder / out / "report.html").read_text()
    untold = [row[-1] for row in made.values() if row[0] in ("killed", "failed", "refused", "unchecked")
              and row[-1].replace("'", "&#x27;") not in page]
    return faults + [f"the page doesn't tell {note}" for note in untold]


def again(bench):
    """With --again the runs that failed are made once more, and no others."""
    bench.called()
    program = bench.folder / "wrong.sh"
    ended = bench.sweep("wrong", "--agents", "2", "--again", program=program, scens="scen-even")
    problems = {problem[:2] for problem in bench.called()}
    wanted = {key for key, (_, row) in WRONG.items() if row[0] != "solved"}
    return [] if ended.returncode == 1 and problems == wanted else [f"{problems} were solved, {ended}"]


def no_splits(bench):
    """With a limit of 0 the quick answer is the last one."""
    bench.called()
    ended = bench.sweep("none", "--limit", "0", "--agents", "6")
    made = bench.made("none")[("empty-6-6-even-1", 6)]
    is_good = ended.returncode == 0 and made == ("limit", "120 100", "110 100", "110 100", "within 100 110", "")
    limits = {problem[2] for problem in bench.called()}
    return [] if is_good and limits == {"first", 0} else [f"{made}, {limits}, {ended}"]


def refusals(bench):
    """Calls that can't be made: each ends with status 2, in a line that says what to mend."""
    bench.call("plain", "--search", "cbsh", "--agents", "2", scens="scen-few")
    calls = {
        "beside --search cbs": (bench.sweep("new", "--search", "cbs"), "--gap is for --search cbsh, not cbs"),
        "in a folder of success rates": (bench.sweep("plain", scens="scen-few", program=bench.program),
                                         "holds runs with measure success rate: call with the same"),
        "other seconds": (bench.sweep("gap", "--seconds", "61"), "holds runs with seconds 60"),
        "success rates in a folder of gaps": (bench.call("gap", "--search", "cbsh", program=bench.answering,
                                                         scens="scen-gap"), "holds runs with measure gap: call"),
    }
    for name, (ended, part) in calls.items():
        is_told = ended.returncode == 2 and part in ended.stderr
        yield name, [] if is_told else [f"status {ended.returncode}, {ended.stderr}"]
    ended = bench.sweep("gap", "--search", "cbsh")
    yield "beside --search cbsh", [] if ended.returncode == 0 else [f"status {ended.returncode}, {ended.stderr}"]


def by_program(bench):
    """The program's answers are confirmed, plans get no worse, and no bound is above a cost."""
    ended = bench.sweep("by-program", program=bench.program, scens="scen-few")
    rows = bench.rows("by-program")
    faults = [] if ended.returncode == 0 and len(rows) == 9 else [f"status {ended.returncode}, {ended.stderr}, {rows}"]
    for row in rows:
        costs = [int(row[name]) for name in ("first_cost", "quick_cost", "cost") if row[name]]
        bounds = [int(row[name]) for name in ("first_bound", "quick_bound", "bound") if row[name]]
        is_good = costs == sorted(costs, reverse=True) and all(bound <= cost for bound in bounds for cost in costs)
        if not is_good or (row["status"] == "solved") != (row["cost"] == row["bound"]):
            faults.append(str(row))
    return faults
