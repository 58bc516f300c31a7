"""Tests of tools/sweep: on a small benchmark that is made here, with the program behind a script that notes each run,
and with scripts in the program's place that are killed, hang, or write nonsense.
"""

import json
import os
import re
import shutil
import signal
import subprocess
import sys
import tempfile
from collections import Counter
from pathlib import Path
from xml.etree import ElementTree

from harness import SECONDS, awaited
from sweep_bench import NUMBERS, SWEEP, Bench
from mapf.tools.sweep_rows import OLD_NAMES


def tests(tally):
    with tempfile.TemporaryDirectory() as folder:
        bench = Bench(Path(folder) / "bench")
        tally.add("a sweep", whole(bench))
        wanted = bench.table("whole")
        tally.add("a sweep with four jobs", the_same(bench, wanted, "four", bench.call("four", "--jobs", "4")))
        tally.add("a sweep that is done", done(bench, wanted))
        for sent in (signal.SIGINT, signal.SIGTERM, signal.SIGKILL):
            tally.add(f"a sweep that signal {sent} stops", stopped(bench, wanted, sent, f"stopped-{sent}"))
        tally.add("a last line that was cut", cut_line(bench, wanted))
        tally.add("a folder from before --gap", old_folder(bench, wanted))
        for name, lines, more, status, row in TROUBLES:
            tally.add(f"a program that {name}", troubled(bench, name, lines, more, status, row))
        tally.add("a program that hangs in a sweep that is stopped", leaves_nothing(bench))
        tally.add("a sweep of another search", another_search(bench, wanted))
        tally.add("a sweep of another search whose answers are refused", refused_search(bench, wanted))
        tally.add("more numbers of agents", more_numbers(bench, wanted))
        tally.add("each number of agents", each_number(bench))
        tally.add("runs that failed are tried again", tried_again(bench, wanted))
        tally.add("the plots of runtimes and of runs solved", other_plots(bench, wanted))
        tally.add("a scenario whose map is missing", map_missing(bench, wanted))
        for name, faults in refusals(bench):
            tally.add(name, faults)
        tally.add("the benchmark of examples/make_benchmark", made_benchmark(Path(folder)))
        dask(tally, bench, wanted)


def made_benchmark(folder):
    """A small one is solved, and one of its maps is that of the examples."""
    made, examples = folder / "made", SWEEP.parent.parent / "examples"
    subprocess.run([sys.executable, str(examples / "make_benchmark"), str(made), "1"], stdout=subprocess.DEVNULL)
    words = [str(made / "maps"), str(made / "scen-random"), str(folder / "made-out"), "--agents", "2,4"]
    ended = subprocess.run([sys.executable, str(SWEEP), *words], capture_output=True, text=True, timeout=SECONDS)
    faults = [] if ended.returncode == 0 and ended.stdout.count("| 1 of 1 |") == 14 else [f"{ended}"]
    same = [path.read_bytes() for path in (made / "maps" / "gen-random-32-32-20.map", examples / "random-32-32.map")]
    return faults + ([] if same[0] == same[1] else ["the map isn't that of the examples"])


def whole(bench):
    """A row for each run, up to the first number of agents of a scenario that wasn't solved; each run is made once."""
    ended = bench.call("whole", "--jobs", "1")
    rows = bench.rows("whole")
    faults = [] if ended.returncode == 0 else [f"status {ended.returncode}, {ended.stderr}"]
    if bench.noted() != Counter(map(bench.solve_of, rows)):
        faults.append("the runs that were made aren't those of the rows")
    of_scenario = {row["scenario"]: [] for row in rows}
    for row in rows:
        of_scenario[row["scenario"]].append((int(row["agents"]), row["status"]))
        faults += row_faults(row)
    if len(of_scenario) != 15 or {row["status"] for row in rows} != {"solved", "limit"}:
        faults.append(f"{len(of_scenario)} scenarios, statuses {sorted({row['status'] for row in rows})}")
    for name, made in of_scenario.items():
        is_rising = [agents for agents, _ in made] == NUMBERS[:len(made)]
        before = {status for _, status in made[:-1]}
        if not is_rising or before - {"solved"} or made[-1][1] == "solved" and made[-1][0] < NUMBERS[-1]:
            faults.append(f"{name} was tried as {made}")
    if ended.stdout.count("\n") != 2 + len({(row["map"], row["agents"]) for row in rows}):
        faults.append(f"the table that is printed is {ended.stdout}")
    marks = sum(len(ElementTree.fromstring(plot).findall(".//title")) for plot in bench.plots("whole"))
    if len(bench.plots("whole")) != 3 or marks != len({(row["map"], row["agents"]) for row in rows}):
        faults.append(f"there are {len(bench.plots('whole'))} plots with {marks} marks")
    return faults + (["a folder of runs is left"] if (bench.folder / "whole" / "runs").exists() else [])


def row_faults(row):
    is_solved = row["status"] == "solved"
    wanted = f"optimal {row['cost']}" if is_solved else "bound "
    is_long = is_solved and 0 < int(row["makespan"]) <= int(row["cost"]) <= int(row["agents"]) * int(row["makespan"])
    if not row["verdict"].startswith(wanted) or row["note"] or not (is_long if is_solved else row["makespan"] == ""):
        return [f"{row['scenario']} with {row['agents']} agents: {row}"]
    if row["search"] != "cbs":
        return [f"its search is {row['search']}"]
    if row["bound"] != row["verdict"].split(" ")[1] or row["first_seconds"] or row["quick_cost"]:
        return [f"its bound is {row['bound']}, or it has columns of a sweep of gaps: {row}"]
    is_measured = int(row["certificate_bytes"]) > 40 and all(float(row[name]) > 0 for name in ("solve_kb", "check_kb"))
    return [] if is_measured and 0 <= int(row["splits"]) <= 20 else [f"what was measured is {row}"]


def the_same(bench, wanted, out, ended):
    faults = [] if ended.returncode == 0 else [f"status {ended.returncode}, {ended.stderr[-1000:]}"]
    if not (bench.folder / out / "results.csv").exists() or bench.table(out) != wanted:
        faults.append("the rows differ")
    elif bench.plots(out) != bench.plots("whole"):
        faults.append("the plots differ")
    return faults


def done(bench, wanted):
    bench.noted()
    ended = bench.call("whole")
    faults = the_same(bench, wanted, "whole", ended)
    return faults + (["it runs again"] if bench.noted() else [])


def stopped(bench, wanted, number, out):
    """Stops a sweep when some rows are there, and calls it again: what was in results.csv isn't run twice."""
    bench.noted()
    path = bench.folder / out / "results.csv"
    process = bench.start(out, "--jobs", "2")
    has_rows = awaited(lambda: path.exists() and path.read_bytes().count(b"\n") > 12)
    process.send_signal(number)
    status = process.wait(SECONDS)
    there = set(map(bench.solve_of, bench.rows(out)))
    bench.noted()
    faults = [] if has_rows and 0 < len(there) < len(wanted) else [f"it was stopped after {len(there)} runs"]
    if number != signal.SIGKILL and (status != 130 or not (bench.folder / out / "report.html").exists()):
        faults.append(f"status {status}, or no report")
    faults += the_same(bench, wanted, out, bench.call(out, "--jobs", "3"))
    made = set(bench.noted())
    if there & made or len(there) + len(made) != len(wanted):
        faults.append(f"{len(there)} rows were there, {len(there & made)} of them were run again")
    return faults


def cut_line(bench, wanted):
    path = bench.folder / "four" / "results.csv"
    path.write_bytes(path.read_bytes()[:-25])
    bench.noted()
    faults = the_same(bench, wanted, "four", bench.call("four"))
    made = bench.noted()
    return faults + ([] if set(made) == {bench.solve_of(wanted[-1])} else [f"{list(made)} were run again"])


def old_folder(bench, wanted):
    """One whose table has fewer columns and whose settings don't tell the measure is taken as it is."""
    folder = shutil.copytree(bench.folder / "whole", bench.folder / "old")
    settings = json.loads((folder / "settings.json").read_text())
    del settings["measure"]
    (folder / "settings.json").write_text(json.dumps(settings) + "\n")
    rows = [line.split(",")[:len(OLD_NAMES)] for line in (folder / "results.csv").read_text().splitlines()]
    (folder / "results.csv").write_text("".join(",".join(row) + "\n" for row in rows[:-1]))
    bench.noted()
    ended = bench.call("old")
    made, table = bench.noted(), bench.table("old")
    is_kept = table[:-1] == [{**row, "bound": ""} for row in wanted[:-1]] and table[-1] == wanted[-1]
    is_good = ended.returncode == 0 and rows[0] == OLD_NAMES and set(made) == {bench.solve_of(wanted[-1])}
    return [] if is_good and is_kept else [f"{list(made)} were run again, {table}, {ended.stderr}"]


# A program that does something wrong, in the shell's words; the words after those of a call; the status of the call;
# and the status, the verdict and a part of the note of each row.
REAL = 'exec "$REAL" "$@"\n'
TROUBLES = [
    ("is killed", "kill -9 $$\n", (), 1, ("killed", "", "solve was killed by signal 9")),
    ("hangs", "sleep 100\n", ("--seconds", "0.2"), 0, ("time-out", "", "solve took more than 0.2 seconds")),
    ("writes nonsense", "echo cost few\n", (), 1, ("failed", "", "solve: status 0, 'cost few'")),
    ("writes bytes without end", "head -c 300000 /dev/urandom\n", (), 1, ("failed", "", "solve: status 0")),
    ("finds no plan", 'echo impossible\n[ "$1" = check ] || { : >"$6"; : >"$7"; exit 3; }\n', (), 0,
     ("impossible", "impossible", "")),
    ("ends with a fault", "echo F6 >&2; exit 2\n", (), 1, ("failed", "", "solve: status 2, 'F6'")),
    ("is killed as it checks", '[ "$1" = solve ] || kill -9 $$\n' + REAL, (), 1,
     ("unchecked", "", "check: check was killed by signal 9")),
    ("hangs as it checks", '[ "$1" = solve ] || sleep 100\n' + REAL, ("--seconds", "1"), 1,
     ("unchecked", "", "check: check took more than 1 seconds")),
    ("refuses", '[ "$1" = solve ] || { echo refused C8 4; exit 1; }\n' + REAL, (), 1, ("refused", "refused C8 4", "")),
    ("confirms another cost", '[ "$1" = solve ] || { echo optimal 1; exit; }\n' + REAL, (), 1,
     ("unchecked", "", "check: status 0, 'optimal 1'")),
]


def troubled(bench, name, lines, more, status, wanted):
    """Each scenario has one row, which says what was wrong, and the sweep goes on to its end."""
    program = bench.script(name.replace(" ", "-") + ".sh", lines.replace("$REAL", os.environ["MAPF"]))
    ended = bench.call(name, *more, program=program, scens="scen-few")
    faults = [] if ended.returncode == status else [f"status {ended.returncode}, {ended.stderr}"]
    rows = bench.rows(name)
    if len({row["scenario"] for row in rows}) != 3 or len(rows) != 3:
        faults.append(f"{len(rows)} rows")
    for row in rows:
        if (row["status"], row["verdict"]) != wanted[:2] or wanted[2] not in row["note"] or row["agents"] != "2":
            faults.append(str(row))
    if ("Runs that failed" in (bench.folder / name / "report.html").read_text()) != (status == 1):
        faults.append("the report tells it otherwise")
    return faults


def leaves_nothing(bench):
    """What a sweep started ends soon after the sweep, however that ends."""
    numbers = bench.folder / "numbers"
    program = bench.script("telling", f'echo $$ >>"{numbers}"\nsleep 100\n')
    faults = []
    for number in (signal.SIGINT, signal.SIGKILL):
        numbers.write_text("")
        process = bench.start(f"left-{number}", "--jobs", "3", program=program)
        if not awaited(lambda: numbers.read_text().count("\n") == 3):
            faults.append("three runs weren't started")
        process.send_signal(number)
        process.wait(SECONDS)
        if not awaited(lambda: not any(Path(f"/proc/{own}").exists() for own in numbers.read_text().split())):
            faults.append(f"after signal {number} a run goes on")
        if not awaited(lambda: not list(bench.folder.glob(f"left-{number}/runs/*"))):
            faults.append(f"after signal {number} files of a run are left")
    return faults


def another_search(bench, wanted):
    """What cbs solves cbsh solves at the same costs. All rows and the report name the search, and the words do."""
    words = bench.folder / "words"
    program = bench.script("noting-words", f'echo "$@" >>"{words}"\nexec "{os.environ["MAPF"]}" "$@"\n')
    ended = bench.call("cbsh", "--search", "cbsh", program=program)
    solved = {(row["scenario"], row["agents"]): row["cost"] for row in wanted if row["status"] == "solved"}
    rows = bench.rows("cbsh")
    costs = {(row["scenario"], row["agents"]): row["cost"] for row in rows if row["status"] == "solved"}
    faults = [] if ended.returncode == 0 else [f"status {ended.returncode}, {ended.stderr}"]
    faults += [f"{key} costs {costs.get(key)}" for key, cost in solved.items() if costs.get(key) != cost]
    faults += [str(row) for row in rows if row["search"] != "cbsh" or row["note"]]
    called = {line[:21] for line in words.read_text().splitlines() if line.startswith("solve")}
    if called != {"solve --search cbsh /"} or "mapf solve --search\ncbsh<" not in (
            bench.folder / "cbsh" / "report.html").read_text():
        faults.append(f"the calls begin with {called}, or the report names another search")
    return faults


def refused_search(bench, wanted):
    """Answers by cbs in place of those that were refused: the rows tell it, and are those of cbs else."""
    said = "mapf: the answer of cbsh was refused (C8 12); this is the answer of cbs"
    lines = f'[ "$2" != --search ] || {{ echo "{said}" >&2; shift 3; set -- solve "$@"; }}\n'
    program = bench.script("refused", f'{lines}exec "{os.environ["MAPF"]}" "$@"\n')
    ended = bench.call("refused-search", "--search", "cbsh", program=program, scens="scen-few")
    told = [{**row, "search": "cbsh", "note": said} for row in wanted if row["scenario"].endswith("-1")]
    is_told = ended.returncode == 0 and bench.table("refused-search") == told
    return [] if is_told else [f"status {ended.returncode}, {bench.table('refused-search')}, {ended.stderr}"]


def more_numbers(bench, wanted):
    """A call with more numbers makes what is missing."""
    bench.call("more", "--agents", str(NUMBERS[0]), scens="scen-few")
    there = bench.table("more")
    bench.noted()
    ended = bench.call("more", scens="scen-few")
    few = [row for row in wanted if row["scenario"].endswith("-1")]
    made = sum(bench.noted().values())
    is_good = ended.returncode == 0 and bench.table("more") == few and len(there) == 3 and made == len(few) - 3
    return [] if is_good else [f"{there}, then {bench.table('more')} by {made} runs, {ended.stderr}"]


def each_number(bench):
    """`2..4` is 2, 3 and 4, and `2,5..11` goes on in steps of 3."""
    faults = []
    for number, (words, wanted) in enumerate((("2..4", {"2", "3", "4"}), ("2,5..9", {"2", "5", "8"}))):
        bench.call(f"each-{number}", "--agents", words, scens="scen-few")
        found = {row["agents"] for row in bench.rows(f"each-{number}")}
        faults += [] if found == wanted else [f"{words} is {found}"]
    return faults


def tried_again(bench, wanted):
    """Runs that failed stay as they are, until --again is said. Then they are made once more, and no others."""
    flag = bench.folder / "flag"
    lines = f'[ ! -e "{flag}" ] || [ "$4" != 6 ] || kill -9 $$\nexec "{bench.program}" "$@"\n'
    program = bench.script("flagged", lines)
    flag.touch()
    first = bench.call("again", program=program, scens="scen-few")
    flag.unlink()
    failed = [row["status"] for row in bench.rows("again") if row["agents"] == "6"]
    bench.noted()
    second = bench.call("again", program=program, scens="scen-few")
    faults = ["a run that failed is made without --again"] if bench.noted() else []
    few = [row for row in wanted if row["scenario"].endswith("-1")]
    third = bench.call("again", "--again", program=program, scens="scen-few")
    made = {int(line.split()[-1]) for line in bench.noted()}
    if (first.returncode, second.returncode, third.returncode) != (1, 1, 0) or set(failed) != {"killed"}:
        faults.append(f"statuses {first.returncode}, {second.returncode}, {third.returncode}, {failed}")
    if bench.table("again") != few or made != {6, 10} or "--again tries" not in first.stderr:
        faults.append(f"the rows are {bench.table('again')}, runs of {made} agents were made, {first.stderr}")
    return faults


def other_plots(bench, wanted):
    """Of each map one plot has the numbers of agents with which runs were solved, and one the number of these runs."""
    page = (bench.folder / "whole" / "report.html").read_text()
    faults = []
    for kind in ("runtime", "cactus"):
        plots = re.findall(f'<figure class="{kind}">(.*?)</figure>', page, re.DOTALL)
        names = [ElementTree.fromstring(plot).find("text").text for plot in plots]
        faults += [] if names == sorted({row["map"] for row in wanted}) else [f"plots of {kind} are of {names}"]
        for name, plot in zip(names, plots):
            solved = [row for row in wanted if row["map"] == name and row["status"] == "solved"]
            titles = [title.text for title in ElementTree.fromstring(plot).findall(".//title")]
            agents = sorted({int(row["agents"]) for row in solved})
            heads = [f"{number} agents: " for number in agents] if kind == "runtime" else [f"{len(solved)} runs solved"]
            if len(titles) != len(heads) or not all(map(str.startswith, titles, heads)):
                faults.append(f"the plot of {kind} of {name} tells {titles}, wanted {heads}")
    return faults


def map_missing(bench, wanted):
    """A row tells it, the others are run; when the map is there a call makes what is left."""
    grid, away = bench.folder / "maps" / "room-8-8.map", bench.folder / "away"
    grid.rename(away)
    ended = bench.call("missing", scens="scen-few")
    away.rename(grid)
    rows = [(row["status"], row["note"]) for row in bench.rows("missing") if row["map"] == "room-8-8"]
    faults = [] if ended.returncode == 1 else [f"status {ended.returncode}, {ended.stderr}"]
    if rows != [("no map", "room-8-8.map isn't in MAPS")]:
        faults.append(f"the rows are {rows}")
    ended = bench.call("missing", scens="scen-few")
    if ended.returncode != 0 or bench.table("missing") != [row for row in wanted if row["scenario"].endswith("-1")]:
        faults.append(f"then status {ended.returncode}, and the rows are {bench.table('missing')}")
    return faults


def refusals(bench):
    """Calls that can't be made: each ends with status 2, in a line that says what to mend."""
    (bench.folder / "none").mkdir()
    (bench.folder / "strange").mkdir()
    (bench.folder / "odd" / "results.csv").mkdir(parents=True)
    shutil.copytree(bench.folder / "whole", bench.folder / "untold")
    settings = json.loads((bench.folder / "untold" / "settings.json").read_text())
    del settings["program"]
    (bench.folder / "untold" / "settings.json").write_text(json.dumps(settings) + "\n")
    other = bench.script("other", f'exec "{bench.program}" "$@"\n')
    (bench.folder / "strange" / "results.csv").write_text("a,b\n1,2\n")
    calls = {
        "an empty folder": (bench.call("new", scens="none"), "none holds no .scen file"),
        "no folder": (bench.call("new", scens="nowhere"), "nowhere isn't a folder"),
        "another search": (bench.call("whole", "--search", "cbsh"), "holds runs with search cbs: call with the same"),
        "a search that isn't there": (bench.call("new", "--search", "dfs"), "invalid choice: 'dfs'"),
        "another limit": (bench.call("whole", "--limit", "21"), "holds runs with limit 20"),
        "another program": (bench.call("whole", program=other), "holds runs with program mapf "),
        "runs of a program that isn't told": (bench.call("untold"), "holds runs with program (not told)"),
        "a program that isn't mapf": (bench.call("new", program="/bin/true"), "true --version tells no version"),
        "a file in place of OUT": (bench.call("strange/results.csv"), "File exists): give another folder"),
        "a folder in place of the results": (bench.call("odd"), "results.csv: Is a directory"),
        "a strange table": (bench.call("strange"), "isn't a table of this tool"),
        "no rising numbers": (bench.call("new", "--agents", "4,2"), "rising list of numbers"),
        "a number of 201": (bench.call("new", "--agents", "2,201"), "rising list of numbers"),
        "no seconds": (bench.call("new", "--seconds", "0"), "number of seconds"),
    }
    for name, (ended, part) in calls.items():
        is_told = ended.returncode == 2 and part in ended.stderr and "Errno" not in ended.stderr
        yield name, [] if is_told else [f"status {ended.returncode}, {ended.stderr}"]
    yield "two at a time", two_at_a_time(bench)
    told = subprocess.run([sys.executable, str(SWEEP), "--help"], capture_output=True, text=True)
    yield "help", [] if told.returncode == 0 and "example:\n  tools/sweep " in told.stdout else [told.stdout]


def two_at_a_time(bench):
    program = bench.script("slow", "sleep 100\n")
    process = bench.start("shared", program=program)
    awaited((bench.folder / "shared" / "results.csv").exists)
    ended = bench.call("shared")
    process.kill()
    process.wait()
    is_told = ended.returncode == 2 and "another tools/sweep is at work" in ended.stderr
    return [] if is_told else [f"status {ended.returncode}, {ended.stderr}"]


# Dask.

def dask(tally, bench, wanted):
    python = next(filter(has_dask, (sys.executable, "/usr/bin/python3")), None)
    without = next((path for path in (sys.executable, "/usr/bin/python3") if not has_dask(path)), None)
    if without:
        ended = bench.call("no-dask", "--scheduler", "tcp://127.0.0.1:1", python=without)
        is_told = ended.returncode == 2 and "needs the Python package distributed" in ended.stderr
        tally.add("no Dask", [] if is_told else [f"status {ended.returncode}, {ended.stderr}"])
    else:
        tally.skip("no Dask", "every Python here has it")
    if python:
        tally.add("a Dask scheduler with two workers", with_workers(bench, wanted, python))
    else:
        tally.skip("a Dask scheduler with two workers", "the Python package distributed isn't installed")


def has_dask(python):
    return subprocess.run([python, "-c", "import distributed"], stderr=subprocess.DEVNULL).returncode == 0


def with_workers(bench, wanted, python):
    """The same table; each run is made once, and both workers make some."""
    about = bench.folder / "scheduler.json"
    module = [python, "-m", "distributed.cli.dask_"]
    options = ["--scheduler-file", str(about), "--no-dashboard"]
    kept = {"cwd": bench.folder, "stdout": subprocess.DEVNULL, "stderr": subprocess.DEVNULL}

    def started(name, *more):
        return subprocess.Popen([*module[:2], module[2] + name, *options, *more], **kept)

    processes = [started("scheduler", "--host", "127.0.0.1", "--port", "0")]
    try:
        if not awaited(about.exists):
            return ["the scheduler doesn't start"]
        processes += [started("worker", "--nthreads", "1", "--no-nanny") for _ in range(2)]
        bench.noted()
        parents = bench.folder / "parents"
        noting = f'cut -d" " -f4 /proc/$PPID/stat >>"{parents}"\nexec "{bench.program}" "$@"\n'
        program = bench.script("noting-parents", noting)
        address = json.loads(about.read_text())["address"]
        ended = bench.call("dask", "--scheduler", address, python=python, program=program)
        faults = the_same(bench, wanted, "dask", ended)
        if bench.noted() != Counter(map(bench.solve_of, wanted)):
            faults.append("the runs that were made aren't those of the rows")
        workers = {str(process.pid) for process in processes[1:]}
        if not set(parents.read_text().split()) <= workers:
            faults.append("runs weren't made by the workers")
        return faults
    finally:
        for process in processes:
            process.terminate()
        for process in processes:
            end(process)


def end(process):
    """Waits until a process that was told to end has ended, and kills it where it goes on."""
    try:
        process.wait(SECONDS)
    except subprocess.TimeoutExpired:
        process.kill()
        process.wait()
