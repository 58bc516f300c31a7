"""Runs solve and check over a benchmark: every scenario of a folder, with rising numbers of agents.

MAPS holds NAME.map files and SCENS .scen files, in folders below them or not, as the benchmark of MovingAI is laid
out: maps/empty-8-8.map, scen-even/empty-8-8-even-1.scen, scen-random/empty-8-8-random-1.scen. The rows of a scenario
name its map.

A scenario is tried with the first of the numbers of agents, then with the next, until one isn't solved, at LIMIT splits
or after so many seconds by the clock. OUT, which is made, gets results.csv, a row for each run, and report.html, which
plots the success rate of each map and its runtime. It can be stopped at any moment; the same command goes on where it
was, and no run that is in results.csv is made again, but with --again those that failed. OUT holds the runs of one
search of one program, which settings.json names by its version and its checksum. A run keeps its certificate in OUT
until it ends: many splits on a large map take gigabytes.

With --beside the plots show other solvers or searches too. Their tables need the columns map, scenario, agents, status
('solved' or another word) and solve_seconds; results.csv of another sweep is one.

With --gap it asks instead how far the plans of --search cbsh may be from the cheapest: each scenario is tried with each
number of agents, for the first plan, the quick answer and the answer after so many seconds.

The columns of results.csv:
  map, scenario, agents, search
      what was solved, and by which search
  status
      solved; limit, time-out, impossible; killed or failed, if the program ended so; refused or unchecked, if check
      refused or gave no answer; no map, no agents, if the scenario couldn't be tried
  cost, makespan, splits, certificate_bytes
      of the answer; the makespan is the last tick at which an agent arrives; the splits are those of a limit answer,
      else those in the certificate, which cbsh cuts; a limit answer without a plan has no cost and no makespan
  bound
      no valid plan costs less
  verdict, note
      the line of check; the message, if something went wrong, or the answer of cbsh was refused
  solve_seconds, check_seconds
      processor time
  solve_kb, check_kb
      peak memory; below 8 MB it is that of the process that starts the runs
  first_seconds, first_cost, first_bound, quick_seconds, quick_cost, quick_bound
      with --gap: processor time, cost and bound of the first plan and of the quick answer

Ends with status 0; 1 where a run failed, was killed, or its answer wasn't confirmed, which results.csv tells; 2 with a
fault that has to be mended first; 130 where it was stopped.

example:
  tools/sweep bench/maps bench/scen-even out --agents 5,10..100 --limit 1000 --seconds 60
  tools/sweep bench/maps bench/scen-even out-gap --gap --agents 20,40..100 --seconds 60
"""

import argparse
import concurrent.futures
import fcntl
import hashlib
import json
import os
import shutil
import signal
import subprocess
import sys
from collections.abc import Mapping
from pathlib import Path
from typing import NoReturn, TextIO

from ..limits import MOST_AGENTS, MOST_SPLITS
from . import gap_points, gap_report, sweep_points, sweep_report
from .evidence import rising_to
from .process import (Stopped, ToolError, called, clear_progress, in_words, program, progress, run_tool,
                      version_of)
from .sweep_beside import named_table, tables_of
from .sweep_rows import NO_AGENTS, NO_MAP, SOLVED, USUAL, Results, Row, natural, replace
from .sweep_scenarios import Scenario, scenarios_of
from .texts import number_between, read_bytes, seconds_of

HERE = Path(__file__).resolve().parent
RUN, GAP_RUN = HERE / "sweep_run.py", HERE / "gap_run.py"

# What --search may name. The first is that of `mapf solve` without the option, and --gap is for the other one.
SEARCHES = "cbs", "cbsh"

# What a sweep measures, as settings.json says it. A sweep from before --gap, which doesn't say it, measured the first.
MEASURES = "success rate", "gap"

# Runs of which each begins after the one before: a scenario, and the numbers of agents with which it is tried.
Series = tuple[Scenario, list[int]]

# A run that is at work, and all of them, each with its series and its number of agents.
Future = concurrent.futures.Future[subprocess.CompletedProcess[str]]
Runs = dict[Future, tuple[Series, int]]


# What the words say.

def agent_numbers(text: str) -> list[int]:
    """The rising numbers of `2,4,8`; in `5,10..100` the steps go on as the last two stand, and `10..40` has each."""
    numbers: list[int] = []
    try:
        for word in text.split(","):
            first, dots, last = word.partition("..")
            step = int(first) - numbers[-1] if numbers else 1
            more = range(int(first), int(last or MOST_AGENTS) + 1, step) if dots else [int(first)]
            numbers += more or [0]
    except ValueError:
        numbers = [0]
    if sorted(set(numbers)) != numbers or numbers[0] < 1 or numbers[-1] > MOST_AGENTS:
        form = f"rising list of numbers from 1 to {MOST_AGENTS}, as 2,4,8 or 5,10..100"
        raise argparse.ArgumentTypeError(f"{text} isn't a {form}")
    return numbers


def words() -> argparse.Namespace:
    """What the words of the call ask for."""
    about, example = __doc__.split("\nexample:\n")
    parser = argparse.ArgumentParser(prog=called("sweep"), description=about, epilog="example:\n" + example,
                                     formatter_class=argparse.RawDescriptionHelpFormatter)
    parser.add_argument("maps", metavar="MAPS", type=Path, help="a folder of .map files")
    parser.add_argument("scens", metavar="SCENS", type=Path, help="a folder of .scen files")
    parser.add_argument("out", metavar="OUT", type=Path, help="the folder of the results")
    parser.add_argument("--agents", metavar="LIST", type=agent_numbers, default="2,4..",
                        help="numbers of agents, as 2,4,8; in 5,10..100 the steps go on as the two numbers before the"
                             " dots stand, and 10..40 is each number from 10 to 40; without it 2,4,6 and so on up to"
                             " 200")
    parser.add_argument("--search", choices=SEARCHES, help=f"the search of mapf solve, {SEARCHES[0]} without it")
    parser.add_argument("--gap", action="store_true",
                        help="measure how far the plans of --search cbsh, which this implies, may be from the cheapest")
    parser.add_argument("--limit", metavar="N", type=number_between(0, MOST_SPLITS), default=1000,
                        help="splits that a search may make, 1000 without it")
    parser.add_argument("--seconds", metavar="T", type=seconds_of, default=60,
                        help="seconds that solve, and then check, may take, 60 without it; with --gap all calls of"
                             " solve together from the quick answer to the last")
    parser.add_argument("--again", action="store_true",
                        help="try the runs once more that failed: whose status is none of " + ", ".join(USUAL))
    parser.add_argument("--beside", metavar="NAME=FILE", type=named_table, action="append", default=[],
                        help="plot the runs of another solver or search too, which are in a table as results.csv; can"
                             " be given several times")
    parser.add_argument("--jobs", metavar="J", type=number_between(1, 1000), default=len(os.sched_getaffinity(0)),
                        help="runs side by side on this machine; without it as many as it has cores")
    parser.add_argument("--scheduler", metavar="ADDRESS",
                        help="a Dask scheduler that gets the runs, as tcp://host:8786; its workers have to see tools/,"
                             " the program and all folders at the same paths")
    args = parser.parse_args()
    if args.gap and args.search == SEARCHES[0]:
        parser.error(f"--gap is for --search {SEARCHES[1]}, not {SEARCHES[0]}")
    if args.gap and args.beside:
        parser.error("--beside is for success rates, not --gap")
    args.search = args.search or SEARCHES[args.gap]
    return args


# The folder of the results.

def folder_for(out: Path, settings: Mapping[str, object]) -> TextIO:
    """Makes OUT, keeps every other call out of it as long as this one is at work, and answers what has to stay open."""
    try:
        out.mkdir(parents=True, exist_ok=True)
        lock = open(out / "settings.json", "a+")
    except OSError as error:
        raise ToolError(f"OUT can't be made ({in_words(error)}): give another folder") from None
    try:
        fcntl.flock(lock, fcntl.LOCK_EX | fcntl.LOCK_NB)
    except OSError:
        raise ToolError(f"another tools/sweep is at work in {out}: wait for its end, or give another OUT") from None
    lock.seek(0)
    text = lock.read()
    there = {"measure": MEASURES[0], **json.loads(text)} if text.endswith("}\n") else None
    if there is None:
        lock.truncate(0)
        lock.write(json.dumps(settings, indent=1) + "\n")
        lock.flush()
    elif there != settings:
        differ = [f"{name} {there.get(name, '(not told)')}" for name in settings if there.get(name) != settings[name]]
        raise ToolError(f"{out} holds runs with {', '.join(differ)}: call with the same, or give another OUT")
    shutil.rmtree(out / "runs", ignore_errors=True)
    (out / "runs").mkdir()
    return lock


# The runs.

class Sweep:
    """The runs of one call: those that are in OUT, and those that are due."""

    def __init__(self, args: argparse.Namespace) -> None:
        self.args = args
        self.scenarios = scenarios_of(args.maps, args.scens)
        maps = {scenario.map for scenario in self.scenarios}
        self.own_name = f"mapf {args.search}" if args.beside else ""
        self.others = tables_of(args.beside, maps, self.own_name)
        self.program = program()
        settings = {"measure": MEASURES[args.gap], "search": args.search, "limit": args.limit, "seconds": args.seconds,
                    "maps": str(args.maps.resolve()), "scens": str(args.scens.resolve()),
                    "program": f"mapf {version_of(self.program)}, SHA-256 {checksum_of(self.program)}"}
        self.lock = folder_for(args.out, settings)
        self.results = Results(args.out / "results.csv")
        if args.again:
            self.results.forget([key for key, row in self.results.rows.items() if row.status not in USUAL])
        self.made = 0

    def series(self) -> list[Series]:
        """All runs, in the order in which they begin. In a sweep of gaps none waits for another one."""
        there = [scenario for scenario in self.scenarios if scenario.grid is not None]
        if self.args.gap:
            return [(scenario, [agents]) for agents in self.args.agents for scenario in there]
        return [(scenario, self.args.agents) for scenario in there]

    def next_of(self, series: Series) -> int | None:
        """The number of agents that this scenario has to be tried with next, none where the series has ended."""
        scenario, numbers = series
        for agents in numbers:
            row = self.results.rows.get((scenario.name, agents))
            if row is None:
                return agents if agents <= scenario.agents else None
            if row.status != SOLVED:
                return None
        return None

    def submit(self, executor: concurrent.futures.Executor, series: Series) -> Runs:
        """Hands the next run of a series to the executor, as calls that a worker knows without this file."""
        scenario, agents = series[0], self.next_of(series)
        if agents is None:
            return {}
        limits = ",".join(map(str, rising_to(self.args.limit) if self.args.gap else [self.args.limit]))
        run = [GAP_RUN if self.args.gap else RUN, self.program, self.args.out.resolve() / "runs", self.args.seconds,
               self.args.search, limits, scenario.grid.resolve(), scenario.path, agents]
        command = [sys.executable, "-I", "-S", *map(str, run)]
        future = executor.submit(subprocess.run, command, stdin=subprocess.DEVNULL, capture_output=True, text=True,
                                 start_new_session=True)
        return {future: (series, agents)}

    def go(self, executor: concurrent.futures.Executor) -> None:
        """Makes all runs that are due. One that ends makes the next of its series due."""
        for scenario in self.scenarios:
            if scenario.agents == 0 or scenario.grid is None:
                self.results.add(left_out(scenario, self.args.agents[0]))
        pending: Runs = {}
        all_series = self.series()
        for series in all_series:
            pending.update(self.submit(executor, series))
        what = "runs" if self.args.gap else "scenarios"
        while pending:
            progress(f"sweep: {self.made} runs made, {len(pending)} of {len(all_series)} {what} to go")
            ended, _ = concurrent.futures.wait(pending, return_when=concurrent.futures.FIRST_COMPLETED)
            for future in ended:
                series, agents = pending.pop(future)
                self.results.add(row_of(series[0], agents, self.args.search, future))
                self.made += 1
                pending.update(self.submit(executor, series))

    def report(self) -> None:
        """Writes what there is, in an order that doesn't depend on which run ended first."""
        self.results.sort()
        shutil.rmtree(self.args.out / "runs", ignore_errors=True)
        page, table = self.shown(self.results.sorted())
        replace(self.args.out / "report.html", page.encode(errors="replace"))
        clear_progress()
        try:
            print(table, flush=True)
        except BrokenPipeError:
            os.dup2(os.open(os.devnull, os.O_WRONLY), 1)


    def shown(self, rows: list[Row]) -> tuple[str, str]:
        """What the rows tell: the page, and the table."""
        limit, seconds = self.args.limit, self.args.seconds
        if self.args.gap:
            gaps = gap_points.points(rows, self.scenarios)
            return gap_report.page(gaps, rows, limit, seconds), gap_report.table(gaps, seconds)
        tables = {self.own_name: rows, **self.others}
        found = [point for name, of_solver in tables.items()
                 for point in sweep_points.points(of_solver, self.scenarios, name)]
        found.sort(key=lambda point: natural(point.map))
        return sweep_report.page(found, tables, self.args.search, limit, seconds), sweep_report.table(found)


def checksum_of(path: str) -> str:
    """The SHA-256 checksum of a file."""
    return hashlib.sha256(read_bytes(path)).hexdigest()


def left_out(scenario: Scenario, agents: int) -> Row:
    """The row of a scenario that can't be run: it has no agents, or its map is missing."""
    if scenario.agents == 0:
        return Row(scenario.map, scenario.name, str(agents), NO_AGENTS, note="the scenario has no row")
    return Row(scenario.map, scenario.name, str(agents), NO_MAP, note=f"{scenario.map}.map isn't in MAPS")


def row_of(scenario: Scenario, agents: int, search: str, future: Future) -> Row:
    """The row of a run that has ended. What isn't the program's fault, as a full disk, stops the tool without a row."""
    try:
        ended = future.result()
    except concurrent.futures.CancelledError:
        raise ToolError("the scheduler gave the runs up: start it, and call again to go on") from None
    except OSError as error:
        raise ToolError(f"a run couldn't be started: {in_words(error)}; mend that, and call again to go on") from None
    except Exception as error:
        said = {"status": "failed", "note": f"the run was lost: {type(error).__name__}"}
    else:
        if ended.returncode > 0:
            why = (ended.stderr.strip().splitlines() or ["no reason is told"])[-1]
            raise ToolError(f"a run of {scenario.name} couldn't be made: {why}; mend that, and call again to go on")
        said = json.loads(ended.stdout) if ended.returncode == 0 else {"status": "killed", "note": "the run was killed"}
    values = {name: "" if value is None else str(value) for name, value in said.items()}
    return Row(scenario.map, scenario.name, str(agents), search=search, **values)


def executor_for(args: argparse.Namespace) -> concurrent.futures.Executor:
    """What makes the runs: this machine, or the workers of a Dask scheduler."""
    if args.scheduler is None:
        return concurrent.futures.ThreadPoolExecutor(args.jobs)
    try:
        import distributed
    except ImportError:
        raise ToolError(f"--scheduler needs the Python package distributed, which {sys.executable} hasn't: install"
                        f" python3-distributed, and call /usr/bin/python3 {sys.argv[0]} ..") from None
    try:
        client = distributed.Client(args.scheduler, timeout=10)
    except (OSError, ValueError) as error:
        said = in_words(error) if isinstance(error, OSError) else error
        raise ToolError(f"no Dask scheduler answers at {args.scheduler} ({said}): start dask-scheduler") from None
    if not client.scheduler_info()["workers"]:
        print(f"sweep: no worker is there yet: start dask-worker {args.scheduler}", file=sys.stderr)
    return client.get_executor(pure=False)


def main() -> NoReturn:
    args = words()
    sys.stdout.reconfigure(errors="replace")
    sweep = Sweep(args)
    if signal.getsignal(signal.SIGHUP) != signal.SIG_IGN:
        signal.signal(signal.SIGHUP, signal.SIG_DFL)  # nobody reads a report then, and the runs end by themselves
    executor = executor_for(args)
    try:
        sweep.go(executor)
        sweep.report()
        faults = sum(row.status not in USUAL for row in sweep.results.rows.values())
        told = f", which tells of {faults} that failed: --again tries such runs once more" if faults else ""
        print(f"sweep: {sweep.made} runs made; {args.out / 'report.html'} is written{told}", file=sys.stderr)
        leave(1 if faults else 0)
    except Stopped:
        sweep.report()
        print(f"sweep: stopped after {sweep.made} runs; the same command goes on", file=sys.stderr)
        leave(130)
    except ToolError as error:
        sweep.report()
        print(f"sweep: {error}", file=sys.stderr)
        leave(2)
    except OSError as error:
        clear_progress()
        print(f"sweep: {in_words(error)}; mend that, and call again to go on", file=sys.stderr)
        leave(2)


def leave(status: int) -> NoReturn:
    """Ends at once. The runs that are at work end by themselves when they see that."""
    sys.stdout.flush()
    os._exit(status)


def command() -> NoReturn:
    """Runs the tool with the words of the call."""
    run_tool(main)
