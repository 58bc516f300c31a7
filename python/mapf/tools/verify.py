"""Is another solver's answer really cheapest?

    tools/verify MAP SCEN K ANSWER [OPTION ..]

Reads the plan that another solver left, has `mapf check` judge it, has `mapf solve --search cbsh` search for a cheaper
one, and has `mapf check` hold the certificate of that search against the other solver's plan. Each answer rests on
`mapf check`.
"""

import argparse
import contextlib
import os
import shutil
import sys
from dataclasses import dataclass
from pathlib import Path
from typing import NoReturn

from ..limits import MOST_SPLITS
from .answers import add_options, exchanged, mirrored, read_answer
from .evidence import CERT, FOUND, MAP, PLAN, SCEN, Answer, Evidence, Searches, answer_of
from .plans import Agent, Cell, Fault, Grid, faults_of, sum_of_costs
from .process import ToolError, clear_progress, program, run_tool, signals_held, version_of
from .sweep_rows import natural
from .texts import number_between, plan_text, problem_parser, read_agents, read_bytes, read_map, seconds_of

# The status of each answer. NOT_VALID stands in place of NOT_CHEAPEST where --distinct-status asks for it.
CHEAPEST, NOT_CHEAPEST, NOT_JUDGED, UNKNOWN, NOT_VALID = 0, 1, 2, 4, 5

# Of the answers in a folder, the first of these that one has is the status.
WORST_FIRST = NOT_JUDGED, NOT_CHEAPEST, NOT_VALID, UNKNOWN, CHEAPEST

# How many faults of a plan are told.
MOST_TOLD = 10

HELP = """
The answers, each with its status:
  cheapest: C                        0  the plan is valid, and no valid plan costs less
  not cheapest: C, a plan of D ..    1  the plan is valid, and the one in the file named costs less
  not valid: ..                      1  the plan isn't valid; faults are told, on a line of their own each, at most 10,
                                        with cells as (x,y); with --distinct-status the status is 5
  within B..C, a certificate of B ..
                                     4  the plan is valid and costs C, and no valid plan costs less than B, as the
                                        certificate in the file named shows; the search met its limit: --limit allows
                                        more splits, --seconds more time
  unknown: C ..                      4  the plan is valid, and no search ended in the seconds that it had
  a line on standard error           2  a file can't be read, and what to do

The formats, which the first line tells:
  paths  the path files of CBSH2-RTC, EECBS, PBS, MAPF-LNS:  Agent 0: (row,column)->(row,column)->
         a line above them, as a count, and lines below them are left out
  lacam  the logs of LaCAM and PIBT:                         solution=  and then, or alone,  0:(x,y),(x,y),
  yaml   the schedules of libMultiRobotPlanning
  moves  for each agent a line of moves:                     rrdw  or  R,R,D,W, where w is a wait
  json   a list of paths of cells [x, y], a schedule as in yaml, or what the League of Robot Runners writes: its
         'actualPaths', of the action model MAPF
  replies  what mapf follow or mapf dispatch printed, of which each line 'go I x,y' moves agent I
  plan   the plan texts of mapf

ANSWER may be a folder. Then each file in it is an answer to the problem, and each line begins with the file's name. A
search serves all of them. The status is 2 if one of them has it, else 1, else 5, else 4, else 0.

Costs: an agent costs the ticks until it stays at its goal; waits at the end of its path cost nothing.

What is done: the plan, written as a plan text, is checked beside the certificate of one leaf. That judges whether it
is valid, and shows it cheapest where each agent has its least distance. Else mapf solve --search cbsh searches. The
certificate of what it finds is of a cost, not of one plan: where the costs are equal, mapf check says 'optimal' of the
other solver's plan beside it. Where the search meets its limit its certificate claims a bound. If the plan costs just
that much, mapf check says 'optimal' of it beside that, and if it costs more, 'within B C'. Beside a certificate of
version 2, which is written where mapf solve refuses what that search answers, mapf check says 'refused C4' of both: so
the one line 'claim bound C' becomes 'claim cost C', of the same tree, for a plan of that cost. Nothing else is
believed. With --seconds mapf solve is called with rising limits on splits, and the last call that ended in time counts.

example:
  tools/verify examples/random-32-32.map examples/random-32-32.scen 16 examples/random-32-32-answer.txt --keep shown
says 'not cheapest: 394, a plan of 391 is in shown/found.txt'. The folder 'shown' has all that somebody else needs to
see so with mapf check alone, and how.
"""


@dataclass(frozen=True)
class Problem:
    """The texts of a map and of a scenario, and what they tell."""

    texts: dict[str, bytes]
    grid: Grid
    agents: list[Agent]


def main() -> int:
    given = words()
    texts = {MAP: read_bytes(given.map), SCEN: read_bytes(given.scen)}
    grid = read_map(given.map, texts[MAP])
    problem = Problem(texts, grid, read_agents(given.scen, grid, given.k, texts[SCEN]))
    if os.path.isdir(given.answer):
        return verify_folder(given, problem)
    paths = paths_of(given, problem)
    mapf = tested_program()
    if given.keep:
        make_folder(given.keep)
    line, status, stays = verify(mapf, given, problem, paths)
    print(line, flush=True)
    tell_of_folder(stays)
    return status


def tested_program() -> str:
    """The command of mapf, which was asked for its version."""
    mapf = program()
    version_of(mapf)
    return mapf


def verify_folder(given: argparse.Namespace, problem: Problem) -> int:
    """Judges each answer of a folder. Answers the status of all."""
    names = sorted((path.name for path in Path(given.answer).iterdir() if path.is_file() and path.name[0] != "."),
                   key=natural)
    if not names:
        raise ToolError(f"{given.answer} holds no file: let the solver write its answers there")
    mapf = tested_program()
    if given.keep:
        make_folder(given.keep)
    found: set[int] = set()
    with contextlib.ExitStack() as at_end:
        with signals_held():
            searches = at_end.enter_context(Searches())
        for name in names:
            own = argparse.Namespace(**vars(given))
            own.answer, own.keep = os.path.join(given.answer, name), given.keep and os.path.join(given.keep, name)
            try:
                line, status, stays = verify(mapf, own, problem, paths_of(own, problem), searches)
            except ToolError as error:
                line, status, stays = f"not judged: {error}", NOT_JUDGED, None
            clear_progress()
            print("\n".join(f"{name}: {part}" for part in line.split("\n")), flush=True)
            tell_of_folder(stays)
            found.add(status)
    return next(status for status in WORST_FIRST if status in found)


def paths_of(given: argparse.Namespace, problem: Problem) -> list[list[Cell]]:
    """The paths of an answer."""
    starts = [agent.start for agent in problem.agents]
    return read_answer(given.answer, starts, given.format, given.exchange_xy, given.exchange_ud)


def verify(mapf: str, given: argparse.Namespace, problem: Problem, paths: list[list[Cell]],
           searches: Searches | None = None) -> tuple[str, int, Path | None]:
    """What is printed of an answer, the status, and the folder that stays, if one does."""
    with contextlib.ExitStack() as at_end:
        with signals_held():  # so that its folder is removed whenever a signal comes
            evidence = at_end.enter_context(Evidence(mapf, given, searches))
        for name, text in problem.texts.items():
            evidence.write(name, text)
        line, status = answer(evidence, problem, paths, faults_of(problem.grid, problem.agents, paths))
        evidence.write_note(line)
        if given.keep:
            shutil.copytree(evidence.folder, given.keep, dirs_exist_ok=True)
    clear_progress()
    is_not_valid = given.distinct_status and line.startswith("not valid:")
    return line, NOT_VALID if is_not_valid else status, evidence.folder if evidence.is_named else None


def tell_of_folder(folder: Path | None) -> None:
    """Says which folder stays, if one does."""
    if folder is not None:
        print(f"verify: {folder} stays, with that file and what shows the answer: remove it when you have read it, or "
              "name a folder of your own by --keep", file=sys.stderr)


def words() -> argparse.Namespace:
    """What the words of the call ask for."""
    parser = problem_parser("verify", "Is another solver's answer really cheapest?", HELP)
    parser.add_argument("answer", metavar="ANSWER", help="the other solver's answer, or a folder of answers")
    add_options(parser)
    parser.add_argument("--limit", metavar="N", type=number_between(0, MOST_SPLITS), default=1000,
                        help=f"how many splits the search may make, 0 to {MOST_SPLITS:,}; 1000 unless told")
    parser.add_argument("--seconds", metavar="T", type=seconds_of,
                        help="how many seconds the search may take, by the clock; without it no limit")
    parser.add_argument("--keep", metavar="FOLDER", help="a folder, new or empty, for what shows the answer")
    parser.add_argument("--distinct-status", action="store_true",
                        help=f"end with status {NOT_VALID} in place of {NOT_CHEAPEST} of a plan that isn't valid")
    return parser.parse_args()


def make_folder(folder: str) -> None:
    """Makes the folder that --keep names, unless it is there and empty."""
    try:
        os.makedirs(folder, exist_ok=True)
        is_empty = not os.listdir(folder)
    except OSError as error:
        raise ToolError(f"--keep: {folder} can't be made: {error.strerror}: name another folder") from None
    if not is_empty:
        raise ToolError(f"--keep: {folder} isn't empty: name a new folder")


def answer(evidence: Evidence, problem: Problem, paths: list[list[Cell]], faults: list[Fault]) -> tuple[str, int]:
    """What is printed, and the status."""
    cost = sum_of_costs(paths)
    evidence.write(PLAN, plan_text(paths))
    evidence.write(CERT, f"mapf-cert 2\nagents {len(paths)}\nclaim cost {cost}\nleaf 0\nend\n")
    verdict = evidence.check(PLAN)
    is_refused = verdict.startswith(("refused C1 ", "refused C5 "))
    if is_refused != bool(faults):
        raise ToolError(f"mapf check says '{verdict}' of a plan in which this tool finds {len(faults)} faults: one of "
                        "them is wrong, so please report it")
    if is_refused:
        evidence.show(PLAN, verdict, "the plan isn't valid, whatever the certificate")
        return "\n".join(["not valid: " + faults[0].words, *also(faults[1:]), *advice(problem, paths)]), NOT_CHEAPEST
    if verdict == f"optimal {cost}":
        evidence.show(PLAN, verdict, "the plan is valid, and no agent costs more than its least distance")
        return f"cheapest: {cost}", CHEAPEST
    return search(evidence, cost, verdict)


def also(faults: list[Fault]) -> list[str]:
    """Lines for the faults after the first."""
    lines = ["and " + fault.words for fault in faults[:MOST_TOLD - 1]]
    more = len(faults) - len(lines)
    return lines + [f"and {more} more"] * (more > 0)


def advice(problem: Problem, paths: list[list[Cell]]) -> list[str]:
    """What is likely to be mended, where another way to read the plan mends each start, or all."""
    starts = [agent.start for agent in problem.agents]
    begins = [path[0] for path in paths]
    turned, upward = list(map(exchanged, paths)), list(map(mirrored, paths))
    if begins != starts and [path[0] for path in turned] == starts or is_valid(problem, turned):
        return ["with x and y exchanged each agent begins at its start: see whether the format is the right one, or "
                "add --exchange-xy"]
    if is_valid(problem, upward):
        return ["with up and down exchanged the plan is valid: add --exchange-ud"]
    if leaves_map(problem.grid, paths) and not leaves_map(problem.grid, upward):
        return ["with up and down exchanged no agent leaves the map: see whether rows are counted from below, and add "
                "--exchange-ud"]
    if begins != starts and [(x - 1, y - 1) for x, y in begins] == starts:
        return ["with 1 less in x and y each agent begins at its start: cells are counted from 0, and here from 1"]
    if any(cell == start for cell, start in zip(begins, starts)):
        return []
    return ["no agent begins at its start: see whether MAP and SCEN are those of the answer"]


def is_valid(problem: Problem, paths: list[list[Cell]]) -> bool:
    """Whether a plan is valid. Most that aren't have another start or end."""
    ends = [Agent(path[0], path[-1]) for path in paths]
    return ends == problem.agents and not faults_of(problem.grid, problem.agents, paths)


def leaves_map(grid: Grid, paths: list[list[Cell]]) -> bool:
    """Whether a cell of these paths is outside the map."""
    return any(not (0 <= x < grid.width and 0 <= y < grid.height) for path in paths for x, y in path)


def search(evidence: Evidence, cost: int, verdict: str) -> tuple[str, int]:
    """The answer on a valid plan of which one leaf doesn't show that it is cheapest: that was the verdict beside it."""
    found = evidence.solve(cost)
    if found is None:
        evidence.show(PLAN, verdict, "the plan is valid, and one leaf doesn't show that it is cheapest")
        return f"unknown: {cost} ({evidence.limit_met('')})", UNKNOWN
    known = answer_of(found)
    if known is None or known.least > cost:
        raise ToolError(f"mapf solve says '{found}', and mapf check that a plan of {cost} is valid: one of them is "
                        "wrong, so please report it")
    least = known.least
    if least == cost:
        if evidence.check(PLAN) != f"optimal {cost}":
            evidence.claim_cost(cost)
        evidence.show(PLAN, f"optimal {cost}", "the plan is valid, and no valid plan costs less")
        evidence.remove(FOUND)
        return f"cheapest: {cost}", CHEAPEST
    show_dearer(evidence, cost, least)
    show_found(evidence, known)
    if known.cost is not None and known.cost < cost:
        return f"not cheapest: {cost}, a plan of {known.cost} is in {evidence.given_place(FOUND)}", NOT_CHEAPEST
    place = evidence.given_place(CERT)
    return f"within {least}..{cost}, a certificate of {least} is in {place} ({evidence.limit_met(found)})", UNKNOWN


def show_found(evidence: Evidence, known: Answer) -> None:
    """Notes what mapf check says of what the search found."""
    if known.cost is None:
        evidence.show(FOUND, f"bound {known.least}", "no valid plan costs less than that")
    elif known.cost == known.least:
        evidence.show(FOUND, f"optimal {known.cost}",
                      "this plan is valid and costs less, and no valid plan less than it")
    else:
        evidence.show(FOUND, f"within {known.least} {known.cost}",
                      f"this plan is valid and costs {known.cost}, and no valid plan costs less than {known.least}")


def show_dearer(evidence: Evidence, cost: int, least: int) -> None:
    """Notes what mapf check says of a valid plan beside a certificate that claims less. Only one of version 3 with a
    bound fits such a plan.
    """
    within = f"within {least} {cost}"
    if evidence.check(PLAN) == within:
        evidence.show(PLAN, within, f"the plan is valid and costs {cost}, and no valid plan costs less than {least}")
    else:
        evidence.show(PLAN, "refused C4", f"the plan is valid, and its cost, {cost}, isn't the one that is claimed")


def command() -> NoReturn:
    """Runs the tool with the words of the call."""
    run_tool(main)
