"""The calls that solve a problem, check what shows an answer, and judge a plan: over arrays, and over texts."""

import warnings
from collections.abc import Iterable
from dataclasses import dataclass, field
from typing import Literal, cast

from .errors import MapfError, error_of
from .library import KINDS, SEARCHES, Question, fault_line, library, number_of
from .library import Answer as Told
from .limits import MOST_IMPROVEMENTS, MOST_SPLITS
from .problems import Cells, Free, Text, encoded, paths_of, problem_of, whole
from .tools.plans import Cell
from .tools.texts import plan_text, read_plan

Kind = Literal["optimal", "within", "bound", "impossible"]

# How many improvements of its first plan the search tries for each agent, unless told.
IMPROVEMENTS_FOR_EACH = 50


@dataclass(frozen=True, kw_only=True)
class Answer:
    """What is true of a problem, and what shows it.

    `kind` is one of these:

    'optimal'      the plan of `paths` is valid and costs `cost`, and no valid plan costs less
    'within'       the plan of `paths` is valid and costs `cost`, and no valid plan costs less than `bound`
    'bound'        no plan was found in the limits, and no valid plan costs less than `bound`
    'impossible'   no plan is valid

    Costs and bounds are in ticks. `bound` is `cost` where that is optimal, and None where no plan is valid. `paths` and
    `cost` are None where there is no plan. `paths` has for each agent the list of its cells (x, y), one for each tick
    from 0 to its last arrival at its goal.

    `plan_text` is the answer as a plan text, and `certificate` what shows it to anyone: `check` takes both, and so do
    `mapf check` and `mapf-recheck`.
    """

    kind: Kind
    cost: int | None
    bound: int | None
    paths: list[list[Cell]] | None = field(repr=False)
    plan_text: str = field(repr=False)
    certificate: str = field(repr=False)


# Over arrays.

def solve(grid: Free, starts: Cells, goals: Cells, *, splits: int = 10_000, search: str = "cbsh",
          improvements: int | None = None) -> Answer:
    """Searches for a plan of the least sum of costs.

    `grid[y][x]` is true where an agent may stand, or the grid is what `read_map` gives. `starts` and `goals` have a
    cell (x, y) for each agent, 1 to 200: x is its column and y its row, counted from 0. Lists will do, and arrays of
    numpy.

    >>> free = [[True] * 3] * 3
    >>> answer = solve(free, [(0, 1), (1, 0)], [(2, 1), (1, 2)])
    >>> answer
    Answer(kind='optimal', cost=5, bound=5)
    >>> [path[-1] for path in answer.paths]
    [(2, 1), (1, 2)]

    `splits` is how often the search may split on a conflict, 0 to 100,000. If they don't suffice, the answer is
    'within' or 'bound'. Nothing else limits the time of a search, and no search can be stopped. Other threads of Python
    go on meanwhile. Ctrl-C raises `KeyboardInterrupt`, while the search goes on until it or the process ends.

    `search` is 'cbsh', or 'cbs' for plain conflict-based search. `improvements` is how often 'cbsh' tries to improve
    the plan with which it begins, 0 to 1,000,000, and 50 for each agent if it is None.

    Arrays of another shape or type raise `MapfError` or `TypeError`, want of memory raises `MemoryError`, and `OSError`
    says that the library of mapf isn't there.
    """
    texts = problem_of(grid, starts, goals).texts()
    return solve_texts(*texts, splits=splits, search=search, improvements=improvements)


def check(grid: Free, starts: Cells, goals: Cells, plan: Text | Iterable[Cells], certificate: Text) -> Answer:
    """Checks a plan with the certificate that shows how good it is, whoever made them, and answers what is true.

    `plan` is the list of the agents' paths, or a plan text. Waits at the end of a path cost nothing. For an answer
    without a plan give its `plan_text`. The other arguments are those of `solve`.

    >>> free, starts, goals = [[True] * 3] * 3, [(0, 1), (1, 0)], [(2, 1), (1, 2)]
    >>> answer = solve(free, starts, goals)
    >>> check(free, starts, goals, answer.paths, answer.certificate)
    Answer(kind='optimal', cost=5, bound=5)

    What isn't shown raises `MapfError`:

    >>> check(free, starts, goals, answer.paths, "mapf-cert 2\\nagents 2\\nclaim cost 5\\nleaf 0\\nend\\n")
    Traceback (most recent call last):
        ..
    mapf.errors.MapfError: the leaf at line 4 of the certificate doesn't show what it has to (refused C8 4)
    """
    problem = problem_of(grid, starts, goals)
    if isinstance(plan, Text):
        return check_texts(*problem.texts(), plan, certificate)
    paths = paths_of(plan, len(problem.agents))
    try:
        return check_texts(*problem.texts(), plan_text(paths), certificate)
    except MapfError as error:
        raise problem.fault_of(paths, "refused C5") or error from None


def validate(grid: Free, starts: Cells, goals: Cells, paths: Iterable[Cells]) -> int:
    """Judges a plan, and answers its cost: the sum, over the agents, of the tick of the last arrival at the goal. Waits
    at the end of a path cost nothing. The other arguments are those of `solve`.

    >>> free, starts, goals = [[True] * 3] * 3, [(0, 1), (1, 0)], [(2, 1), (1, 2)]
    >>> validate(free, starts, goals, [[(0, 1), (1, 1), (2, 1)], [(1, 0), (1, 0), (1, 1), (1, 2)]])
    5

    A plan that isn't valid raises `MapfError`, which tells what is wrong first:

    >>> validate(free, starts, goals, [[(0, 1), (1, 1), (2, 1)], [(1, 0), (1, 1), (1, 2)]])
    Traceback (most recent call last):
        ..
    mapf.errors.MapfError: the plan isn't valid: agents 0 and 1 are both in (1,1) at tick 1 (F3 V4 0 1 1)
    """
    problem = problem_of(grid, starts, goals)
    found = paths_of(paths, len(problem.agents))
    try:
        return validate_texts(*problem.texts(), plan_text(found))
    except MapfError as error:
        raise problem.fault_of(found, "F3") or error from None


# Over texts.

def solve_texts(map_text: Text, scenario_text: Text, agents: int, *, splits: int = 10_000, search: str = "cbsh",
                improvements: int | None = None) -> Answer:
    """Does what `solve` does for the problem of the first agents of a scenario on its map, both as texts in the formats
    of the MovingAI benchmark.
    """
    question = question_of(agents, splits, search, improvements)
    texts = encoded("the map", map_text), encoded("the scenario", scenario_text)
    solution, plan, certificate = library().solve(*texts, question)
    if solution.refused.error:
        warnings.warn(f"the check refused what cbsh found ({fault_line(solution.refused)}), so this is the answer of "
                      "cbs: please report it", RuntimeWarning, stacklevel=2)
    return answer_of(solution.answer, plan, certificate)


def check_texts(map_text: Text, scenario_text: Text, agents: int, plan: Text, certificate: Text) -> Answer:
    """Does what `check` does for the problem of the first agents of a scenario, with a plan text."""
    texts = encoded("the map", map_text), encoded("the scenario", scenario_text)
    shown = encoded("the plan", plan), encoded("the certificate", certificate)
    told = library().check(*texts, number_of(whole("agents", agents)), *shown)
    return answer_of(told, *(text.decode("utf-8", "replace") for text in shown))


def validate_texts(map_text: Text, scenario_text: Text, agents: int, plan: Text) -> int:
    """Does what `validate` does for the problem of the first agents of a scenario, with a plan text."""
    texts = encoded("the map", map_text), encoded("the scenario", scenario_text)
    told = library().validate(*texts, number_of(whole("agents", agents)), encoded("the plan", plan))
    raise_fault(told)
    return int(told.cost)


def question_of(agents: int, splits: int, search: str, improvements: int | None) -> Question:
    """What the library is asked for. Each number has to be in its range."""
    count = number_of(whole("agents", agents))
    if search not in tuple(SEARCHES):
        raise MapfError(f"no search is named {search!r}: say 'cbsh' or 'cbs'")
    if search == "cbs" and improvements is not None:
        raise MapfError("improvements are for the search 'cbsh' alone")
    tries = 0 if search == "cbs" else IMPROVEMENTS_FOR_EACH * count if improvements is None else improvements
    limits = limited("splits", splits, MOST_SPLITS), limited("improvements", tries, MOST_IMPROVEMENTS)
    return Question(count, SEARCHES[search], *limits)


def limited(name: str, number: int, most: int) -> int:
    """The number of this name, which is at most so great."""
    found = whole(name, number)
    if not 0 <= found <= most:
        raise MapfError(f"{found} {name} are asked for, and there may be 0 to {most:,}")
    return found


def answer_of(told: Told, plan: str, certificate: str) -> Answer:
    """The answer that the library told of these texts."""
    raise_fault(told)
    kind, numbers = KINDS[told.kind]
    has_plan = "cost" in numbers
    return Answer(
        kind=cast(Kind, kind),
        cost=told.cost if has_plan else None,
        bound=told.bound if kind != "impossible" else None,
        paths=read_plan("the plan text", plan.encode()).paths if has_plan else None,
        plan_text=plan,
        certificate=certificate,
    )


def raise_fault(told: Told) -> None:
    """Raises the fault in place of which the library told no answer, if there is one."""
    if told.kind not in KINDS:
        raise error_of(fault_line(told.fault))
