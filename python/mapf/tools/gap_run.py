"""One run of tools/sweep --gap: how far from a cheapest plan are the plans for one problem? Prints what it finds as one
line of JSON.

    python3 -I -S python/mapf/tools/gap_run.py PROGRAM FOLDER SECONDS SEARCH LIMITS MAP SCEN K

It has a first plan made, without improvements, and then the quick answer, with them: that of the first of LIMITS, as
0,4,16,64. It goes on with the other limits until SECONDS by the clock are over since the quick answer was begun, and
the last answer that ended in time counts. `check` has to confirm this one and the quick one; its time isn't counted.
The row has no numbers of an answer that isn't confirmed.
"""

import os
import sys
import time
from collections import namedtuple

sys.dont_write_bytecode = True
sys.path.insert(0, os.path.dirname(os.path.abspath(__file__)))  # -I leaves this folder out

from sweep_run import Answer, Ended, Fields, answer_of, checked, first, first_line, no_answer, print_row, run, told

# Behind the name of a file that `solve` writes: a call that is killed leaves the files of the answer before alone.
NEW = ".new"

# What a row notes of a problem for which the last answer has no plan.
NO_PLAN = "no plan in hand"

# An answer, how the call of `solve` ended that gave it, and the line that it said besides.
Solved = namedtuple("Solved", "answer ended said")


def main() -> None:
    program, folder, seconds, search, limits, *problem = sys.argv[1:]
    words = [program, "solve", "--search", search]
    print_row(folder, problem, lambda places: GapRun(words, places, limits.split(","), float(seconds)).fields())


class Fault(Exception):
    """What ends a run before its last answer: the fields that tell it."""

    def __init__(self, fields: Fields) -> None:
        super().__init__()
        self.fields = fields


class GapRun:
    """A run, the row that it fills, and what is left of its seconds. `plan` and `cert` are those of its last answer."""

    def __init__(self, words: list[str], problem: list[str], limits: list[str], seconds: float) -> None:
        self.words = words
        self.problem = problem
        self.limits = limits
        self.seconds = self.left = seconds
        self.row: Fields = {"solve_kb": 0}

    def fields(self) -> Fields:
        """The fields of the row, but for the names of the problem and of the search."""
        try:
            self.make_first_plan()
            self.find_last_answer(self.find_quick_answer())
        except Fault as fault:
            self.row.update({"verdict": None, **fault.fields})
        return self.row

    def make_first_plan(self) -> None:
        """Fills in what comes without improvements."""
        self.left = self.seconds
        ended = self.solve(self.limits[0], "--improve", "0")
        self.row["first_seconds"] = ended.seconds
        answer = self.answered("the first plan", ended).answer
        self.row.update(first_cost=answer.cost, first_bound=answer.bound)

    def find_quick_answer(self) -> Solved:
        """Fills in the quick answer. With it the seconds begin that the last one has."""
        self.left = self.seconds
        ended = self.solve(self.limits[0])
        self.row["quick_seconds"] = ended.seconds
        quick = self.answered("the quick answer", ended)
        self.confirm("the quick answer", quick.answer)
        self.row.update(quick_cost=quick.answer.cost, quick_bound=quick.answer.bound)
        return quick

    def find_last_answer(self, quick: Solved) -> None:
        """Goes on from the quick answer with rising limits, and fills in the last answer that ended in time."""
        last, name = quick, ""
        for limit in self.limits[1:]:
            if self.left <= 0 or is_settled(last.answer):
                break
            ended = self.solve(limit)
            if ended.trouble == "time-out":
                break
            name = f"the answer of LIMIT {limit}"
            last = self.answered(name, ended)
        if last is not quick:
            self.confirm(name, last.answer)
        is_without = last.answer.cost is None and last.answer.status == "limit"
        note = last.said or (NO_PLAN if is_without else "")
        self.row.update(told(last.answer), solve_seconds=last.ended.seconds, note=note)

    def solve(self, limit: str, *options: str) -> Ended:
        """Calls `solve`, for what is left of the seconds."""
        begun = time.monotonic()
        ended = run([*self.words, *options, *self.problem, limit, "plan" + NEW, "cert" + NEW], self.left)
        self.left -= time.monotonic() - begun
        self.row["solve_kb"] = max(self.row["solve_kb"], ended.kb)
        return ended

    def answered(self, name: str, ended: Ended) -> Solved:
        """The answer of a call, whose files are kept. Where it gave none, the run ends, and its note has this name."""
        answer = None if ended.trouble else answer_of(ended)
        if answer is None:
            raise Fault({"status": ended.trouble or "failed", "note": f"{name}: {ended.note or no_answer(ended)}"})
        for file in ("plan", "cert"):
            if os.path.isfile(file + NEW):
                os.replace(file + NEW, file)
        return Solved(answer, ended, first_line(first("err")))

    def confirm(self, name: str, answer: Answer) -> None:
        """Has an answer checked. Where that doesn't confirm it, the run ends, and its note has this name."""
        fields = checked(self.words[0], self.problem, self.seconds, answer.verdict)
        if "status" in fields:
            raise Fault({**fields, "note": f"{name}, {answer.verdict}: {fields['note']}"})
        self.row.update(fields)


def is_settled(answer: Answer) -> bool:
    """Whether more splits find no more: a plan is cheapest, none is valid, or the search came to the last tick."""
    return answer.status != "limit" or answer.splits == "ticks"


if __name__ == "__main__":
    main()
