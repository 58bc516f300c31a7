"""What shows an answer of tools/verify: a folder of texts, which `mapf check` and `mapf solve` read and write, and a
note of the commands that show the answer to somebody else.
"""

import argparse
import contextlib
import os
import re
import shutil
import subprocess
import sys
import tempfile
import time
from dataclasses import dataclass
from pathlib import Path
from typing import overload

from ..library import NAME, PACKAGE, TOP, Library, line_of
from .process import ToolError, installed, is_installed, progress, signals_held

# The files in the folder that shows an answer: the problem, the other solver's plan, a certificate, what the search
# found, and the note.
MAP, SCEN, PLAN, CERT, FOUND, NOTE = "problem.map", "problem.scen", "plan.txt", "cert.txt", "found.txt", "commands.txt"

# Behind the name of a file in that folder, while it is being written.
NEW = ".new"

# A search that has so many seconds begins with a limit of no splits. The next limits rise by this factor.
FACTOR = 4


def rising_to(limit: int) -> list[int]:
    """The limits of a search that has so many seconds."""
    return sorted({0, limit, *(FACTOR ** power for power in range(1, 9) if FACTOR ** power < limit)})


@dataclass(frozen=True)
class Answer:
    """What `mapf solve` printed: what no valid plan costs less than, and the cost of the plan that it wrote, if it
    wrote one. The two are equal where the plan is cheapest.
    """

    line: str
    least: int
    cost: int | None

    def says_more_than(self, cost: int) -> bool:
        """Whether it settles what a plan of this cost is: cheapest, or not."""
        return self.least >= cost or self.cost is not None and (self.cost < cost or self.cost == self.least)


def answer_of(line: str) -> Answer | None:
    """The answer that this line is, none where it tells of no cost and no bound."""
    if found := re.fullmatch("cost ([0-9]+)", line):
        return Answer(line, int(found[1]), int(found[1]))
    if found := re.fullmatch("within ([0-9]+) ([0-9]+)", line):
        return Answer(line, int(found[1]), int(found[2]))
    if found := re.fullmatch("limit (?:[0-9]+|ticks) bound ([0-9]+)", line):
        return Answer(line, int(found[1]), None)
    return None


class Searches:
    """What the last search of a call found, for the next answer to the same problem, in a folder that is removed at the
    end.
    """

    def __init__(self) -> None:
        self.line: str | None = None
        self.origin = ""
        self.folder = Path(tempfile.mkdtemp(prefix="mapf-verify-"))

    def __enter__(self) -> "Searches":
        return self

    def __exit__(self, *_: object) -> None:
        with signals_held():
            shutil.rmtree(self.folder, ignore_errors=True)

    def serve(self, cost: int, is_timed: bool) -> bool:
        """Whether another search would find no more for a plan of this cost. One in a time of its own might."""
        known = answer_of(self.line or "")
        return known is not None and (not is_timed or known.says_more_than(cost))

    def keep(self, line: str, origin: str, folder: Path) -> None:
        """Keeps what a search left in this folder."""
        self.line, self.origin = line, origin
        copy_found(folder, self.folder)


def copy_found(here: Path, there: Path) -> None:
    """Copies the files that a search wrote."""
    for name in (FOUND, CERT):
        shutil.copyfile(here / name, there / name)


class Evidence:
    """A folder with what shows an answer, and the note of the commands that show it. It is removed at the end, unless
    the answer names a file in it.
    """

    def __init__(self, mapf: str, given: argparse.Namespace, searches: Searches | None = None) -> None:
        self.mapf = mapf
        self.library = library_for(mapf)
        self.searches = searches
        self.agents: int = given.k
        self.limit: int = given.limit
        self.seconds: float | None = given.seconds
        self.answer: str = given.answer
        self.keep: str | None = given.keep
        self.is_late = False
        self.is_named = False
        self.steps: list[tuple[str, str, str]] = []
        self.origin = ""
        self.folder = Path(tempfile.mkdtemp(prefix="mapf-verify-"))

    def __enter__(self) -> "Evidence":
        return self

    def __exit__(self, kind: type[BaseException] | None, *_: object) -> None:
        if kind is not None or not self.is_named:
            with signals_held():
                shutil.rmtree(self.folder, ignore_errors=True)

    def given_place(self, name: str) -> str:
        """Where the user finds this file. Without a folder of the user's, this one stays."""
        self.is_named = not self.keep
        return os.path.join(self.keep or self.folder, name)

    def write(self, name: str, text: str | bytes) -> None:
        """Writes a file of the folder."""
        (self.folder / name).write_bytes(text if isinstance(text, bytes) else os.fsencode(text))

    def remove(self, name: str) -> None:
        """Removes a file of the folder."""
        (self.folder / name).unlink()

    def words_of_check(self, plan: str) -> list[str]:
        """The words behind `mapf` that have this plan text judged beside the certificate."""
        return ["check", MAP, SCEN, str(self.agents), plan, CERT]

    def check(self, plan: str) -> str:
        """The verdict of mapf on this plan text beside the certificate: by the library where it is there."""
        if self.library is None:
            return run(self.mapf, self.words_of_check(plan), self.folder)
        texts = [(self.folder / name).read_bytes() for name in (MAP, SCEN, plan, CERT)]
        line = line_of(self.library.check(texts[0], texts[1], self.agents, texts[2], texts[3]))
        if line.startswith("F"):
            raise unanswered("check", line)
        return line

    def show(self, plan: str, verdict: str, meaning: str) -> None:
        """Notes this check of a plan text beside the certificate, of which this has to be the verdict."""
        told = self.check(plan)
        if told != verdict:
            raise ToolError(f"mapf check says '{told}' where '{verdict}' is due: please report it")
        self.steps.append((" ".join(["mapf", *self.words_of_check(plan)]), verdict, meaning))

    def solve(self, cost: int) -> str | None:
        """Searches for a plan of less than this cost or for a bound that is as high, unless an earlier search serves,
        and answers the line of the last search that ended in time, none where none did.
        """
        if self.searches and self.searches.serve(cost, self.seconds is not None):
            copy_found(self.searches.folder, self.folder)
            self.origin = self.searches.origin
            return self.searches.line
        line = self.search(cost)
        if self.searches and line:
            self.searches.keep(line, self.origin, self.folder)
        return line

    def search(self, cost: int) -> str | None:
        """Searches, as `solve` says."""
        if self.seconds is None:
            return self.solve_with(self.limit, None)
        until = time.monotonic() + self.seconds
        line: str | None = None
        for limit in rising_to(self.limit):
            found = self.solve_with(limit, until)
            self.is_late = found is None
            line = found or line
            known = found and answer_of(found)
            if not known or known.says_more_than(cost) or known.line.startswith("limit ticks "):
                break
        return line

    def solve_with(self, limit: int, until: float | None) -> str | None:
        """Searches with this limit, and keeps what is found, unless that isn't there at this moment."""
        words = ["solve", "--search", "cbsh", MAP, SCEN, str(self.agents), str(limit)]
        line = run(self.mapf, [*words, FOUND + NEW, CERT + NEW], self.folder, until)
        for name in (FOUND, CERT):
            new = self.folder / (name + NEW)
            if line is None:
                new.unlink(missing_ok=True)
            else:
                new.replace(self.folder / name)
                self.origin = f"{CERT} was written by\n\n    mapf {' '.join([*words, FOUND, CERT])}\n"
        return line

    def limit_met(self, found: str) -> str:
        """In words, what limit the search met that found this."""
        if self.is_late:
            return f"limit of {self.seconds:g} seconds"
        return "a conflict at tick 1,000,000 or later" if "ticks" in found else f"limit of {self.limit} splits"

    def claim_cost(self, cost: int) -> None:
        """Lets the certificate of a bound claim the same of a cost."""
        old, new = f"claim bound {cost}", f"claim cost {cost}"
        changed = self.folder / "changed"
        with open(self.folder / CERT) as given, open(changed, "w") as made:
            for number, line in enumerate(given, 1):
                made.write(f"{new}\n" if number == 3 and line == f"{old}\n" else line)
        changed.replace(self.folder / CERT)
        self.origin += f"\nand its line '{old}' was changed into '{new}' then.\n"

    def write_note(self, line: str) -> None:
        """Writes the answer and how it is shown."""
        steps = [f"    {command}\n\nprints '{verdict}': {meaning}." for command, verdict, meaning in self.steps]
        problem = (f"The problem is that of the first {self.agents} agents of {SCEN} on {MAP}, and {PLAN} is\n"
                   f"{self.answer}, as a plan text of mapf. In this folder")
        self.write(NOTE, "\n\n".join([line, problem, *steps, self.origin]).rstrip() + "\n")


@overload
def run(mapf: str, words: list[str], folder: Path) -> str: ...
@overload
def run(mapf: str, words: list[str], folder: Path, until: float | None) -> str | None: ...
def run(mapf: str, words: list[str], folder: Path, until: float | None = None) -> str | None:
    """The line that mapf prints in this folder, none where it hasn't ended at this moment. What it says of its search
    besides is passed on.
    """
    with contextlib.ExitStack() as at_end:
        with signals_held():
            process = at_end.enter_context(
                subprocess.Popen([mapf, *words], cwd=folder, stdin=subprocess.DEVNULL, text=True,
                                 stdout=subprocess.PIPE, stderr=subprocess.PIPE))
            at_end.callback(process.kill)
        if not has_ended(process, words[0], until):
            return None
        out, err = process.communicate()
    if process.returncode < 0:
        raise ToolError(f"mapf {words[0]} was ended by signal {-process.returncode}: see whether memory ran out")
    if not out:
        raise unanswered(words[0], err.strip())
    sys.stderr.write(err)
    return out.strip()


def unanswered(name: str, said: str) -> ToolError:
    """What is told where mapf has an error in place of an answer."""
    return ToolError(f"mapf {name} says '{said}': docs/FORMATS.md tells what it means")


def has_ended(process: subprocess.Popen[str], name: str, until: float | None) -> bool:
    """Waits until it ends, or until this moment. What it prints is short, so that it never waits for a reader."""
    began = time.monotonic()
    while process.poll() is None:
        left = 1 if until is None else until - time.monotonic()
        if left <= 0:
            return False
        try:
            process.wait(timeout=min(left, 1))
        except subprocess.TimeoutExpired:
            tell_of_time(name, time.monotonic() - began)
    return True


def tell_of_time(name: str, seconds: float) -> None:
    """Shows how long a call of mapf has been at work."""
    progress(f"mapf {name} has been at work for {seconds:.0f} s")


def library_for(program: str) -> Library | None:
    """The library that answers as this program does, if it is there: the one that MAPF_LIBRARY names, or the one of the
    same package, archive or clone, if it isn't older than the program. Where MAPF_LIBRARY is empty there is none.
    """
    named = os.environ.get("MAPF_LIBRARY")
    if named is not None:
        return Library(Path(named), tell_of_time) if named else None
    if is_installed():
        return Library(PACKAGE / NAME, tell_of_time) if program == installed() else None
    for beside, place in ((TOP / "mapf", TOP / "lib"), (TOP / "crates" / "mapf" / "out" / "mapf", TOP / "out")):
        found = place / NAME
        if Path(program) == beside and found.exists() and found.stat().st_mtime >= beside.stat().st_mtime:
            return Library(found, tell_of_time)
    return None
