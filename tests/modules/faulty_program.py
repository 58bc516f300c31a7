"""One program in which many second searches, or many plans that it begins with, stand beside each other, each with a
fault of its own. It runs by `rt try`, before any proof. The height of a map tells which of them answers.
"""

import re
import shutil
import subprocess
import tempfile
from dataclasses import dataclass
from pathlib import Path

from clauses import CRATES, TOP, read

# The second search, which the program calls. It stands on crates of its own.
SEARCH = "mapf_groups"

# What makes the plan that the second search begins with. It is a file of the crate of the runs, and becomes a crate here.
PLANNER, RUNS, PLANNER_FILE = "mapf_planner", "mapf_app", "src/plan_in_hand.rt"

# The height of a map for the first fault. That of the others is greater, and of no problem's own map as great.
FIRST = 100

# How many seconds one run may take. Without a fault it takes a few at most.
SECONDS = 60

# The crate that finds prices, its file with the numbers of states that it may expand, and by which each is divided:
# `rt try` expands states a hundred times as slowly as the built program.
PRICES, BUDGETS_FILE, BUDGET, DIVISOR = "mapf_prices", "src/rounded.rt", re.compile(r"(?<=states: )[0-9_]+"), 100


@dataclass(frozen=True)
class Choice:
    """What stands in the place of a crate: the choice between its copies, the type of what each of them returns, and how
    each is called.
    """

    source: str
    type: str
    call: str

    def text(self, crate, numbers):
        """The source, for the copies of the crate with these numbers besides that without a fault."""
        arms = [f"        {height_for(number)} => {crate}_{number}::{self.call},\n" for number in numbers]
        return self.source % {"crate": crate, "arms": "".join(arms)}

    def shared(self, crate, text):
        """A source of a copy of the crate, with the type of the copy that has no fault in the place of its own."""
        own = rf"(?:^///.*\n|^#\[derive.*\n)*^pub (?:enum|struct) {self.type} {{\n(?:.*\n)*?}}\n"
        return re.sub(own, f"pub use {crate}_0::{self.type};\n", text, flags=re.MULTILINE)


CHOICES = {
    SEARCH: Choice("""//! The second search with the fault that the height of the map names, or without one.
use mapf_model::{OutOfMemory, Problem, Watcher};
use std::alloc::Global;

pub use %(crate)s_0::Outcome;

/// Searches as the chosen one does.
pub fn search_below<W: Watcher>(
    alloc: Global,
    problem: &Problem,
    limit: u32,
    below: u64,
    watcher: &mut W,
) -> Result<Outcome, OutOfMemory> {
    match problem.grid().height() {
%(arms)s        _ => %(crate)s_0::search_below(alloc, problem, limit, below, watcher),
    }
}
""", "Outcome", "search_below(alloc, problem, limit, below, watcher)"),
    PLANNER: Choice("""//! The plan that is made with the fault that the height of the map names, or without one.
use mapf_model::{OutOfMemory, Problem};
use std::alloc::Global;

pub use %(crate)s_0::PlanInHand;

/// Makes a plan as the chosen one does.
pub fn plan_in_hand(
    alloc: Global,
    problem: &Problem,
    improvements: u32,
) -> Result<Option<PlanInHand>, OutOfMemory> {
    match problem.grid().height() {
%(arms)s        _ => %(crate)s_0::plan_in_hand(alloc, problem, improvements),
    }
}
""", "PlanInHand", "plan_in_hand(alloc, problem, improvements)"),
}

# What stands in the place of the planner's file.
HANDED_ON = "//! The plan that the second search begins with.\npub use mapf_planner::{PlanInHand, plan_in_hand};\n"


class NotBuilt(Exception):
    """What the toolchain said where it made no program."""


@dataclass(frozen=True)
class Ran:
    """How a run of the program ended: its status if it has one, what it printed, and whether it came to no end."""

    status: int | None
    stdout: str
    stderr: str
    is_late: bool = False


def copy_sources(room):
    """Copies all that the toolchain reads into a folder, and answers that of the crates."""
    shutil.copytree(CRATES, room / "crates", ignore=shutil.ignore_patterns("out", "must-fail"))
    for name in ("crates.txt", "HANDLES"):
        shutil.copy(TOP / name, room / name)
    return room / "crates"


def height_for(number):
    """The height of a map for the fault of this number, counted from 1. Without a fault a map keeps its own."""
    return FIRST + number if number else 0


def put_side_by_side(room, planted):
    """Makes the sources of the program in a folder: of the second search and of the planner a copy without a fault and
    one with each that is in it, and in their places the choices between them.
    """
    crates = copy_sources(room)
    put_small_budgets(crates / PRICES / BUDGETS_FILE)
    stands_on = stands_on_with_planner(crates)
    for crate in CHOICES:
        (crates / crate).rename(crates / f"{crate}_0")
        stands_on[f"{crate}_0"] = stands_on[crate]
    numbers = {crate: [0] for crate in CHOICES}
    for number, fault in enumerate(planted, 1):
        crate = SEARCH if fault.crate in with_below(SEARCH, stands_on) else PLANNER
        below = {it: stands_on[it] for it in with_below(crate, stands_on) if it in stands_on}
        stands_on |= put_fault(crates, number, fault, below)
        numbers[crate].append(number)
    for crate, choice in CHOICES.items():
        put(crates / crate / "src" / "lib.rt", choice.text(crate, numbers[crate][1:]))
        stands_on[crate] = ["mapf_model", *(f"{crate}_{number}" for number in numbers[crate])]
    lines = (f"{crate}: {' '.join(below)}\n" for crate, below in stands_on.items())
    (room / "crates.txt").write_text("".join(lines))


def stands_on_with_planner(crates):
    """What each crate stands on, where the planner is one."""
    listed = dict(re.findall(r"^(\w+)(?: staticlib)?: *(.*)$", read("crates.txt"), re.MULTILINE))
    stands_on = {crate: below.split() for crate, below in listed.items()}
    source = (crates / RUNS / PLANNER_FILE).read_text()
    put(crates / PLANNER / "src" / "lib.rt", source)
    put(crates / RUNS / PLANNER_FILE, HANDED_ON)
    named = set(re.findall(r"^use (\w+)::", source, re.MULTILINE))
    stands_on[PLANNER] = [crate for crate in stands_on[RUNS] if crate in named]
    stands_on[RUNS].append(PLANNER)
    return stands_on


def put_small_budgets(file):
    """Divides the budgets of prices in a source."""
    text, divided = BUDGET.subn(lambda found: str(int(found[0]) // DIVISOR), file.read_text())
    if not divided:
        raise NotBuilt(f"no budget stands in {file}")
    put(file, text)


def put_fault(crates, number, fault, below):
    """Puts a copy with a fault beside the others: copies of the crate with the fault and of those that stand on it, of a
    crate that is chosen and of those below it. Answers what each of them stands on.
    """
    faulty = PLANNER if fault.crate == RUNS else fault.crate
    names = {crate: f"{crate}_{number}" for crate in below if faulty in with_below(crate, below)}
    for crate, name in names.items():
        shutil.copytree(place_of(crates, crate), crates / name)
        for source in (crates / name / "src").glob("*.rt"):
            put(source, copied(source.read_text(), crate, names))
    for file in fault.files:
        source = CRATES / RUNS if fault.crate == RUNS else place_of(crates, fault.crate)
        planted = fault.planted(file, (source / file).read_text())
        place = "src/lib.rt" if fault.crate == RUNS else file
        put(crates / names[faulty] / place, copied(planted, faulty, names))
    shared = {crate: [f"{crate}_0"] if crate in CHOICES else [] for crate in names}
    return {name: [*(names.get(it, it) for it in below[crate]), *shared[crate]] for crate, name in names.items()}


def place_of(crates, crate):
    """The folder of a crate without a fault."""
    return crates / (f"{crate}_0" if crate in CHOICES else crate)


def copied(text, crate, names):
    """A source of a crate's copy, in which crates have the names of their copies."""
    found = renamed(text, names)
    return CHOICES[crate].shared(crate, found) if crate in CHOICES else found


def renamed(text, names):
    """A source in which crates have the names of their copies."""
    return re.sub(rf"\b({'|'.join(names)})\b", lambda found: names[found[1]], text)


def with_below(crate, stands_on):
    """The crate and those below it."""
    return {crate}.union(*(with_below(below, stands_on) for below in stands_on.get(crate, [])))


def put(place, text):
    place.parent.mkdir(parents=True, exist_ok=True)
    place.write_text(text)


def run_all(room, runs):
    """Runs the program in a folder with each list of words, by one `rt try`. Answers how each ended, by its name."""
    cases = Path(tempfile.mkdtemp(prefix="cases", dir=room))
    for name, words in runs.items():
        (cases / name).write_text("")
        (cases / f"{name}.args").write_text("".join(f"{word}\n" for word in words))
    ended = subprocess.run(
        ["rt", "try", "--seconds", str(SECONDS), "--cases", str(cases)], cwd=room / "crates" / "mapf",
        stdin=subprocess.DEVNULL, capture_output=True, text=True, errors="replace")
    found = endings(ended.stdout, ended.stderr)
    if found.keys() != runs.keys():
        raise NotBuilt(" / ".join(ended.stderr.splitlines()[-6:]))
    return found


def endings(stdout, stderr):
    """How each case ended, by what `rt try` printed: outputs under their names, and after each error its end."""
    outputs = dict(re.findall(r"^== (\S+)\n((?:(?!== ).*\n)*)", stdout, re.MULTILINE))
    found, errors = {}, []
    for line in stderr.splitlines(keepends=True):
        if case := re.match(r"case=(\S+) run=(\S+)(?: status=(\d+))?", line):
            name, way, status = case.groups()
            status = None if status is None else int(status)
            found[name] = Ran(status, outputs.get(name, ""), "".join(errors), way == "no-answer")
            errors = []
        else:
            errors.append(line)
    return found
