"""The other runners on the program and the library that cargo has built."""

import re
import subprocess
import sys

from harness import TESTS, last_counts
from random_problems import KINDS

# How many problems are drawn.
PROBLEMS = 500

# What is left out of what a script prints where it failed: how long each case took.
TIMES = re.compile(r"(?m)^.*, [\d.]+ s\n")

# How many characters of the rest are told.
MOST_TOLD = 20_000


def problem_names():
    """The names of the drawn problems, as many of each kind as of any other, but for one."""
    kinds = list(KINDS)
    return [f"{kinds[number % len(kinds)]}-{number // len(kinds)}" for number in range(PROBLEMS)]


# The words behind each script that tries the program, those first that take longest.
OF_PROGRAM = {
    "memory": [], "failing_calls": ["--by-cargo"], "cases": [], "random": problem_names(),
    "vectors": ["--program-alone"], "terminal": [], "follow": [], "json": [], "same_files": [],
}

# The one that tries the library.
OF_LIBRARY = "library"


def script(builds, name, words=()):
    """What tries a script: it counts in a tally what the script counts."""

    def attempt(tally):
        environment = {**builds.cargo.environment, "MAPF": str(builds.program), "MAPF_LIBRARY": str(builds.library)}
        ended = subprocess.run([sys.executable, TESTS / "runners" / name, *words], env=environment,
                               stdin=subprocess.DEVNULL, stdout=subprocess.PIPE, stderr=subprocess.STDOUT, text=True,
                               errors="replace")
        counts = last_counts(ended.stdout)
        tally.add_counts(*counts or (0, 0, 0))
        if ended.returncode or not counts:
            tally.say(f"status {ended.returncode}\n{TIMES.sub('', ended.stdout)[-MOST_TOLD:]}")
        if not counts or ended.returncode and not counts[1]:
            tally.add("its end", [f"status {ended.returncode}, and last {ended.stdout[-200:]!r}"])

    return attempt
