"""The fuzzer as cargo builds it: no text makes it panic, and it counts what the proved fuzzer counts."""

import re

from harness import TESTS
from rust_builds import AS_IT_IS
from rust_cargo import ran

# The fuzzer that `rt ci` builds.
PROVED = TESTS.parent / "crates" / "mapf_fuzz" / "out" / "mapf_fuzz"

# How many texts each reader is handed, and what draws them.
TEXTS, SEED = "100000", "1"

# Settings of a build in which a sum out of range, or a `prove!` that doesn't hold, ends the program.
CHECKED = {"CARGO_PROFILE_RELEASE_OVERFLOW_CHECKS": "true", "CARGO_PROFILE_RELEASE_DEBUG_ASSERTIONS": "true"}

# What it says of each reader.
LINE = re.compile(r"\w+: (\d+) accepted, (\d+) refused, (\d+) wrong")


class Fuzzer:
    """The fuzzer of builds by cargo."""

    def __init__(self, cargo):
        self.cargo = cargo

    def run_as_it_is(self, tally):
        """The fuzzer as anyone builds it."""
        return self.run(tally, "program", {})

    def run_checked(self, tally):
        """The fuzzer of a build that checks each sum."""
        return self.run(tally, "checked", CHECKED)

    def run(self, tally, target, settings):
        words = ["run", "--release", "--example", "fuzz", *AS_IT_IS, "--", TEXTS, SEED]
        said = self.cargo.run(target, *words, **settings)
        tally.add("fuzz", said.faults() or count_faults(said.stdout))
        if not PROVED.exists():
            tally.skip("the counts of the proved fuzzer", f"since {PROVED} isn't there")
        else:
            proved = ran([PROVED, TEXTS, SEED], TESTS, self.cargo.environment)
            same = (proved.status, proved.stdout) == (said.status, said.stdout)
            tally.add("the counts of the proved fuzzer",
                      [] if same else [f"it says {proved.stdout!r}, and cargo's {said.stdout!r}"])
        return f"{said.seconds:.0f} s of a processor"


def count_faults(said):
    """How the counts aren't those of all texts, or one was accepted that claims what isn't so."""
    lines = said.splitlines()
    counts = [LINE.fullmatch(line) for line in lines]
    if not lines or not all(counts):
        return [f"it says {said!r}"]
    return [line for line, count in zip(lines, counts)
            if sum(map(int, count.groups())) != int(TEXTS) or count[3] != "0"]
