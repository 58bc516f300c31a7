"""The words of a runner's call. Its header tells what they mean, so `--help` prints the header."""

import argparse
import os
import sys
from pathlib import Path

from jobs import MOST, VARIABLE, jobs

OF_JOBS = f"""
--jobs N says how many runs stand side by side. Without it the variable {VARIABLE} says it; without both there are as
many as there are processors, but at most {MOST}. What comes of the runs doesn't depend on it.
"""


class Words(argparse.ArgumentParser):
    """What reads the words of a runner with this header."""

    def __init__(self, header, has_jobs=False):
        super().__init__(prog=f"tests/runners/{Path(sys.argv[0]).name}")
        self.header = header
        self.has_jobs = has_jobs
        if has_jobs:
            self.add_argument("--jobs", metavar="N", type=at_least_one, default=os.environ.get(VARIABLE) or str(jobs()))

    def format_help(self):
        return self.header + (OF_JOBS if self.has_jobs else "")

    def parse_args(self, *words):
        given = super().parse_args(*words)
        if self.has_jobs:
            os.environ[VARIABLE] = str(given.jobs)
        return given


def at_least_one(word):
    if not word.isascii() or not word.isdigit() or int(word) < 1:
        raise argparse.ArgumentTypeError(f"{word} isn't a number from 1 on")
    return int(word)


def names_given(header, has_jobs=False):
    """The names behind a runner that takes no other words."""
    words = Words(header, has_jobs)
    words.add_argument("names", metavar="NAME", nargs="*")
    return words.parse_args().names
