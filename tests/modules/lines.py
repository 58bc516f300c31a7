"""Cases of one line each, in the files of lines/: the arguments of `mapf`, and what it prints."""

import shlex
from dataclasses import dataclass

from harness import TESTS, run_small, told

LINES = TESTS / "lines"


@dataclass(frozen=True)
class Line:
    """The arguments of a run, and the line that it prints on standard output. None if the arguments are refused."""

    file: str
    number: int
    words: list[str]
    printed: str | None

    @property
    def name(self):
        return f"{self.file}, line {self.number}"

    def faults(self):
        """How the run isn't as it has to be."""
        ended = run_small(self.words)
        if self.printed is None:
            is_refused = ended.status == 2 and not ended.stdout and ended.stderr.startswith(b"error: ")
            return [] if is_refused else [f"{told(ended)}, wanted a refusal of the arguments"]
        is_as_wanted = (ended.status, ended.stdout, ended.stderr) == (0, f"{self.printed}\n".encode(), b"")
        return [] if is_as_wanted else [f"{told(ended)}, wanted the line {self.printed!r}"]


def all_lines():
    """The cases of all files."""
    for path in sorted(LINES.iterdir()):
        for number, line in enumerate(path.read_text().splitlines(), 1):
            if line and not line.startswith("#"):
                words, tab, printed = line.partition("\t")
                yield Line(path.name, number, shlex.split(words), printed if tab else None)
