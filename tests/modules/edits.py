"""Edits that make a crate wrong: the mutants, which the prover has to reject, and the faults of the second search and
of what makes its first plan, of which it rejects some. They have the same form, and a folder for each crate.
"""

from dataclasses import dataclass

from clauses import CRATES
from harness import TESTS

FAULTS = TESTS / "faults"

# The mutants that `./test` leaves out. Those that it tries are in the crates.
MUTANTS = TESTS / "mutants"


class DoesNotApply(Exception):
    """Why an edit can't be made."""


@dataclass(frozen=True)
class Edit:
    """A change of a crate's files: of each file the texts that are replaced, with those that stand in their place, and
    a sentence that says what goes wrong, where the name isn't enough.
    """

    name: str
    crate: str
    why: str
    files: dict[str, list[tuple[str, str]]]

    def planted(self, file, text):
        """The text of a file of the crate with the change in it."""
        for old, new in self.files.get(file, []):
            if text.count(old) != 1:
                raise DoesNotApply(f"{old!r} stands {text.count(old)} times in {self.crate}/{file}")
            text = text.replace(old, new)
        return text

    def hindrances(self):
        """Why it can't be made in the files as they are now: nothing, if it can."""
        try:
            for file in self.files:
                self.planted(file, (CRATES / self.crate / file).read_text())
        except (DoesNotApply, OSError) as error:
            return [str(error)]
        return [] if self.files else ["it names no file"]


def faults():
    return [edit_of(path, path.parent.name) for path in sorted(FAULTS.glob("*/*.edit"))]


def mutants():
    """All mutants, those of each crate that `./test` tries and the others."""
    tried = [edit_of(path, path.parent.parent.name) for path in sorted(CRATES.glob("*/must-fail/*.edit"))]
    return tried + [edit_of(path, path.parent.name) for path in sorted(MUTANTS.glob("*/*.edit"))]


def edit_of(path, crate):
    why, files, old = "", {}, ""
    for line in path.read_text().splitlines():
        word, _, text = line.partition(":")
        text = text.removeprefix(" ")
        if word == "why":
            why = text
        elif word == "file":
            pairs = files.setdefault(text, [])
        elif word == "old":
            old = text
        elif word == "new":
            pairs.append((old, text))
    return Edit(path.stem, crate, why, files)
