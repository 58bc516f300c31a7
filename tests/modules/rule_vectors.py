"""The vectors of rules/: in each file those of one rule of docs/FORMATS.md, which decides what comes of their texts.
README.md has the form of a file.
"""

import json
import re
import sys
import tempfile
from dataclasses import dataclass, replace
from functools import cached_property
from pathlib import Path

from harness import TESTS
from versions import PLAN_TITLES, in_version_one, plan_in_other_version

RULES = TESTS / "rules"

# The texts of a vector of each kind: the inputs of a run, in the order of its arguments.
INPUTS = {"check": ("map", "scen", "plan", "cert"), "dispatch": ("map", "scen", "plan", "events"),
          "play": ("map", "scen", "plan")}

# Where the texts stand that a run reads as files. The folder is removed at the end.
ROOM = tempfile.TemporaryDirectory(prefix="mapf-vectors-")


@dataclass(frozen=True)
class Vector:
    """A run with its texts by name, why it comes to what is wanted, and what this is: a line, or all that is printed.
    """

    name: str
    why: str
    agents: int
    wanted: str | bytes
    texts: dict[str, bytes]

    def is_accepted(self):
        return not self.wanted.startswith("refused ")

    def words(self):
        """MAP, SCEN, K and the other texts, as files."""
        grid, scenario, *texts = map(str, self.files.values())
        return [grid, scenario, str(self.agents), *texts]

    @cached_property
    def files(self):
        return self.put_into(ROOM.name)

    def put_into(self, folder):
        """Puts the texts into files of a new folder in this one. Answers the files by the names of the texts."""
        place = Path(tempfile.mkdtemp(prefix=re.sub(r"\W+", "-", f"{self.name} "), dir=folder))
        for name, text in self.texts.items():
            (place / name).write_bytes(text)
        return {name: place / name for name in self.texts}

    def size(self):
        return sum(map(len, self.texts.values()))


def vectors_of(kind):
    """The vectors of check, dispatch or play."""
    return [vector_of(given, kind) for file in rule_files(kind) for given in rule_in(file)["vectors"]]


def rule_files(kind):
    return sorted((RULES / kind).glob("*.json"))


def rule_in(file):
    """A rule with its vectors, as the file has them."""
    try:
        return json.loads(file.read_bytes())
    except ValueError as error:
        sys.exit(f"{file}: {error}")


def vector_of(given, kind):
    """The vector that is given as an object of JSON."""
    wanted = given["wanted"] if isinstance(given["wanted"], str) else bytes_of(given["wanted"])
    texts = {name: bytes_of(given[name]) for name in INPUTS[kind]}
    return Vector(given["name"], given["why"], given["agents"], wanted, texts)


def bytes_of(text):
    """The bytes of a text, of which each character stands for the byte of its number. A list has the lines, without the
    LF that ends each."""
    whole = text if isinstance(text, str) else "".join(f"{line}\n" for line in text)
    return whole.encode("latin-1")


def with_older_versions(vectors):
    """Each vector, and once more with its plan text and its certificate in version 1 where they say the same in it."""
    for vector in vectors:
        yield vector
        if texts := older_texts(vector):
            yield replace(vector, name=f"{vector.name}, in version 1", texts=vector.texts | texts)


def older_texts(vector):
    """The texts of the vector that can be written in version 1 and aren't."""
    plan, cert = vector.texts["plan"], vector.texts["cert"]
    older = {"cert": in_version_one(cert)}
    if plan.startswith(PLAN_TITLES[1]):
        older["plan"] = plan_in_other_version(plan)
    return {name: text for name, text in older.items() if text is not None}
