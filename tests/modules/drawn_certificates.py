"""Certificates that both searches write of problems drawn by lot, and how each of them is damaged."""

import re
from collections.abc import Callable
from dataclasses import dataclass
from pathlib import Path

from harness import run_small, told
from jobs import side_by_side
from lemma_damage import damage
from random_problems import KINDS, drawn
from tree_damage import damaged
from versions import in_version_one, plan_in_other_version, with_blocks_on_leaves

TEXTS = ("map", "scen", "plan", "cert")

# How many certificates of a search are drawn, and how many of them show nothing but distances. None has more bytes.
CERTIFICATES = 300
BARE = 30
MOST_BYTES = 30_000

# The problems that are solved until there are so many.
PROBLEMS = [(kind, number) for number in range(100) for kind in KINDS]

# Each line of `solve`, and the verdict on what it writes.
VERDICTS = {r"cost (\d+)": r"optimal \1", r"limit \d+ bound (\d+)": r"bound \1",
            r"within (\d+) (\d+)": r"within \1 \2", r"impossible": "impossible"}


@dataclass(frozen=True)
class Base:
    """A certificate with its problem and its plan text: MAP SCEN K PLAN CERT, and the verdict on it."""

    title: str
    words: list[str]
    verdict: str

    def cert(self):
        return Path(self.words[-1]).read_bytes()

    def goals(self):
        """The column and the row of each agent's goal."""
        rows = (line.split() for line in Path(self.words[1]).read_text().splitlines()[1:])
        return [(int(row[6]), int(row[7])) for row in rows]


@dataclass(frozen=True)
class Search:
    """A search, and what its certificates are like."""

    name: str
    # Each problem is solved with one of these limits of splits, by its number.
    limits: tuple[int, ...]
    # A certificate has one of these, unless it shows nothing but distances.
    parts: tuple[bytes, ...]
    # Of the damaged copies some have to get each of these.
    given: tuple[str, ...]
    # The kind of a damage and the text with it.
    damaged: Callable

    def bases(self, folder):
        """So many certificates, unless there are too few problems."""
        place = folder / f"drawn-{self.name}"
        place.mkdir()
        bases, bare = [], 0
        for at in range(0, len(PROBLEMS), CERTIFICATES):
            problems = PROBLEMS[at:at + CERTIFICATES]
            for base in side_by_side(lambda problem: self.solved(place, *problem), problems, f"solving by {self.name}"):
                cert = base.cert()
                has_part = any(part in cert for part in self.parts)
                if len(bases) < CERTIFICATES and len(cert) <= MOST_BYTES and (has_part or bare < BARE):
                    bases.append(base)
                    bare += not has_part
            if len(bases) == CERTIFICATES:
                break
        return bases

    def solved(self, folder, kind, number):
        """What the search writes of a drawn problem."""
        problem = drawn(kind, number)
        texts = {"map": problem.map_text().encode(), "scen": problem.scen_text().encode(), "plan": b"", "cert": b""}
        words = put(folder / problem.name, texts, str(len(problem.agents)))
        limit = str(self.limits[number % len(self.limits)])
        ended = run_small(["solve", "--search", self.name, *words[:3], limit, *words[3:]])
        line = ended.stdout.decode().removesuffix("\n")
        form = next((form for form in VERDICTS if re.fullmatch(form, line)), None)
        verdict = f"what solve gave: {told(ended)}" if form is None else re.sub(form, VERDICTS[form], line)
        older = form is not None and number % 2 == 0 and in_older_version(*map(Path, words[3:]))
        title = f"certificate of {self.name} for {problem.name}"
        return Base(f"{title}, in version 1" if older else title, words, verdict)


def in_older_version(plan, cert):
    """Whether both texts, which this rewrites, can be in version 1."""
    text = cert.read_bytes()
    older = in_version_one(with_blocks_on_leaves(text)) if text.startswith(b"mapf-cert 2\n") else None
    if older:
        cert.write_bytes(older)
        plan.write_bytes(plan_in_other_version(plan.read_bytes()))
    return bool(older)


def put(place, texts, agents="2"):
    """Writes the texts, and answers MAP SCEN K PLAN CERT."""
    place.mkdir(exist_ok=True)
    for name, text in texts.items():
        (place / name).write_bytes(text)
    files = [str(place / name) for name in TEXTS]
    return [*files[:2], agents, *files[2:]]


SEARCHES = (
    Search("cbs", (40, 40, 40, 4), (b"\nvertex ", b"\nswap "),
           ("optimal", "bound", "impossible", "refused C2", "refused C3", "refused C4", "refused C6", "refused C7",
            "refused C8", "refused C9"),
           lambda base, draw: damaged(base.cert(), base.goals(), draw)),
    Search("cbsh", (40, 40, 1, 0), (b"\none ", b"\ntwo ", b"\nnever ", b"\ncases ", b"\nvertex ", b"\nswap "),
           ("optimal", "within", "impossible", "refused C2", "refused C3", "refused C4", "refused C7", "refused C8",
            "refused C10"),
           lambda base, draw: damage(base.cert(), draw)),
)
