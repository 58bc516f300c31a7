"""Certificates with a false claim, from the files of false/: each with its problem, and with the rule that it breaks.

A paragraph of a file begins with the problem's name, the version, the claim and the code of the refusal, and then says
in plain words what is wrong. The lines below, which are indented, are those of the certificate with ` / ` between them:
what follows its claim, or the whole text if it begins with a title. `prices N`, `lemmas N` and `end` are left out where
they tell nothing. A backslash begins an escape of a byte, and at the end of a text it says that the last line has no
LF. Where the answer isn't the one that fits the claim, `plan` with an answer comes first, or with the lines of a plan
text and `;` between them. Some long certificates are made here.
"""

import re
from dataclasses import dataclass, replace
from functools import cache, cached_property
from itertools import product

from harness import TESTS
from joint_states import least_sum
from lemma_vectors import map_of, scenario_of, with_counts
from random_problems import STEPS
from versions import in_version_one, in_version_three

FOLDER = TESTS / "false"
FILES = "version_2", "version_3", "texts", "searches"

HEAD = re.compile(r"([a-z ]+), ([123]), (impossible|(?:cost|bound) [0-9a-z]+), ([CK][0-9]+): ([^\n]+[.?])")
ESCAPE = re.compile(r"\\(x[0-9a-f]{2}|[trn])")

# Prices of which so many exceed 2^32.
MANY, GREATEST_PRICE = 430, 9_999_999


@dataclass(frozen=True)
class FalseProblem:
    """A problem on a tiny map: its rows, and the starts and goals of its agents."""

    name: str
    rows: tuple[str, ...]
    agents: tuple[tuple[tuple[int, int], tuple[int, int]], ...]

    def cells(self):
        return [(x, y) for y, row in enumerate(self.rows) for x, sign in enumerate(row) if sign in ".GS"]

    @cached_property
    def least(self):
        """The least sum of costs of a valid plan."""
        return least_sum(self)

    @cached_property
    def files(self):
        """The texts of the map and of the scenario."""
        ends = [" ".join("%d,%d" % cell for cell in agent) for agent in self.agents]
        grid = "|".join(self.rows)
        return {"map": text_of(map_of(grid)), "scen": text_of(scenario_of(grid, ends))}

    @cache
    def paths(self, cost):
        """The paths of a valid plan of exactly this cost, None if there is none."""
        goals = [goal for _, goal in self.agents]
        starts = ([((start,), False), ((start,), True)][:1 + (start == goal)] for start, goal in self.agents)
        due = [(0, plan) for plan in product(*starts)]
        while due:
            spent, plan = due.pop()
            moving = [agent for agent, (_, is_done) in enumerate(plan) if not is_done]
            if not moving and spent == cost:
                return [path for path, _ in plan]
            if moving and spent + len(moving) <= cost:
                due += [(spent + len(moving), after) for after in self.followers(plan, goals)]
        return None

    def followers(self, plan, goals):
        """What a plan may become by a tick in which each agent that isn't done takes a step."""
        here = tuple(path[-1] for path, _ in plan)
        after = [[]]
        for agent, (path, is_done) in enumerate(plan):
            choices = [(path, True)] if is_done else self.steps(path, goals[agent])
            after = [[*others, choice] for others in after for choice in choices
                     if not meets(here, [path[-1] for path, _ in others], choice[0][-1], agent)]
        return after

    def steps(self, path, goal):
        """The paths that are one tick longer, and whether each ends there for good. A path ends by a move."""
        x, y = path[-1]
        cells = [(x, y), *((x + dx, y + dy) for dx, dy in STEPS if (x + dx, y + dy) in self.cells())]
        going = [((*path, cell), False) for cell in cells]
        return going + [((*path, cell), True) for cell in cells if cell == goal != path[-1]]


def meets(here, there, cell, agent):
    """Whether an agent that steps into the cell meets or passes one of those before it, which are there then."""
    return any(other == cell or (other, cell) == (here[agent], here[number]) for number, other in enumerate(there))


@dataclass(frozen=True)
class FalseCertificate:
    """A certificate with a false claim, or beside an answer that isn't true."""

    file: str
    rule: str
    problem: FalseProblem
    version: int
    claim: str
    code: str           # Of the refusal: C4 to C10, or K1 to K4 for C2.
    plan: bytes
    text: bytes

    @property
    def name(self):
        return f"{self.file}, {self.problem.name}, version {self.version}, {self.claim}: {self.rule}"

    @property
    def wanted(self):
        """How the line of `check` begins, up to the number of a line."""
        return f"refused C2 {self.code}" if self.code.startswith("K") else f"refused {self.code}"

    def words(self, folder):
        """MAP SCEN K PLAN CERT, in files of the folder."""
        files = {**self.problem.files, "plan": self.plan, "cert": self.text}
        for name, text in files.items():
            (folder / name).write_bytes(text)
        grid, scenario, *texts = (str(folder / name) for name in files)
        return [grid, scenario, str(len(self.problem.agents)), *texts]

    def is_false(self):
        """Whether what the texts say isn't so: the claim, or the answer beside it."""
        least = self.problem.least
        if least is None:
            return False
        kind, *number = self.claim.split(" ")
        answer = re.search(rb"^(cost|impossible|limit).*?([0-9]*)$", self.plan, re.MULTILINE)
        said = int(answer[2] or 0)
        if kind == "impossible" or answer[1] == b"impossible" or number == ["inf"] or least < int(number[0]):
            return True
        return least < said if answer[1] == b"limit" else said != least if kind == "cost" else said < least


def text_of(lines):
    return "".join(f"{line}\n" for line in lines).encode("latin-1")


@cache
def problems():
    """The problems by their names."""
    found = {}
    for paragraph in (FOLDER / "problems.txt").read_text().rstrip("\n").split("\n\n"):
        name, *lines = paragraph.split("\n")
        given = [line.strip() for line in lines]
        rows = tuple(line for line in given if "," not in line)
        ends = (re.findall("[0-9]+", line) for line in given if "," in line)
        agents = tuple(((int(a), int(b)), (int(c), int(d))) for a, b, c, d in ends)
        found[name] = FalseProblem(name, rows, agents)
    return found


def certificates():
    """All certificates of the files, and those that are made."""
    for file in FILES:
        text = re.sub(r"(?m)^#.*\n", "", (FOLDER / f"{file}.txt").read_text())
        for paragraph in re.split(r"\n\n+", text.strip("\n")):
            yield certificate_of(file, paragraph)
    yield from made_certificates()


def certificate_of(file, paragraph):
    head, body = paragraph.split("\n", 1)
    found = HEAD.fullmatch(head)
    assert found, f"{head!r} isn't the head of a certificate"
    name, version, claim, code, rule = found.groups()
    lines = re.sub(r"\n +", " ", body).strip(" ").split(" / ")
    answer = lines.pop(0).removeprefix("plan ") if lines[0].startswith("plan ") else claim
    problem = problems()[name]
    return FalseCertificate(file, rule, problem, int(version), claim, code, plan_of(problem, answer),
                            whole(problem, int(version), claim, lines))


def whole(problem, version, claim, lines):
    """The text of a certificate, given its lines after the claim, or all of them."""
    ends = not lines[-1].endswith("\\")
    lines = [ESCAPE.sub(byte_of, line.removesuffix("\\")) for line in lines]
    if not ends:
        return text_of(lines)[:-1]
    if lines[0].startswith(("mapf-", "\xef")):
        return text_of(lines)
    body = with_counts(lines) if version == 3 else lines if "end" in lines else [*lines, "end"]
    return text_of([f"mapf-cert {version}", f"agents {len(problem.agents)}", f"claim {claim}", *body])


def byte_of(escape):
    return {"t": "\t", "r": "\r", "n": "\n"}.get(escape[1]) or chr(int(escape[1][1:], 16))


def plan_of(problem, answer):
    """The plan text with an answer. A cost is that of a valid plan that is found here."""
    if answer.startswith("mapf-plan"):
        return text_of(answer.split("; "))
    kind, *number = answer.split(" ")
    lines = [f"limit 0 bound {number[0]}"] if kind == "bound" else [answer]
    if kind == "cost":
        paths = problem.paths(int(number[0]))
        assert paths, f"{problem.name} has no plan of cost {number[0]}"
        lines += [f"path {agent} {len(path) - 1} " + " ".join("%d,%d" % cell for cell in path)
                  for agent, path in enumerate(paths)]
    return text_of(["mapf-plan 2", f"agents {len(problem.agents)}", *lines, "end"])


def made_certificates():
    """Certificates that are too long for a file. Their prices add up to more than 2^32."""
    ticks = range(MANY)
    prices = [f"list 1 {MANY}", *(f"price 0,0 {tick} {GREATEST_PRICE}" for tick in ticks)]
    rest = [f"at 0,0 {tick} {(MANY - 1 - tick) * GREATEST_PRICE}" for tick in ticks[:-1]]
    paid = [*prices, f"one 0 0 {len(rest)} 0", *rest, "leaf 1 0 0", "use 0"]
    kinds = {
        ("A total above 2^32, of prices that the agent pays.", "bound 1", "C8"): paid,
        ("A total above 2^32, with a claim that its rest after a division by 2^32 would leave.",
         f"bound {2 ** 32 - 3_000_000_000}", "C8"): paid,
        ("A total above 2^32, and no use.", "bound 1", "C8"): [*prices, "leaf 0 0 0"],
        ("A total above 2^32 with the greatest unit.", "bound 1", "C8"):
            [prices[0].replace("list 1 ", "list 1000 "), *prices[1:], "leaf 0 0 0"],
        ("Rest that costs more than 2^32, one too high.", "bound 1", "C7"):
            [line if line != rest[0] else f"at 0,0 0 {(MANY - 1) * GREATEST_PRICE + 1}" for line in paid],
    }
    problem = problems()["still"]
    for (rule, claim, code), lines in kinds.items():
        yield FalseCertificate("made", rule, problem, 3, claim, code, plan_of(problem, claim),
                               whole(problem, 3, claim, lines))


def in_other_versions(certificate):
    """A certificate of version 2 that is refused for a rule, in version 3, and in version 1 where it can be written
    in that: its claim is a cost there. One that isn't of the grammar below the line that is refused has no others."""
    if certificate.version != 2 or certificate.code not in ("C6", "C7", "C8", "C9"):
        return
    try:
        newer = in_version_three(certificate.text)
    except ValueError:
        return
    yield replace(certificate, version=3, text=newer)
    kind, *number = certificate.claim.split(" ")
    cost = int(number[0]) if number else None
    if kind == "bound" and cost <= certificate.problem.least + 1 and certificate.problem.paths(cost):
        text = in_version_one(certificate.text.replace(b"\nclaim bound ", b"\nclaim cost ", 1))
        if text is not None:
            plan = plan_of(certificate.problem, f"cost {cost}")
            yield replace(certificate, version=1, claim=f"cost {cost}", plan=plan, text=text)
