"""Vectors of version 3 of certificates: made of the texts in lemma_texts.py and lemma_tree_texts.py, which are written
by hand, and of the vectors of rules/check in version 2.
"""

import re
from dataclasses import replace

from lemma_texts import JUDGED_ALONE, PLAIN, PROBLEMS
from lemma_tree_texts import JUDGED_IN_TREES, PLANS, RANGES, SHAPES
from rule_vectors import INPUTS, Vector, vectors_of, with_older_versions
from versions import TITLE_TWO, in_version_three

# This vector claims a bound beside a plan, which fits in version 3 alone.
FITS = "fit-claim-of-a-bound-beside-a-plan"

LEMMAS = ("one", "two", "never", "cases")
CODES = {"K": "C2 ", "C": ""}

# The problem on which single lines are tried, and what decides them.
OF_LINES, WHY_OF_LINES = "three", "The shapes and ranges of lines."


def check_vectors():
    """All vectors for a checker, those of rules/check first. Those after them are of version 3."""
    yield from with_older_versions(vectors_of("check"))
    yield from lemma_vectors()
    yield from in_newer_version(vectors_of("check"))


def lemma_vectors():
    """The vectors of version 3."""
    for kind, problem, title, text in texts():
        yield made_vector(f"version 3, {kind}, {problem}, {title}", f"{title}.", problem,
                          *whole(text, len(PROBLEMS[problem]) - 1, PLANS.get(problem)))
    for number, line, wanted in lines():
        plan, cert, _ = whole(PLAIN.removeprefix(" / "), len(PROBLEMS[OF_LINES]) - 1, None)
        cert[number - 1] = line
        yield made_vector(f"version 3, line {number}, {line}", WHY_OF_LINES, OF_LINES, plan, cert,
                          f"refused C2 {wanted} {number}")


def in_newer_version(vectors):
    """The vectors of version 2 with the certificate in version 3, where it is of the grammar. In it a line has another
    number, so what is wanted of one that is refused ends before that.
    """
    for vector in vectors:
        cert = vector.texts["cert"]
        is_text = cert.startswith(TITLE_TWO) and not vector.wanted.startswith("refused C2")
        if is_text and vector.name != FITS:
            wanted = re.sub(r"^(refused C[6-9]) [0-9]+$", r"\1", vector.wanted)
            yield replace(vector, name=f"{vector.name}, in version 3", wanted=wanted,
                          texts=vector.texts | {"cert": in_version_three(cert)})


def texts():
    """The kind, the problem and the title of each text, and the text."""
    for judged, end in ((JUDGED_ALONE, PLAIN), (JUDGED_IN_TREES, "")):
        for kind, of_problems in judged.items():
            for problem, of_titles in of_problems.items():
                for title, text in of_titles.items():
                    yield kind, problem, title, text + end


def lines():
    """Lines at the place of `prices N`, or of `lemmas N`, each with the number of its line and with what is wanted: K3
    if it has a shape and a number out of range, else K1.
    """
    for line in SHAPES:
        yield 4, line, "K1"
    for shape, ranges in RANGES.items():
        for place, (least, most) in enumerate(ranges):
            for number, wanted in ((least, "K1"), (most, "K1"), (least - 1, "K3"), (most + 1, "K3"), (2 ** 64, "K3")):
                others = [inner[1] for inner in ranges]
                others[place] = number
                line = shape.format(*others)
                if number >= 0 and len(line) <= 64:
                    yield 5 if shape.startswith("prices") else 4, line, wanted


def made_vector(name, why, problem, plan, cert, wanted):
    """The vector of a problem and the lines of both texts."""
    grid, *agents = PROBLEMS[problem]
    made = {"map": map_of(grid), "scen": scenario_of(grid, agents), "plan": plan, "cert": cert}
    texts = {kind: "\n".join([*made[kind], ""]).encode() for kind in INPUTS["check"]}
    return Vector(name, why, len(agents), wanted, texts)


def map_of(grid):
    """The lines of a map with these rows."""
    rows = grid.split("|")
    return ["type octile", f"height {len(rows)}", f"width {len(rows[0])}", "map", *rows]


def scenario_of(grid, agents):
    """The lines of a scenario, given the start and the goal of each agent."""
    rows = grid.split("|")
    size = f"{len(rows[0])} {len(rows)}"
    return ["version 1", *(f"0 map {size} {agent.replace(',', ' ')} 0" for agent in agents)]


def whole(text, agents, valid_plan):
    """The lines of the plan text and of the certificate, and the answer that is wanted."""
    body = text.split(" / ")
    answer, claim = None, "claim bound 0"
    if body[0].startswith("plan"):
        answer = body.pop(0).removeprefix("plan ")
    if unmarked(body[0]).startswith("claim"):
        claim = body.pop(0)
    marked = ["mapf-cert 3", f"agents {agents}", claim, *with_counts(body)]
    plan = ["mapf-plan 2", f"agents {agents}", *plan_lines(answer or claim, valid_plan), "end"]
    return plan, [unmarked(line) for line in marked], wanted_of(marked, plan[2], claim)


def unmarked(line):
    """The line without why it is refused."""
    return re.sub(r"^!\w+ ", "", line)


def with_counts(body):
    """What follows the claim, with the lines that tell nothing where they are left out."""
    words = [unmarked(line).split(" ")[0] for line in body]
    body = list(body)
    if "lemmas" not in words:
        first = next((at for at, word in enumerate(words) if word not in ("prices", "list", "price")), len(body))
        body.insert(first, f"lemmas {sum(word in LEMMAS for word in words)}")
    if "prices" not in words:
        body.insert(0, f"prices {words.count('list')}")
    return body if "end" in words else [*body, "end"]


def plan_lines(answer, valid_plan):
    """The lines of the plan text that fits a claim or gives an answer."""
    kind, *number = answer.removeprefix("claim ").split(" ")
    if kind == "impossible":
        return ["impossible"]
    return [f"limit 0 bound {number[0]}"] if kind == "bound" else [f"cost {number[0]}", *valid_plan]


def wanted_of(lines, answer, claim):
    """What has to be said: why the line that is marked is refused, else the verdict."""
    for number, line in enumerate(lines, 1):
        mark = re.match(r"!([CK]\d+) ", line)
        if mark:
            return "refused C4" if mark[1] == "C4" else f"refused {CODES[mark[1][0]]}{mark[1]} {number}"
    if claim == "claim impossible":
        return "impossible"
    claimed = claim.split(" ")[2]
    if not answer.startswith("cost"):
        return f"bound {claimed}"
    cost = answer.split(" ")[1]
    return f"optimal {cost}" if claimed == cost else f"within {claimed} {cost}"
