"""Compares tools/recheck with mapf: on each case of `check`, on what mapf solves, and on small edits of these texts."""

import itertools
import os
import random
import subprocess
import sys
import tempfile
from pathlib import Path

from answers_tests import spelled
from harness import TESTS, Ended, cases_of, run, told

from mapf.tools import recheck  # as a module, so that thousands of runs don't start Python each

RECHECK = TESTS.parent / "tools" / "recheck"
EXAMPLES = TESTS.parent / "examples"

# The examples, as runners/examples solves them, each with its number of agents.
SOLVED = [("empty-8-8", 1), ("empty-8-8", 4), ("empty-8-8", 6), ("random-32-32", 5), ("random-32-32", 6),
          ("random-32-32", 8), ("random-32-32", 16), ("warehouse-161-63", 6), ("warehouse-161-63", 10)]
LIMIT = "60"

# Cases of which each line is replaced by each of these lines.
CASES = ["check-crossing", "check-niche-in-version-two", "check-crossing-by-a-lemma-by-cases"]
LINES = {
    "plan": ["mapf-plan 1", "mapf-plan 2", "mapf-plan 3", "agents 0", "agents 2", "agents 3", "agents 201", "cost 4",
             "cost 5", "cost 1999999801", "impossible", "limit 3", "limit 3 bound 4", "limit ticks bound 4",
             "limit 100001 bound 4", "limit 3 bound 1999999801", "path 0 0 0,0", "path 0 0", "path 7 0", "path 7 0 0,0",
             "path 0 10000000 0,0", "path 0 1 0,0 0,0", "path 0 1 0,0 0,9", "path 0 1 9,0 0,0", "path 1 0 1,0 ",
             "path 1 0  1,0", "path 1 1 0,1 1,1", "end", "end ", ""],
    "cert": ["mapf-cert 1", "mapf-cert 2", "mapf-cert 3", "mapf-cert 4", "agents 0", "agents 2", "agents 3", "agents 201",
             "claim cost 4", "claim cost 5", "claim cost 1999999801", "claim impossible", "claim bound 4",
             "vertex 0 1 0,0 0", "vertex 0 1 0,0 0 0", "vertex 0 0 0,0 1 0", "vertex 1 0 9,9 1 0",
             "vertex 0 1 0,0 1000000", "swap 0 1 0,0 0,0 0 0", "swap 0 1 0,0 1,0 0 0", "swap 0 1 0,0 2,0 0 0",
             "swap 0 1 0,0 1,1 0 0", "swap 0 1 0,0 1,0 0", "leaf 0", "leaf 1", "leaf 3", "clash 0 0", "clash 0 1",
             "clash 0 2", "agent 0 0", "agent 0 1", "agent 1 1", "agent 2 1", "agent 1 18446744073709551616",
             "at 0,0 0 0", "at 0,0 0 1",
             "at 1,0 0 2", "at 0,1 0 3", "at 1,0 0 inf", "at 9,0 0 9", "at 0,0 10000000 1", "at 0,0 0 10000000", "end",
             "end ", "", "x" * 64, "x" * 65],
}

EDITS = 4000
SEED = 28

# How often each text of a case is edited, and what an edit may put into it.
EDITED = {"map": 1, "scen": 1, "plan": 4, "cert": 10}
PIECES = [b"0", b"1", b"2", b"7", b"9", b"10", b" ", b"  ", b"\t", b"\n", b"\r", b"\r\n", b",", b"-", b"+", b".", b"@",
          b"inf", b"end\n", b"leaf 0\n", b"leaf 1\n", b"clash 0 1\n", b"agent 0 1\n", b"agent 1 2\n", b"at 0,0 0 5\n",
          b"vertex 0 1 1,1 1 0\n", b"vertex 0 1 1,1 1\n", b"swap 0 1 0,1 1,1 1 0\n", b"path 0 0 0,0\n", b"agents 2\n",
          b"999999", b"1000000", b"9999999", b"10000000", b"1999999800", b"1999999801", b"18446744073709551615",
          b"18446744073709551616", b"x" * 60, b"\x00", b"\xff"]


def tests(tally):
    for case in cases_of(TESTS / "cases"):
        if case.words[:1] == ["check"] and case.wanted("stdout-has") is None and case.wanted("stderr-has") is None:
            tally.add(f"recheck, {case.name}", case_faults(case))
    with tempfile.TemporaryDirectory() as name:
        bases = [*solved_cases(Path(name)), *solved_examples(Path(name))]
        for title, agents, folder in bases:
            tally.add(f"recheck, {title}", difference(agents, folder))
        for title in CASES:
            faults = lines_that_differ(TESTS / "cases" / title, Path(name))
            tally.add(f"recheck, other lines in {title}", faults)
        # thousands of edits of a text on a large map would take minutes
        bases = [base for base in bases if not base[0].startswith("warehouse")]
        bases += accepted_cases(Path(name))
        tally.add(f"recheck, {EDITS} edits", edits_that_differ(bases, Path(name)))
    for title, faults in other_answers().items():
        tally.add(f"recheck, {title}", faults)
    tally.add("recheck, words", words_faults())


def case_faults(case):
    """How a run on a case differs from what is wanted of mapf."""
    with tempfile.TemporaryDirectory() as folder:
        words = case.prepare(Path(folder))[1:]
        return case.faults(run(words, case.places, program=RECHECK), Path(folder))


def solved_cases(folder):
    for case in cases_of(TESTS / "cases"):
        given = dict(case.inputs())
        if case.is_solve() and case.wanted("plan") and case.wanted("cert") and None not in given.values():
            texts = {**given, **dict(case.outputs())}
            yield case.name, int(case.agents()), filled(folder / case.name, texts)


def accepted_cases(folder):
    """The cases of `check` in which the texts are accepted."""
    for case in cases_of(TESTS / "cases"):
        given = dict(case.inputs())
        if case.words[:1] == ["check"] and case.wanted_status() == 0 and len(given) == 4 and not case.places:
            yield case.name, int(case.agents()), filled(folder / case.name, given)


def solved_examples(folder):
    for name, agents in SOLVED:
        place = filled(folder / f"{name}-{agents}", {
            "map": (EXAMPLES / f"{name}.map").read_bytes(), "scen": (EXAMPLES / f"{name}.scen").read_bytes()})
        subprocess.run([os.environ["MAPF"], "solve", "map", "scen", str(agents), LIMIT, "plan", "cert"], cwd=place,
                       check=True, stdout=subprocess.DEVNULL)
        yield f"{name} with {agents} agents", agents, place


def filled(folder, texts):
    folder.mkdir(exist_ok=True)
    for name, text in texts.items():
        (folder / name).write_bytes(text)
    return folder


def difference(agents, folder, edited=None):
    """Both are asked about the texts of this folder, of which one may be in another place. Where they differ: what each
    says.
    """
    files = [(edited or {}).get(name, str(folder / name)) for name in EDITED]
    stream, line, status = recheck.answer(files, agents)
    line = f"{line}\n".encode()
    ours = Ended(status, line, b"") if stream == 1 else Ended(status, b"", line)
    ended = subprocess.run([os.environ["MAPF"], "check", files[0], files[1], str(agents), *files[2:]],
                           stdin=subprocess.DEVNULL, capture_output=True)
    theirs = Ended(ended.returncode, ended.stdout, ended.stderr)
    return [] if ours == theirs else [f"recheck says {told(ours)}, mapf check {told(theirs)}"]


def lines_that_differ(case, folder):
    """Replaces each line of both texts by each of the lines above, and has both judge the text."""
    place = folder / "replaced"
    faults = []
    for name, lines in LINES.items():
        given = (case / name).read_text().split("\n")[:-1]
        for number, line in itertools.product(range(len(given)), lines):
            place.write_text("\n".join([*given[:number], line, *given[number + 1:], ""]))
            differences = difference(2, case, {name: str(place)})
            faults += [f"{name} with {line!r} for line {number + 1}: {said}" for said in differences]
    return faults


def edits_that_differ(bases, folder):
    """Edits a text of one of the bases, and has both judge it. A failure tells which, and leaves the text."""
    draw = random.Random(SEED)
    place = folder / "edited"
    for number in range(EDITS):
        title, agents, base = draw.choice(bases)
        name, = draw.choices(list(EDITED), EDITED.values())
        text = (base / name).read_bytes()
        for _ in range(draw.choice((1, 1, 1, 2))):
            text = edited(text, draw)
        place.write_bytes(text)
        faults = difference(agents, base, {name: str(place)})
        if faults:
            descriptor, kept = tempfile.mkstemp(prefix="mapf-edited-")
            os.write(descriptor, text)
            return [f"edit {number}, the {name} of {title}, now in {kept}: {fault}" for fault in faults]
    return []


def edited(text, draw):
    """The text with one small change."""
    at = draw.randrange(len(text) + 1)
    lines = text.splitlines(keepends=True) or [b""]
    line = draw.randrange(len(lines))
    kind = draw.choice(["put", "cut", "change", "word", "drop", "twice", "exchange", "end"] + ["number"] * 10)
    if kind == "put":
        return text[:at] + draw.choice(PIECES) + text[at:]
    if kind == "cut":
        return text[:at] + text[at + draw.choice((1, 1, 2, 5)):]
    if kind == "change":
        return text[:at] + draw.choice(PIECES) + text[at + 1:]
    if kind in ("number", "word"):
        return with_another_word(text, draw, kind)
    if kind == "end":
        return text[:at]
    other = draw.randrange(len(lines))
    if kind == "drop":
        del lines[line]
    elif kind == "twice":
        lines.insert(other, lines[line])
    else:
        lines[line], lines[other] = lines[other], lines[line]
    return b"".join(lines)


def with_another_word(text, draw, kind):
    """A number of the text becomes another, near it or drawn, or a word becomes another word of the text."""
    parts = [part for part in split(text)]
    words = [at for at, part in enumerate(parts) if part.isalnum() and (kind == "word" or part.isdigit())]
    if not words:
        return text + b"0"
    at = draw.choice(words)
    if kind == "word":
        parts[at] = parts[draw.choice(words)]
    else:
        parts[at] = str(max(0, int(parts[at][:20]) + draw.choice((-2, -1, 1, 1, 2, 10)))).encode()
    return b"".join(parts)


def split(text):
    """The longest parts of letters and digits, and the bytes between."""
    part = b""
    for byte in (bytes([byte]) for byte in text):
        if byte.isalnum():
            part += byte
            continue
        yield from (part, byte)
        part = b""
    yield part


def other_answers():
    """What other solvers write, beside the certificate that no plan of the crossing costs less than 5."""
    crossing = TESTS / "cases" / "solve-crossing"
    cheapest = [[(0, 1), (0, 1), (1, 1), (2, 1)], [(1, 0), (1, 1), (1, 2), (1, 2)]]
    dearer = [cheapest[0], [(1, 0), (1, 0), (1, 0), (1, 1), (1, 2)]]
    meet = [cheapest[0][1:], cheapest[1]]
    asked = [(f"{name}, {kind}", spelled(paths)[name], line, status)
             for name in ("paths", "lacam", "yaml")
             for kind, paths, line, status in (
                 ("cheapest", cheapest, "optimal 5\n", 0), ("dearer", dearer, "refused C4\n", 1),
                 ("two in one cell", meet, "refused C5 V4 0 1 1\n", 1))]
    asked += [
        ("an answer that lacks an agent", spelled(cheapest[:1])["paths"], "recheck: answer has no path of agent 1", 2),
        ("an answer that is cut", spelled(cheapest)["paths"][:-4], "recheck: answer, line 2: cells (a,b)", 2),
        ("a text of no format", "version 1\n", "refused C1 P1 1\n", 1),
        ("an empty answer", "", "refused C1 P2 1\n", 1)]
    found = {}
    with tempfile.TemporaryDirectory() as folder:
        for title, text, line, status in asked:
            Path(folder, "answer").write_text(text)
            ended = subprocess.run([sys.executable, str(RECHECK), str(crossing / "map"), str(crossing / "scen"), "2",
                                    "answer", str(crossing / "cert")], cwd=folder, capture_output=True, text=True)
            is_good = ended.returncode == status and (ended.stdout + ended.stderr).startswith(line)
            found[title] = [] if is_good else [f"status {ended.returncode}, {ended.stdout!r}, {ended.stderr!r}"]
    return found


def words_faults():
    """Wrong words end with status 2 and one line of how it is called, and --help says that it is slow and how it ends.
    """
    faults = []
    for words, status, parts in (
            (["--help"], 0, ["It is slow", "MAP SCEN K PLAN CERT", "exit status", "\n  1    'refused ..'"]),
            (["a", "b", "0", "c", "d"], 2, ["the number of agents is 1 to 200"]),
            (["a", "b", "2", "c"], 2, ["CERT"])):
        ended = subprocess.run([sys.executable, str(RECHECK), *words], capture_output=True, text=True)
        said = ended.stdout + ended.stderr
        if ended.returncode != status or any(part not in said for part in parts):
            faults.append(f"{' '.join(words)} gives status {ended.returncode} and {said!r}")
    return faults
