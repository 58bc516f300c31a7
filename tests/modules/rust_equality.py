"""The proved program and the one that cargo has built, on the same words and files: both have to end with the same
status, and to leave the same bytes on both streams and in each file.
"""

import os
import random
import shutil
import subprocess
import tempfile
from collections import Counter
from pathlib import Path

import lemma_damage
import tree_damage
from command_lines import DEVICES, FILES, drawn_line
from harness import OLD, SECONDS, TESTS, Ended, cases_of, content, run, run_small, shown, told
from jobs import side_by_side
from lemma_vectors import check_vectors
from random_problems import drawn
from replies import drawn_lines
from rule_vectors import vectors_of
from rust_scripts import problem_names

# By which searches each drawn problem is solved: the words for a search, and its limit.
SEARCHES = {
    "cbs": (["--search", "cbs"], "1000"),
    "cbs, stopped": (["--search", "cbs"], "3"),
    "cbsh": (["--search", "cbsh"], "200"),
    "cbsh, stopped": (["--search", "cbsh"], "0"),
    "cbsh, improved": (["--search=cbsh", "--improve", "20"], "5"),
}

# How many command lines are drawn.
LINES = 3000

# How many of the drawn problems have texts that are damaged, and how often each text is, for each search.
DAMAGED_PROBLEMS = 100
TIMES = {"map": 3, "scen": 3, "plan": 6, "cert": 10, "events": 3}

# How many lines of events are drawn for a problem.
EVENTS = 30


class Twins:
    """The proved program and the one of cargo."""

    def __init__(self, proved, own):
        self.programs = proved, own

    def compare(self, tally, names, answers):
        """For each name, has each program in turn give its answers in a folder of the same path. Answers come by what
        they are of, and have to be equal. Tells how often a run ended with which status."""
        statuses = Counter()
        found = side_by_side(lambda name: self.both(name, answers), names, tally.part)
        for name, (proved, own) in zip(names, found):
            tally.add(str(name), differences(proved, own))
            statuses.update(answer.status for answer in own.values() if isinstance(answer, Ended))
        return "status " + ", ".join(f"{status}: {count}" for status, count in sorted(statuses.items(), key=str))

    def both(self, name, answers):
        """What each program answers."""
        found = []
        with tempfile.TemporaryDirectory() as room:
            for program in self.programs:
                folder = Path(room) / "run"
                folder.mkdir()
                found.append(answers(program, name, folder))
                shutil.rmtree(folder)
        return found


def differences(proved, own):
    """How the answers of cargo's program aren't those of the proved one."""
    return [f"{of}: cargo's program gives {spelled(own.get(of))}, the proved one {spelled(proved.get(of))}"
            for of in {**proved, **own} if proved.get(of) != own.get(of)]


def spelled(answer):
    return told(answer) if isinstance(answer, Ended) else shown(answer)


def files_in(folder):
    """The bytes of each file of a folder, or where a link leads, by what they are of."""
    return {f"the file {path.relative_to(folder)}":
            os.fsencode(os.readlink(path)) if path.is_symlink() else content(path)
            for path in sorted(folder.rglob("*"))}


def compare_cases(twins, tally):
    """Each case of cases/ and version3/."""
    cases = {case.name: case for case in [*cases_of(TESTS / "cases"), *cases_of(TESTS / "version3")]}

    def answers(program, name, folder):
        case = cases[name]
        words = case.prepare(folder)
        for output, _ in case.outputs():
            (folder / output).write_bytes(OLD)
        return {"the run": run(words, case.places_in(folder), program=program), **files_in(folder)}

    return twins.compare(tally, list(cases), answers)


def compare_vectors(twins, tally):
    """Each vector of runners/vectors."""
    vectors = kept_vectors()

    def answers(program, name, folder):
        command, agents, texts = vectors[name]
        for file, text in texts.items():
            (folder / file).write_bytes(text)
        grid, scenario, *others = (folder / file for file in texts)
        return {"the run": small(program, command, [grid, scenario, agents, *others])}

    return twins.compare(tally, list(vectors), answers)


def kept_vectors():
    """The command, the number of agents and the texts of each vector, by its name."""
    vectors = {"check": check_vectors(), "dispatch": vectors_of("dispatch"), "play": vectors_of("play")}
    return {f"{command}, {vector.name}": (command, vector.agents, vector.texts)
            for command, of_command in vectors.items() for vector in of_command}


def compare_problems(twins, tally):
    """Drawn problems: what the searches find, and what the other commands say of it."""
    return twins.compare(tally, problem_names(), problem_answers)


def problem_answers(program, name, folder):
    """What a program answers of a drawn problem, search by search."""
    problem = problem_of(name)
    found = {}
    for search, (options, limit) in SEARCHES.items():
        place = folder / search
        place.mkdir()
        paths = written(problem, place)
        words = [paths["map"], paths["scen"], str(len(problem.agents))]
        plan, cert = str(place / "plan"), str(place / "cert")
        events = random.Random(f"events of {name}")
        paths["events"].write_bytes(events_text(drawn_lines(events, len(problem.agents), EVENTS)))
        found |= {f"{search}, {kind}": small(program, kind.split(" ")[0], given) for kind, given in {
            "solve": [*options, *words, limit, plan, cert], "check": [*words, plan, cert],
            "check in JSON": ["--json", *words, plan, cert], "play": [*words, plan],
            "dispatch": [*words, plan, paths["events"]],
            "solve in JSON": ["--json", *options, *words, limit, f"{plan}-again", f"{cert}-again"]}.items()}
        found |= {f"{search}, {of}": text for of, text in files_in(place).items()}
    return found


def problem_of(name):
    kind, number = name.split("-")
    return drawn(kind, int(number))


def written(problem, folder):
    """The paths of a problem's texts, which are put into a folder, and of events that aren't."""
    paths = {name: folder / name for name in ("map", "scen", "events")}
    paths["map"].write_text(problem.map_text())
    paths["scen"].write_text(problem.scen_text())
    return paths


def events_text(lines):
    """An event text of the lines among these that are no requests for something else."""
    return b"mapf-events 1\n" + b"".join(line + b"\n" for line in lines if line.isdigit()) + b"end\n"


def small(program, command, words):
    return run_small([command, *map(str, words)], program)


def compare_lines(twins, tally):
    """Drawn command lines, in a folder with the files of two agents that cross."""
    texts = {name: (TESTS / "cases" / "dispatch-crossing" / name).read_bytes() for name in FILES if name != "cert"}
    texts["cert"] = (TESTS / "cases" / "check-crossing" / "cert").read_bytes()

    def answers(program, number, folder):
        for name, text in texts.items():
            (folder / name).write_bytes(text)
        (folder / "folder").mkdir()
        for name, device in DEVICES.items():
            (folder / name).symlink_to(device)
        return {"the run": run_in(folder, program, drawn_line(number)), **files_in(folder)}

    return twins.compare(tally, range(LINES), answers)


def run_in(folder, program, words):
    """Runs a program in a folder, with the events there on standard input."""
    with open(folder / "events", "rb") as events:
        ended = subprocess.run([str(program), *words], cwd=folder, stdin=events, capture_output=True, timeout=SECONDS)
    return Ended(ended.returncode, ended.stdout, ended.stderr)


def compare_damaged(twins, tally):
    """Texts of drawn problems, solved by cargo's program, each damaged in one way after another."""
    _, own = twins.programs

    def answers(program, name, folder):
        problem = problem_of(name)
        found = {}
        for search in ("cbs", "cbsh"):
            place = folder / search
            place.mkdir()
            texts = solved_texts(own, problem, search, place)
            lot = random.Random(f"damages of {name}, {search}")
            for text, times in TIMES.items():
                for number in range(times):
                    kind, changed = damaged(problem, text, texts[text], lot)
                    title = f"{search}, {text} {number}, {kind}"
                    found |= damaged_answers(program, problem, place, {**texts, text: changed}, text, title)
        return found

    return twins.compare(tally, problem_names()[:DAMAGED_PROBLEMS], answers)


def solved_texts(program, problem, search, folder):
    """The texts of a problem, with events, and with those that a search writes."""
    paths = written(problem, folder)
    plan, cert = folder / "plan", folder / "cert"
    small(program, "solve", ["--search", search, paths["map"], paths["scen"], len(problem.agents), 50, plan, cert])
    paths["events"].write_bytes(events_text(drawn_lines(random.Random(problem.name), len(problem.agents), EVENTS)))
    return {name: (folder / name).read_bytes() for name in FILES}


# The commands that read each text, with the files that stand behind the number of agents.
READERS = {
    "map": {"check": ["plan", "cert"], "solve": ["20", "new-plan", "new-cert"]},
    "scen": {"check": ["plan", "cert"], "solve": ["20", "new-plan", "new-cert"]},
    "plan": {"check": ["plan", "cert"], "play": ["plan"], "dispatch": ["plan", "events"]},
    "cert": {"check": ["plan", "cert"]},
    "events": {"dispatch": ["plan", "events"]},
}


def damaged(problem, name, text, lot):
    """The kind of a damage, and the text of this name with it."""
    if name == "cert" and text.startswith(b"mapf-cert 2\n"):
        return tree_damage.damaged(text, [goal for _, goal in problem.agents], lot)
    return lemma_damage.damage(text, lot)


def damaged_answers(program, problem, folder, texts, damaged_one, title):
    """What the commands answer that read the damaged one of these texts."""
    for name, text in texts.items():
        (folder / name).write_bytes(text)
    found = {}
    for command, names in READERS[damaged_one].items():
        places = [name if name.isdigit() else folder / name for name in names]
        words = [folder / "map", folder / "scen", len(problem.agents), *places]
        found[f"{title}, {command}"] = small(program, command, words)
    return found | {f"{title}, {name}": content(folder / name) for name in ("new-plan", "new-cert")}


COMPARED = {
    "equal cases": compare_cases,
    "equal vectors": compare_vectors,
    "equal problems": compare_problems,
    "equal command lines": compare_lines,
    "equal damaged texts": compare_damaged,
}
