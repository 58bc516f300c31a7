"""Tries tools/verify on a folder of answers to one problem: each has its line, and one search serves all."""

import os
import subprocess
import sys
import tempfile
from pathlib import Path

from verify_tests import BEST, CROSSING_MAP, CROSSING_SCEN, PATHS, ROOMS_MAP, ROOMS_SCEN, VERIFY, WAITS, script

# The answers by their files, and what is said of each, in the order of the lines.
ANSWERS = {"a2.txt": "cheapest", "a10.txt": "dearer", "b.txt": "vertex", "c.txt": "cut", ".hidden": "cheapest"}
LINES = ["a2.txt: cheapest: 5", "a10.txt: not cheapest: 6, a plan of 5 is in kept/a10.txt/found.txt",
         "b.txt: not valid: agents 0 and 1 are both in (1,1) at tick 1", "c.txt: not judged: answers/c.txt, line 2: "]

# Notes each search in a file.
NOTES = '[ "$1" != solve ] || echo >>"$SEARCHES"\n'


def tests(tally):
    with tempfile.TemporaryDirectory() as name:
        folder = Path(name)
        tally.add("verify, a folder", faults_of(folder / "all", ANSWERS, LINES, 2))
        for files, status, more in ((["a2.txt"], 0, []), (["a2.txt", "a10.txt", "b.txt"], 1, ["--distinct-status"]),
                                    (["a2.txt", "b.txt"], 5, ["--distinct-status"]), (["a2.txt", "b.txt"], 1, [])):
            answers = {file: ANSWERS[file] for file in files}
            lines = [line for line in LINES if line.split(":")[0] in files]
            name = f"{'-'.join(files)}-{status}"
            tally.add(f"verify, a folder of {name}", faults_of(folder / name, answers, lines, status, more))
        tally.add("verify, a folder without files", faults_of(folder / "none", {}, [], 2))
        tally.add("verify, one search for a folder", search_faults(folder / "searches", []))
        tally.add("verify, one search in time for a folder", search_faults(folder / "timed", ["--seconds", "60"]))


def placed(folder, texts, grid=CROSSING_MAP, scenario=CROSSING_SCEN):
    """A folder with a problem, and the answers of these texts in a folder below it."""
    (folder / "answers" / "below").mkdir(parents=True)
    (folder / "tmp").mkdir()
    for name, text in (("map", grid), ("scen", scenario), *((f"answers/{name}", text) for name, text in texts.items())):
        (folder / name).write_text(text)
    return folder


def called(folder, agents, more, **environment):
    words = [sys.executable, str(VERIFY), "map", "scen", str(agents), "answers", "--keep", "kept", *more]
    return subprocess.run(words, cwd=folder, stdin=subprocess.DEVNULL, capture_output=True, text=True,
                          env={**os.environ, "TMPDIR": str(folder / "tmp"), **environment})


def faults_of(folder, answers, lines, status, more=()):
    """Each answer has its line, and what shows it has a folder of its own. Nothing else is left."""
    ended = called(placed(folder, {name: PATHS[kind] for name, kind in answers.items()}), 2, more)
    told = ended.stdout.splitlines()
    faults = [] if ended.returncode == status else [f"status {ended.returncode}, {ended.stderr!r}"]
    if len(told) != len(lines) or not all(line.startswith(wanted) for line, wanted in zip(told, lines)):
        faults.append(f"it says {ended.stdout!r}, {ended.stderr!r}")
    kept = {path.parent.name for path in folder.glob("kept/*/commands.txt")}
    if kept != {line.split(":")[0] for line in lines if "not judged" not in line}:
        faults.append(f"kept are {sorted(kept)}")
    return faults + [f"{path} is left" for path in (folder / "tmp").iterdir()]


def search_faults(folder, more):
    """Of the answers two need a search, which is made once. What is kept shows both, as mapf says of it."""
    placed(folder, {"best": BEST, "waits": WAITS, "waits too": WAITS}, ROOMS_MAP, ROOMS_SCEN)
    ended = called(folder, 4, more, MAPF=str(script(folder, NOTES)), SEARCHES=str(folder / "searches"))
    found = "9 is in kept/{}/found.txt\n"
    wanted = "best: cheapest: 9\n" + "".join(
        f"{name}: not cheapest: 10, a plan of {found.format(name)}" for name in ("waits", "waits too"))
    faults = [] if (ended.returncode, ended.stdout) == (1, wanted) else [f"{ended}"]
    searches = (folder / "searches").read_text() if (folder / "searches").exists() else ""
    for name, plan, line in (("best", "plan.txt", "optimal 9"), ("waits", "found.txt", "optimal 9"),
                             ("waits too", "found.txt", "optimal 9"), ("waits too", "plan.txt", "refused C4")):
        words = ["check", "problem.map", "problem.scen", "4", plan, "cert.txt"]
        said = subprocess.run([os.environ["MAPF"], *words], cwd=folder / "kept" / name, capture_output=True, text=True)
        faults += [] if said.stdout == line + "\n" else [f"{name}, {plan}: {said.stdout!r}"]
    return faults + ([] if len(searches.splitlines()) == 1 else [f"{len(searches.splitlines())} searches"])
