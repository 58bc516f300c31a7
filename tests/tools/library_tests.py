"""Tries the library for C from Python: what it says of the cases of `check`, and that tools/verify says the same by it
as by the program.
"""

import os
import subprocess
import sys
import tempfile
from pathlib import Path

from cargo_builds import library as library_file
from harness import TESTS, cases_of
from json_objects import line_of
from verify_tests import CROSSING_MAP, CROSSING_SCEN, PATHS, VERIFY

from mapf.library import Library
from mapf.library import line_of as told_line
from mapf.tools.evidence import library_for


def tests(tally):
    with tempfile.TemporaryDirectory() as name:
        tally.add("library, no library", refused_faults(Path(name)))
    file = library_file()
    if file is None:
        tally.skip("library", "since ./library hasn't made it, and cargo isn't there")
        return
    library = Library(file)
    for case in [*cases_of(TESTS / "cases"), *cases_of(TESTS / "version3")]:
        if is_taken(case):
            tally.add(f"library, {case.name}", case_faults(library, case))
    for agents in (0, 201, -1, 2 ** 32 + 1):
        tally.add(f"library, {agents} agents", number_faults(library, agents))
    tally.add("library, which one is taken", choice_faults(file))
    for kind, text in PATHS.items():
        with tempfile.TemporaryDirectory() as name:
            tally.add(f"library, verify of {kind}", verify_faults(Path(name), text, file))


def is_taken(case):
    """Whether a case is a run of `check` on files that are there."""
    words = [word for word in case.words if not word.isdigit()]
    is_whole = words == ["check", "MAP", "SCEN", "PLAN", "CERT"] and len(case.words) == 6 and not case.places
    return is_whole and 1 <= int(case.agents()) <= 200 and all(text is not None for _, text in case.inputs())


def case_faults(library, case):
    texts = dict(case.inputs())
    told = told_line(library.check(texts["map"], texts["scen"], int(case.agents()), texts["plan"], texts["cert"]))
    return [] if told.encode() + b"\n" == line_of(case) else [f"it says {told!r}, wanted {line_of(case)!r}"]


def number_faults(library, agents):
    """A number of agents that no problem has is refused before the call."""
    try:
        return [f"it says {library.check(b'', b'', agents, b'', b'')!r}"]
    except ValueError:
        return []


def refused_faults(folder):
    """What is no library is told in one line."""
    (folder / "text").write_text("no library")
    faults = []
    for path in (folder / "none", folder / "text"):
        try:
            Library(path)
            faults.append(f"{path.name} is taken")
        except OSError as error:
            faults += [] if "MAPF_LIBRARY" in str(error) else [str(error)]
    return faults


def choice_faults(file):
    """The library that MAPF_LIBRARY names is taken, none where it is empty, and none for another program."""
    faults = []
    was = os.environ.get("MAPF_LIBRARY")
    try:
        for named, is_there in ((str(file), True), ("", False)):
            os.environ["MAPF_LIBRARY"] = named
            faults += [] if (library_for("/bin/true") is not None) == is_there else [f"{named!r} is taken otherwise"]
        del os.environ["MAPF_LIBRARY"]
        faults += [] if library_for("/bin/true") is None else ["a library is taken for another program"]
    finally:
        if was is not None:
            os.environ["MAPF_LIBRARY"] = was
    return faults


def verify_faults(folder, text, file):
    """tools/verify prints the same, with the same status, and leaves the same files."""
    found = []
    for name, named in (("program", ""), ("library", str(file))):
        place = folder / name
        place.mkdir()
        for file, content in (("map", CROSSING_MAP), ("scen", CROSSING_SCEN), ("answer", text)):
            (place / file).write_text(content)
        words = [sys.executable, str(VERIFY), "map", "scen", "2", "answer", "--keep", "kept"]
        ended = subprocess.run(words, cwd=place, stdin=subprocess.DEVNULL, capture_output=True, text=True,
                               env={**os.environ, "MAPF_LIBRARY": named})
        files = {str(path.relative_to(place)): path.read_bytes() for path in place.rglob("*") if path.is_file()}
        found.append((ended.returncode, ended.stdout, ended.stderr, files))
    return [] if found[0] == found[1] else [f"{found[0][:3]} by the program, {found[1][:3]} by the library"]
