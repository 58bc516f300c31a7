"""Tries the package that `pip install .` installs, from the tree and from its source archive, in fresh environments
without network, by Python 3.10 and the newest one where they are on the path: its program, its library and its commands,
the examples of the documents, and what it says where it can't be built.
"""

import ast
import base64
import contextlib
import doctest
import hashlib
import os
import re
import shutil
import subprocess
import sys
import tempfile
import typing
import zipfile
from importlib import import_module
from pathlib import Path

import cargo_builds
from harness import TESTS
from python_tests import OLD, is_there

import build_backend
import mapf.tools as tools
from mapf import library

TOP = TESTS.parent
PYTHON = TOP / "python"
CROSSING = TESTS / "cases" / "solve-crossing"

# The documents with examples for Python.
DOCUMENTS = "README.md", "docs/USE.md", "docs/TOOLS.md"

# The oldest Python that the package takes, and those that may be newer than the one of these tests, the newest first.
OLDEST, NEWER = "python3.10", [f"python3.{minor}" for minor in range(30, 10, -1)]

# Runs the examples of a file, and those in the docstrings of modules.
RUNS_FILE = "import doctest, sys; sys.exit(doctest.testfile(sys.argv[1], module_relative=False).failed)"
RUNS_MODULES = ("import doctest, importlib, sys; "
                "sys.exit(sum(doctest.testmod(importlib.import_module(name)).failed for name in sys.argv[1:]))")

# Makes the wheel in a folder.
BUILDS = "import build_backend, sys; build_backend.build_wheel(sys.argv[1])"

# What stands for a cargo that is too old, and for one that builds nothing.
OLD_CARGO = "#!/bin/sh\necho 'cargo 1.63.0 (fd9c4297c 2022-07-01)'\n"
FAILING_CARGO = """#!/bin/sh
[ "$1" != --version ] || { echo 'cargo 9.0.0'; exit; }
for line in $(seq 1000); do echo "note $line" >&2; done
echo 'error: no space left' >&2
exit 101
"""


def tests(tally):
    tally.add("package, annotations", unannotated())
    tally.add("package, its version", version_faults())
    tally.add("package, its former name", alias_faults())
    tally.add("package, misuse of the tools", misuse_faults())
    with tempfile.TemporaryDirectory() as name:
        folder = Path(name)
        for case, (script, words) in unbuilt().items():
            tally.add(f"package, {case}", unbuilt_faults(folder / case, script, words))
        if old := next(filter(is_there, OLD), None):
            tally.add(f"package, by {old}", old_faults(folder / old, old))
        else:
            tally.skip("package, by an old Python", f"none of {', '.join(OLD)} is installed")
        if shutil.which("cargo") is None:
            tally.skip("package", "cargo isn't there")
            return
        before = files_there()
        cargo_builds.folder()
        tally.add("package, its wheel", wheel_faults(folder))
        source = built_in(folder / "source", build_backend.build_sdist)
        tally.add("package, its source archive", source_faults(folder, source))
        for number, python in enumerate(pythons()):
            try_in(tally, python, folder / python, source if number == 1 else TOP)
        tally.add("package, what is left in the tree", [f"{path}" for path in files_there() ^ before])


def pythons():
    """The Pythons with which the package is tried: the oldest and the newest that are here, and that of the tests."""
    there = [name for name in (OLDEST, next(filter(is_there, NEWER), "python3")) if is_there(name)]
    version = f"python3.{sys.version_info.minor}"
    return list(dict.fromkeys([*there, *([version] if is_there(version) else [])]))


def files_there():
    """What is in the tree, but for the folders in which nothing of this is made."""
    return {*TOP.glob("*"), *(path for name in ("python", "rust", "tools") for path in (TOP / name).rglob("*"))}


# The sources.

def unannotated():
    """The functions of which an argument or the result has no type, and the types that aren't known."""
    faults = []
    for path in sorted(PYTHON.rglob("*.py")):
        for node in ast.walk(ast.parse(path.read_text())):
            if isinstance(node, ast.FunctionDef):
                given = [*node.args.posonlyargs, *node.args.args, *node.args.kwonlyargs]
                bare = [one.arg for one in given if one.annotation is None and one.arg not in ("self", "cls")]
                faults += [f"{path.name}, {node.name}: {bare or 'its result'}"] if bare or node.returns is None else []
    for path in sorted((PYTHON / "mapf").rglob("*.py")):
        if path.stem not in ("__init__", "gap_run"):  # gap_run is a program, and no module of the package
            name = ".".join(path.relative_to(PYTHON).with_suffix("").parts)
            for value in vars(import_module(name)).values():
                if callable(value) and str(getattr(value, "__module__", "")).startswith("mapf."):
                    typing.get_type_hints(value)
    return faults


def version_faults():
    """Cargo.toml has the version that the program tells, and the package declares the header as it is."""
    told = stated("crates/mapf_words/src/command.rt", r'VERSION: &str = "([\w.-]+)')
    header = stated("include/mapf.h", r"#define MAPF_VERSION (\d+)")
    faults = [] if build_backend.stated("version") == told else [f"{build_backend.stated('version')}, and not {told}"]
    return faults + ([] if library.VERSION == int(header) else [f"{library.VERSION}, and the header's is {header}"])


def stated(name, form):
    return re.search(form, (TOP / name).read_text())[1]


def alias_faults():
    """`mapf_tools` is `mapf.tools`, and so are its modules, in whatever order they are imported."""
    lines = ("import mapf_tools.verify, mapf.tools.verify; assert mapf_tools.verify is mapf.tools.verify",
             "import mapf.tools, mapf_tools; assert mapf_tools is mapf.tools",
             "from mapf_tools.plans import Grid; import mapf.tools.plans as plans; assert Grid is plans.Grid",
             "from mapf_tools import recheck; assert recheck.__spec__.name == 'mapf.tools.recheck'")
    faults = []
    for line in lines:
        ended = run([sys.executable, "-B", "-c", line], cwd=PYTHON)
        faults += [] if ended.returncode == 0 else [f"{line}: {ended.stderr[-300:]}"]
    return faults


def misuse_faults():
    """Plans that aren't for the agents are no valid ones, files that aren't as they should be are told, and so are
    numbers of agents. A plan text has no waits at the end of a path."""
    grid = tools.read_map(CROSSING / "map")
    agents = tools.read_scenario(CROSSING / "scen", grid, 2)
    faults = []
    for plan in ([], [[(0, 1)]], [[(0, 1)], []], [[(0, 1)]] * 3):
        with contextlib.suppress(ValueError):
            faults.append(f"{plan} has the faults {tools.faults_of_plan(grid, agents, plan)}")
    for count in (0, -1, 201):
        with contextlib.suppress(ValueError):
            faults.append(f"{count} agents are {tools.read_scenario(CROSSING / 'scen', grid, count)}")
    padded = [[*path, path[-1], path[-1]] for path in tools.read_plan(CROSSING / "plan", agents)]
    if tools.plan_text(padded) != (CROSSING / "plan").read_text():
        faults.append(f"{padded} is written as {tools.plan_text(padded)!r}")
    case = [CROSSING / "map", CROSSING / "scen", 2, CROSSING / "plan", CROSSING / "cert"]
    for call, words in ((tools.read_certificate, [CROSSING / "plan"]), (tools.read_certificate, [CROSSING / "none"]),
                        (tools.recheck_certificate, [CROSSING / "scen", *case[1:]])):
        with contextlib.suppress(tools.ToolError):
            faults.append(f"{call.__name__} answers {call(*words)}")
    refused = tools.recheck_certificate(*case[:3], CROSSING / "cert", CROSSING / "cert")
    return faults + ([f"{refused} is accepted"] if refused.is_accepted() else [])


# Builds.

def unbuilt():
    """The cargos by which nothing is built, None for no cargo, each with what has to be said."""
    oldest = build_backend.stated("rust-version")
    return {
        "no cargo": (None, "mapf is built by cargo, which isn't on the path: "),
        "an old cargo": (OLD_CARGO, f"cargo 1.63 is too old for mapf, which needs Rust {oldest} or later"),
        "a build that fails": (FAILING_CARGO, "mapf can't be built, since cargo build failed with status 101:\n"),
    }


def unbuilt_faults(folder, script, words):
    """Nothing is built, and that is said in a sentence, with the last lines of a build that failed."""
    folder.mkdir()
    if script is not None:
        (folder / "cargo").write_text(script)
        (folder / "cargo").chmod(0o755)
    paths = str(folder) if script is None else f"{folder}:/usr/bin:/bin"
    ended = run([sys.executable, "-B", "-c", BUILDS, str(folder)], cwd=PYTHON, env={"PATH": paths})
    lines = ended.stderr.splitlines()
    is_short = len(lines) == (1 + build_backend.LAST if words.endswith("\n") else 1)
    is_told = ended.returncode == 1 and ended.stderr.startswith(words) and is_short
    is_told = is_told and (len(lines) == 1 or lines[-1] == "error: no space left")
    return [] if is_told and not list(folder.glob("*.whl")) else [f"status {ended.returncode}, {ended.stderr[-600:]!r}"]


def old_faults(folder, python):
    """A Python that is older than the package needs is told so by pip, before anything is built."""
    run([python, "-m", "venv", str(folder)])
    ended = run([str(folder / "bin" / "python"), "-m", "pip", "install", "--no-index", str(TOP)],
                env={**os.environ, "PATH": "/usr/bin:/bin", "PYTHONDONTWRITEBYTECODE": "1"})
    is_told = "requires a different Python" in ended.stderr and "not in '>=3.10'" in ended.stderr
    return [] if ended.returncode == 1 and is_told else [f"status {ended.returncode}, {ended.stderr[-600:]!r}"]


def wheel_faults(folder):
    """The wheel has each file of the package with its checksum, the program, the library and the licence, and it has
    the same bytes each time.
    """
    wheel = built_in(folder / "one", build_backend.build_wheel)
    again = built_in(folder / "again", build_backend.build_wheel)
    faults = [] if again.read_bytes() == wheel.read_bytes() else ["its bytes differ"]
    with zipfile.ZipFile(wheel) as archive:
        files = {name: archive.read(name) for name in archive.namelist()}
        modes = {entry.filename: entry.external_attr >> 16 for entry in archive.infolist()}
    top, info = (f"mapf-{build_backend.version()}.{part}" for part in ("data", "dist-info"))
    record = f"{info}/RECORD"
    lines = [f"{name},{checksum(data)},{len(data)}" if name != record else f"{name},," for name, data in files.items()]
    faults += [] if files[record].decode().splitlines() == lines else ["its RECORD differs"]
    paths = [path for name in ("mapf", "mapf_tools") for path in (PYTHON / name).rglob("*") if path.is_file()]
    there = {path.relative_to(PYTHON).as_posix() for path in paths if "__pycache__" not in path.parts}
    more = {f"mapf/{library.NAME}", f"{top}/scripts/mapf", f"{info}/METADATA", f"{info}/WHEEL",
            f"{info}/entry_points.txt", record, f"{info}/licenses/LICENSE"}
    faults += [f"{name} is there, or isn't" for name in sorted(files.keys() ^ (there | more))]
    faults += [] if files[f"{info}/licenses/LICENSE"] == (TOP / "LICENSE").read_bytes() else ["its licence differs"]
    return faults + ([] if modes[f"{top}/scripts/mapf"] & 0o111 else ["its program can't be run"])


def source_faults(folder, source):
    """The source archive has the same bytes each time, and what the wheel is made of."""
    again = built_in(folder / "source again", build_backend.build_sdist)
    faults = [] if again.read_bytes() == source.read_bytes() else ["its bytes differ"]
    shutil.unpack_archive(source, folder / "unpacked")
    place = folder / "unpacked" / source.name.removesuffix(".tar.gz")
    least = ("PKG-INFO", "Cargo.toml", "Cargo.lock", "LICENSE", "pyproject.toml", "python/build_backend.py",
             "python/mapf/__init__.py", "python/mapf/tools/page/page.js", "python/mapf_tools/__init__.py", "tools/draw")
    faults += [f"{name} isn't there" for name in least if not (place / name).exists()]
    return faults + ([] if os.access(place / "tools" / "draw", os.X_OK) else ["tools/draw can't be run"])


def built_in(folder, build):
    folder.mkdir()
    return folder / build(str(folder))


def checksum(data):
    return "sha256=" + base64.urlsafe_b64encode(hashlib.sha256(data).digest()).decode().rstrip("=")


# In a fresh environment.

def try_in(tally, python, place, source):
    """Installs the package for this Python from the tree or from the source archive, and tries it."""
    made = run([python, "-m", "venv", str(place)])
    if made.returncode != 0 or not (place / "bin" / "pip").exists():
        tally.skip(f"package, by {python}", "its venv or its pip isn't installed")
        return
    (place / "cargo").mkdir()
    environment = {**os.environ, "CARGO_HOME": str(place / "cargo"), "PYTHONDONTWRITEBYTECODE": "1"}
    installed = run([str(place / "bin" / "pip"), "install", "--no-index", "--quiet", str(source)], env=environment)
    faults = [] if installed.returncode == 0 else [installed.stdout + installed.stderr]
    tally.add(f"package, installed by {python} from {source.name}", faults)
    if faults:
        return
    for document, kind, text in examples():
        tally.add(f"package, an example of {document} by {python}", example_faults(place, kind, text))
    tally.add(f"package, the examples of its modules by {python}", module_faults(place))
    for name, words, wanted in commands(place):
        tally.add(f"package, {name} by {python}", command_faults(place, name, words, wanted))


def run(words, **more):
    return subprocess.run(words, stdin=subprocess.DEVNULL, capture_output=True, text=True, **more)


def examples():
    """Each example of the documents that Python runs, with its document and its kind: 'pycon' shows what is printed."""
    for document in DOCUMENTS:
        for kind, text in re.findall(r"(?ms)^```(pycon|python)\n(.*?)^```$", (TOP / document).read_text()):
            yield document, kind, text


def example_faults(place, kind, text):
    """An example prints what it shows, or something if it shows nothing, in a folder where the examples and the tests
    of the tree are.
    """
    if kind == "pycon" and not doctest.DocTestParser().get_examples(text):
        return ["nothing of it is run"]
    with tempfile.TemporaryDirectory(dir=place) as folder:
        for name in ("examples", "tests"):
            Path(folder, name).symlink_to(TOP / name)
        Path(folder, "example").write_text(text)
        words = ["-c", RUNS_FILE, "example"] if kind == "pycon" else ["example"]
        ended = run([str(place / "bin" / "python"), "-I", *words], cwd=folder)
    is_right = ended.returncode == 0 and (kind == "pycon" or ended.stdout and not ended.stderr)
    return [] if is_right else [f"status {ended.returncode}", ended.stdout + ended.stderr]


def module_faults(place):
    """The examples in the docstrings are true, with the library that is installed."""
    names = ("mapf", *(f"mapf.{path.stem}" for path in sorted((PYTHON / "mapf").glob("[a-z]*.py"))))
    environment = {name: value for name, value in os.environ.items() if name != "MAPF_LIBRARY"}
    ended = run([str(place / "bin" / "python"), "-I", "-c", RUNS_MODULES, *names], env=environment)
    return [] if ended.returncode == 0 else [ended.stdout + ended.stderr]


def commands(place):
    """Calls of the installed commands: the name, the words, and what standard output ends with."""
    problem = [str(CROSSING / "map"), str(CROSSING / "scen"), "2"]
    texts = [str(CROSSING / "plan"), str(CROSSING / "cert")]
    split = "vertex 0 1 1,1 1 0\nleaf 1\nagent 0 1\nat 0,1 0 3\nleaf 1\nagent 1 1\nat 1,0 0 3\nend\n"
    return [("mapf", ["check", *problem, *texts], "optimal 5\n"), ("mapf", [], "\noptimal 4\n"),
            ("mapf-recheck", [*problem, *texts], "optimal 5\n"), ("mapf-trim", [*problem, *texts], split),
            ("mapf-manual", [str(place / "shared")], "/fish/vendor_completions.d/mapf.fish\n"),
            ("mapf-uncycle", [*problem, texts[0]], "\npath 1 2 1,0 1,1 1,2\nend\n"),
            ("mapf-draw", [*problem, texts[0]], "</html>\n"), ("mapf-verify", [*problem, texts[0]], "cheapest: 5\n"),
            ("mapf-sweep", [str(CROSSING), str(CROSSING), str(place / "swept")], "")]


def command_faults(place, name, words, wanted):
    """MAPF isn't set, and no program is on the path. Of CROSSING the sweep knows no map and no scenario."""
    ended = run([str(place / "bin" / name), *words], env={"PATH": "/usr/bin:/bin"})
    is_sweep = name == "mapf-sweep"
    is_right = ended.returncode == (2 if is_sweep else 0) and ended.stdout.endswith(wanted)
    is_named = not is_sweep or ended.stderr.startswith("mapf-sweep: ")
    is_right = is_right and is_named
    return [] if is_right else [f"status {ended.returncode}, {ended.stdout[-200:]!r}, {ended.stderr[-300:]!r}"]
