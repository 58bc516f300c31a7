"""Tries ./dist: what its archive has, and that the program and the tools run from it where nothing else is."""

import gzip
import hashlib
import os
import re
import shutil
import subprocess
import sys
import tarfile
import tempfile
from pathlib import Path

from clauses import linked_files
from harness import TESTS

TOP = TESTS.parent

# What is on the path where the archive is tried, beside Python.
COMMANDS = "env", "ls", "cat", "sha256sum"

# The tools of which the help has an example that can be tried.
HELPFUL = "tools/verify", "tools/draw", "tools/recheck", "tools/trim", "tools/uncycle", "tools/sweep"

GRID, SCEN = "examples/random-32-32.map", "examples/random-32-32.scen"


def tests(tally):
    if not shutil.which("git") or not (TOP / ".git").exists():
        tally.skip("dist", "this tree is no clone, or git isn't installed")
        return
    with tempfile.TemporaryDirectory() as name:
        folder = Path(name)
        try_without_a_program(tally, folder / "none")
        archive, faults = made(folder / "one")
        tally.add("dist", faults)
        if faults:
            return
        is_same = made(folder / "two")[0].read_bytes() == archive.read_bytes()
        tally.add("dist, always the same bytes", [] if is_same else ["two archives differ"])
        tally.add("dist, names, owners, times", entry_faults(archive))
        place = unpacked(archive, folder / "there")
        tally.add("dist, checksums", sum_faults(place))
        tally.add("dist, files of the README's commands", missing_files(place))
        tally.add("dist, files to which documents link", missing_links(place))
        for name in HELPFUL:
            tally.add(f"dist, files that {name} --help names", missing_in_help(place, name))
        path = commands(folder / "bin")
        for title, (words, status, said) in runs(place).items():
            tally.add(f"dist, unpacked, {title}", run_faults(place, path, words, status, said))
        tally.add("dist, the man page and the completions", shared_faults(place))
        try_library(tally, place, folder)
        try_sources(tally, place)


def made(folder):
    """The archive that is made in a folder, and what is wrong with the run."""
    folder.mkdir()
    ended = subprocess.run([sys.executable, str(TOP / "dist"), str(folder)], stdin=subprocess.DEVNULL,
                           capture_output=True, text=True)
    archive = Path(ended.stdout.strip())
    if ended.returncode == 0 and (faults := checksum_faults(archive, ended.stderr)):
        return archive, faults
    commit = subprocess.run(["git", "rev-parse", "HEAD"], cwd=TOP, check=True, capture_output=True, text=True).stdout
    named = re.fullmatch(rf"mapf-[0-9]+\.[0-9]+\.[0-9]+(-dev-{commit[:8]})?\.tar\.gz", archive.name)
    is_there = ended.returncode == 0 and named and list(folder.iterdir()) == [archive]
    return archive, [] if is_there else [f"status {ended.returncode}, {ended.stdout!r}, {ended.stderr!r}"]


def try_without_a_program(tally, folder):
    """In a tree where nothing is proved, and where nothing can be, no archive is made."""
    path = "/usr/bin:/bin"
    if shutil.which("rt", path=path):
        tally.skip("dist, without the toolchain", "since it is among the system's commands")
        return
    for name in ("tools", "python"):
        shutil.copytree(TOP / name, folder / name)
    for name in ("dist", "mapf", "prove", "program.bash", "crates.txt"):
        shutil.copy(TOP / name, folder / name)
    ended = subprocess.run([sys.executable, str(folder / "dist")], env={"PATH": path}, stdin=subprocess.DEVNULL,
                           capture_output=True, text=True)
    lines = ended.stderr.splitlines()
    is_told = len(lines) == 2 and "the Rattle toolchain, isn't here" in lines[0] and lines[1].startswith("dist: ")
    tally.add("dist, without the toolchain", [] if ended.returncode == 2 and not ended.stdout and is_told
              else [f"status {ended.returncode}, {ended.stdout!r}, {ended.stderr!r}"])


def checksum_faults(archive, said):
    """The last line on standard error is what sha256sum reads as the checksum of the archive."""
    line = said.splitlines()[-1] if said else ""
    ended = subprocess.run(["sha256sum", "-c", "--strict"], cwd=archive.parent, input=line, capture_output=True,
                           text=True)
    return [] if ended.returncode == 0 else [f"{line!r}: {ended.stdout}{ended.stderr}"]


def entry_faults(archive):
    name = archive.name.removesuffix(".tar.gz")
    with tarfile.open(archive) as packed:
        entries = packed.getmembers()
    names = [entry.name for entry in entries]
    when = int(subprocess.run(["git", "log", "-1", "--format=%ct"], cwd=TOP, check=True, capture_output=True).stdout)
    faults = [] if names == sorted(names) else ["the names aren't sorted"]
    for entry in entries:
        if not entry.isfile() or not entry.name.startswith(name + "/") or (entry.uid, entry.uname) != (0, "root"):
            faults.append(f"{entry.name} is of {entry.uname}, or in another folder")
        if entry.mtime != when or entry.mode not in (0o644, 0o755):
            faults.append(f"{entry.name} has the time {entry.mtime} and the mode {entry.mode:o}")
    least = {"mapf", "README.md", "LICENSE", "SHA256SUMS", "docs/FORMATS.md", "tools/draw", GRID, SCEN}
    return faults + [f"{part} isn't there" for part in least - {entry.removeprefix(name + "/") for entry in names}]


def unpacked(archive, folder):
    folder.mkdir()
    with tarfile.open(fileobj=gzip.open(archive)) as packed:
        packed.extractall(folder)
    return folder / archive.name.removesuffix(".tar.gz")


def sum_faults(place):
    lines = [line.split("  ", 1) for line in (place / "SHA256SUMS").read_text().splitlines()]
    sums = {name: told for told, name in lines}
    there = {str(path.relative_to(place)): path for path in place.rglob("*") if path.is_file()}
    faults = [f"{name} is in one of them alone" for name in sums.keys() ^ there.keys() - {"SHA256SUMS"}]
    for name in sums.keys() & there.keys():
        if hashlib.sha256(there[name].read_bytes()).hexdigest() != sums[name]:
            faults.append(f"{name} has another checksum")
    return faults


def missing_files(place):
    """The maps, scenarios and other inputs that commands of the documents name, and that aren't in the archive."""
    texts = "".join((place / name).read_text() for name in ("README.md", "docs/USE.md", "docs/TOOLS.md"))
    commands = re.findall(r"(?m)^\$ .*$", texts)
    named = {word for command in commands for word in command.split() if word.startswith(("examples/", "tests/"))}
    lost = [f"{name} isn't there" for name in sorted(named) if not (place / name).exists()]
    return lost if named else ["no command of the documents names a file"]


def shared_faults(place):
    """What the archive has below `share` is what its own tools/manual wrote, apart from the page's first line, which
    has the date."""
    folders = place / "share", place / "shared"
    names = [sorted(str(path.relative_to(folder)) for path in folder.rglob("*") if path.is_file())
             for folder in folders]
    if len(names[0]) != 4 or names[0] != names[1]:
        return [f"there are {names[0]}, and it wrote {names[1]}"]
    texts = [[(folder / name).read_text().splitlines() for name in names[0]] for folder in folders]
    return [f"{name} differs" for name, one, other in zip(names[0], *texts) if one[1:] != other[1:]]


def try_library(tally, place, folder):
    """A program in C is compiled as pkg-config says, over the library in the archive, and runs, and so does the package
    for Python.
    """
    if not (place / "lib").exists():
        tally.skip("dist, the library for C", "since ./library hasn't made it for this program")
        return
    names = sorted(str(path.relative_to(place / "lib")) for path in (place / "lib").rglob("*") if path.is_file())
    wanted = ["libmapf.a", "libmapf.so", "pkgconfig/mapf.pc"]
    tally.add("dist, the library's files", [] if names == wanted else [f"there are {names}, wanted {wanted}"])
    tally.add("dist, the package for Python", python_faults(place))
    if not shutil.which("gcc") or not shutil.which("pkg-config"):
        tally.skip("dist, a program in C", "since gcc or pkg-config isn't there")
        return
    tally.add("dist, a program in C", compiled_faults(place, folder))


def python_faults(place):
    code = "import mapf; print(mapf.solve([[1] * 3] * 3, [(0, 1)], [(2, 1)]))"
    ended = subprocess.run([sys.executable, "-B", "-c", code], env={"PYTHONPATH": str(place / "python")},
                           capture_output=True, text=True)
    is_right = ended.stdout == "Answer(kind='optimal', cost=2, bound=2)\n"
    return [] if is_right else [f"it says {ended.stdout!r}, {ended.stderr[-300:]!r}"]


def compiled_faults(place, folder):
    environment = {**os.environ, "PKG_CONFIG_PATH": str(place / "lib" / "pkgconfig")}
    told = [subprocess.run(["pkg-config", option, "mapf"], env=environment, capture_output=True, text=True).stdout
            for option in ("--cflags", "--libs", "--modversion")]
    program, source = str(folder / "calls"), str(TESTS / "c" / "library_calls.c")
    words = ["gcc", "-std=c99", *told[0].split(), source, *told[1].split(), f"-Wl,-rpath,{place / 'lib'}"]
    ended = subprocess.run([*words, "-o", program], capture_output=True, text=True)
    if ended.returncode:
        return [f"gcc says {ended.stderr[:600]!r} after {told}"]
    said = subprocess.run([program, "version"], capture_output=True, text=True).stdout
    numbers = [int(number) for number in told[2].strip().partition("-")[0].split(".")]
    version = numbers[0] * 1_000_000 + numbers[1] * 1_000 + numbers[2]
    return [] if said == f"{version} {version}\n" else [f"the version is {said!r}, and {told[2]} by pkg-config"]


def try_sources(tally, place):
    """The package of cargo has each source of the crates, as it is in the tree, and what cargo needs besides."""
    if not shutil.which("cargo"):
        tally.skip("dist, the sources", "since cargo isn't there")
        return
    packages = list(place.glob("mapf-*.crate"))
    if len(packages) != 1:
        tally.add("dist, the sources", [f"there are {packages}"])
        return
    with tarfile.open(packages[0]) as packed:
        texts = {name.partition("/")[2]: packed.extractfile(name).read() for name in packed.getnames()}
    wanted = ["crates.txt", "build.rs", "LICENSE", *(str(it.relative_to(TOP)) for it in TOP.glob("rust/src/**/*.rs"))]
    wanted += [str(it.relative_to(TOP)) for it in TOP.glob("crates/mapf*/src/*.rt") if "mapf_rows" not in str(it)]
    tally.add("dist, the sources", [f"{name} isn't packed as it is" for name in wanted
                                    if texts.get(name) != (TOP / name).read_bytes()])


def missing_links(place):
    """The files to which documents in the archive link, and that aren't in it."""
    return [f"{document.name}: {link} isn't there" for document in sorted(place.rglob("*.md"))
            for link, file in linked_files(document) if not file.exists()]


def missing_in_help(place, name):
    """What an example in a tool's help reads, and what isn't in the archive."""
    told = subprocess.run([sys.executable, str(place / name), "--help"], capture_output=True, text=True).stdout
    named = re.findall(r"(?:examples|tests)/[\w./{},-]*[\w}]", told)
    words = subprocess.run(["bash", "-c", f"echo {' '.join(named)}"], capture_output=True, text=True).stdout.split()
    return [f"{word} isn't there" for word in words if not (place / word).exists()] or ([] if told else ["no help"])


def commands(folder):
    """A folder of commands to be the whole path: some of the system's, and Python."""
    folder.mkdir()
    for name in COMMANDS:
        (folder / name).symlink_to(shutil.which(name))
    (folder / "python3").symlink_to(sys.executable)
    return str(folder)


def runs(place):
    """What is run in the archive's folder: the words, the status and what standard output tells."""
    problem, version = [GRID, SCEN, "5"], re.sub("(?<=-dev)-.*", "", place.name.removeprefix("mapf-"))
    found = {
        "version": (["./mapf", "--version"], 0, f"mapf {version}\n"),
        "solve": (["./mapf", "solve", *problem, "100", "plan.txt", "cert.txt"], 0, "cost 104\n"),
        "check": (["./mapf", "check", *problem, "plan.txt", "cert.txt"], 0, "optimal 104\n"),
        "checksums": (["sha256sum", "--quiet", "-c", "SHA256SUMS"], 0, ""),
        "draw": (["tools/draw", *problem, "plan.txt"], 0, "</html>\n"),
        "manual": (["tools/manual", "shared"], 0, "shared/man/man1/mapf.1\n"),
        "vectors": (["tests/vectors", "--without-3", "./mapf", "check"], 0, " passed, 0 failed\n"),
    }
    if (place / "tools" / "recheck").exists():
        found["recheck"] = (["tools/recheck", *problem, "plan.txt", "cert.txt"], 0, "optimal 104\n")
    if (place / "tools" / "trim").exists():
        found["trim"] = (["tools/trim", *problem, "plan.txt", "cert.txt"], 0, "\nclaim cost 104\n")
    if (place / "tools" / "verify").exists():
        found["verify"] = (["tools/verify", *problem, "plan.txt"], 0, "cheapest: 104\n")
    return found


def run_faults(place, path, words, status, said):
    ended = subprocess.run(
        words, cwd=place, env={"PATH": path}, stdin=subprocess.DEVNULL, capture_output=True, text=True)
    if ended.returncode == status and said in ended.stdout:
        return []
    return [f"status {ended.returncode}, {ended.stdout[-200:]!r}, {ended.stderr[-300:]!r}"]
