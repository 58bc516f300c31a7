"""What cargo makes of the tree: the program, the library for C, tests, an archive, and what it and its tools say."""

import json
import re
import shutil
import subprocess
import tempfile
from pathlib import Path

from harness import TESTS, run_small, told
from rust_cargo import TOP

# What each build is given: no file of the tree may change, and nothing is fetched.
AS_IT_IS = ("--locked", "--offline")

# The sets of features with which all has to build, besides the default.
FEATURES = {"no features": ["--no-default-features"], "the feature c": ["--features", "c"]}

# How many bytes an archive may have, and how many lines of code may be written by hand in rust/, its tests aside.
# Comments and blank lines don't count.
MOST_BYTES, MOST_LINES = 1_000_000, 6_000

EXAMPLE = [str(TOP / "examples" / f"random-32-32.{kind}") for kind in ("map", "scen")]

# The line that stands above what the build makes of a source.
MADE = re.compile(r"(?m)^\s*// crates/\w+/src/\S+\.rt$")


class Builds:
    """What is built of the tree, each in a folder of its own, so that several builds go on side by side."""

    def __init__(self, cargo):
        self.cargo = cargo
        self.program = cargo.target("program") / "release" / "mapf"
        self.library = cargo.target("library") / "release" / "libmapf.so"

    def build_program(self, tally):
        """The program, and the first command of README.md."""
        is_new = not self.cargo.target("program").exists()
        built = self.cargo.run("program", "build", "--release", *AS_IT_IS)
        tally.add("cargo build --release", built.faults())
        if built.status:
            tally.is_made = False
            return None
        tally.add("cargo run", self.run_faults())
        tally.add("cargo metadata", self.package_faults())
        rest = "" if is_new else ", with what an earlier run built"
        return f"the build took {built.seconds:.0f} s of a processor{rest}"

    def run_faults(self):
        """How `cargo run` doesn't solve an example."""
        with tempfile.TemporaryDirectory() as name:
            texts = [str(Path(name) / text) for text in ("plan", "cert")]
            words = ["solve", *EXAMPLE, "24", "1000", *texts, "--search", "cbsh"]
            solved = self.cargo.run("program", "run", "--release", *AS_IT_IS, "--", *words)
            if solved.faults() or not re.fullmatch(r"cost \d+\n", solved.stdout):
                return solved.faults() or [f"it prints {solved.stdout!r}"]
            checked = run_small(["check", *EXAMPLE, "24", *texts], self.program)
            wanted = solved.stdout.replace("cost", "optimal")
            return [] if checked.stdout.decode() == wanted else [f"check gave {told(checked)}, wanted {wanted!r}"]

    def package_faults(self):
        """How the package isn't one without dependencies that says its licence and the least version of Rust."""
        said = self.cargo.run("program", "metadata", "--no-deps", "--format-version", "1", *AS_IT_IS)
        if said.status:
            return said.failures()
        package, = json.loads(said.stdout)["packages"]
        faults = [f"it stands on {each['name']}" for each in package["dependencies"]]
        return faults + [f"{field} isn't said" for field in ("license", "rust_version") if not package[field]]

    def build_library(self, tally):
        """The library for C, shared and static."""
        kinds = ["--crate-type", "cdylib,staticlib"]
        built = self.cargo.run("library", "rustc", "--release", "--lib", "--features", "c", *AS_IT_IS, *kinds)
        tally.add("cargo rustc --features c", built.faults())
        missing = [path.name for path in (self.library, self.library.with_suffix(".a")) if not path.exists()]
        tally.is_made = not missing
        tally.add("its files", [f"{' and '.join(missing)} isn't there"] if missing else [])

    def run_tests(self, tally):
        """All tests of the package, those of its documents too."""
        tested = self.cargo.run("tests", "test", "--release", *AS_IT_IS)
        counts = re.findall(r"(?m)^test result: \w+\. (\d+) passed; (\d+) failed; (\d+) ignored;", tested.stdout)
        passed, failed, ignored = (sum(map(int, column)) for column in zip(*counts)) if counts else (0, 0, 0)
        tally.add_counts(passed, 0, ignored)
        tally.add("cargo test --release", tested.faults())
        tally.add("there are tests", [] if passed else ["none passed"])
        return f"{failed} tests failed, {tested.seconds:.0f} s of a processor"

    def build_features(self, tally):
        for name, words in FEATURES.items():
            tally.add(f"cargo build with {name}", self.cargo.run("features", "build", *words, *AS_IT_IS).faults())

    def lint(self, tally):
        """What clippy and rustfmt say of what is written by hand."""
        if self.cargo.has("clippy"):
            for name, words in {"the default features": [], **FEATURES}.items():
                said = self.cargo.run("clippy", "clippy", "--all-targets", *words, *AS_IT_IS, "--", "-D", "warnings")
                tally.add(f"cargo clippy with {name}", said.faults())
        else:
            tally.skip("cargo clippy", "since it isn't there")
        if self.cargo.has("fmt"):
            said = self.cargo.run("clippy", "fmt", "--check", "--", "--color", "never")
            tally.add("cargo fmt --check", said.faults())
        else:
            tally.skip("cargo fmt", "since it isn't there")

    def build_archive(self, tally):
        """The archive of `cargo package`, and the program that is built from it. What an earlier run built has to go:
        all files of an archive are of one time, so cargo would take them for those that it was built from."""
        shutil.rmtree(self.cargo.target("archive"), ignore_errors=True)
        place = self.cargo.target("archive") / "package"
        packed = self.cargo.run("archive", "package", "--no-verify", "--allow-dirty", *AS_IT_IS)
        archives = sorted(place.glob("*.crate"))
        tally.add("cargo package", packed.failures() or ([] if len(archives) == 1 else [f"it makes {archives}"]))
        if len(archives) != 1:
            return None
        size = archives[0].stat().st_size
        tally.add("its size", [] if size <= MOST_BYTES else [f"{size:,} bytes"])
        room = self.cargo.room / "unpacked"
        room.mkdir()
        subprocess.run(["tar", "-xzf", archives[0], "-C", room], check=True)
        folder, = room.iterdir()
        tally.add("its licence", [] if (folder / "LICENSE").is_file() else ["there is none"])
        before = files_in(folder)
        built = self.cargo.run("archive", "build", *AS_IT_IS, folder=folder)
        program = self.cargo.target("archive") / "debug" / "mapf"
        tally.add("the program from it", built.faults() or version_faults(program))
        tally.add("its files after the build", [] if files_in(folder) == before else ["they are others"])
        return f"{len(before)} files in {size:,} bytes"

    def install(self, tally):
        """`cargo install` from the tree, and from what is committed in it."""
        place = self.cargo.room / "installed"
        said = self.cargo.run("program", "install", "--path", ".", "--root", place / "path", *AS_IT_IS)
        tally.add("cargo install --path", installed_faults(said, place / "path"))
        if not is_clone():
            tally.skip("cargo install --git", "since the tree is no clone, or git isn't there")
            return
        # With --offline cargo asks no repository, not even one in a folder.
        words = ["--git", f"file://{TOP}", "--root", place / "git", "--locked"]
        said = self.cargo.run("git", "install", *words)
        tally.add("cargo install --git", installed_faults(said, place / "git"))

    def look_at_files(self, tally):
        """What is committed: by hand alone, and not much."""
        if not is_clone():
            tally.skip("git ls-files", "since the tree is no clone, or git isn't there")
            return None
        listed = subprocess.run(["git", "-C", TOP, "ls-files", "-z"], capture_output=True, text=True, check=True).stdout
        paths = [Path(path) for path in filter(None, listed.split("\0")) if (TOP / path).is_file()]
        for path in paths:
            if path.suffix == ".rs":
                tally.add(f"{path} is written by hand", made_faults(path))
        own = [path for path in paths if path.parts[0] == "rust" and path.parts[1] != "tests"]
        lines = [line.strip() for path in own for line in (TOP / path).read_text().splitlines()]
        count = sum(1 for line in lines if line and not line.startswith("//"))
        tally.add("rust/ without its tests", [] if count <= MOST_LINES else [f"{count:,} lines of code"])
        return f"{count:,} lines of code, of {len(lines):,} in all, in rust/ without its tests"


def is_clone():
    """Whether the tree is a clone by git, and not a folder of another one."""
    if shutil.which("git") is None:
        return False
    said = subprocess.run(["git", "-C", TOP, "rev-parse", "--show-toplevel"], capture_output=True, text=True)
    return said.returncode == 0 and Path(said.stdout.removesuffix("\n")).resolve() == TOP.resolve()


def made_faults(path):
    """That a file of Rust stands where none is expected, or that the build made it."""
    is_expected = path.parts[0] == "rust" or path == Path("build.rs")
    made = MADE.search((TOP / path).read_text())
    return ([] if is_expected else ["it is outside of rust/"]) + ([f"it has the line {made[0]}"] if made else [])


def files_in(folder):
    """The bytes of each file below a folder, by their paths."""
    return {path.relative_to(folder): path.read_bytes() for path in folder.rglob("*") if path.is_file()}


def installed_faults(said, root):
    """How an installation isn't one of the program alone, which runs."""
    if said.status:
        return said.failures()
    names = sorted(path.name for path in (root / "bin").iterdir())
    return version_faults(root / "bin" / "mapf") if names == ["mapf"] else [f"it installs {names}"]


def version_faults(program):
    """How a program doesn't say what the case of `--version` wants."""
    said, wanted = run_small(["--version"], program), (TESTS / "cases" / "version" / "stdout").read_bytes()
    return [] if said.stdout == wanted else [f"--version gave {told(said)}"]
