"""Calls of cargo as on a fresh machine: without `rt` on the path, with an empty CARGO_HOME and no network. What is
built comes into folders outside of the tree, since the gate of the toolchain walks all folders of the tree and refuses
the copies of sources that a package has.
"""

import hashlib
import os
import re
import shutil
import subprocess
import tempfile
from dataclasses import dataclass
from pathlib import Path

from harness import TESTS

TOP = TESTS.parent

# The variable that names a folder in which later runs find what was built, and the name of this tree's folder in it: of
# two trees in one, cargo would take the files of one for those of the other.
KEPT = "MAPF_RUST_TARGET"
NAME = hashlib.sha256(os.fsencode(TOP)).hexdigest()[:16]

# Where cargo would look for a network: nobody answers there.
NOWHERE = "127.0.0.1:9"

# The variables by which a machine changes what cargo does.
SETTINGS = re.compile(r"CARGO(_.*)?|RUSTFLAGS|RUSTDOCFLAGS|RUSTC(_.*)?|RUST_.*|MAPF(_.*)?")

# How many characters of what a command said are told where it failed.
TOLD = 2000


@dataclass(frozen=True)
class Ran:
    """What a command said, its status, and the seconds that it took of a processor."""

    status: int
    stdout: str
    stderr: str
    seconds: float

    def failures(self):
        """That it failed."""
        return [f"status {self.status}: {(self.stdout + self.stderr)[-TOLD:]}"] if self.status else []

    def faults(self):
        """That it failed, or warned of something."""
        warned = re.search(r"(?m)^warning: .*", self.stderr)
        return self.failures() or ([warned[0]] if warned else [])


def ran(words, folder, environment):
    """Runs a command to its end."""
    with tempfile.TemporaryFile() as out, tempfile.TemporaryFile() as err:
        process = subprocess.Popen([str(word) for word in words], cwd=folder, env=environment,
                                   stdin=subprocess.DEVNULL, stdout=out, stderr=err)
        _, status, used = os.wait4(process.pid, 0)
        process.returncode = os.waitstatus_to_exitcode(status)
        texts = []
        for stream in (out, err):
            stream.seek(0)
            texts.append(stream.read().decode(errors="replace"))
        return Ran(process.returncode, *texts, used.ru_utime + used.ru_stime)


class Cargo:
    """Cargo, with a room outside of the tree for all that it makes."""

    def __init__(self, room, jobs):
        kept = os.environ.get(KEPT)
        self.room = room
        self.targets = Path(kept).absolute() / NAME if kept else room / "targets"
        home = room / "cargo-home"
        home.mkdir()
        settings = {name: value for name, value in os.environ.items() if not SETTINGS.fullmatch(name)}
        self.environment = {
            **settings, "PATH": path_without("rt", room), "CARGO_HOME": str(home), "CARGO_HTTP_PROXY": NOWHERE,
            "CARGO_BUILD_JOBS": str(jobs), "RUST_TEST_THREADS": str(jobs), "CARGO_TERM_COLOR": "never"}

    def target(self, name):
        """The folder for what is built under this name."""
        return self.targets / name

    def run(self, target, *words, folder=TOP, **environment):
        """Runs `cargo` with these words, and with variables of its own."""
        given = {**self.environment, "CARGO_TARGET_DIR": str(self.target(target)), **environment}
        return ran(["cargo", *words], folder, given)

    def has(self, command):
        """Whether cargo has a command, such as clippy."""
        return self.run("none", command, "--version").status == 0


def path_without(command, room):
    """The folders in which commands are looked for. In place of one that has this command comes one with links to all
    others in it."""
    places = []
    for number, place in enumerate(filter(None, os.environ["PATH"].split(os.pathsep))):
        if os.path.exists(os.path.join(place, command)):
            links = room / f"commands-{number}"
            links.mkdir()
            for entry in os.scandir(place):
                if entry.name != command:
                    (links / entry.name).symlink_to(os.path.abspath(entry.path))
            place = str(links)
        places.append(os.path.abspath(place))
    return os.pathsep.join(places)


def hindrance():
    """Why nothing can be built here; None if something can."""
    if shutil.which("cargo") is None:
        return "cargo isn't there"
    said = subprocess.run(["cargo", "--version"], capture_output=True, text=True).stdout
    found = re.match(r"cargo (\d+)\.(\d+)", said)
    least = re.search(r'(?m)^rust-version = "(\d+)\.(\d+)', (TOP / "Cargo.toml").read_text())
    if found is None:
        return "cargo can't be run"
    if least and tuple(map(int, found.groups())) < tuple(map(int, least.groups())):
        return f"cargo is of version {'.'.join(found.groups())}, and at least {'.'.join(least.groups())} is needed"
    return None


def misplaced():
    """What is wrong with the folder that KEPT names; None if nothing is."""
    kept = os.environ.get(KEPT)
    if kept and Path(kept).resolve().is_relative_to(TOP.resolve()):
        return f"{KEPT} names {kept}, which is in the tree: the toolchain's gate would refuse what a package has there"
    return None
