"""Cases on files: one folder each, with the words after `mapf`, the files they name and what is wanted."""

import os
import re
import resource
import shlex
import signal
import subprocess
import tempfile
import time
from dataclasses import dataclass
from pathlib import Path

from progress import say

TESTS = Path(__file__).resolve().parents[1]

# The proved program, and the program that the runners try: what MAPF names, else the proved one.
PROVED = TESTS.parent / "crates" / "mapf" / "out" / "mapf"
PROGRAM = Path(os.environ.get("MAPF") or PROVED).absolute()

# What one run may take before it counts as failed, and how long a test waits for what has to come.
SECONDS = 300
BYTES = 4_000_000_000

# A small share of addresses, in which small cases still run.
SMALL_MEMORY = 64 << 20

# Each of these words stands for a file of the case in a folder of its own.
FILES = {"MAP": "map", "SCEN": "scen", "PLAN": "plan", "CERT": "cert", "EVENTS": "events"}

# The standard streams in the order of their numbers. A case puts one elsewhere: CLOSED is no place at all,
# and UNREAD a pipe that nobody reads. Standard input may be a file of the case.
STREAMS = ("stdin", "stdout", "stderr")

# What `outcome` puts into each output before a run. It is longer than any text that is written then.
OLD = b"what stood here before\n" * 200


def is_program_there():
    """Whether the program is there. Where it isn't, a line says what to do."""
    if PROGRAM.exists():
        return True
    print(f"{PROGRAM} isn't there: build it by ./prove or ./test, or set MAPF to a program that is built")
    return False


@dataclass(frozen=True)
class Ended:
    """What a run gave: its status and the bytes of its two standard streams."""

    status: int | str
    stdout: bytes
    stderr: bytes


@dataclass(frozen=True)
class Outcome:
    """What a run of a case gave, with the bytes of its outputs and inputs afterwards, by their names."""

    ended: Ended
    outputs: dict[str, bytes | None]
    inputs: dict[str, bytes | None]

    def told(self):
        outputs = ", ".join(f"{name} {shown(bytes_)}" for name, bytes_ in self.outputs.items())
        return f"{told(self.ended)}, {outputs or 'no output'}"


def bound(most_bytes=BYTES):
    resource.setrlimit(resource.RLIMIT_AS, (most_bytes, most_bytes))


def heed_signals():
    """Has a process end by the signals that end a tool, although the one that starts it may ignore them."""
    for number in (signal.SIGINT, signal.SIGTERM, signal.SIGHUP):
        signal.signal(number, signal.SIG_DFL)


def run(words, places=None, environment=None, most_bytes=BYTES, program=PROGRAM, seconds=SECONDS):
    """Runs the program. A standard stream that has a place goes there, and an output that has none is caught."""
    places = places or {}

    def prepare():
        bound(most_bytes)
        for number, name in enumerate(STREAMS):
            if places.get(name) == "CLOSED":
                os.close(number)
            elif places.get(name) == "UNREAD":
                leave_unread(number)

    given = places.get("stdin", "CLOSED")
    with (open(os.devnull if given == "CLOSED" else given, "rb") as input_, opened(places.get("stdout")) as out,
          opened(places.get("stderr")) as err):
        try:
            status = subprocess.run(
                [str(program), *words], stdin=input_, stdout=out, stderr=err,
                env={**os.environ, **(environment or {})}, timeout=seconds, preexec_fn=prepare).returncode
        except subprocess.TimeoutExpired:
            status = f"none after {seconds} seconds"
        return Ended(status, caught(out, places.get("stdout")), caught(err, places.get("stderr")))


def run_small(words, program=PROGRAM):
    """Runs the program on something small. This takes a quarter of the processor time of `run`, and bounds no memory,
    so it serves scripts that make thousands of runs."""
    ended = subprocess.run(
        [str(program), *words], stdin=subprocess.DEVNULL, capture_output=True, timeout=SECONDS, close_fds=False)
    return Ended(ended.returncode, ended.stdout, ended.stderr)


def leave_unread(number):
    """Makes an output of this process a pipe that nobody reads. It is made where the program is about to run, so that
    no other run that begins at this time has the end for reading."""
    reader, writer = os.pipe()
    os.dup2(writer, number)
    os.close(reader)


def opened(place):
    """What a standard stream is given for its place."""
    if place is None:
        return tempfile.TemporaryFile()
    return open(os.devnull if place in ("CLOSED", "UNREAD") else place, "wb")


def caught(stream, place):
    if place is not None:
        return b""
    stream.seek(0)
    return stream.read()


def awaited(is_so):
    """Waits until something is so, and answers whether it is."""
    end = time.monotonic() + SECONDS
    while not is_so():
        if time.monotonic() > end:
            return False
        time.sleep(0.02)
    return True


def content(path):
    """The bytes of a file, None where there is no file."""
    return path.read_bytes() if path.is_file() else None


def shown(value):
    """A short form of bytes, or of no bytes, for a line of text."""
    if value is None:
        return "nothing"
    return repr(value) if len(value) <= 120 else f"{value[:100]!r} and so on, {len(value)} bytes"


def told(ended):
    """A short form of what a run gave, for a line of text."""
    return f"status {ended.status}, {shown(ended.stdout)}, {shown(ended.stderr)}"


class Case:
    """A folder of the form that README.md tells."""

    def __init__(self, folder):
        self.folder = folder
        self.name = folder.name
        line = (folder / "words").read_bytes().decode(errors="surrogateescape")
        self.words = shlex.split(line)
        self.places = {}
        for sign, stream in zip(("<", ">", "2>"), STREAMS):
            if sign in self.words:
                at = self.words.index(sign)
                self.places[stream] = self.words[at + 1]
                del self.words[at:at + 2]

    def agents(self):
        """The number of agents, as the words spell it: the first number."""
        return next(word for word in self.words if word.isdigit())

    def is_solve(self):
        return self.words[:1] == ["solve"]

    def outputs(self):
        """The files of the case that a run writes, each with what is wanted in it."""
        names = [name for word, name in FILES.items() if word in self.words]
        return [(name, content(self.folder / name)) for name in names if self.is_solve() and name in ("plan", "cert")]

    def inputs(self):
        written = [name for name, _ in self.outputs()]
        named = (*self.words, self.places.get("stdin"))
        given = [name for word, name in FILES.items() if word in named and name not in written]
        return [(name, content(self.folder / name)) for name in given]

    def wanted(self, name):
        return content(self.folder / name)

    def wanted_status(self):
        text = self.wanted("status")
        return 0 if text is None else int(text)

    def prepare(self, folder):
        """Puts the inputs into a folder and answers the words with names of files in it."""
        for name, given in self.inputs():
            if given is not None:
                (folder / name).write_bytes(given)
        (folder / "folder").mkdir()
        return [self.place(folder, word) for word in self.words]

    def place(self, folder, word):
        """The file in a folder for which a word stands, or else the word."""
        others = {"FOLDER": folder / "folder", "BESIDE": folder / "none" / "file"}
        return str(folder / FILES[word] if word in FILES else others.get(word, word))

    def places_in(self, folder):
        """Where the standard streams go that have a place."""
        return {stream: self.place(folder, word) for stream, word in self.places.items()}

    def run(self, folder, environment=None, most_bytes=BYTES):
        return run(self.prepare(folder), self.places_in(folder), environment, most_bytes)

    def outcome(self, folder, environment):
        """What a run gave, and what is in its outputs, which held OLD before, and its inputs afterwards."""
        for name, _ in self.outputs():
            (folder / name).write_bytes(OLD)
        ended = self.run(folder, environment)
        outputs = {name: content(folder / name) for name, _ in self.outputs()}
        inputs = {name: content(folder / name) for name, _ in self.inputs()}
        return Outcome(ended, outputs, inputs)

    def ended_faults(self, ended):
        """How a run ended otherwise than is wanted, a text for each difference."""
        found = []
        if ended.status != self.wanted_status():
            found.append(f"status {ended.status}, wanted {self.wanted_status()}")
        for stream, got in (("stdout", ended.stdout), ("stderr", ended.stderr)):
            found.extend(self.stream_faults(stream, got))
        return found

    def faults(self, ended, folder):
        """How a run and its files differ from what is wanted, a text for each difference."""
        found = self.ended_faults(ended)
        for name, wanted in self.outputs() + self.inputs():
            got = content(folder / name)
            if got != wanted:
                found.append(f"{name} is {shown(got)}, wanted {shown(wanted)}")
        return found

    def stream_faults(self, stream, got):
        parts = self.wanted(stream + "-has")
        if parts is not None:
            missing = [f"{stream} has no {shown(part)}" for part in parts.split(b"\n") if part not in got]
            return missing if parts.strip() else [f"{stream}-has asks for nothing"]
        wanted = self.wanted(stream) or b""
        return [] if got == wanted else [f"{stream} is {shown(got)}, wanted {shown(wanted)}"]


def built(name, folder):
    """Builds the C source of that name into this folder, to be preloaded."""
    library = Path(folder) / f"{name}.so"
    source = TESTS / "c" / f"{name}.c"
    subprocess.run(["gcc", "-O2", "-Wall", "-Wextra", "-shared", "-fPIC", "-o", str(library), str(source)], check=True)
    return library


def refusing(library, told, **which):
    """The environment in which requests are refused, as refuse_memory.c says, and told of by making the file."""
    chosen = {f"REFUSE_MEMORY_{word.upper()}": str(number) for word, number in which.items()}
    return {"LD_PRELOAD": str(library), "REFUSE_MEMORY_TOLD": str(told), **chosen}


def cases_of(folder):
    return [Case(path.parent) for path in sorted(folder.glob("*/words"))]


# The cases that are made.
LONG_CERTIFICATE = "solve-certificate-longer-than-a-page"
LONG_REPLIES = "dispatch-replies-longer-than-two-pages"

# Along two corridors so many cells long two agents come to one cell at one tick. The map is as wide as one may be.
CORRIDOR = 2048 - 2


def page_size():
    """How many bytes of a text a run gathers before it writes them."""
    source = (TESTS.parent / "crates/mapf_fields/src/page.rt").read_text()
    return int(re.search(r"ROOM: usize = ([0-9_]+);", source)[1].replace("_", ""))


def made_cases(folder):
    """The cases whose outputs are longer than a page, so that a run writes them in several calls."""
    return [made_case(folder, LONG_CERTIFICATE, long_certificate()), made_case(folder, LONG_REPLIES, long_replies())]


def made_case(folder, name, texts):
    place = folder / name
    place.mkdir()
    for file, text in texts.items():
        (place / file).write_bytes(text)
    return Case(place)


def long_replies():
    """A case of `dispatch` whose replies take more than two pages: an agent asks while another is in its way."""
    crossing = TESTS / "cases" / "dispatch-crossing"
    reply = b"hold 0 by 1\n"
    count = 2 * page_size() // len(reply) + 1
    return {name: (crossing / name).read_bytes() for name in ("words", "map", "scen", "plan")} | {
        "events": b"mapf-events 1\n" + b"0\n" * count + b"end\n",
        "stdout": reply * count,
    }


def long_certificate():
    """A case of `solve` whose certificate takes more than a page.

    Each of two agents has one shortest path, they meet where the corridors cross, at tick CORRIDOR, and each goes
    on to a goal of its own beside that cell. The first to be barred there waits at its start, and no other conflict
    is left. A search at the cost that failed reached all cells before the crossing, at their ticks.
    """
    free, blocked = b"." * (CORRIDOR + 2) + b"\n", b"@" * CORRIDOR + b".@\n"
    rows = [blocked, blocked, free, blocked, free]
    across = [(x, 2) for x in range(CORRIDOR + 2)]
    upward = [(x, 4) for x in range(2, CORRIDOR + 1)] + [(CORRIDOR, 3), (CORRIDOR, 2), (CORRIDOR, 1)]
    cost = CORRIDOR + 1
    texts = {
        "words": b"solve MAP SCEN 2 1 PLAN CERT\n",
        "map": b"type octile\nheight %d\nwidth %d\nmap\n" % (len(rows), CORRIDOR + 2) + b"".join(rows),
        "scen": b"version 1\n" + b"".join(row_of(path, len(rows)) for path in (across, upward)),
        "stdout": b"cost %d\n" % (2 * cost + 1),
        "plan": b"mapf-plan 2\nagents 2\ncost %d\n" % (2 * cost + 1)
                + path_line(0, [across[0], *across]) + path_line(1, upward) + b"end\n",
        "cert": b"mapf-cert 2\nagents 2\nclaim cost %d\n" % (2 * cost + 1)
                + b"vertex 0 1 %d,2 %d 0\n" % (CORRIDOR, CORRIDOR)
                + leaf_of(0, across[:CORRIDOR], cost + 1) + leaf_of(1, upward[:CORRIDOR], cost + 1) + b"end\n",
    }
    assert len(texts["cert"]) > page_size(), "CORRIDOR is too short for the page"
    return texts


def row_of(path, height):
    return b"0 made.map %d %d %d %d %d %d 0\n" % (CORRIDOR + 2, height, *path[0], *path[-1])


def path_line(agent, path):
    return b"path %d %d %s\n" % (agent, len(path) - 1, b" ".join(b"%d,%d" % cell for cell in path))


def leaf_of(agent, cells, cost):
    """A leaf with one block, whose labels are what is left of the cost."""
    entries = b"".join(b"at %d,%d %d %d\n" % (*cell, tick, cost - tick) for tick, cell in enumerate(cells))
    return b"leaf 1\nagent %d %d\n" % (agent, len(cells)) + entries


class Tally:
    """Counts what passed, and prints a line for each failure and for each test that was skipped."""

    def __init__(self):
        self.passed = 0
        self.failed = 0
        self.skipped = 0

    def add(self, name, faults):
        if faults:
            self.failed += 1
            say(f"{name}: {'; '.join(faults)}")
        else:
            self.passed += 1

    def skip(self, name, why):
        """Counts a test that can't be made on this machine."""
        self.skipped += 1
        say(f"{name}: skipped, {why}")

    def add_counts(self, passed, failed, skipped=0):
        """Adds what others counted, who told it too."""
        self.passed += passed
        self.failed += failed
        self.skipped += skipped

    def end(self):
        """Prints the counts and answers the runner's status."""
        skipped = f", {self.skipped} skipped" if self.skipped else ""
        print(f"{self.passed} passed, {self.failed} failed{skipped}")
        return 1 if self.failed else 0


def last_counts(said):
    """The numbers in the last line of what a runner said: of tests that passed, failed and were skipped. None where it
    has no such line."""
    found = re.search(r"(?:^|\n)(\d+) passed, (\d+) failed(?:, (\d+) skipped)?\n?$", said)
    return tuple(int(number or 0) for number in found.groups()) if found else None
