"""The library of mapf for C, called in this process.

include/mapf.h declares the calls and the structs. The answers can be told as the lines of the program.
"""

import ctypes
import functools
import mmap
import os
import sys
import threading
import time
from collections.abc import Callable
from pathlib import Path
from typing import Any, TypeVar

from .errors import MapfError, error_of
from .limits import MOST_AGENTS

# The version of the header that is declared here.
VERSION = 1_001_000

# The package, and the top of the clone or archive in which it is, if it isn't installed.
PACKAGE = Path(__file__).resolve().parent
TOP = PACKAGE.parent.parent

NAME = "libmapf.dylib" if sys.platform == "darwin" else "libmapf.so"

# Where the library is: in an installed package, in an archive, and in a clone, made by ./library or by cargo.
PLACES = PACKAGE, TOP / "lib", TOP / "out", TOP / "target" / "release"

# After how many seconds a call is told of, and how often it is seen whether it has ended.
SECONDS = 1.0

# For how many bytes each text of a search gets room. Only what is written of it takes memory. If the system refuses the
# first number it is asked for the second, and a search whose texts are longer is made twice.
ROOMS = 1 << 30, 1 << 20

Found = TypeVar("Found")


class Fault(ctypes.Structure):
    """mapf_fault: an error as numbers."""

    _fields_ = [("error", ctypes.c_uint32), ("defect", ctypes.c_uint32), ("count", ctypes.c_uint32),
                ("numbers", ctypes.c_uint64 * 3)]


class Answer(ctypes.Structure):
    """mapf_answer: what a call found."""

    _fields_ = [("kind", ctypes.c_uint32), ("cause", ctypes.c_uint32), ("bound", ctypes.c_uint64),
                ("cost", ctypes.c_uint64), ("fault", Fault)]


class Question(ctypes.Structure):
    """mapf_question: what a search is asked for."""

    _fields_ = [("agents", ctypes.c_uint32), ("search", ctypes.c_uint32), ("limit", ctypes.c_uint32),
                ("improvements", ctypes.c_uint32)]


class Solution(ctypes.Structure):
    """mapf_solution: what a search found, and how long its two texts are."""

    _fields_ = [("answer", Answer), ("refused", Fault), ("is_written", ctypes.c_uint32),
                ("plan_length", ctypes.c_size_t), ("cert_length", ctypes.c_size_t)]


# The words of mapf_answer.kind, each with the numbers behind it.
KINDS: dict[int, tuple[str, tuple[str, ...]]] = {
    1: ("optimal", ("cost",)),
    2: ("within", ("bound", "cost")),
    3: ("bound", ("bound",)),
    4: ("impossible", ()),
    5: ("valid", ("cost",)),
}

# The numbers of mapf_question.search.
SEARCHES = {"cbs": 0, "cbsh": 1}

# The letters of the hundreds of mapf_fault.defect, and the defects that have other words.
LETTERS = {1: "M", 2: "S", 3: "P", 4: "K", 5: "V"}
WORDS = {601: "map", 602: "scen", 603: "plan", 604: "cert", 605: "none", 606: "count"}

# mapf_fault.error of the refusal C1.
FIRST_REFUSAL = 11

TEXT = [ctypes.c_char_p, ctypes.c_size_t]
BUFFER = [ctypes.c_void_p, ctypes.c_size_t]


class Library:
    """The calls of a library that is loaded. Several threads may make them side by side."""

    def __init__(self, path: Path, tell: Callable[[str, float], None] | None = None) -> None:
        """Loads the library. `tell` is told every second which call is at work, and for how many seconds."""
        try:
            loaded = ctypes.CDLL(str(path))
            loaded.mapf_version.restype = ctypes.c_uint32
            version = int(loaded.mapf_version())
        except (OSError, AttributeError) as error:
            raise OSError(f"{path} can't be used as the library of mapf ({error}): set MAPF_LIBRARY to it") from None
        if version != VERSION:
            raise OSError(f"{path} has the version {version}, and {VERSION} is wanted: make it anew")
        self.path = path
        self.tell = tell
        self.checks = declared(loaded.mapf_check, Answer, *TEXT, *TEXT, ctypes.c_uint32, *TEXT, *TEXT)
        self.validates = declared(loaded.mapf_validate, Answer, *TEXT, *TEXT, ctypes.c_uint32, *TEXT)
        self.solves = declared(loaded.mapf_solve, Solution, *TEXT, *TEXT, Question, *BUFFER, *BUFFER)

    def check(self, map_text: bytes, scen: bytes, agents: int, plan: bytes, cert: bytes) -> Answer:
        """What `mapf check` says of these texts."""
        words = [*sized(map_text, scen), number_of(agents), *sized(plan, cert)]
        return self.waited("check", lambda: self.checks(*words))

    def validate(self, map_text: bytes, scen: bytes, agents: int, plan: bytes) -> Answer:
        """Whether the plan of a plan text is valid, and what it costs."""
        words = [*sized(map_text, scen), number_of(agents), *sized(plan)]
        return self.waited("validate", lambda: self.validates(*words))

    def solve(self, map_text: bytes, scen: bytes, question: Question) -> tuple[Solution, str, str]:
        """What a search found, with its plan text and its certificate, which are empty if there is no answer."""
        plan, cert = room(*ROOMS), room(*ROOMS)
        while True:
            words = [*sized(map_text, scen), question, address(plan), len(plan), address(cert), len(cert)]
            solution = self.waited("solve", lambda: self.solves(*words))
            if solution.is_written or solution.answer.kind not in KINDS:
                return solution, beginning(plan, solution.plan_length), beginning(cert, solution.cert_length)
            plan, cert = room(solution.plan_length), room(solution.cert_length)

    def waited(self, name: str, call: Callable[[], Found]) -> Found:
        """What a call answers. It runs in a thread, so that a signal can end the wait for it. No call can be stopped:
        it then goes on until it has ended, or until the process ends.
        """
        found: list[Found] = []
        began = time.monotonic()
        thread = threading.Thread(target=lambda: found.append(call()), daemon=True)
        thread.start()
        while thread.is_alive():
            thread.join(SECONDS)
            if self.tell and thread.is_alive():
                self.tell(name, time.monotonic() - began)
        return found[0]


def declared(call: Any, answer: type[Found], *words: Any) -> Callable[..., Found]:
    """A call of a loaded library that takes words of these types and gives this answer."""
    call.restype, call.argtypes = answer, words
    declared_call: Callable[..., Found] = call
    return declared_call


def number_of(agents: int) -> int:
    """A number of agents that the library takes."""
    if not 1 <= agents <= MOST_AGENTS:
        raise MapfError(f"{agents} agents are asked for, and there may be 1 to {MOST_AGENTS}")
    return agents


# Texts, as they are given to a call.

def sized(*texts: bytes) -> list[bytes | int]:
    """Each text with its length behind it."""
    return [word for text in texts for word in (text, len(text))]


def room(*sizes: int) -> mmap.mmap:
    """Room for a text, of the first of these sizes that the system grants."""
    for size in sizes:
        try:
            return mmap.mmap(-1, size, mmap.MAP_PRIVATE | mmap.MAP_ANONYMOUS)
        except OSError:
            pass
    raise error_of("F6")


def address(buffer: mmap.mmap) -> int:
    """Where a room begins."""
    return ctypes.addressof(ctypes.c_char.from_buffer(buffer))


def beginning(buffer: mmap.mmap, length: int) -> str:
    """The text in the first bytes of a room."""
    return str(memoryview(buffer)[:length], "ascii")


# Lines, as the program prints them.

def line_of(answer: Answer) -> str:
    """The line of an answer."""
    if answer.kind == 0:
        return fault_line(answer.fault)
    word, names = KINDS[answer.kind]
    return " ".join([word, *(str(getattr(answer, name)) for name in names)])


def fault_line(fault: Fault) -> str:
    """The line of an error or of a refusal."""
    is_refusal = fault.error >= FIRST_REFUSAL
    words = ["refused", f"C{fault.error - FIRST_REFUSAL + 1}"] if is_refusal else [f"F{fault.error}"]
    if fault.defect:
        words.append(WORDS.get(fault.defect) or f"{LETTERS[fault.defect // 100]}{fault.defect % 100}")
    return " ".join([*words, *map(str, fault.numbers[:fault.count])])


# The library that is there.

def library() -> Library:
    """The library that MAPF_LIBRARY names, or else the one of this package, or of the clone or archive around it."""
    named = os.environ.get("MAPF_LIBRARY")
    found = Path(named) if named else next((place / NAME for place in PLACES if (place / NAME).exists()), None)
    if found is None:
        raise OSError(f"{NAME} isn't here: `pip install .` in a clone of mapf makes and installs it, or set "
                      "MAPF_LIBRARY to it")
    return loaded(found)


@functools.cache
def loaded(path: Path) -> Library:
    """The library of this file, which is loaded once."""
    return Library(path)
