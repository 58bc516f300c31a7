"""What a tool does as a process: it runs mapf, shows how far it is, and tells in one line what its user has to mend."""

import contextlib
import os
import shutil
import signal
import subprocess
import sys
from collections.abc import Callable, Iterator
from pathlib import Path
from typing import NoReturn

from ..errors import MapfError
from ..library import NAME, PACKAGE, TOP

MOST_SECONDS_OF_VERSION = 60

# The signals that end a tool.
ENDING = signal.SIGINT, signal.SIGTERM, signal.SIGHUP


class ToolError(MapfError):
    """What a tool's user has to mend: one line that says what to do."""


class Stopped(KeyboardInterrupt):
    """A signal that ends the tool."""

    def __init__(self, number: int) -> None:
        super().__init__(number)
        self.number = number


def called(name: str) -> str:
    """How the tool of this name is called: by its place in the tree, or as mapf-NAME where the package is installed."""
    given = Path(sys.argv[0]).name
    return given if given.startswith("mapf-") else f"tools/{name}"


def run_tool(main: Callable[[], int]) -> NoReturn:
    """Runs a tool's `main` and ends with the status that it answers. A fault is told in one line, with status 2. After
    a signal the status is 128 and the signal's number.
    """
    try:
        end_on_signals()
        status = main()
        sys.stdout.flush()
    except ToolError as error:
        clear_progress()
        print(f"{Path(sys.argv[0]).name}: {error}", file=sys.stderr)
        status = 2
    except Stopped as stop:
        with contextlib.suppress(OSError):  # the terminal may have gone
            clear_progress()
            print(f"{Path(sys.argv[0]).name}: stopped", file=sys.stderr)
        status = 128 + stop.number
    except BrokenPipeError:
        os.dup2(os.open(os.devnull, os.O_WRONLY), 1)
        status = 2
    except OSError as error:
        clear_progress()
        print(f"{Path(sys.argv[0]).name}: {in_words(error)}", file=sys.stderr)
        status = 2
    sys.exit(status)


def in_words(error: OSError) -> str:
    """What the system said of a file, without the number of the error."""
    name = error.filename2 or error.filename
    said = error.strerror or str(error)
    return said if name is None else f"{os.fsdecode(name)}: {said}"


# The signals that end a tool.

def end_on_signals() -> None:
    """Lets the first signal that ends the tool raise `Stopped`, so that what the tool started ends first and what it
    made is removed. Signals that come after it are ignored, so that they don't break this off.
    """
    for number in heeded_signals():
        signal.signal(number, stop_at)


def stop_at(number: int, _: object) -> NoReturn:
    """Raises `Stopped`, and has later signals ignored. A program that is started later doesn't ignore them."""
    for other in heeded_signals():
        signal.signal(other, lambda *_: None)
    raise Stopped(number)


def heeded_signals() -> list[signal.Signals]:
    """The signals that end the tool, without those that are ignored or have a handler from outside Python."""
    return [number for number in ENDING if signal.getsignal(number) not in (signal.SIG_IGN, None)]


@contextlib.contextmanager
def signals_held() -> Iterator[None]:
    """Holds back the signals that end a tool until the block is left. What a block starts is known by then, so that it
    can be ended.
    """
    came: list[int] = []
    handlers = {number: signal.signal(number, lambda number, _: came.append(number)) for number in heeded_signals()}
    try:
        yield
    finally:
        for number, handler in handlers.items():
            signal.signal(number, handler)
        for number in came:
            signal.raise_signal(number)


# The program.

def program(is_proved: bool = False) -> str:
    """The command of mapf: what MAPF names, else the one that was installed with this package, or the one that ./mapf
    of this tree runs, which is built first where it has to be. If so asked, a clone's is the proved one.
    """
    named = os.environ.get("MAPF")
    if named:
        if not os.access(named, os.X_OK) or os.path.isdir(named):
            raise ToolError(f"MAPF names {named}, which isn't a program: set it to mapf, or unset it")
        return str(Path(named).resolve())
    here = TOP / "mapf"
    if is_installed() or not os.access(here, os.X_OK):
        return installed()
    prove = TOP / "prove"
    if not os.access(prove, os.X_OK):
        return str(here)  # in an archive
    words = [] if is_proved else ["--program"]
    with contextlib.ExitStack() as at_end:
        with signals_held():
            process = at_end.enter_context(
                subprocess.Popen([str(prove), *words], stdin=subprocess.DEVNULL, stdout=subprocess.PIPE, text=True))
            at_end.callback(process.terminate)  # it ends what it started, and removes its files
        built, _ = process.communicate()
    if process.returncode != 0:
        raise ToolError(f"{prove} couldn't build the program: see above, or set MAPF to a program that is built")
    return built.strip()


def is_installed() -> bool:
    """Whether this package is installed, with the library beside it."""
    return (PACKAGE / NAME).exists()


def installed() -> str:
    """The command of mapf that was installed with this package, or else the one on the path."""
    from importlib import metadata  # it takes long, and not every tool needs it

    with contextlib.suppress(metadata.PackageNotFoundError):
        for file in metadata.files("mapf") or ():
            if file.name == "mapf":
                return str(Path(file.locate()).resolve())
    found = shutil.which("mapf")
    if found is None:
        raise ToolError("there is no program mapf on the path: set MAPF to where it is")
    return found


def version_of(path: str) -> str:
    """The version that the program tells, as '1.0.0'. What tells none isn't mapf."""
    try:
        told = subprocess.run([path, "--version"], stdin=subprocess.DEVNULL, capture_output=True, text=True,
                              errors="replace", timeout=MOST_SECONDS_OF_VERSION)
    except OSError as error:
        raise ToolError(f"{path} can't be started ({error.strerror}): set MAPF to mapf, or unset it") from None
    except subprocess.TimeoutExpired:
        raise ToolError(f"{path} --version doesn't end, so this isn't mapf: set MAPF to mapf, or unset it") from None
    words = told.stdout.split()
    if told.returncode != 0 or len(words) < 2 or words[0] != "mapf":
        raise ToolError(f"{path} --version tells no version, so this isn't mapf: set MAPF to mapf, or unset it")
    return words[1]


# A progress line.

def progress(said: str) -> None:
    """Shows a line on a terminal in place of the one before. Where standard error is none, shows nothing."""
    if sys.stderr.isatty():
        print(f"\r\033[K{said}", end="", file=sys.stderr, flush=True)


def clear_progress() -> None:
    """Takes the line that is shown away."""
    progress("")
