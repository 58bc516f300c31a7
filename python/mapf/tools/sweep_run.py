"""One run of tools/sweep: solves a problem, has the answer checked, and prints what came of it as one line of JSON.

    python3 -I -S python/mapf/tools/sweep_run.py PROGRAM FOLDER SECONDS SEARCH LIMIT MAP SCEN K

A run is a program of its own, so that another machine can make it, and so that it ends when tools/sweep does, however
that ends. It keeps its files in a new folder inside FOLDER, and removes them. It imports little: the memory that the
system counts for mapf is never below what the Python process held that started it.
"""

import json
import os
import re
import signal
import sys
import time
from collections import namedtuple
from collections.abc import Callable

# How often a run looks whether tools/sweep is still there, in seconds.
LOOK = 0.5

# What of a text that a program says is read, in bytes, and how much of its first line is shown.
READ, SHOWN = 4096, 120

# The search of `solve` without an option. A program from before --search has no other.
PLAIN = "cbs"

# What `solve` may say with which exit status, how a row calls it, and what `check` has to say of it.
ANSWERS = [
    (0, r"cost (?P<cost>[0-9]+)\n", "solved", "optimal {cost}"),
    (3, r"impossible\n", "impossible", "impossible"),
    (4, r"limit (?P<splits>[0-9]+|ticks) bound (?P<bound>[0-9]+)\n", "limit", "bound {bound}"),
    (4, r"within (?P<bound>[0-9]+) (?P<cost>[0-9]+)\n", "limit", "within {bound} {cost}"),
]

# Fields of a row, by their names. What isn't known is None.
Fields = dict[str, str | int | float | None]

# How a run of the program ended: its exit status; what kept it from an answer (nothing, or 'killed' or 'time-out') and
# a word on that; its processor seconds; the most memory that it held; what it wrote to standard output; and the first
# line that it said, of the errors first.
Ended = namedtuple("Ended", "status trouble note seconds kb out said")

# What `solve` answered: how a row calls it; what `check` has to say of it; the plan's cost; what no valid plan costs
# less than; and the splits that a limit tells. What it doesn't tell is None.
Answer = namedtuple("Answer", "status verdict cost bound splits")


def main() -> None:
    program, folder, seconds, search, limit, *problem = sys.argv[1:]
    print_row(folder, problem, lambda places: outcome(program, search, places, limit, float(seconds)))


def print_row(folder: str, problem: list[str], fields_of: Callable[[list[str]], Fields]) -> None:
    """Prints the fields of a row. The run that finds them is in a folder of its own, and gets the problem, MAP, SCEN
    and K, with whole paths.
    """
    own = os.path.join(os.path.abspath(folder), f"run-{os.urandom(8).hex()}")
    places = [*map(os.path.abspath, problem[:2]), *problem[2:]]
    os.mkdir(own)
    os.chdir(own)
    signal.pthread_sigmask(signal.SIG_BLOCK, {signal.SIGCHLD})
    try:
        print(json.dumps(fields_of(places)), flush=True)
    except OSError as error:
        sys.exit(f"{error.filename}: {error.strerror}")
    finally:
        remove(own)


def remove(folder: str) -> None:
    """Removes a folder of files, unless tools/sweep, which stops, is doing so."""
    try:
        for name in os.listdir(folder):
            os.remove(os.path.join(folder, name))
        os.rmdir(folder)
    except FileNotFoundError:
        pass


def outcome(program: str, search: str, problem: list[str], limit: str, seconds: float) -> Fields:
    """The fields of the row of this run, but for the names of the problem and of the search."""
    option = [] if search == PLAIN else ["--search", search]
    solved = run([program, "solve", *option, *problem, limit, "plan", "cert"], seconds)
    row = {"solve_seconds": solved.seconds, "solve_kb": solved.kb, "note": solved.note, "status": solved.trouble}
    if solved.trouble:
        return row
    answer = answer_of(solved)
    if answer is None:
        return {**row, "status": "failed", "note": no_answer(solved)}
    row.update(told(answer), note=first_line(first("err")))
    row.update(checked(program, problem, seconds, answer.verdict))
    return row


def answer_of(solved: Ended) -> Answer | None:
    """What a call of `solve` answered, none where that isn't an answer."""
    for number, form, status, verdict in ANSWERS:
        if number == solved.status and (found := re.fullmatch(form, solved.out)):
            said = found.groupdict()
            cost = said.get("cost")
            return Answer(status, verdict.format(**said), cost, said.get("bound", cost), said.get("splits"))
    return None


def no_answer(solved: Ended) -> str:
    """In words, what `solve` said in place of an answer."""
    return f"solve: status {solved.status}, {solved.said}"


def told(answer: Answer) -> Fields:
    """The fields of an answer, of which `plan` and `cert` are here."""
    return {"status": answer.status, "cost": answer.cost, "bound": answer.bound,
            "splits": count_splits("cert") if answer.splits in (None, "ticks") else answer.splits,
            "certificate_bytes": size("cert"), "makespan": makespan("plan") if answer.cost else None}


def checked(program: str, problem: list[str], seconds: float, wanted: str) -> Fields:
    """The fields that `check` adds, of which the status stands only where it doesn't confirm the answer."""
    ended = run([program, "check", *problem, "plan", "cert"], seconds)
    row = {"check_seconds": ended.seconds, "check_kb": ended.kb}
    if ended.status == 0 and ended.out == wanted + "\n":
        return {**row, "verdict": wanted}
    if ended.status == 1 and ended.out.startswith("refused "):
        return {**row, "status": "refused", "verdict": ended.out.strip(), "note": "check refused what solve answered"}
    note = ended.note or f"status {ended.status}, {ended.said}"
    return {**row, "status": "unchecked", "note": f"check: {note}"}


def run(words: list[str], seconds: float) -> Ended:
    """Runs a program, for so many seconds by the clock at most."""
    child = os.fork()
    if child == 0:
        become(words)
    is_late = not ends_by(time.monotonic() + seconds, child)
    kill(child)
    _, status, usage = os.wait4(child, 0)
    code = os.waitstatus_to_exitcode(status)
    trouble, note = "", ""
    if is_late:
        trouble, note = "time-out", f"{words[1]} took more than {seconds:g} seconds"
    elif code < 0:
        trouble, note = "killed", f"{words[1]} was killed by signal {-code}"
    text = first("out")
    said = repr(first_line(first("err") or text))
    return Ended(code, trouble, note, round(usage.ru_utime + usage.ru_stime, 3), usage.ru_maxrss, text, said)


def become(words: list[str]) -> None:
    """Runs a program in place of this process, which is a child just made, in a process group of its own."""
    try:
        os.setpgid(0, 0)
        signal.pthread_sigmask(signal.SIG_UNBLOCK, {signal.SIGCHLD})
        for stream, place, way in ((0, os.devnull, "rb"), (1, "out", "wb"), (2, "err", "wb")):
            with open(place, way) as file:
                os.dup2(file.fileno(), stream)
        os.execv(words[0], words)
    except OSError as error:
        os.write(2, f"{words[0]} can't be started: {error.strerror}\n".encode())
    finally:
        os._exit(127)


def ends_by(end: float, child: int) -> bool:
    """Waits for the child, until this moment at most, and answers whether it has ended. It isn't reaped yet, so its
    number is still its own. Where tools/sweep has gone, the run ends here.
    """
    parent = os.getppid()
    while os.waitid(os.P_PID, child, os.WEXITED | os.WNOHANG | os.WNOWAIT) is None:
        left = end - time.monotonic()
        if left <= 0:
            return False
        if os.getppid() != parent:
            kill(child)
            sys.exit("tools/sweep has gone")
        signal.sigtimedwait({signal.SIGCHLD}, min(LOOK, left))
    return True


def kill(child: int) -> None:
    """Kills the child, if it is still at work, and all that it started."""
    try:
        os.killpg(child, signal.SIGKILL)
    except (ProcessLookupError, PermissionError):
        pass


def first_line(text: str) -> str:
    """The first line, cut if it is long."""
    return (text.splitlines() or [""])[0][:SHOWN]


def first(path: str) -> str:
    """The beginning of what a file holds."""
    with open(path, "rb") as file:
        return file.read(READ).decode(errors="replace")


def size(path: str) -> int | None:
    """How many bytes a file has, none where there is no file."""
    return os.path.getsize(path) if os.path.isfile(path) else None


def count_splits(path: str) -> int | None:
    """How many lines of a certificate are splits; none, where there is no certificate."""
    if size(path) is None:
        return None
    found, rest = 0, b"\n"
    with open(path, "rb") as file:
        while block := file.read(1 << 16):
            # Of each block what follows its last line end is left for the next.
            lines, end, rest = (rest + block).rpartition(b"\n")
            found += count_in(lines)
            rest = end + rest
    return found + count_in(rest)


def makespan(path: str) -> int | None:
    """The last tick at which an agent of a plan arrives, none of what isn't a plan. Of a line only the beginning is
    read, since a path may be long.
    """
    if size(path) is None:
        return None
    with open(path, "rb") as file:
        lines = iter(lambda: file.readline(READ), b"")
        costs = [re.match(rb"path [0-9]+ ([0-9]+) ", line) for line in lines]
    return max((int(cost[1]) for cost in costs if cost), default=None)


def count_in(lines: bytes) -> int:
    """How many of the lines that follow a line end are splits, in the tree or in that of a lemma by cases."""
    return sum(lines.count(word) for word in (b"\nvertex ", b"\nswap ", b"\ncost ", b"\ncosts "))


if __name__ == "__main__":
    main()
