"""Sends tools/verify the signals that end it: what it started ends too, and no file is left."""

import contextlib
import os
import shutil
import signal
import subprocess
import sys
import tempfile
from pathlib import Path

from harness import SECONDS, awaited, heed_signals
from verify_tests import CROSSING_MAP, CROSSING_SCEN, PATHS, VERIFY, script

# Runs the tool that the words name behind a signal and a number of seconds. CHANGE stands for what has the tool send
# itself the signal.
SIGNALLING = """
import os, runpy, subprocess, sys, tempfile, time
number, seconds, sys.argv = int(sys.argv[1]), float(sys.argv[2]), sys.argv[3:]
CHANGE
sys.path.insert(0, os.path.dirname(sys.argv[0]))
runpy.run_path(sys.argv[0], run_name="__main__")
"""

# The signal comes as soon as the search was started, before the tool has taken note of what it started.
AS_SEARCH_STARTS = """
begin = subprocess.Popen.__init__
def begin_and_signal(process, words, **options):
    begin(process, words, **options)
    if words[1] == "solve":
        end = time.monotonic() + seconds
        while not (os.path.exists("own") and os.path.getsize("own")):
            if time.monotonic() > end:
                sys.exit("the search doesn't start")
            time.sleep(0.01)
        os.kill(os.getpid(), number)
subprocess.Popen.__init__ = begin_and_signal
"""

# The signal comes as soon as the folder of the tool's files was made.
AS_FOLDER_IS_MADE = """
make = tempfile.mkdtemp
def make_and_signal(**options):
    made = make(**options)
    os.kill(os.getpid(), number)
    return made
tempfile.mkdtemp = make_and_signal
"""


def tests(tally):
    for number in (signal.SIGINT, signal.SIGTERM, signal.SIGHUP):
        tally.add(f"verify, ended by signal {number}", ended_by(number))
        tally.add(f"verify, ended by signal {number} as the search starts", ended_by_itself(number, AS_SEARCH_STARTS))
        as_made = ended_by_itself(number, AS_FOLDER_IS_MADE)
        tally.add(f"verify, ended by signal {number} as it makes its folder", as_made)
    tally.add("verify, ended as the program is built", ended_as_built(("own", signal.SIGHUP)))
    twice = ended_as_built(("own", signal.SIGHUP), ("told", signal.SIGTERM))
    tally.add("verify, ended as the program is built, and once more while that ends", twice)


def ended_by(number):
    """A signal ends the search that is at work, and leaves no file."""
    with tempfile.TemporaryDirectory() as name:
        folder = Path(name)
        return faults_of_signals(folder, [VERIFY], {"MAPF": str(searching(folder))}, number, [("own", number)])


def searching(folder):
    """A program whose search tells its process in the file `own` and goes on for long."""
    return script(folder, f'[ "$1" != solve ] || {{ echo $$ >"{folder}/own"; exec sleep 1000; }}\n')


def ended_by_itself(number, change):
    """The same of a call that sends itself the signal."""
    with tempfile.TemporaryDirectory() as name:
        folder = Path(name)
        words = ["-c", SIGNALLING.replace("CHANGE", change), str(int(number)), str(SECONDS), VERIFY]
        return faults_of_signals(folder, words, {"MAPF": str(searching(folder))}, number, [])


def ended_as_built(*sent):
    """The same of a build. When it is told to end, it notes so in the file `told`, and ends what it started a moment
    later. The tool waits for that, and its status is that of the first signal.
    """
    with tempfile.TemporaryDirectory() as name:
        folder = Path(name)
        tree = folder / "tree"
        for part in ("tools", "python"):
            shutil.copytree(VERIFY.parent.parent / part, tree / part)
        script(tree, "")
        (tree / "prove").write_text(
            f'#!/bin/bash\nsleep 1000 &\nown=$!\n'
            f'trap "echo >{folder}/told; sleep 0.5; kill $own; wait $own; exit 130" TERM\n'
            f'echo $own >"{folder}/own"\nwait\n')
        (tree / "prove").chmod(0o755)
        return faults_of_signals(folder, [tree / "tools" / "verify"], {"MAPF": ""}, sent[0][1], sent)


def faults_of_signals(folder, words, environment, number, sent):
    """Sends each signal to a call as soon as its file has a line, and answers what is wrong with the end of the call,
    which has to be by signal `number`. The file `own` tells the process that works for the call.
    """
    (folder / "tmp").mkdir()
    for part, text in (("map", CROSSING_MAP), ("scen", CROSSING_SCEN), ("answer", PATHS["cheapest"])):
        (folder / part).write_text(text)
    process = subprocess.Popen(
        [sys.executable, *words, "map", "scen", "2", "answer"], cwd=folder, stdin=subprocess.DEVNULL,
        env={**os.environ, "TMPDIR": str(folder / "tmp"), **environment}, stderr=subprocess.DEVNULL,
        preexec_fn=heed_signals, start_new_session=True)
    try:
        faults = [fault for name, each in sent for fault in faults_of_sending(process, folder / name, each)]
        status = process.wait(SECONDS)
        faults += [] if status == 128 + number else [f"status {status}"]
        if not awaited(lambda: not Path(f"/proc/{content(folder / 'own').strip() or 'none'}").exists()):
            faults.append("what works for it goes on")
        return faults + [f"{path.name} is left" for path in (folder / "tmp").iterdir()]
    finally:
        kill_all(process)


def faults_of_sending(process, file, number):
    """Sends the signal as soon as the file has a line. A call that ends before is at fault."""
    awaited(lambda: content(file).endswith("\n") or process.poll() is not None)
    if not content(file).endswith("\n"):
        return [f"{file.name} isn't written"]
    process.send_signal(number)
    return []


def kill_all(process):
    """Ends what a call has left, and the call itself where it is still at work."""
    with contextlib.suppress(ProcessLookupError):
        os.killpg(process.pid, signal.SIGKILL)
    process.wait()


def content(path):
    return path.read_text() if path.exists() else ""
