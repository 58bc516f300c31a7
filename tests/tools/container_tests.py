"""Tries Dockerfile: that what it copies suffices for cargo to build the program, and for the tools to run. Docker and
podman build the image, each where it works and has the images on which ours rests, and run the program and the tools
in it.
"""

import os
import re
import shutil
import signal
import subprocess
import tempfile
from pathlib import Path

from harness import TESTS

TOP = TESTS.parent
CROSSING = TESTS / "cases" / "solve-crossing"
ENGINES = "docker", "podman"
IMAGE = "localhost/mapf-tried-by-its-tests"

# What a call may take. The longest fetch the images on which ours rests, and build the program.
SECONDS = 600

# What is run in a container, one after the other, and what it has to print.
RUNS = {
    "solve": (["mapf", "solve", "map", "scen", "2", "100", "new-plan", "new-cert"], "cost 5\n"),
    "check": (["mapf", "check", "map", "scen", "2", "new-plan", "new-cert"], "optimal 5\n"),
    "recheck": (["recheck", "map", "scen", "2", "plan", "cert"], "optimal 5\n"),
    "verify": (["verify", "map", "scen", "2", "plan"], "cheapest: 5\n"),
    "draw": (["sh", "-c", "draw map scen 2 plan | tail -n 1"], "</html>\n"),
}


def tests(tally):
    text = (TOP / "Dockerfile").read_text()
    building, running = (re.findall(r"(?m)^COPY ([^-].*) \S+$", stage) for stage in text.split("\nFROM ")[1:])
    building, running = (" ".join(copied).split() for copied in (building, running))
    tally.add("container, what goes into it", context_faults([*building, *running]))
    with tempfile.TemporaryDirectory() as name:
        try_building(tally, Path(name), building)
    with tempfile.TemporaryDirectory() as name:
        try_running(tally, Path(name), running)
    images = re.findall(r"(?m)^ARG \w+=(.+)$", text)
    for engine in ENGINES:
        hindrance = hindrance_of(engine, images)
        if hindrance is not None:
            tally.skip(f"container, {engine}", hindrance)
            continue
        with tempfile.TemporaryDirectory() as name:
            try_image(tally, engine, Path(name))


def hindrance_of(engine, images):
    """Why an engine can't build and run an image that rests on these, None where it can."""
    if shutil.which(engine) is None:
        return "it isn't installed"
    if ended(engine, "info").returncode != 0:
        return "it doesn't work"
    for image in images:
        if ended(engine, "image", "inspect", image).returncode != 0 and ended(engine, "pull", image).returncode != 0:
            return f"{image} can't be had"
        run = ended(engine, "run", "--rm", image, "true")
        if run.returncode != 0:
            return f"it can't run {image}: {run.stderr[-300:]!r}"
    return None


def ended(*words, cwd=None, env=None):
    """How a call ended, with no status where that took too long. It may leave processes behind that keep its outputs,
    so these are files.
    """
    with tempfile.TemporaryFile("w+") as out, tempfile.TemporaryFile("w+") as errors:
        process = subprocess.Popen(words, cwd=cwd, env=env, stdin=subprocess.DEVNULL, stdout=out, stderr=errors,
                                   start_new_session=True)
        try:
            status = process.wait(SECONDS)
        except subprocess.TimeoutExpired:
            os.killpg(process.pid, signal.SIGKILL)
            process.wait()
            status = None
        for file in (out, errors):
            file.seek(0)
        return subprocess.CompletedProcess(words, status, out.read(), errors.read())


def context_faults(copied):
    """Of a clone what is copied goes into the image, and nothing else."""
    lines = (TOP / ".dockerignore").read_text().splitlines()
    let_in = sorted(line[1:] for line in lines if line.startswith("!"))
    return [] if lines[0] == "*" and let_in == sorted(copied) else [f"{let_in} are let in, {sorted(copied)} are copied"]


def copy(names, folder):
    """Copies these files and folders of the tree, without what is built."""
    for name in names:
        if (TOP / name).is_dir():
            shutil.copytree(TOP / name, folder / name, ignore=shutil.ignore_patterns("out", "__pycache__"))
        else:
            shutil.copy(TOP / name, folder / name)


def try_building(tally, folder, names):
    """Has cargo check the sources where nothing stands but what the first stage copies."""
    if shutil.which("cargo") is None:
        tally.skip("container, what cargo needs", "cargo isn't there")
        return
    copy(names, folder)
    checked = ended("cargo", "check", "--offline", "--bin", "mapf", cwd=folder,
                    env={**os.environ, "CARGO_TARGET_DIR": str(folder / "target")})
    tally.add("container, what cargo needs", [checked.stderr[-500:]] if checked.returncode else [])


def try_running(tally, folder, names):
    """Runs the program and the tools where nothing stands but what the second stage copies."""
    copy(names, folder)
    shutil.copy(os.environ["MAPF"], folder / "mapf")
    case = shutil.copytree(CROSSING, folder / "case")
    environment = {name: value for name, value in os.environ.items() if name != "MAPF"}
    environment["PATH"] = f"{folder}:{folder / 'tools'}:{environment['PATH']}"
    for title, (words, wanted) in RUNS.items():
        run = ended(*words, cwd=case, env=environment)
        faults = [] if run.stdout == wanted else [f"{run.stdout!r}, {run.stderr[-300:]!r}"]
        tally.add(f"container, {title} by its files", faults)


def try_image(tally, engine, folder):
    """Builds the image of this tree, and removes it at the end."""
    built = ended(engine, "build", "--tag", IMAGE, ".", cwd=TOP)
    tally.add(f"container, built by {engine}", [built.stderr[-500:]] if built.returncode else [])
    if built.returncode:
        return
    case = shutil.copytree(CROSSING, folder / "case")
    for title, (words, wanted) in RUNS.items():
        run = ended(engine, "run", "--rm", "--volume", f"{case}:/work", IMAGE, *words)
        faults = [] if run.stdout == wanted else [f"{run.stdout!r}, {run.stderr[-300:]!r}"]
        tally.add(f"container, {engine}, {title}", faults)
    ended(engine, "image", "rm", IMAGE)
