"""Draws a plan: writes one page that stands alone, to be opened in a browser, or a picture or film of the plan."""

import argparse
import base64
import html
import json
import re
import sys
from collections.abc import Iterator, Sequence
from itertools import groupby, islice
from pathlib import Path
from typing import Any, NoReturn

from .answers import add_options, read_answer
from .certificate_page import certificate_data
from .colours import colours
from .pictures import Scene, gif_of, png_of
from .plans import Agent, Cell, Fault, Grid, conflicts_at, cost_of, cut_waits, faults_of_path, ticks_of
from .process import ToolError, clear_progress, progress, run_tool
from .texts import number_between, problem_parser, read_agents, read_map

# What the page is made of.
PAGE = Path(__file__).resolve().parent / "page"
STYLES = "theme.css", "page.css", "tree.css"
SCRIPTS = "plan.js", "map.js", "certificate.js", "tree.js", "labels.js", "search.js", "page.js"

# How many faults of a plan the page lists.
MOST_FAULTS = 1000

# The greatest tick of which a picture may be asked for.
MOST_TICK = 9_999_999

LETTERS = {(1, 0): "r", (-1, 0): "l", (0, 1): "d", (0, -1): "u", (0, 0): "w"}

EXAMPLE = """PLAN is a plan text, as mapf solve writes it, or what another solver left: all that tools/verify reads.

example:
  ./mapf solve examples/random-32-32.map examples/random-32-32.scen 8 100 plan.txt cert.txt
  tools/draw examples/random-32-32.map examples/random-32-32.scen 8 plan.txt > plan.html
  tools/draw examples/random-32-32.map examples/random-32-32.scen 8 plan.txt --gif > plan.gif
  tools/draw examples/random-32-32.map examples/random-32-32.scen 8 plan.txt --cert cert.txt > plan.html

A certificate is judged by tools/recheck before the page is written. That takes a minute for 15 MB, and gigabytes of
memory for many agents on large maps.

The page needs no network and no other file. Behind '#' the page's address may name the tick at which it opens,
and an agent to be picked: plan.html#tick=12&agent=3

exit status:
  0    the page, picture or film is written; also of a plan that isn't valid, whose faults it marks, and beside a
       certificate that is refused
  2    an error, with a message on standard error"""


def main() -> int:
    words = words_given()
    kind = "gif" if words.gif else "html" if words.png is None else "png"
    if sys.stdout.isatty():
        raise ToolError(f"what is drawn would fill this terminal: end the command with > plan.{kind}")
    grid = read_map(words.map)
    agents = read_agents(words.scen, grid, words.k)
    starts = [agent.start for agent in agents]
    paths = read_answer(words.plan, starts, words.format, words.exchange_xy, words.exchange_ud)
    faults = list(islice(all_faults(grid, agents, paths), MOST_FAULTS + 1))
    names = [Path(name).name for name in (words.map, words.scen, words.plan)]
    if kind == "html":
        data = data_of(names, grid, agents, paths, faults)
        if words.cert is not None:
            data["certificate"] = certificate_data(words.cert, grid, agents, paths)
            tell_refusal(data["certificate"]["verdict"])
        sys.stdout.write(page_of(names, data))
    else:
        write_picture(Scene(grid, agents, paths, faults), words.png)
    if faults:
        count = f"more than {MOST_FAULTS}" if len(faults) > MOST_FAULTS else str(len(faults))
        done = "the page marks and lists them" if kind == "html" else "a page, without an option, lists them"
        print(f"draw: the plan isn't valid, faults: {count}; {done}", file=sys.stderr)
    return 0


def tell_refusal(verdict: str) -> None:
    """Tells on standard error of a certificate that tools/recheck doesn't accept."""
    if verdict.startswith("refused "):
        shown = "nothing of the certificate" if verdict.startswith("refused C5") else (
            "the certificate as far as it was read")
        print(f"draw: tools/recheck says '{verdict}'; the page shows {shown}", file=sys.stderr)


def write_picture(scene: Scene, tick: int | None) -> None:
    """Writes the picture of a tick, or the film of all ticks where none is named."""
    if tick is not None:
        sys.stdout.buffer.write(png_of(scene, tick))
        return
    for number, part in enumerate(gif_of(scene)):
        progress(f"drawing: tick {number} of {scene.ticks() - 1}")
        sys.stdout.buffer.write(part)
    clear_progress()


def words_given() -> argparse.Namespace:
    """What the words of the call ask for."""
    parser = problem_parser("draw", __doc__, EXAMPLE)
    parser.add_argument("plan", metavar="PLAN", help="the plan")
    add_options(parser)
    pictures = parser.add_mutually_exclusive_group()
    pictures.add_argument("--cert", metavar="CERT",
                          help="a certificate beside the plan: the page shows its tree, and what tools/recheck says")
    pictures.add_argument("--png", metavar="TICK", type=number_between(0, MOST_TICK),
                          help="in place of the page a picture of this tick, as PNG")
    pictures.add_argument("--gif", action="store_true",
                          help="in place of the page a film, as GIF, of four ticks in a second")
    return parser.parse_args()


def all_faults(grid: Grid, agents: list[Agent], paths: list[list[Cell]]) -> Iterator[Fault]:
    """All that is wrong with the plan, one after another: first of each agent, then each conflict, by tick."""
    for agent, (task, path) in enumerate(zip(agents, paths)):
        yield from faults_of_path(grid, agent, task, path)
    for tick, here, there in ticks_of(paths):
        if tick % 1000 == 0:
            progress(f"looking for conflicts: tick {tick}")
        yield from conflicts_at(tick, here, there)
    clear_progress()


def data_of(names: Sequence[str], grid: Grid, agents: Sequence[Agent], paths: Sequence[list[Cell]],
            faults: Sequence[Fault]) -> dict[str, Any]:
    """What the page knows, as short as it can be said."""
    costs = [cost_of(path) for path in paths]
    return {
        "map": names[0],
        "scenario": names[1],
        "plan": names[2],
        "width": grid.width,
        "height": grid.height,
        "blocked": blocked_bits(grid),
        "cost": sum(costs),
        "agents": [
            {"colour": colour, "start": agent.start, "goal": agent.goal, "cost": cost, "path": moves_of(path)}
            for colour, agent, cost, path in zip(colours(len(agents)), agents, costs, paths)],
        "faults": [
            {"kind": fault.kind, "agents": fault.agents, "tick": fault.tick, "cells": fault.cells, "words": fault.words}
            for fault in sorted(faults[:MOST_FAULTS], key=lambda fault: fault.tick)],
        "more": len(faults) > MOST_FAULTS,
    }


def blocked_bits(grid: Grid) -> str:
    """A bit for each cell, row after row, in base64: 1 where it is blocked. The last byte is filled up with 0."""
    bits = "".join("0" if grid.is_free((x, y)) else "1" for y in range(grid.height) for x in range(grid.width))
    bits += "0" * (-len(bits) % 8)
    return base64.b64encode(int(bits, 2).to_bytes(len(bits) // 8, "big")).decode()


def moves_of(path: list[Cell]) -> str:
    """A path as its first cell and its moves: '0,1wr2' waits in (0,1), and goes twice to the right. Where a step is
    none of the five, the cell that it leads to stands behind '@'."""
    path = cut_waits(path)
    steps = [LETTERS.get((to_x - x, to_y - y), f"@{to_x},{to_y}") for (x, y), (to_x, to_y) in zip(path, path[1:])]
    parts = ["%d,%d" % path[0]]
    for step, equal in groupby(steps):
        count = len(list(equal))
        parts.append(step * count if step[0] == "@" or count == 1 else f"{step}{count}")
    return "".join(parts)


def page_of(names: Sequence[str], data: dict[str, Any]) -> str:
    """The page, with its style, its script and the data in their places."""
    compact = json.dumps(data, separators=(",", ":")).replace("<", "\\u003c")
    texts = {
        "TITLE": html.escape(f"{names[2]}: {len(data['agents'])} agents on {names[0]}"),
        "STYLE": "\n".join(part(name) for name in STYLES),
        "DATA": compact,
        "SCRIPT": "\n".join(part(name) for name in SCRIPTS),
    }
    return re.sub(r"\[(TITLE|STYLE|DATA|SCRIPT)\]", lambda found: texts[found[1]], part("page.html"))


def part(name: str) -> str:
    """A file of which the page is made."""
    try:
        return (PAGE / name).read_text(encoding="utf-8")
    except OSError as error:
        raise ToolError(f"{PAGE / name} can't be read, and the page is made of it: {error.strerror}") from None


def command() -> NoReturn:
    """Runs the tool with the words of the call."""
    run_tool(main)
