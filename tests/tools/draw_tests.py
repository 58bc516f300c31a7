"""Tries tools/draw: what its page knows, and, where a browser is installed, what the page shows and does."""

import base64
import json
import re
import subprocess
import sys
import tempfile
import time
from pathlib import Path

from answers_tests import spelled
from browser import Browser, installed
from harness import TESTS

from mapf.tools.colours import colours
from mapf.tools.texts import plan_text, read_agents, read_map

TOP = TESTS.parent
DRAW = TOP / "tools" / "draw"
CROSSING = TESTS / "cases" / "solve-crossing"
MAP, SCEN = str(CROSSING / "map"), str(CROSSING / "scen")

VALID = [[(0, 1), (0, 1), (1, 1), (2, 1)], [(1, 0), (1, 1), (1, 2)]]
MEET = [[(0, 1), (1, 1), (2, 1)], [(1, 0), (1, 1), (1, 2)]]
BAD = [[(0, 1), (1, 1), (1, 0), (2, 2)], [(1, 0), (1, 0), (1, 1), (1, 2)]]

# Two agents go one way and meet at four ticks; at the third they are off the map. Several faults are at one tick.
FAULTY = [[(0, 1), (1, 1), (1, 2), (1, 3), (1, 2), (1, 1), (2, 1)], [(1, 0), (1, 1), (1, 2), (1, 3), (1, 2)]]
FAULTS_BY_TICK = [(1, "vertex"), (2, "step"), (2, "step"), (2, "vertex"), (3, "vertex"), (4, "vertex")]

# Where the faults of FAULTY are off the map, by their place in that list.
OFF_THE_MAP = 4

# So many legs has a path that goes to and fro.
LEGS = 600_000

# Windows in which there is little room.
SMALL = [(1100, 300), (820, 260), (700, 300), (568, 320), (320, 568), (640, 480), (360, 640)]

# A large map, and its agents: agent i goes so many cells to the right in row 2i + 1.
SIDE, AGENTS, STEPS = 512, 200, 100


def tests(tally):
    with tempfile.TemporaryDirectory() as name:
        folder = Path(name)
        tally.add("draw, colours", colour_faults())
        tally.add("draw, data", data_faults(folder))
        tally.add("draw, faults of a plan", listed_faults(folder))
        tally.add("draw, stands alone", alone_faults(folder))
        tally.add("draw, what other solvers write", other_answers(folder))
        tally.add("draw, cells outside the map", outside_faults(folder))
        tally.add("draw, a large map", large_faults(folder))
        for title, faults in refusals(folder).items():
            tally.add(f"draw, {title}", faults)
        if installed():
            browser_tests(tally, folder)
        else:
            tally.skip("draw, in a browser", "no chromium is installed")


def browser_tests(tally, folder):
    with Browser(installed()) as browser:
        for title, test in IN_BROWSER.items():
            try:
                faults = test(browser, folder)
            except (OSError, TimeoutError) as error:
                faults = [str(error)]
            tally.add(f"draw, in a browser, {title}", faults or browser.problems)


# Pages.

def drawn(words, out=None):
    """Runs the tool. The page goes to a file, where one is named."""
    ended = subprocess.run([sys.executable, str(DRAW), *map(str, words)], stdin=subprocess.DEVNULL, capture_output=True)
    if out is not None:
        out.write_bytes(ended.stdout)
    return ended


def page(folder, paths, grid=MAP, scenario=SCEN, name="page"):
    """The page of a plan of these paths, as a file and as text."""
    plan, out = folder / f"{name}.txt", folder / f"{name}.html"
    plan.write_text(plan_text(paths))
    ended = drawn([grid, scenario, len(paths), plan], out)
    if ended.returncode != 0:
        raise OSError(f"draw ended with {ended.returncode}, {ended.stderr.decode()}")
    return out, out.read_text()


def data_in(text):
    return json.loads(re.search(r'<script type="application/json" id="data">(.*?)</script>', text, re.DOTALL)[1])


def cells_of(moves):
    """The path that moves spell, told here once more."""
    steps = {"r": (1, 0), "l": (-1, 0), "d": (0, 1), "u": (0, -1), "w": (0, 0)}
    x, y, rest = re.fullmatch(r"(-?\d+),(-?\d+)(.*)", moves).groups()
    path = [(int(x), int(y))]
    for letter, count, to_x, to_y in re.findall(r"([rlduw])(\d*)|@(-?\d+),(-?\d+)", rest):
        for _ in range(int(count or 1)):
            dx, dy = steps.get(letter, (0, 0))
            path.append((path[-1][0] + dx, path[-1][1] + dy) if letter else (int(to_x), int(to_y)))
    return path


def large_problem(folder):
    """A map and scenario of 200 agents that go to the right, with their paths."""
    rows = ["".join("@" if y % 2 == 0 and x % 3 else "." for x in range(SIDE)) for y in range(SIDE)]
    paths = [[(agent + step, 2 * agent + 1) for step in range(STEPS + 1)] for agent in range(AGENTS)]
    lines = ["0 large.map %d %d %d %d %d %d %d" % (SIDE, SIDE, *path[0], *path[-1], STEPS) for path in paths]
    grid, scenario = folder / "large.map", folder / "large.scen"
    grid.write_text("\n".join(["type octile", f"height {SIDE}", f"width {SIDE}", "map", *rows, ""]))
    scenario.write_text("\n".join(["version 1", *lines, ""]))
    return grid, scenario, paths


# Without a browser.

def colour_faults():
    faults = []
    for count, least in ((200, 15), (20, 60)):
        made = colours(count)
        parts = [[int(colour[at:at + 2], 16) for at in (1, 3, 5)] for colour in made]
        pairs = [(one, other) for at, one in enumerate(parts) for other in parts[:at]]
        nearest = min(sum(abs(a - b) for a, b in zip(one, other)) for one, other in pairs)
        if len(set(made)) != count or nearest < least:
            faults.append(f"{count} colours, of which two differ by {nearest} of 765")
    return faults


def data_faults(folder):
    for paths in (VALID, MEET, BAD):
        data = data_in(page(folder, paths)[1])
        if [cells_of(agent["path"]) for agent in data["agents"]] != paths:
            return [f"the paths {paths} are {[agent['path'] for agent in data['agents']]}"]
        costs = [agent["cost"] for agent in data["agents"]]
        if costs != [len(path) - 1 for path in paths] or data["cost"] != sum(costs):
            return [f"the costs of {paths} are {costs}, and their sum {data['cost']}"]
    name = str(TOP / "examples" / "random-32-32")
    grid = read_map(name + ".map")
    paths = [[agent.start] for agent in read_agents(name + ".scen", grid, 5)]
    bits = base64.b64decode(data_in(page(folder, paths, name + ".map", name + ".scen")[1])["blocked"])
    wrong = [(x, y) for y in range(32) for x in range(32)
             if bool(bits[(32 * y + x) // 8] & 128 >> (32 * y + x) % 8) == grid.is_free((x, y))]
    return [f"cells are blocked or free in error: {wrong[:5]}"] if wrong else []


def listed_faults(folder):
    """The faults that a page lists, by kind, agents and tick."""
    wanted = {
        "VALID": (VALID, []),
        "MEET": (MEET, [("vertex", [0, 1], 1)]),
        "BAD": (BAD, [("swap", [0, 1], 1), ("step", [0], 2), ("end", [0], 3)]),
    }
    faults = []
    for name, (paths, those) in wanted.items():
        found = [(fault["kind"], fault["agents"], fault["tick"]) for fault in data_in(page(folder, paths)[1])["faults"]]
        faults += [] if found == those else [f"{name}: {found}, wanted {those}"]
    often = data_in(page(folder, [[(0, 1)], [(1, 0), *[(0, 0), (0, 1)] * 1100]])[1])
    if len(often["faults"]) != 1000 or not often["more"]:
        faults.append(f"of a plan with 1,102 faults {len(often['faults'])} are listed")
    return faults


def alone_faults(folder):
    """A page names no other file and no place in a network, whatever the names of files are."""
    grid = folder / "a<b></script><b>[DATA]&'\".map".replace("/", "_")
    grid.write_bytes(Path(MAP).read_bytes())
    text = page(folder, VALID, grid)[1]
    named = re.findall(r"(?:https?:)?//\w+[^\s\"']*|\bsrc=|@import|url\(", re.sub(r"(?m)^\s*// .*$", "", text))
    faults = [f"the page names {named}"] if named else []
    if data_in(text)["map"] != grid.name or "<b>" in text.partition("<style>")[0]:
        faults.append("the name of the map isn't kept, or is read as HTML")
    return faults


def outside_faults(folder):
    """Cells left of the map and above it, which a plan text can't have, and jumps to and from them."""
    paths = [[(-3, 1), (-2, 1), (0, -7), (-1, -7), (2, 1)], [(1, 0), (1, -1)]]
    (folder / "outside").write_text(spelled(paths)["paths"])
    ended = drawn([MAP, SCEN, 2, folder / "outside"], folder / "outside.html")
    found = [cells_of(agent["path"]) for agent in data_in(ended.stdout.decode())["agents"]]
    return [] if found == paths else [f"the paths are {found}"]


def other_answers(folder):
    """One plan in each format, and with x and y exchanged, gives one page, but for the name of the file."""
    words = {
        "plan": (spelled(VALID)["plan"], []),
        "paths": (spelled(VALID)["paths"], []),
        "lacam": (spelled(VALID)["lacam"], ["--format", "lacam"]),
        "yaml": (spelled(VALID)["yaml"], []),
        "exchanged": (spelled([[(y, x) for x, y in path] for path in VALID])["paths"], ["--exchange-xy"]),
    }
    pages = {}
    for name, (text, more) in words.items():
        (folder / "answer").write_text(text)
        pages[name] = drawn([MAP, SCEN, 2, folder / "answer", *more]).stdout
    return [f"{name} gives another page" for name in words if pages[name] != pages["plan"] or not pages[name]]


def large_faults(folder):
    grid, scenario, paths = large_problem(folder)
    _, text = page(folder, paths, grid, scenario, "large")
    return [f"the page has {len(text)} bytes"] if len(text) > 200_000 or data_in(text)["faults"] else []


def refusals(folder):
    """What the tool refuses, in a line that says what to mend."""
    plan, none = folder / "plan.txt", folder / "none.txt"
    plan.write_text(plan_text(VALID))
    none.write_text("mapf-plan 2\nagents 2\nimpossible\nend\n")
    runs = {
        "a plan of other agents": ([MAP, SCEN, 1, plan], "give 2 as K"),
        "no plan": ([MAP, SCEN, 2, none], "holds no plan: its answer is 'impossible'"),
        "no map": ([folder / "not-there", SCEN, 2, plan], "can't be read"),
        "another text": ([MAP, SCEN, 2, SCEN], "none of the formats"),
        "no number": ([MAP, SCEN, "two", plan], "number from 1 to 200"),
    }
    found = {}
    for title, (words, said) in runs.items():
        ended = drawn(words)
        is_told = ended.returncode == 2 and ended.stdout == b"" and said in ended.stderr.decode()
        found[title] = [] if is_told else [f"status {ended.returncode}, {ended.stderr.decode()!r}, wanted {said!r}"]
    helped = drawn(["--help"])
    found["help"] = [] if helped.returncode == 0 and b"example:" in helped.stdout else [f"{helped.stdout!r}"]
    return found


# In a browser.

def opened(browser, folder, paths, at="", **where):
    out, text = page(folder, paths, **where)
    browser.open(f"file://{out}{at}")
    return data_in(text)


def point_of(browser, cell, dx=0.0, dy=0.0):
    """Where the middle of a cell is on the page, and so many cells beside it."""
    return browser.value(
        f"(box => [box.left + view.left + ({cell[0]} + 0.5 + {dx}) * view.scale,"
        f" box.top + view.top + ({cell[1]} + 0.5 + {dy}) * view.scale])(canvas.getBoundingClientRect())")


def colour_in(browser, picture, cell):
    """The colour of an agent's disc in a cell, beside the number that stands in the middle."""
    ratio = browser.value("devicePixelRatio")
    x, y = (part * ratio for part in point_of(browser, cell, 0, -0.28))
    return picture.at(x, y)


def wrong_colours(browser, data, paths, ticks):
    faults = []
    for tick in ticks:
        browser.value(f"setTime({tick})")
        picture = browser.picture()
        for agent, path in zip(data["agents"], paths):
            cell = path[min(tick, len(path) - 1)]
            if (found := colour_in(browser, picture, cell)) != agent["colour"]:
                faults.append(f"at tick {tick} {cell} is {found}, wanted {agent['colour']}")
    return faults


def loads_and_shows(browser, folder):
    browser.resize(640, 480)
    browser.prefer("light")
    data = opened(browser, folder, VALID)
    told = browser.value("document.body.innerText")
    faults = wrong_colours(browser, data, VALID, range(4))
    faults += [f"{word!r} isn't told" for word in ("sum of costs 5", "last tick 3", "valid") if word not in told]
    if len(browser.requests) != 1:
        faults.append(f"the page asked for {browser.requests[1:]}")
    return faults


def shows_on_a_phone_in_the_dark(browser, folder):
    browser.resize(320, 568, True)
    browser.prefer("dark")
    data = opened(browser, folder, VALID)
    faults = wrong_colours(browser, data, VALID, [2, 0])
    if browser.value("document.documentElement.scrollWidth") > 320:
        faults.append(f"the page is {browser.value('document.documentElement.scrollWidth')} pixels wide")
    light = browser.value("colour.free")
    browser.prefer("light")
    browser.settle()
    faults += [] if browser.value("colour.free") != light else ["light and dark have one ground"]
    x, y = point_of(browser, (0, 1))
    for kind, points in (("touchStart", [{"x": x, "y": y}]), ("touchEnd", [])):
        browser.ask("Input.dispatchTouchEvent", type=kind, touchPoints=points)
    browser.settle()
    if "agent 0, cost 3" not in browser.value("element('tip').hidden ? '' : element('tip').innerText"):
        faults.append("a tap on agent 0 doesn't tell its cost")
    browser.resize(640, 480)
    return faults


def tick_shown(browser):
    return browser.value("[shows.time, Number(element('tick').value), element('now').textContent].join(' ')")


def controls_move_the_tick(browser, folder):
    opened(browser, folder, VALID)
    faults = []

    def see(tick, after):
        if (found := tick_shown(browser)) != f"{tick} {tick} tick {tick} of 3":
            faults.append(f"after {after}: {found}, wanted tick {tick}")

    for place, tick in (("#forth", 1), ("#forth", 2), ("#back", 1), ("#last", 3), ("#first", 0)):
        browser.click_on(place)
        see(tick, place)
    browser.value("document.activeElement.blur()")
    for key, tick in (("ArrowRight", 1), ("End", 3), ("ArrowLeft", 2), ("Home", 0)):
        browser.press(key)
        see(tick, key)
    browser.value("element('tick').value = 2; element('tick').dispatchEvent(new Event('input'))")
    see(2, "the slider")
    browser.open(browser.value("location.href.split('#')[0]") + "#tick=1&agent=0")
    see(1, "#tick=1")
    return faults + ([] if browser.value("shows.picked?.number") == 0 else ["#agent=0 picks no agent"])


def plays_to_the_end(browser, folder):
    opened(browser, folder, VALID)
    browser.value("setSpeed(64)")
    browser.click_on("#play")
    ends = "new Promise(end => { const look = () => shows.plays ? setTimeout(look, 20) : end(shows.time); look(); })"
    faults = [] if browser.value(ends) == 3 else ["it doesn't play to the end"]
    browser.value("setSpeed(0.5)")
    browser.value("document.activeElement.blur()")
    browser.press(" ", "Space")
    if browser.value("[shows.plays, element('play').getAttribute('aria-label')].join(' ')") != "true Pause":
        faults.append("the space bar doesn't play from the beginning")
    browser.click_on("#play")
    if browser.value("shows.plays") or not browser.value("shows.time < 3"):
        faults.append("it doesn't pause")
    return faults


def shows_an_agent(browser, folder):
    opened(browser, folder, VALID, "#tick=1")
    browser.mouse("mouseMoved", *point_of(browser, (1, 1)))
    browser.settle()
    tip = browser.value("element('tip').hidden ? '' : element('tip').innerText")
    wanted = ("agent 1", "cost 2", "(1,0) → (1,2)")
    faults = [f"{word!r} isn't told of agent 1: {tip}" for word in wanted if word not in tip]
    browser.click(*point_of(browser, (0, 1)))
    told = browser.value("element('details').innerText")
    wanted = ("tick 0: wait in (0,1)", "ticks 1 to 2: right to (2,1)")
    faults += [f"{line!r} isn't told of agent 0: {told}" for line in wanted if line not in told]
    browser.press("n")
    faults += [] if browser.value("element('agent').value") == "1" else ["the key n doesn't pick the next agent"]
    browser.press("Escape")
    return faults + ([] if browser.value("element('details').hidden") else ["Escape doesn't end the picking"])


def hides_paths_and_goals(browser, folder):
    """A line and a ring are seen where no agent is, until they are hidden."""
    opened(browser, folder, VALID)
    faults = []
    for what, cell, dx in (("paths", (1, 1), 0.3), ("goals", (2, 1), -0.44)):
        for is_shown in (True, False):
            picture = browser.picture()
            x, y = point_of(browser, cell, dx)
            found = {picture.at(x + at, y + by) for at in range(-2, 3) for by in range(-30, 31)}
            if any(map(is_coloured, found)) != is_shown:
                faults.append(f"{what} aren't {'shown' if is_shown else 'hidden'}: {found}")
            if is_shown:
                browser.click_on(f"#{what}")
    return faults


def is_coloured(colour):
    """Whether it is none of the greys of a map."""
    parts = [int(colour[at:at + 2], 16) for at in (1, 3, 5)]
    return max(parts) - min(parts) > 30


def marks_conflicts(browser, folder):
    opened(browser, folder, MEET)
    told = browser.value("element('faults').innerText")
    faults = [] if "agents 0 and 1 are both in (1,1) at tick 1" in told else [f"the conflict isn't listed: {told}"]
    browser.click_on("#fault-list button")
    if browser.value("shows.time") != 1:
        faults.append("the list doesn't lead to the conflict's tick")
    picture = browser.picture()
    x, y = point_of(browser, (1, 1), 0.62)
    bad = browser.value("colour.bad")
    if bad not in {picture.at(x + at, y + by) for at in range(-3, 4) for by in (-8, 0, 8)}:
        faults.append(f"no {bad} marks the conflict")
    return faults + ([] if browser.value("element('marks').childElementCount") == 1 else ["the slider has no mark"])


def leads_to_every_fault(browser, folder):
    """The key F steps through all faults by their ticks, and begins anew behind the last."""
    browser.resize(1000, 480)
    data = opened(browser, folder, FAULTY)
    listed = [fault["words"] for fault in data["faults"]]
    faults = []
    if [(fault["tick"], fault["kind"]) for fault in data["faults"]] != FAULTS_BY_TICK:
        faults.append(f"the faults are {listed}")
    browser.value("document.activeElement.blur()")
    for number in [*range(len(listed)), 0]:
        browser.press("f")
        told = browser.value("[element('said').textContent, shows.time, view.fitted]")
        wanted = [listed[number], FAULTS_BY_TICK[number][0], number != OFF_THE_MAP]
        faults += [] if told == wanted else [f"F leads to {told}, wanted {wanted}"]
        asked = browser.value("[...document.querySelectorAll('.asked')].map(item => item.innerText)")
        faults += [] if asked == [listed[number]] else [f"{asked} stand out, wanted {listed[number]}"]
    browser.value("setTime(4)")
    browser.press("f")
    told = browser.value("element('said').textContent")
    browser.resize(640, 480)
    return faults + ([] if told == listed[5] else [f"from tick 4 on F leads to {told}"])


def moves_to_faults_off_the_map(browser, folder):
    """The map moves so that such a fault is seen, and goes back for the next one, unless somebody moved it since."""
    opened(browser, folder, FAULTY)
    middle = f"middleOf(faults[{OFF_THE_MAP}])"
    faults = []
    for act, is_back in (("pick(null)", True), ("moveBy(5, 5); pick(null)", False), ("fit(); pick(null)", True)):
        browser.value(f"fit(); showFault(faults[{OFF_THE_MAP}])")
        x, y = (browser.value(f"view.{side} + ({middle}[{part}] + 0.5) * view.scale")
                for part, side in enumerate(("left", "top")))
        if not 0 < x < browser.value("view.width") or not 0 < y < browser.value("view.height"):
            faults.append(f"the fault is at {x}, {y}")
        browser.value(act)
        faults += [] if browser.value("view.fitted") == is_back else [f"after {act} the map isn't where it should be"]
    return faults


def marks_faults_of_the_tick_alone(browser, folder):
    opened(browser, folder, FAULTY)
    bad = browser.value("colour.bad")
    faults = []
    for tick, is_marked in ((0, False), (1, True), (5, False)):
        browser.value(f"setTime({tick})")
        picture = browser.picture()
        left, top, right, bottom = browser.value(
            "(box => [box.left, box.top, box.right, box.bottom])(canvas.getBoundingClientRect())")
        seen = {picture.at(x, y) for x in range(int(left), int(right), 2) for y in range(int(top), int(bottom), 2)}
        faults += [] if (bad in seen) == is_marked else [f"at tick {tick} a fault is {'not ' * is_marked}marked"]
    return faults


def keeps_current_items_in_sight(browser, folder):
    """Of the list of a path, and of that of the faults."""
    path = [(0, 1), *[(0, 0), (1, 0), (1, 1), (0, 1)] * 60]
    opened(browser, folder, [path, [(1, 0)]])
    browser.value("pick(agents[0])")
    faults = []
    for tick in (0, 239, 100, 237, 3):
        browser.value(f"setTime({tick})")
        for name in ("legs", "fault-list"):
            seen = browser.value(
                f"(list => [...list.querySelectorAll('[aria-current]')].map(item => [item.getBoundingClientRect(),"
                f" list.getBoundingClientRect()]).map(([its, box]) => its.top >= box.top - 1"
                f" && its.bottom <= box.bottom + 1))(element('{name}'))")
            if name == "legs" and seen != [True] or seen and True not in seen:
                faults.append(f"at tick {tick} the current items of {name} are in sight: {seen}")
    return faults


def has_room_in_small_windows(browser, folder):
    """The controls stand beside the map, and beside the panel a page has no scrollbar of its own."""
    opened(browser, folder, FAULTY)
    browser.value("element('keys').open = true; pick(agents[0])")
    faults = []
    for width, height in SMALL:
        browser.resize(width, height)
        browser.settle()
        top, bottom, controls, zoom = browser.value(
            "[canvas.getBoundingClientRect().top, canvas.getBoundingClientRect().bottom,"
            " element('controls').getBoundingClientRect().top, element('zoom').getBoundingClientRect().top]")
        if min(controls, zoom) < bottom - 1 or bottom - top < 80:
            faults.append(f"in {width} by {height} the map ends at {bottom}, the controls begin at {controls}, {zoom}")
    browser.resize(1100, 500)
    browser.settle()
    if browser.value("document.documentElement.scrollHeight > innerHeight"):
        faults.append("the page is higher than its window")
    browser.resize(640, 480)
    return faults


def draws_paths_to_their_goals(browser, folder):
    """On a small map a line beside the middle of the cells ends in the middle of the goal."""
    browser.resize(1100, 700)
    opened(browser, folder, VALID)
    picture = browser.picture()
    plain = browser.value("[colour.free, colour.grid]")
    faults = [f"nothing is in the middle of {goal}" for goal in ((2, 1), (1, 2))
              if picture.at(*point_of(browser, goal)) in plain]
    browser.resize(640, 480)
    return faults


def reads_cells_outside(browser, folder):
    """The page that `outside_faults` made."""
    browser.open(f"file://{folder / 'outside.html'}")
    found = browser.value("agents.map((agent) => [...agent.cells].join(' '))")
    return [] if found == ["-3 1 -2 1 0 -7 -1 -7 2 1", "1 0 1 -1"] else [f"the cells are {found}"]


def shows_many_legs(browser, folder):
    began = time.monotonic()
    opened(browser, folder, [[(tick % 2, 1) for tick in range(LEGS + 1)], [(1, 0)]], f"#tick={LEGS // 2}&agent=0")
    browser.value("point(agents[0])")
    browser.settle()
    seconds = time.monotonic() - began
    faults = [] if seconds < 30 else [f"it takes {seconds:.0f} s"]
    told = browser.value("[...document.querySelectorAll('#legs [aria-current]')].map(item => item.innerText)")
    faults += [] if told == [f"tick {LEGS // 2}: right to (1,1)"] else [f"the leg is {told}"]
    for tick, told in ((LEGS - 1, f"tick {LEGS - 1}: left to (0,1)"), (0, "tick 0: right to (1,1)")):
        browser.value(f"setTime({tick})")
        found = browser.value("element('legs').querySelector('[aria-current]').innerText")
        faults += [] if found == told else [f"at tick {tick} the leg is {found}"]
    rest = browser.value("element('legs').lastElementChild.innerText")
    return faults + ([] if rest == f"… {LEGS - 400:,} after these" else [f"the list ends with {rest}"])


def shows_large_maps(browser, folder):
    grid, scenario, paths = large_problem(folder)
    data = opened(browser, folder, paths, "#tick=50", grid=grid, scenario=scenario, name="large")
    faults = [] if browser.value("document.querySelectorAll('canvas').length") == 1 else ["there are more canvases"]
    browser.value("show('paths', false); zoom(40, view.left + 60.5 * view.scale, view.top + 21.5 * view.scale); 1")
    picture = browser.picture()
    found = colour_in(browser, picture, paths[10][50])
    faults += [] if found == data["agents"][10]["colour"] else [f"agent 10's cell is {found}"]
    drawing = browser.value(
        "show('paths', true); fit(); drawBehind(); (begin => { for (let at = 0; at < 20; at++) {"
        " pen.drawImage(behind, 0, 0); drawAgents(); drawFaults(); } return (performance.now() - begin) / 20;"
        " })(performance.now())")
    return faults + ([] if drawing < 200 else [f"a picture takes {drawing:.0f} ms"])


IN_BROWSER = {
    "loads and shows agents in their cells": loads_and_shows,
    "on a phone, dark and light": shows_on_a_phone_in_the_dark,
    "controls and keys move the tick": controls_move_the_tick,
    "plays and pauses": plays_to_the_end,
    "shows an agent's cost and path": shows_an_agent,
    "shows and hides paths and goals": hides_paths_and_goals,
    "marks and lists conflicts": marks_conflicts,
    "F leads to every fault": leads_to_every_fault,
    "moves the map to a fault and back": moves_to_faults_off_the_map,
    "marks the faults of the tick alone": marks_faults_of_the_tick_alone,
    "keeps current items in sight": keeps_current_items_in_sight,
    "has room in small windows": has_room_in_small_windows,
    "draws paths to their goals": draws_paths_to_their_goals,
    "cells outside the map": reads_cells_outside,
    "a path of very many legs": shows_many_legs,
    "a large map of 200 agents": shows_large_maps,
}
