"""Tries `tools/draw --cert`: what the page knows of certificates of each version, of refused and of large ones, and,
where a browser is installed, what its list and its map show, also on a phone and by the keyboard alone.
"""

import re
import tempfile
from pathlib import Path

from browser import Browser, installed
from draw_tests import CROSSING, data_in, drawn, point_of
from harness import TESTS

from mapf.tools.texts import plan_text

CASES = TESTS / "cases"
EXAMPLES = TESTS.parent / "examples"

# The crossing: each agent's distance is 2, and one of the two has to cost one more. tests/EXPLAINED.md tells why.
SPLIT = "split: agents 0 and 1 can't both be in (1,1) at tick 1"
LEFT, RIGHT = "agent 0 isn't in (1,1) at tick 1", "agent 1 isn't in (1,1) at tick 1"
KINDS = {
    "solve-crossing": ["vertex", "leaf", "leaf"],
    "check-crossing": ["vertex", "leaf", "leaf"],
    "check-crossing-by-prices": ["leaf"],
    "check-crossing-by-a-lemma-of-two": ["leaf"],
    "check-crossing-by-a-lemma-by-cases": ["leaf"],
    "check-crossing-by-a-split-on-costs": ["costs", "leaf", "leaf"],
}
LEMMAS = {
    "check-crossing-by-prices": [3, 3],
    "check-crossing-by-a-lemma-of-two": [5],
    "check-crossing-by-a-lemma-by-cases": [3, 3, 5],
    "check-crossing-by-a-split-on-costs": [5, 3, 3],
}

# A certificate with groups of which the uses have weights.
WEIGHED = TESTS / "version3" / "lemmas-of-pairs-on-maze-32-32-2-4-of-8-agents"

# The first words of the lines that are nodes.
NODE = re.compile(r"^(?:vertex|swap|costs?|leaf|clash) ", re.MULTILINE)

# What is changed in the crossing's certificate, with the line of recheck, the nodes that are read, and the line of the
# node that is refused.
DAMAGE = {
    "a label too high": ("at 0,1 0 3", "at 0,1 0 4", "refused C7 7", 2, 5),
    "a weak leaf": ("leaf 1\nagent 1 1\nat 1,0 0 3\n", "leaf 0\n", "refused C8 8", 3, 8),
    "a bad split": ("vertex 0 1 1,1 1 0", "vertex 0 0 1,1 1 0", "refused C6 4", 1, 4),
    "no second leaf": ("leaf 1\nagent 1 1\nat 1,0 0 3\n", "", "refused C2 K1 8", 2, None),
    "another claim": ("cost 5", "cost 4", "refused C4", 3, None),
    "no certificate": ("mapf-cert", "certificate", "refused C2 K1 1", 0, None),
}

# A full tree of so many levels of splits has more nodes than a page holds lines.
LEVELS, MOST_LINES = 14, 20_000



def tests(tally):
    with tempfile.TemporaryDirectory() as name:
        folder = Path(name)
        tally.add("certificate page, the crossing", crossing_faults())
        tally.add("certificate page, verdicts and nodes", verdict_faults())
        tally.add("certificate page, uses of lemmas", use_faults())
        tally.add("certificate page, refusals", refusal_faults(folder))
        tally.add("certificate page, a plan that isn't valid", invalid_faults(folder))
        tally.add("certificate page, a large tree", large_faults(folder))
        tally.add("certificate page, misuse", misuse_faults(folder))
        if not installed():
            tally.skip("certificate page, in a browser", "no chromium is installed")
            return
        with Browser(installed()) as browser:
            for title, test in IN_BROWSER.items():
                try:
                    faults = test(browser, folder)
                except (OSError, TimeoutError) as error:
                    faults = [str(error)]
                tally.add(f"certificate page, {title}", faults or browser.problems)


# Without a browser.

def files_of(case):
    return [case / "map", case / "scen", re.search(r"SCEN (\d+)", (case / "words").read_text())[1], case / "plan"]


def page(words, certificate, out=None):
    """What the page knows of a certificate beside these files and the plan."""
    ended = drawn([*words, "--cert", certificate], out)
    if ended.returncode != 0:
        raise OSError(f"draw ended with {ended.returncode}, {ended.stderr.decode()}")
    return data_in(ended.stdout.decode())["certificate"]


def differing(found, wanted, what):
    return [] if found == wanted else [f"{what}: {found}, wanted {wanted}"]


def kinds_of(tree):
    """The kinds of the nodes in the order of their lines."""
    return [node["kind"] for node in sorted(tree["nodes"], key=lambda node: node["line"])]


def crossing_faults():
    faults = []
    for name, kinds in KINDS.items():
        told = page(files_of(CASES / name), CASES / name / "cert")
        bounds = [node["sums"]["bound"] for node in told["tree"]["nodes"] if node["kind"] == "leaf"]
        found = [told["verdict"], kinds_of(told["tree"]), bounds, [lemma["bound"] for lemma in told["lemmas"]]]
        wanted = ["optimal 5", kinds, [5] * kinds.count("leaf"), LEMMAS.get(name, [])]
        faults += differing(found, wanted, name)
    return faults


def verdict_faults():
    """The verdict is the line of `mapf check`, and each line that is a node is one."""
    faults = []
    cases = [case for case in sorted((TESTS / "version3").iterdir()) if "\ncost " in (case / "plan").read_text()]
    for case in cases[::6]:
        told = page(files_of(case), case / "cert")
        trees = [told["tree"], *(lemma["tree"] for lemma in told["lemmas"] if lemma["tree"])]
        found = [told["verdict"], sum(tree["count"] for tree in trees)]
        wanted = [(case / "stdout").read_text().strip(), len(NODE.findall((case / "cert").read_text()))]
        is_read_whole = not wanted[0].startswith("refused")
        faults += differing(found, wanted, case.name) if is_read_whole else differing(found[0], wanted[0], case.name)
    told = page(example_words(), EXAMPLES / "random-32-32-20-cert.txt")
    count = len(NODE.findall((EXAMPLES / "random-32-32-20-cert.txt").read_text()))
    found = [told["verdict"], told["tree"]["count"], len(told["tree"]["nodes"])]
    return faults + differing(found, ["optimal 496", count, count], "the example")


def use_faults():
    """What is told of the uses of a group adds up to its worth."""
    told = page(files_of(WEIGHED), WEIGHED / "cert")
    leaves = [node for node in told["tree"]["nodes"] if "groups" in node]
    faults = [] if leaves else ["no leaf has a group"]
    for leaf in leaves:
        sums = [(sum(weight * max(0, counted - alone) for _, weight, alone, counted in group["uses"]), group["divisor"])
                for group in leaf["groups"]]
        worths = [-(-number // divisor) for number, divisor in sums]
        faults += differing(worths, leaf["sums"]["worths"], f"the groups of the leaf in line {leaf['line']}")
    return faults


def example_words():
    name = EXAMPLES / "random-32-32"
    return [f"{name}.map", f"{name}.scen", 20, f"{name}-20-plan.txt"]


def damaged(folder, title):
    """The crossing's certificate with this damage, as a file."""
    before, after, *_ = DAMAGE[title]
    text = (CROSSING / "cert").read_text()
    assert before in text
    out = folder / "damaged"
    out.write_text(text.replace(before, after))
    return out


def refusal_faults(folder):
    faults = []
    for title, (_, _, *wanted) in DAMAGE.items():
        told = page(files_of(CROSSING), damaged(folder, title))
        nodes = told["tree"]["nodes"]
        refused = [node["line"] for node in nodes if node.get("refused")]
        found = [told["verdict"], len(nodes), refused[0] if refused else None]
        faults += differing(found, wanted, title)
    return faults


def meeting(folder):
    """A plan in which both agents are in (1,1) at tick 1. Beside it no certificate is read."""
    plan = folder / "meeting"
    plan.write_text(plan_text([[(0, 1), (1, 1), (2, 1)], [(1, 0), (1, 1), (1, 2)]]))
    return plan


def invalid_faults(folder):
    words = [*files_of(CROSSING)[:3], meeting(folder)]
    told = page(words, CROSSING / "cert")
    if b"tools/recheck says 'refused C5 V4 0 1 1'" not in drawn([*words, "--cert", CROSSING / "cert"]).stderr:
        return ["the refusal isn't told on standard error"]
    found = [told["verdict"], told["claim"], told["tree"]["count"]]
    return differing(found, ["refused C5 V4 0 1 1", "cost", 0], "the verdict, the claim and the nodes")


def large_tree(folder):
    """A problem of two agents that don't meet, with a tree whose leaves the distances alone show."""
    nodes = []

    def add(level):
        nodes.append(f"vertex 0 1 1,1 {level} 0" if level < LEVELS else "leaf 0")
        if level < LEVELS:
            add(level + 1)
            add(level + 1)

    add(0)
    texts = {
        "map": "type octile\nheight 2\nwidth 3\nmap\n...\n...\n",
        "scen": "version 1\n0 made.map 3 2 0 0 2 0 2\n0 made.map 3 2 0 1 2 1 2\n",
        "plan": plan_text([[(0, 0), (1, 0), (2, 0)], [(0, 1), (1, 1), (2, 1)]]),
        "cert": "\n".join(["mapf-cert 2", "agents 2", "claim cost 4", *nodes, "end", ""]),
    }
    for name, text in texts.items():
        (folder / f"large-{name}").write_text(text)
    return [folder / "large-map", folder / "large-scen", 2, folder / "large-plan"], folder / "large-cert"


def large_faults(folder):
    """A page has the upper part: each level that has room, and the number of all nodes."""
    tree = page(*large_tree(folder))["tree"]
    splits = sum(node["kind"] == "vertex" for node in tree["nodes"])
    found = [tree["count"], len(tree["nodes"]), splits]
    wanted = [2 ** (LEVELS + 1) - 1, MOST_LINES, 2 ** LEVELS - 1]
    return differing(found, wanted, "all nodes, those of the page, and its splits")


def misuse_faults(folder):
    faults = []
    for more, said in ((["--cert", folder / "not-there"], "can't be read"),
                       (["--cert", CROSSING / "cert", "--gif"], "not allowed with")):
        ended = drawn([*files_of(CROSSING), *more])
        is_told = ended.returncode == 2 and not ended.stdout and said in ended.stderr.decode()
        faults += [] if is_told else [f"status {ended.returncode}, {ended.stderr.decode()!r}, wanted {said!r}"]
    return faults


# In a browser.

def opened(browser, folder, words, certificate):
    page(words, certificate, folder / "page.html")
    browser.open(f"file://{folder / 'page.html'}")


def open_case(browser, folder, name="solve-crossing"):
    opened(browser, folder, files_of(CASES / name), CASES / name / "cert")


def button(*numbers):
    """The button of an item of the list, by its numbers from the top on."""
    return "#tree > " + " > ul > ".join(f"li:nth-child({number})" for number in numbers) + " > button"


def told_chosen(browser):
    return browser.value("[...element('chosen-lines').children].map((line) => line.innerText)")


def told_marks(browser):
    """The heading of the marks, and their words."""
    return browser.value("[element('marks-name'), ...element('chosen-marks').children].map((line) => line.innerText)")


def shows_the_tree(browser, folder):
    browser.resize(1100, 700)
    browser.prefer("light")
    faults = []
    for name, version in (("check-crossing", 1), ("solve-crossing", 2)):
        open_case(browser, folder, name)
        told = browser.value("element('certificate').innerText")
        wanted = (f"of version {version}, and claims that no valid plan costs less than 5",
                  "optimal 5: the plan costs 5, and no valid plan costs less", "all valid plans",
                  "Why no valid plan is cheaper: each is in one of these cases")
        faults += [f"{name}: {words!r} isn't told: {told}" for words in wanted if words not in told]
        faults += differing(browser.value("[chosen, shows.time, document.querySelectorAll('#tree li').length]"),
                            [None, 0, 3], "what is chosen, the tick, and the items at first")
        browser.click_on(button(1))
        faults += differing(told_chosen(browser), [SPLIT], name)
        items = browser.value("[...document.querySelectorAll('#tree ul button')].map((item) => item.innerText)")
        faults += differing(items, [f"{words} cost at least 5" for words in (LEFT, RIGHT)], name)
        browser.click_on(button(1, 1))
        wanted = ["agent 0 needs at least 3 here (2 without the constraints)",
                  "each other agent needs its distance to its goal", "all add up to 3 + 2 = 5"]
        faults += differing(told_chosen(browser), wanted, name) + differing(told_marks(browser), [
            "Constraints", LEFT], name)
    return faults


def shows_version_three(browser, folder):
    faults = []
    wanted = {
        "check-crossing-by-prices": ["the agents, each alone, add up to 6", "uses lemma 0: agent 0, costs and prices at"
                                     " least 3", "uses lemma 1: agent 1, costs and prices at least 3",
                                     "all add up to 6 - 1 of prices = 5"],
        "check-crossing-by-a-lemma-of-two": ["the agents, each alone, add up to 4", "1 more by lemma 0: agents 0 and 1"
                                             " cost at least 5, 1 more than the 4 of them alone",
                                             "all add up to 4 + 1 = 5"],
    }
    for name, lines in wanted.items():
        open_case(browser, folder, name)
        browser.click_on(button(1))
        faults += differing(told_chosen(browser), lines, name)
    open_case(browser, folder, "check-crossing-by-prices")
    browser.click_on(button(3))
    faults += differing(told_marks(browser), ["Prices", "(1,1) at tick 1: 1"], "the price list")
    open_case(browser, folder, "check-crossing-by-a-lemma-by-cases")
    for numbers in ((2,), (2, 3), (2, 3, 1)):
        browser.click_on(button(*numbers))
    faults += differing(told_chosen(browser), [SPLIT], "the cases of a lemma")
    open_case(browser, folder, "check-crossing-by-a-split-on-costs")
    browser.click_on(button(1))
    sides = browser.value("[...document.querySelectorAll('#tree ul button')].map((item) => item.firstChild.data)")
    left = ("agent 0 costs at most 2, and no other agent is in (2,1), the goal of agent 0, from tick 2 on, and agent 1"
            " costs at least 3")
    return faults + differing(sides, [left, "agent 0 costs at least 3"], "a split on costs")


def shows_weights(browser, folder):
    """Of a group the excess of each lemma, its weight, and what is rounded up."""
    opened(browser, folder, files_of(WEIGHED), WEIGHED / "cert")
    told = browser.value("certificate.tree.nodes.filter((node) => node.groups).flatMap(lemmaLines)")
    wanted = ("2 more by lemma 2: agents 1 and 7 cost at least 121, 2 more than the 119 of them alone, times 1/2; "
              "lemma 3: agents 6 and 7 cost at least 140, 1 more than the 139 of them alone, times 1/2; "
              "together 1.5, rounded up to 2")
    return [] if wanted in told else [f"{wanted!r} isn't told: {told}"]


def marks_cells_and_agents(browser, folder):
    """At the tick of the split alone, and until nothing is chosen any more."""
    open_case(browser, folder)
    browser.value("show('paths', false); show('goals', false); 1")
    browser.click_on(button(1))
    faults = differing(browser.value("shows.time"), 1, "the tick of the split")
    for act, is_marked in (("setTime(1)", True), ("setTime(2)", False), ("setTime(1); choose(null)", False)):
        browser.value(f"{act}; 1")
        picture = browser.picture()
        ink = browser.value("colour.ink")
        edge = [point_of(browser, (1, 1), -0.46, dy / 50) for dy in range(-20, 21)]
        found = {picture.at(x + by, y) for x, y in edge for by in (-1, 0, 1)}
        faults += differing(ink in found, is_marked, f"whether the cell is marked after {act}")
    browser.value("choose(null)")
    browser.click_on(button(1))
    ringed = browser.value("marksAt(1).flatMap((mark) => mark.agents)")
    return faults + differing(ringed, [0, 1], "agents that are marked")


def shows_refusals(browser, folder):
    faults = []
    for title, said in (("a weak leaf", "refused C8 8: leaf too weak for what has to be shown"),
                        ("another claim", "refused C4: the claim doesn't fit the plan. The plan costs 5. The "
                         "certificate is right all the same: no valid plan costs less than 4."),
                        ("another claim", "Why no valid plan costs less than 4: each is in one of these cases"),
                        ("no certificate", "It doesn't begin as a certificate does")):
        opened(browser, folder, files_of(CROSSING), damaged(folder, title))
        told = browser.value("element('certificate').innerText")
        faults += [] if said in told else [f"{title}: {said!r} isn't told: {told}"]
        faults += differing("Find agent" in told, title != "no certificate", f"{title}, whether there is a search")
    for title, note in (("a weak leaf", "refused in line 8"), ("a label too high", "not read")):
        opened(browser, folder, files_of(CROSSING), damaged(folder, title))
        *_, line = DAMAGE[title]
        faults += differing(browser.value("[chosen.line, element('tree-name').innerText]"),
                            [line, "The certificate's cases, as far as they were read"], f"{title}, what is opened")
        browser.click_on(button(1))
        told = browser.value("document.querySelector('#tree ul li:nth-child(2) small').innerText")
        faults += differing(told, note, title)
    return faults


def tells_of_invalid_plans(browser, folder):
    """Of the certificate nothing is told but why."""
    opened(browser, folder, [*files_of(CROSSING)[:3], meeting(folder)], CROSSING / "cert")
    told = browser.value("element('certificate').innerText").split("\n")
    wanted = ["Certificate cert", "tools/recheck says refused C5 V4 0 1 1: the plan isn't valid, so nothing of its "
              "certificate is judged or shown."]
    return differing([line for line in told if line], wanted, "what is told")


def goes_by_keyboard(browser, folder):
    """The items stand in the order of the list, and Enter opens and closes one."""
    open_case(browser, folder)
    expanded = "document.activeElement.getAttribute('aria-expanded')"
    browser.value("document.querySelector('#tree button').focus()")
    faults = []
    for is_open in ("true", "false", "true"):
        browser.enter()
        faults += differing(browser.value(expanded), is_open, "aria-expanded")
    for words in (LEFT, RIGHT, SPLIT):
        browser.tab()
        faults += differing(browser.value("document.activeElement.firstChild.data"), words, "the next button")
    names = ["certificate", "tree", "chosen-lines", "chosen-marks"]
    unnamed = [name for name in names if not browser.value(
        f"element('{name}').ariaLabel || element(element('{name}').getAttribute('aria-labelledby'))?.innerText")]
    browser.press("Escape")
    faults += differing(browser.value("[chosen, element('chosen').hidden]"), [None, True], "after Escape")
    return faults + differing(unnamed, [], "parts without a name")


def fits_a_phone(browser, folder):
    browser.resize(320, 568, True)
    faults = []
    for scheme in ("dark", "light"):
        browser.prefer(scheme)
        opened(browser, folder, example_words(), EXAMPLES / "random-32-32-20-cert.txt")
        place = [1]
        while len(place) < 13 and browser.value(f"document.querySelector('{button(*place)}') !== null"):
            browser.value(f"document.querySelector('{button(*place)}').click()")
            place.append(1)
        width, least = browser.value("[document.documentElement.scrollWidth, Math.min(...[...document.querySelectorAll("
                                     "'#tree button')].map((item) => item.getBoundingClientRect().height))]")
        faults += [] if width <= 320 and least >= 44 and len(place) > 9 else [f"{scheme}: {width}, {least}, {place}"]
    browser.resize(1100, 700)
    return faults


def opens_large_trees(browser, folder):
    """Nothing below an item is made before it is opened, and what is left out is told where it would stand."""
    opened(browser, folder, *large_tree(folder))
    faults = differing(browser.value("document.querySelectorAll('#tree li').length"), 3, "items at first")
    for _ in range(LEVELS - 1):
        browser.value("[...document.querySelectorAll('#tree button[aria-expanded=false]')].pop().click()")
    faults += differing(browser.value("document.querySelectorAll('#tree li').length"), 2 * LEVELS + 1, "items")
    note = browser.value("[...document.querySelectorAll('#tree small')].pop().innerText")
    return faults + differing(note, "left out: the page holds the upper part of the tree", "the last note")


IN_BROWSER = {
    "versions 1 and 2": shows_the_tree,
    "version 3": shows_version_three,
    "weights of uses": shows_weights,
    "marks cells and agents": marks_cells_and_agents,
    "shows refusals": shows_refusals,
    "a plan that isn't valid, in words": tells_of_invalid_plans,
    "by the keyboard": goes_by_keyboard,
    "on a phone, dark and light": fits_a_phone,
    "opens a large tree": opens_large_trees,
}
