"""Tries the labels of a certificate on the page of `tools/draw --cert`, and its search for an agent: what the page
holds of labels, and, where a browser is installed, its shades, its legend and its words, and the steps of the search.
"""

import re
import tempfile
from pathlib import Path

from browser import Browser, installed
from certificate_page_tests import (CASES, DAMAGE, EXAMPLES, LEVELS, MOST_LINES, NODE, button, damaged, differing,
                                    example_words, files_of, large_tree, open_case, opened, page)
from draw_tests import CROSSING, point_of

from mapf.tools.certificate_page import Room

# The certificate of the example: a block with its entries.
BLOCK = re.compile(r"^agent (\d+) (\d+)\n((?:at .*\n)+)", re.MULTILINE)

# So many bytes of labels count as a line of the page.
BYTES_OF_LINE = 64

EXAMPLE = EXAMPLES / "random-32-32-20-cert.txt"


def tests(tally):
    with tempfile.TemporaryDirectory() as name:
        folder = Path(name)
        tally.add("certificate labels, those of the example", held_faults())
        tally.add("certificate labels, those of two agents", joint_faults())
        tally.add("certificate labels, a large tree", large_faults(folder))
        if not installed():
            tally.skip("certificate labels, in a browser", "no chromium is installed")
            return
        with Browser(installed()) as browser:
            for title, test in IN_BROWSER.items():
                try:
                    faults = test(browser, folder)
                except (OSError, TimeoutError) as error:
                    faults = [str(error)]
                tally.add(f"certificate labels, {title}", faults or browser.problems)


# Without a browser.

def unpacked(text, width):
    """The entries of one agent that a text of the page spells, as the certificate spells them."""
    lines, tick, label, cell = [], 0, 0, 0
    for name, word in re.findall(r"([tl]?)(inf|\d+)", text):
        if name == "t":
            tick, cell = word, 0
        elif name == "l":
            label = word
        else:
            cell += int(word)
            lines.append(f"at {cell % width},{cell // width} {tick} {label}\n")
    return "".join(lines)


def held_faults():
    """Each block is on the page with the line of its first entry, and its text spells its entries."""
    text = EXAMPLE.read_text()
    nodes = sorted(page(example_words(), EXAMPLE)["tree"]["nodes"], key=lambda node: node["line"])
    found = [(agent, line, count, unpacked(told, 32))
             for node in nodes for agent, _, line, count, told in node.get("blocks", [])]
    wanted = [(int(one[1]), text.count("\n", 0, one.start()) + 2, int(one[2]), one[3]) for one in BLOCK.finditer(text)]
    return [] if found == wanted and wanted else [f"{len(found)} blocks, wanted {len(wanted)}, or others than these"]


def joint_faults():
    case = CASES / "check-crossing-by-a-lemma-of-two"
    told = page(files_of(case), case / "cert")["lemmas"][0]
    return differing([told["labels"], told["least"]], [[[7, 0, ""], [7, 0, ""], [7, 1, "t0l5u3 1"]], [0, 0]], "a lemma")


def tree_with_labels(folder):
    """The large tree, of which each leaf that is a left child has a block of one label."""
    words, certificate = large_tree(folder)
    text = certificate.read_text()
    block = f"leaf 1\nagent 0 1\nat 1,1 {LEVELS - 1} 3\n"
    certificate.write_text(re.sub(r"(vertex .*\n)leaf 0\n", rf"\1{block}", text))
    return words, certificate


def large_faults(folder):
    """Labels take the room that is kept for them, and no more; what has none is told by its number."""
    told = page(*tree_with_labels(folder))
    blocks = [block for node in told["tree"]["nodes"] for block in node.get("blocks", [])]
    texts = [block[4] for block in blocks if len(block) == 5]
    lines = len(told["tree"]["nodes"]) + len(blocks) + sum(-(-len(text) // BYTES_OF_LINE) for text in texts)
    found = [told["verdict"], 0.95 * MOST_LINES < lines <= MOST_LINES, len(texts) == len(blocks) > 500]
    faults = differing(found, ["optimal 4", True, True], "the verdict, and whether the page has as much as it may")
    room = Room(MOST_LINES)
    held = [room.takes_labels(lines) for lines in (MOST_LINES + 1, MOST_LINES - 1, 2, 1, 1)]
    return faults + differing(held, [False, True, False, True, False], "what has room")


# Labels in a browser.

def values_at(browser, tick):
    """The labels that are shown at a tick, row after row, and the numbers of the cells whose labels are listed."""
    browser.value(f"setTime({tick}); 1")
    return browser.value("[[...heat.at.labels].map(String), [...heat.at.listed.keys()]]")


def shows_labels(browser, folder):
    """The crossing: agent 0 can't be in (1,1) at tick 1, so it needs 3 from its start, and the distance is 2."""
    browser.resize(1100, 700)
    browser.prefer("light")
    faults = []
    for name in ("check-crossing", "solve-crossing"):
        open_case(browser, folder, name)
        browser.click_on(button(1))
        browser.click_on(button(1, 1))
        browser.value("pick(agents[0]); showLabels(true); 1")
        distances = ["3", "2", "1", "2", "1", "0", "3", "2", "1"]
        wanted = [*distances[:3], "3", *distances[4:]]
        faults += differing(values_at(browser, 0), [wanted, [3]], f"{name}, tick 0")
        said = browser.value("element('heat').innerText")
        faults += [] if "(0,1): 3 instead of 2" in said else [f"{name}: {said}"]
        faults += differing(values_at(browser, 1), [distances, []], f"{name}, tick 1")
        browser.value("pick(agents[1]); 1")
        said = browser.value("element('heat').innerText")
        faults += [] if "None is listed, so each label is the distance" in said else [f"{name}: {said}"]
    return faults


def shows_version_three(browser, folder):
    wanted = {
        "check-crossing-by-prices": ([3], "3"),
        "check-crossing-by-a-lemma-of-two": ([3], "5"),
    }
    faults = []
    for name, (cells, label) in wanted.items():
        open_case(browser, folder, name)
        browser.value("showLabels(true); 1")
        labels, listed = values_at(browser, 0)
        faults += differing([listed, labels[3]], [cells, label], name)
    names = browser.value("[...element('source').options].map((option) => option.text)")
    faults += differing(names, ["lemma 0, agents 0 and 1 together", "lemma 0, agent 0 alone"], "what can be chosen")
    browser.value("element('source').value = '1'; element('source').dispatchEvent(new Event('change')); 1")
    labels, listed = values_at(browser, 0)
    faults += differing([listed, labels[3]], [[], "2"], "agent 0 alone")
    open_case(browser, folder, "check-crossing-by-a-split-on-costs")
    for numbers in ((1,), (1, 1)):
        browser.click_on(button(*numbers))
    browser.value("pick(agents[1]); showLabels(true); 1")
    least = [values_at(browser, tick)[0][1] for tick in (0, 1, 2)]
    return faults + differing(least, ["3", "2", "2"], "labels of an agent that costs at least 3")


def tells_shades_apart(browser, folder):
    """Listed labels, distances and blocked cells have three colours in light and dark, and the legend has them."""
    faults = []
    for scheme in ("light", "dark"):
        browser.prefer(scheme)
        opened(browser, folder, example_words(), EXAMPLE)
        browser.value("show('paths', false); show('goals', false); 1")
        browser.value("element('sought').value = '8'; takeSought(); stepFound(1); showLabels(true); setTime(5); 1")
        cells = [browser.value(f"cellOf({one})") for one in (
            "[...heat.at.listed.keys()].find((cell) => !agents.some((one) => numberOf(cellAt(one, 5)) === cell))",
            "freeCells.findIndex((free, cell) => free && heat.at.labels[cell] < 50 && !heat.at.listed.has(cell))",
            "freeCells.indexOf(0)")]
        shown = browser.picture()
        colours = [shown.at(*point_of(browser, cell, -0.35, 0.35)) for cell in cells]
        swatches = browser.value("[...element('legend').querySelectorAll('i')].map((one) => one.style.background)")
        rgb = ["rgb({}, {}, {})".format(*bytes.fromhex(one[1:])) for one in colours[:2]]
        faults += [] if len(set(colours)) == 3 and set(rgb) <= set(swatches) else [f"{scheme}: {colours}, {swatches}"]
        told = browser.value("element('legend').innerText")
        faults += [word for word in ("0–9", "∞", "blocked", "listed", "distance") if word not in told]
    browser.prefer("light")
    return faults


def tells_what_is_missing(browser, folder):
    """Labels for which the page has no room aren't drawn as distances, and a refused one is named."""
    open_case(browser, folder)
    browser.value("certificate.tree.nodes[1].blocks[0].pop(); 1")
    browser.click_on(button(1))
    browser.click_on(button(1, 1))
    browser.value("pick(agents[0]); showLabels(true); 1")
    found = browser.value("[element('heat-words').innerText, element('legend').hidden, heat.at]")
    faults = differing(found, ["This page leaves out the 1 label from line 7 on.", True, None], "labels left out")
    opened(browser, folder, files_of(CROSSING), damaged(folder, "a label too high"))
    browser.click_on(button(1))
    browser.click_on(button(1, 1))
    browser.value("pick(agents[0]); showLabels(true); setTime(0); 1")
    told = browser.value("element('heat-list').innerText")
    return faults + differing(told, "(0,1): 4 instead of 2, refused in line 7", DAMAGE["a label too high"][2])


def goes_by_keyboard(browser, folder):
    """L shows labels of the root at once, '/' leads to the field, Enter to the next hit, and what is typed there is no
    command of the page.
    """
    open_case(browser, folder)
    browser.press("l")
    found = browser.value("[shows.labels, element('labels').checked, chosen.line, shows.picked.number]")
    faults = differing(found, [True, True, 4, 0], "after L")
    browser.press("l")
    faults += differing(browser.value("[shows.labels, element('heat').hidden]"), [False, True], "after L once more")
    browser.press("/")
    browser.value("element('sought').value = ''; 1")
    browser.ask("Input.insertText", text="1")
    browser.press("l")
    faults += differing(browser.value("[document.activeElement.id, shows.labels]"), ["sought", False], "in the field")
    faults += differing(browser.value("element('found').innerText"), "The agents are 0 to 1.", "of agent 1l")
    browser.value("element('sought').value = '1'; takeSought(); 1")
    browser.enter()
    faults += differing(browser.value("[chosen.line, document.activeElement.id]"), [8, "sought"], "after Enter")
    browser.press("Escape")
    return faults + differing(browser.value("[element('sought').value, search.agent, chosen]"), ["", None, None], "Esc")


# The search in a browser.

def finds_agents(browser, folder):
    open_case(browser, folder)
    browser.value("element('sought').value = '1'; takeSought(); 1")
    faults = differing(browser.value("element('found').innerText"), "agent 1: 1 of 3 nodes", "hits")
    told = browser.value("element('tree').innerText")
    faults += [] if "1 below" in told else [f"the root says nothing of what is below: {told}"]
    browser.click_on("#found-next")
    found = browser.value("[chosen.line, element('found').innerText, document.querySelector('#tree .here').innerText]")
    wanted = [8, "1 of 1; agent 1: 1 of 3 nodes", "◆ agent 1: constraint, labels"]
    faults += differing(found, wanted, "the next one")
    open_case(browser, folder, "check-crossing-by-a-lemma-by-cases")
    browser.value("element('sought').value = '0'; takeSought(); 1")
    lines = []
    for _ in range(len(browser.value("search.hits.map(() => 0)"))):
        browser.value("stepFound(1); 1")
        lines.append(browser.value("chosen.line"))
    count = len(NODE.findall((CASES / "check-crossing-by-a-lemma-by-cases" / "cert").read_text()))
    told = browser.value("element('found').innerText")
    faults += [] if len(lines) == len(set(lines)) > 2 and f"of {count} nodes" in told else [f"{lines}, {told}"]
    browser.value("stepFound(1); stepFound(-1); 1")
    return faults + differing(browser.value("chosen.line"), lines[-1], "one forth and one back")


def finds_in_large_trees(browser, folder):
    opened(browser, folder, *large_tree(folder))
    browser.value("element('sought').value = '0'; takeSought(); stepFound(-1); 1")
    told = browser.value("element('found').innerText")
    faults = [] if told.endswith("of 20,000 nodes that this page holds") else [told]
    return faults + differing(browser.value("chosen.of === search.hits[search.hits.length - 1].of"), True, "the last")


def fits_a_phone(browser, folder):
    browser.resize(320, 568, True)
    faults = []
    for scheme in ("dark", "light"):
        browser.prefer(scheme)
        opened(browser, folder, example_words(), EXAMPLE)
        browser.value("element('sought').value = '8'; takeSought(); stepFound(1); showLabels(true); 1")
        width = browser.value("document.documentElement.scrollWidth")
        heights = browser.value("['sought', 'found-next', 'labels-line'].map((id) =>"
                                " element(id).getBoundingClientRect().height)")
        faults += [] if width <= 320 and min(heights) >= 44 else [f"{scheme}: {width}, {heights}"]
    browser.resize(1100, 700)
    return faults


IN_BROWSER = {
    "versions 1 and 2": shows_labels,
    "version 3": shows_version_three,
    "shades in light and dark": tells_shades_apart,
    "what is missing": tells_what_is_missing,
    "by the keyboard": goes_by_keyboard,
    "finds agents": finds_agents,
    "finds agents in a large tree": finds_in_large_trees,
    "on a phone, dark and light": fits_a_phone,
}
