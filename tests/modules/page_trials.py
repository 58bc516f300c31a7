"""Trials of web/check.html in a browser without a window, each a function of the browser and of a folder."""

import base64
import json
import re
import sys
import time

from harness import TESTS, cases_of
from lemma_vectors import check_vectors
from progress import say

sys.path[:0] = [str(TESTS / "tools"), str(TESTS.parent / "python")]

from mapf.tools.draw import all_faults, data_of
from mapf.tools.texts import plan_text, read_agents, read_map

TOP = TESTS.parent
PAGE = TOP / "web" / "check.html"
EXAMPLES = TOP / "examples"
CROSSING = TESTS / "cases" / "solve-crossing"
TEXTS = "map", "scen", "plan", "cert"

# The certificates of examples/: the name of the problem, the number of agents, and the verdict.
HONEST = [("random-32-32", 20, "optimal 496"), ("random-32-32", 40, "optimal 990"), ("empty-8-8", 18, "within 105 106")]

# The headlines of verdicts that accept.
HEADLINES = {
    "optimal 5": "Optimal, cost 5",
    "within 4 5": "Valid, cost 5; every valid plan costs at least 4",
    "bound 5": "Every valid plan costs at least 5",
    "impossible": "No plan is valid",
}

# What is told where the certificate of the crossing is refused, and its plan isn't.
PLAN_PROVED = ("For the first 2 agents of the scenario, the plan is valid, and its sum of costs is 5. The checker "
               "judged it before the certificate, and this too is proved in Coq.")

# How long a verdict may take, in seconds, and how long the page may need to answer while it is at work.
SECONDS = 60
MOST_PAUSE = 1

# So many vectors are handed to the page at a time, and certificates up to so many bytes.
AT_ONCE = 100
MOST_CERTIFICATE = 1_000_000

# A certificate of 10 MB: so many splits are nested, and a block has twice as many entries.
NESTED, LATE = 155_000, 155_000

# The names of the files of the four texts, and the number of agents.
CHOSEN = "[...texts.map((text) => element(text).files[0]?.name ?? ''), element('k').value]"

# What is seen on a phone, and the least contrast of text (WCAG 2.2, AA).
PHONES = [(320, 568), (412, 915)]
CONTRAST = 4.5

# Has one worker judge many texts, one after another; `answers` has what it said.
ASK_ALL = """
answers = [];
(async (list) => {
  const worker = new Worker(workerAddress);
  for (const [k, ...given] of list) {
    const files = given.map((text) => new File([Uint8Array.from(atob(text), (byte) => byte.charCodeAt(0))], "text"));
    const asked = Object.fromEntries(texts.map((text, number) => [text, files[number]]));
    answers.push(await new Promise((end) => {
      worker.onmessage = ({ data }) => {
        if (data.kind === "verdict" || data.kind === "fault") {
          end(data.line ?? data.words ?? "no number of agents");
        }
      };
      worker.postMessage({ ...asked, k });
    }));
  }
  worker.terminate();
})"""

# The contrast of each text with what is behind it.
CONTRASTS = """
(() => {
  const parts = (colour) => colour.match(/[\\d.]+/g).map(Number);
  const light = (colour) => parts(colour).slice(0, 3).map((part) => part / 255)
    .map((part) => (part <= 0.04045 ? part / 12.92 : ((part + 0.055) / 1.055) ** 2.4))
    .reduce((sum, part, at) => sum + part * [0.2126, 0.7152, 0.0722][at], 0);
  const ground = (item) => {
    const colour = item ? getComputedStyle(item).backgroundColor : "rgb(255, 255, 255)";
    return parts(colour)[3] === 0 ? ground(item.parentElement) : colour;
  };
  const walk = document.createTreeWalker(document.querySelector("main"), NodeFilter.SHOW_TEXT);
  const found = [];
  while (walk.nextNode()) {
    const item = walk.currentNode.parentElement;
    if (walk.currentNode.textContent.trim() && item.checkVisibility() && !item.closest(":disabled")) {
      const [one, other] = [light(getComputedStyle(item).color), light(ground(item))].sort((a, b) => b - a);
      found.push([walk.currentNode.textContent.trim(), (one + 0.05) / (other + 0.05)]);
    }
  }
  return found;
})()"""


# What the page is asked.

def opened(browser, width=1280, height=900, is_phone=False, scheme="light", motion="no-preference"):
    browser.resize(width, height, is_phone)
    browser.prefer(scheme, motion)
    browser.open(PAGE.as_uri())


def choose(browser, files):
    """Chooses a file for each text."""
    for text, file in zip(TEXTS, files):
        browser.choose(f"#{text}", [file])


def put(folder, texts):
    """Writes the texts, and answers their files."""
    folder.mkdir(exist_ok=True, parents=True)
    for text in TEXTS:
        (folder / text).write_bytes(texts[text])
    return [folder / text for text in TEXTS]


def crossing(folder, **changed):
    """The files of the crossing, with some of its texts changed."""
    return put(folder / "crossing", {text: (CROSSING / text).read_bytes() for text in TEXTS} | changed)


def example(name, agents):
    files = f"{name}.map", f"{name}.scen", f"{name}-{agents}-plan.txt", f"{name}-{agents}-cert.txt"
    return [EXAMPLES / file for file in files]


def verdict(browser):
    """The line and the words of the verdict, when it is there."""
    end = time.monotonic() + SECONDS
    while time.monotonic() < end:
        told = browser.value("element('verdict').innerText")
        if told:
            return told.replace("\n\n", "\n").split("\n")[1:]
        time.sleep(0.05)
    raise TimeoutError(f"no verdict after {SECONDS} seconds, {browser.value('element(`work`).innerText')}")


def line_of(told):
    """The checker's line of a verdict, or its title where there is no such line."""
    return told[told.index("The checker's line") + 1] if "The checker's line" in told else told[0]


def checked(browser, files, agents=None):
    """The verdict of these files."""
    choose(browser, files)
    if agents is not None:
        browser.value(f"element('k').value = {json.dumps(str(agents))}")
    browser.click_on("#check")
    return verdict(browser)


def soon(browser, script, wanted):
    """What a script answers, for which some seconds are waited until it is what is wanted."""
    end = time.monotonic() + 10
    while (found := browser.value(script)) != wanted and time.monotonic() < end:
        time.sleep(0.05)
    return found


def missing(told, *wanted):
    """Which of these words aren't told."""
    return [f"{word!r} isn't told: {told}" for word in wanted if word not in told]


def drawn(browser, is_wanted):
    """Whether a plan is drawn, where it shouldn't be, or isn't."""
    is_drawn = browser.value("document.querySelector('iframe') !== null")
    return [] if is_drawn == is_wanted else ["a plan is drawn" if is_drawn else "no plan is drawn"]


# Verdicts.

def judges_examples(browser, folder):
    opened(browser)
    faults = []
    for name, agents, line in HONEST:
        began = time.monotonic()
        found = line_of(checked(browser, example(name, agents)))
        faults += [] if found == line else [f"{name}, {agents} agents: {found}, wanted {line}"]
        faults += [] if time.monotonic() - began < SECONDS else [f"{name}, {agents} agents: it takes too long"]
    requests = [url for url in browser.requests if not url.startswith(("file:", "blob:", "data:", "about:"))]
    return faults + [f"the page asked for {url}" for url in requests]


def says_what_verdicts_mean(browser, folder):
    opened(browser)
    faults = []
    for texts, line, words in texts_with_meanings():
        title, *told = checked(browser, crossing(folder, **texts), 2)
        found = line_of(told)
        faults += [] if found == line else [f"{found}, wanted {line}"]
        wanted = f"({line.split()[1]})" if "refused" in line else HEADLINES[line]
        faults += missing(title, wanted) + missing(" ".join([title, *told]), words, what_is_proved(line))
    return faults


def what_is_proved(line):
    """What is told of it beside this verdict of a plan, or of another answer that is accepted."""
    if "refused" not in line:
        return "proved in Coq"
    return "Nothing is proved." if line.split()[1] in ("F1", "F2", "C1", "C5") else PLAN_PROVED


def texts_with_meanings():
    """What is changed of the texts of the crossing, the verdict, and words of what it means."""
    cert, plan = ((CROSSING / text).read_bytes() for text in ("cert", "plan"))
    return [
        ({}, "optimal 5", "its sum of costs is 5, and no valid plan has a smaller one"),
        ({"cert": b"mapf-cert 3\nagents 2\nclaim bound 4\nprices 0\nlemmas 0\nleaf 0 0 -\nend\n"}, "within 4 5",
         "no valid plan has a sum of costs below 4. So the plan is at most 25% dearer than the cheapest."),
        ({"plan": b"mapf-plan 2\nagents 2\nlimit 3 bound 5\nend\n", "cert": cert.replace(b"cost", b"bound")}, "bound 5",
         "no valid plan has a sum of costs below 5. There may be no valid plan."),
        ({"scen": b"version 1\n0 m 3 3 0 0 2 2 0\n0 m 3 3 1 0 2 2 0\n",
          "plan": b"mapf-plan 2\nagents 2\nimpossible\nend\n",
          "cert": b"mapf-cert 2\nagents 2\nclaim impossible\nclash 0 1\nend\n"}, "impossible", "no plan is valid"),
        ({"cert": cert.replace(b"at 0,1 0 3", b"at 0,1 0 4")}, "refused C7", "Refused: unsound label"),
        ({"cert": cert.replace(b"cost 5", b"cost 6")}, "refused C4", "doesn't fit the answer"),
        ({"plan": plan.replace(b"0,1 0,1 1,1", b"0,1 1,1 1,1")}, "refused C5", "Refused: the plan isn't valid"),
        ({"cert": cert[:-4]}, "refused C2", "isn't written as the format asks"),
        ({"map": b"no map"}, "refused F1", "F1 means that the map isn't written as the format asks"),
    ]


def agrees_on_vectors(browser, folder):
    opened(browser)
    faults, given = [], [*vectors(), *cases()]
    for at in range(0, len(given), AT_ONCE):
        part = given[at:at + AT_ONCE]
        for (name, wanted, *_), line in zip(part, lines_of(browser, [texts for _, _, *texts in part])):
            faults += [] if line == wanted else [f"{name}: {line}, wanted {wanted}"]
    return faults[:5]


def vectors():
    """The name of each vector, the verdict without what follows a code, the number of agents, and the texts."""
    for vector in check_vectors():
        yield vector.name, re.sub(r"^(refused \S+).*", r"\1", vector.wanted), str(vector.agents), *vector.texts.values()


def cases():
    """The same of the smaller cases of version3/."""
    for case in cases_of(TESTS / "version3"):
        texts = dict(case.inputs())
        if len(texts["cert"]) <= MOST_CERTIFICATE:
            yield case.name, case.wanted("stdout").decode().strip(), case.agents(), *(texts[text] for text in TEXTS)


def lines_of(browser, given):
    """What the checker says of many texts, each with its number of agents."""
    asked = [[k, *(base64.b64encode(text).decode() for text in texts)] for k, *texts in given]
    browser.value(f"{ASK_ALL}({json.dumps(asked)}); 0")
    end = time.monotonic() + 10 * SECONDS
    while browser.value("answers.length") < len(asked) and time.monotonic() < end:
        time.sleep(0.05)
    lines = browser.value("answers")
    return lines + ["no answer"] * (len(asked) - len(lines))


def refuses_what_is_no_number(browser, folder):
    opened(browser)
    faults = []
    choose(browser, crossing(folder))
    for number in ("0", "201", "9" * 20, "2x", "-1", "two", "2.0"):
        browser.value(f"element('k').value = {json.dumps(number)}")
        browser.click_on("#check")
        told, focus = browser.value("[element('complaint').innerText, document.activeElement.id]")
        is_told = told == "Give a whole number from 1 to 200." and focus == "k"
        faults += [] if is_told and browser.value("run === null") else [f"of {number} it tells {told}, {focus}"]
    texts = [(CROSSING / text).read_bytes() for text in TEXTS]
    found = lines_of(browser, [["0", *texts], ["201", *texts], ["2x", *texts], ["02", *texts]])
    wanted = ["no number of agents"] * 3 + ["optimal 5"]
    faults += [] if found == wanted else [f"the checker says {found}"]
    told = checked(browser, crossing(folder), "02")
    faults += [] if told[told.index("Agents") + 1] == "2" else [f"of 02 it tells {told}"]
    browser.value("element('k').value = ' '; element('cert').value = ''")
    browser.click_on("#check")
    told = browser.value("element('complaint').innerText")
    faults += [] if told == "Still missing: certificate, number of agents." else [f"it complains: {told}"]
    return faults + ([] if browser.value("document.activeElement.id") == "cert" else ["the certificate has no focus"])


def tells_of_changed_files(browser, folder):
    """A file that changes after it was chosen can't be read, and the page says so."""
    opened(browser)
    files = crossing(folder / "changed")
    choose(browser, files)
    files[3].write_bytes(b"")
    browser.click_on("#check")
    return missing(" ".join(verdict(browser)), "No verdict", "cert can't be read.", "choose it again")


def reads_the_largest_map(browser, folder):
    """A map of 2,048 rows and columns, of which two cells are free."""
    rows = b".." + b"@" * 2046 + b"\n" + (b"@" * 2048 + b"\n") * 2047
    opened(browser)
    files = put(folder / "largest", {
        "map": b"type octile\nheight 2048\nwidth 2048\nmap\n" + rows,
        "scen": b"version 1\n0 m 2048 2048 0 0 1 0 0\n",
        "plan": b"mapf-plan 2\nagents 1\ncost 1\npath 0 1 0,0 1,0\nend\n",
        "cert": b"mapf-cert 2\nagents 1\nclaim cost 1\nleaf 0\nend\n",
    })
    found = line_of(checked(browser, files))
    return [] if found == "optimal 1" else [f"{found}, wanted optimal 1"]


# Work that takes long.

def long_texts(folder):
    """A tree of nested splits, and in its first leaf a block of many entries."""
    entries = b"".join(b"at %d,0 %d %d\n" % (x, tick, LATE + 1 - tick) for tick in range(LATE) for x in (0, 1))
    tree = b"vertex 0 1 1,0 %d 0\n" % LATE + b"vertex 0 1 0,0 5 0\n" * NESTED
    leaf = b"leaf 1\nagent 0 %d\n" % (2 * LATE) + entries
    return put(folder / "long", {
        "map": b"type octile\nheight 1\nwidth 4\nmap\n..@.\n",
        "scen": b"version 1\n0 a.map 4 1 0 0 1 0 1\n0 a.map 4 1 3 0 3 0 0\n",
        "plan": b"mapf-plan 2\nagents 2\nlimit 0 bound 1\nend\n",
        "cert": b"mapf-cert 2\nagents 2\nclaim bound 1\n" + tree + leaf + b"leaf 0\n" * (NESTED + 1) + b"end\n",
    })


def stays_usable(browser, folder):
    """While a certificate of 10 MB is judged, the page answers at once and tells how far it is."""
    files = long_texts(folder)
    size = files[-1].stat().st_size
    faults = [] if size > 10_000_000 else [f"the certificate has {size} bytes"]
    opened(browser)
    began = time.monotonic()
    choose(browser, files)
    browser.click_on("#check")
    pauses, told = [], []
    while not browser.value("element('verdict').innerText") and time.monotonic() - began < 3 * SECONDS:
        before = time.monotonic()
        told.append(browser.value("[element('step').innerText, element('bar').value, element('amount').innerText]"))
        pauses.append(time.monotonic() - before)
        time.sleep(0.05)
    found, seconds = line_of(verdict(browser)), time.monotonic() - began
    say(f"a certificate of {size} bytes takes {seconds:.0f} s, the longest pause is {max(pauses):.2f} s")
    faults += [] if found == "bound 1" else [f"{found}, wanted bound 1"]
    faults += [] if seconds < SECONDS else [f"it takes {seconds:.0f} s"]
    faults += [] if max(pauses) < MOST_PAUSE else [f"the page doesn't answer for {max(pauses):.1f} s"]
    steps = {step for step, _, _ in told}
    faults += [] if "Judging the certificate" in steps else [f"the steps are {steps}"]
    reached = {value for _, value, _ in told}
    return faults + ([] if len(reached) > 10 else [f"the bar has shown {sorted(reached)}"])


def stops(browser, folder):
    opened(browser)
    choose(browser, long_texts(folder))
    browser.click_on("#check")
    time.sleep(1)
    faults = [] if browser.value("run !== null") else ["it has ended by itself"]
    browser.press("Tab")
    faults += [] if browser.value("document.activeElement.id") == "stop" else ["Stop doesn't follow Check"]
    browser.press("Enter")
    found = verdict(browser)
    faults += missing(" ".join(found), "Stopped", "Nothing is proved.") + drawn(browser, False)
    faults += [] if browser.value("run === null && element('work').hidden") else ["it goes on"]
    found = line_of(checked(browser, crossing(folder), 2))
    return faults + ([] if found == "optimal 5" else [f"afterwards {found}, wanted optimal 5"])


# Ways to use it.

def works_by_keyboard(browser, folder):
    """From the page's beginning to the verdict of the example, and on to Check and into the drawing."""
    opened(browser)
    order = focused_by_tab(browser, 9)
    wanted = ["files", "folder", "example", "map", "scen", "plan", "cert", "k", "check"]
    faults = [] if order == wanted else [f"the order is {order}"]
    outlines = browser.value("[...document.querySelectorAll('button, input, select, summary, label.button')]"
                             ".filter((item) => !item.labels?.length && !item.textContent.trim()"
                             " && !item.getAttribute('aria-label')).map((item) => item.id)")
    faults += [f"{name} has no name" for name in outlines]
    opened(browser)
    focused_by_tab(browser, 3)
    browser.press("Enter")
    faults += missing(verdict(browser), "optimal 5")
    focused_by_tab(browser, 5)
    faults += [] if browser.value("element('k').value") == "2" else ["the example's number of agents isn't taken"]
    browser.press("Enter")
    faults += missing(verdict(browser), "optimal 5")
    order = focused_by_tab(browser, 2)
    return faults + ([] if order == ["check", "IFRAME"] else [f"after the verdict the order is {order}"])


def focused_by_tab(browser, count):
    """What has the focus, after each of so many presses of Tab. Each shows it by an outline."""
    order = []
    for _ in range(count):
        browser.press("Tab")
        order.append(browser.value("document.activeElement.id || document.activeElement.tagName"))
        outline = browser.value("getComputedStyle(document.activeElement.closest('.button') ?? document.activeElement)"
                                ".outlineStyle")
        if outline == "none" and order[-1] != "IFRAME":
            raise OSError(f"{order[-1]} doesn't show that it has the focus")
    return order


def takes_what_is_dropped(browser, folder):
    faults = []
    for dropped in ([CROSSING], crossing(folder), crossing(folder, map=b"no map", cert=b"no certificate")):
        opened(browser)
        browser.drop(dropped, 300, 300)
        names = soon(browser, CHOSEN, [*TEXTS, "2"])
        faults += [] if names == [*TEXTS, "2"] else [f"of {dropped} it takes {names}"]
    place = browser.value("(box => [box.left + 9, box.top + 9])(document.querySelector('h2').getBoundingClientRect())")
    browser.drop([TOP / "LICENSE"], *place)
    time.sleep(0.3)
    faults += missing(browser.value("element('taken').innerText"), "None of these files", "use tools/verify")
    place = browser.value("(box => [box.left + 20, box.top + 20])(element('map').getBoundingClientRect())")
    browser.drop([TOP / "LICENSE"], *place)
    return faults + missing(browser.value("element('map').files[0].name"), "LICENSE")


def offers_a_choice(browser, folder):
    """Of several plan texts somebody has to choose one."""
    opened(browser)
    browser.choose("#files", {file for _, agents, _ in HONEST[:2] for file in example("random-32-32", agents)})
    time.sleep(0.3)
    chosen = browser.value("texts.map((text) => element(text).files[0]?.name ?? '')")
    faults = [] if chosen == ["random-32-32.map", "random-32-32.scen", "", ""] else [f"it takes {chosen}"]
    for text in ("plan", "cert"):
        browser.value(f"element('{text}-found').focus()")
        browser.press("r")
    time.sleep(0.3)
    browser.click_on("#check")
    told = verdict(browser)
    return faults + missing(["optimal 496", "optimal 990", "refused C3"], line_of(told))


# Plans of the crossing: two agents meet, two exchange their cells, one begins elsewhere and goes too far, two end
# elsewhere.
PLANS = [
    [[(0, 1), (1, 1), (2, 1)], [(1, 0), (1, 1), (1, 2)]],
    [[(0, 1), (1, 1), (1, 0), (2, 0), (2, 1)], [(1, 0), (1, 0), (1, 1), (1, 2)]],
    [[(0, 0), (1, 0), (2, 1)], [(1, 0), (1, 2)]],
    [[(0, 1), (1, 1), (1, 2)], [(1, 0), (1, 0), (1, 0), (2, 0)]],
]


def draws_as_tools_draw(browser, folder):
    """The drawing has the data that tools/draw makes of the same texts, and the frame shows them."""
    opened(browser)
    trials = [example(name, agents) for name, agents, _ in HONEST]
    for number, paths in enumerate(PLANS):
        trials.append(crossing(folder / f"plan-{number}", plan=plan_text(paths).encode()))
    faults = []
    for files in trials:
        checked(browser, files)
        found = re.search(r'id="data">(.*?)</script>', browser.value("document.querySelector('iframe').srcdoc"))
        data = json.loads(found[1])
        faults += missing(data.pop("noFault"), "no fault seen by the drawing (not proved)")
        if data != drawn_by_tools(files):
            faults.append(f"of {files[2]} it draws {found[1][:300]}")
    told = browser.value("document.querySelector('iframe').contentDocument.body.innerText")
    return faults + missing(told, "not valid, 2 faults (not proved)", "agent 0 ends in (1,2), and its goal is (2,1)")


def drawn_by_tools(files):
    """The data of the page of tools/draw."""
    grid = read_map(str(files[0]))
    lines = files[2].read_text().split("\n")
    agents = read_agents(str(files[1]), grid, int(lines[1].split(" ")[1]))
    paths = [[tuple(map(int, pair.split(","))) for pair in line.split(" ")[3:]] for line in lines[3:3 + len(agents)]]
    data = data_of([file.name for file in files[:3]], grid, agents, paths, list(all_faults(grid, agents, paths)))
    return json.loads(json.dumps(data))


# How it looks.

def fits_on_a_phone(browser, folder):
    faults = []
    for width, height in PHONES:
        opened(browser, width, height, True)
        checked(browser, example("random-32-32", 20))
        browser.value("document.querySelector('details').open = true")
        wide = browser.value("document.documentElement.scrollWidth")
        faults += [] if wide <= width else [f"the page is {wide} pixels wide on {width}"]
        top = browser.value("element('verdict').getBoundingClientRect().top")
        faults += [] if 0 <= top < height else ["the verdict is out of sight"]
        small = browser.value("[...document.querySelectorAll('button, .button, input:not(.unseen), summary')]"
                              ".filter((item) => item.getBoundingClientRect().height < 24)"
                              ".map((item) => item.id || item.tagName)")
        faults += [f"{name} is too small for a finger" for name in small]
    return faults


def has_contrast(browser, folder):
    """Light and dark, of each text of the page: also of an accepted and of a refused verdict."""
    faults, grounds = [], set()
    for scheme in ("light", "dark"):
        opened(browser, scheme=scheme)
        browser.click_on("#check")
        for cert in (CROSSING / "cert", CROSSING / "plan"):
            checked(browser, [*crossing(folder)[:3], cert], 2)
            browser.value("document.querySelector('details').open = true; complain('Still missing')")
            found = browser.value(CONTRASTS)
            faults += [f"{scheme}: {text!r} has a contrast of {value:.1f}" for text, value in found if value < CONTRAST]
            faults += [] if len(found) > 30 else [f"{scheme}: only {len(found)} texts are seen"]
        grounds.add(browser.value("getComputedStyle(document.body).backgroundColor"))
    return faults + ([] if len(grounds) == 2 else ["light and dark have one ground"])


def keeps_still(browser, folder):
    """For whoever wants little motion nothing moves while it is at work."""
    opened(browser, motion="reduce")
    browser.value("element('work').hidden = false; element('bar').removeAttribute('value')")
    is_hidden = browser.value("getComputedStyle(element('bar')).display") == "none"
    faults = [] if is_hidden else ["a bar without an end moves"]
    return faults + ([] if browser.value("document.getAnimations().length") == 0 else ["something moves"])


IN_BROWSER = {
    "judges the certificates of examples": judges_examples,
    "says what verdicts mean": says_what_verdicts_mean,
    "agrees on vectors": agrees_on_vectors,
    "refuses what is no number": refuses_what_is_no_number,
    "tells of changed files": tells_of_changed_files,
    "reads the largest map": reads_the_largest_map,
    "stays usable": stays_usable,
    "stops": stops,
    "works by keyboard": works_by_keyboard,
    "takes what is dropped": takes_what_is_dropped,
    "offers a choice": offers_a_choice,
    "draws as tools/draw": draws_as_tools_draw,
    "fits on a phone": fits_on_a_phone,
    "has contrast": has_contrast,
    "keeps still": keeps_still,
}
