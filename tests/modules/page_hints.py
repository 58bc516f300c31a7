"""Trials of what web/check.html shows beside a verdict, in a browser without a window: what becomes of an old one,
hints at what may be wrong, and what it says of files that are dropped."""

import shutil
import time

from page_trials import (CHOSEN, CROSSING, EXAMPLES, PLAN_PROVED, TEXTS, TOP, checked, choose, crossing, drawn, example,
                         line_of, long_texts, missing, opened, put, soon, verdict)

OLD = "This verdict is of the texts chosen before. Press Check."
AFTERWARDS = "Once a plan is judged, it is drawn here."
NO_FAULT = "no fault seen by the drawing (not proved)"
NOT_PROVED = "Seen by another reading, which isn't proved: "
REASON_SEEN = "The reason above is seen by another reading, which isn't proved."

# The colours of the verdict and of its title, and whether they are one.
COLOURS = "[element('verdict'), document.querySelector('#verdict h2')].map((item) => getComputedStyle(item).color)"

# The places of what can be pressed above the verdict.
PLACES = """[...document.querySelectorAll('form button, form .button, form input:not(.unseen)')]
.map((item) => item.getBoundingClientRect()).map(({ left, top, width }) => [left, top, width])"""

# Has all texts of a paragraph be kept.
KEEP_COMPLAINTS = """complaints = [];
new MutationObserver(() => complaints.push(element('taken').innerText))
  .observe(element('taken'), { childList: true, characterData: true, subtree: true }); 0"""

MOST_FILES = 2000


def middle_of(browser, place):
    box = f"document.querySelector('{place}').getBoundingClientRect()"
    return browser.value(f"(box => [box.left + box.width / 2, box.top + box.height / 2])({box})")


def drop_on(browser, place, *files):
    """Drops files on an element, and waits until they are taken."""
    browser.value(f"document.querySelector('{place}').scrollIntoView({{ block: 'nearest' }})")
    browser.drop(files, *middle_of(browser, place))
    time.sleep(0.3)


# What becomes of a verdict.

def changes(browser, folder):
    """Changes of what is chosen, each by its name."""
    two = put(folder / "two", {text: (CROSSING / text).read_bytes() for text in TEXTS})
    return {
        "a file": lambda: browser.choose("#cert", [CROSSING / "cert"]),
        "files": lambda: browser.choose("#files", two),
        "a typed K": lambda: (browser.click_on("#k"), browser.press("1")),
        "a drop on the page": lambda: drop_on(browser, "h2", *two),
        "a drop on a row": lambda: drop_on(browser, "#map", CROSSING / "map"),
    }


def outdates_a_verdict(browser, folder):
    """After a change no verdict is green, none is drawn, and the page says so; a change ends a run."""
    faults = []
    opened(browser)
    for name, change in changes(browser, folder).items():
        faults += missing(checked(browser, crossing(folder), 2), "optimal 5") + drawn(browser, True)
        change()
        time.sleep(0.3)
        told, colours = verdict(browser), browser.value(COLOURS)
        found = missing(browser.value("element('verdict').innerText"), OLD) + missing(told, "optimal 5")
        found += drawn(browser, False) + ([] if len(set(colours)) == 1 else [f"its colours are {colours}"])
        faults += [f"after {name}: {fault}" for fault in found]
    return faults


def ends_a_run_after_a_change(browser, folder):
    opened(browser)
    faults = []
    for name, change in changes(browser, folder).items():
        choose(browser, long_texts(folder))
        browser.click_on("#check")
        faults += [] if browser.value("run !== null") else ["it has ended by itself"]
        change()
        time.sleep(0.3)
        found = missing(" ".join(verdict(browser)), "Stopped", "The texts were changed. Press Check.")
        found += drawn(browser, False) + ([] if browser.value("run === null") else ["it goes on"])
        faults += [f"after {name}: {fault}" for fault in found]
    return faults


def notes_a_file_chosen_again(browser, folder):
    """A file that was changed and is chosen again under its name is another text."""
    opened(browser)
    files = crossing(folder / "again")
    faults = missing(checked(browser, files, 2), "optimal 5")
    files[3].write_bytes(b"mapf-cert 2\n")
    browser.choose("#cert", files[3:])
    time.sleep(0.3)
    return faults + missing(browser.value("element('verdict').innerText"), OLD)


def judges_the_example(browser, folder):
    opened(browser)
    browser.click_on("#example")
    return missing(verdict(browser), "optimal 5") + drawn(browser, True)


# What is drawn and told beside a verdict.

def changed(text, old, new):
    """The text of the crossing with its one part of these bytes changed."""
    whole = (CROSSING / text).read_bytes()
    if whole.count(old) != 1:
        raise OSError(f"{text} of the crossing hasn't {old!r} once")
    return {text: whole.replace(old, new)}


def texts_with_hints():
    """What is changed of the crossing, K, the code of the refusal, whether the plan is drawn, and words of the hint."""
    one, waits = b"path 0 3 0,1 0,1 1,1 2,1", b"path 0 4 0,1 0,1 1,1 2,1 2,1"
    return [
        (changed("map", b"type octile", b"octile"), 2, "F1", False, "line 1 of the map isn't \"type octile\""),
        (changed("map", b"map\n...\n", b"map\n..?\n"), 2, "F1", False, "row 0 of the map (line 5) has the character"),
        (changed("map", b"map\n...\n", b"map\n..\n"), 2, "F1", False, "has 2 characters, and its width is 3"),
        (changed("map", b"height 3", b"height 4"), 2, "F1", False, "the map has 3 rows, and its height is 4"),
        (changed("map", b"map\n...\n...", b"map\n...\n@.."), 2, "F2", False, "agent 0 starts in (0,1), which is"),
        ({"scen": b"version 1\n0 m 4 4 0 1 2 1 2\n"}, 1, "F2", False, "agent 0 is of a map of 4 by 4 cells"),
        ({}, 3, "F2", False, "the scenario has 2 agents, and you ask for 3 (F2)"),
        (changed("plan", b"cost 5", b"cost 6"), 2, "C1", False, "says the cost 6, and its paths add up to 5"),
        (changed("plan", one, one[:-4]), 2, "C1", False, "the path of agent 0 says 3 steps, and has 2"),
        (changed("plan", one, one[:-4]), 2, "C1", False, f"{NOT_PROVED}Agent 0 ends in (1,1), and its goal is (2,1)."),
        (changed("plan", one, waits), 2, "C1", False, "the path of agent 0 waits at its end"),
        (changed("plan", b"\nend\n", b"\n"), 2, "C1", False, "the plan text doesn't end with the line \"end\""),
        (changed("plan", b"\nend\n", b"\nend"), 2, "C1", False, "the last line of the plan text has no line end (LF)"),
        (changed("plan", b"\nend\n", b"\nend\n\n"), 2, "C1", False, "there is text after the line \"end\" of the plan"),
        (changed("cert", b"\nend\n", b"\n"), 2, "C2", True, "the certificate doesn't end with the line \"end\""),
        (changed("cert", b"\nend\n", b"\nend\nend\n"), 2, "C2", True, "there is text after the line \"end\" of the"),
        ({}, 1, "C3", False, "the plan text says 2 agents, the certificate 2, you 1 (C3)"),
        (changed("cert", b"agents 2", b"agents 1"), 2, "C3", True, "the plan text says 2 agents, the certificate 1"),
        (changed("cert", b"cost 5", b"cost 6"), 2, "C4", True, "the certificate claims 6, the plan costs 5 (C4)"),
        (changed("cert", b"cost 5", b"cost 4"), 2, "C4", True, "\"within\" needs a certificate with \"claim bound 4\""),
        (changed("cert", b"cost 5", b"impossible"), 2, "C4", True,
         "the certificate says \"claim impossible\", the plan text \"cost 5\" (C4)"),
        (changed("plan", one, b"path 0 3 0,1 1,1 1,1 2,1"), 2, "C5", True,
         f"{NOT_PROVED}Agents 0 and 1 are both in (1,1)"),
    ]


def texts_with_doubts():
    """What is changed of the crossing, the code of the refusal, and what is doubted, with what to do about it."""
    text = {name: (CROSSING / name).read_bytes() for name in TEXTS}
    lines, page = {name: text[name].replace(b"\n", b"\r\n") for name in TEXTS}, b"\n<!DOCTYPE html>\n<html></html>\n"
    damaged = [
        ("F1", "map", b"", "The file chosen as map is empty. Get the map again."),
        ("F2", "scen", b"", "The file chosen as scenario is empty."),
        ("C1", "plan", b"", "The file chosen as plan text is empty."),
        ("C2", "cert", b"", "The file chosen as certificate is empty. Get the certificate again."),
        ("F1", "map", text["cert"], "What is chosen as map is a certificate. Choose the map."),
        ("F2", "scen", text["plan"], "What is chosen as scenario is a plan text."),
        ("C1", "plan", text["map"], "What is chosen as plan text is a map."),
        ("C2", "cert", text["scen"], "What is chosen as certificate is a scenario."),
        ("F1", "map", b"\xef\xbb\xbf" + text["map"],
         "The map begins with a byte order mark. Save it as UTF-8 without BOM."),
        ("C2", "cert", text["cert"].decode().encode("utf-16"), "The certificate begins with a byte order mark."),
        ("F2", "scen", text["scen"].replace(b"\n", b"\r"),
         "The scenario has old Mac line ends (CR). Save it with LF alone."),
        ("C1", "plan", lines["plan"], "The plan text has Windows line ends (CR LF). Save it with LF alone."),
        ("C2", "cert", lines["cert"], "The certificate has Windows line ends (CR LF). Save it with LF alone."),
        ("F1", "map", page, "What is chosen as map is a web page. Get the map itself."),
        ("C2", "cert", page, "What is chosen as certificate is a web page."),
        ("C2", "cert", b"\x1f\x8b\x08\0", "What is chosen as certificate isn't a text."),
        ("C1", "plan", b"mapf-plan 3\n", "The plan text is of version 3, and this page reads versions 1 and 2."),
        ("C2", "cert", b"mapf-cert 9\n", "The certificate is of version 9, and this page reads versions 1 to 3."),
        ("C1", "plan", b"1 2 3\n",
         "What is chosen as plan text isn't one of mapf. For plans of other solvers use tools/verify."),
        ("C2", "cert", b"1 2 3\n", "What is chosen as certificate doesn't begin as one. Get the certificate again."),
    ]
    yield from (({name: given}, code, words) for code, name, given, words in damaged)
    yield {"map": text["scen"], "scen": text["map"]}, "F1", "Map and scenario are exchanged. Exchange the two files."
    yield ({"plan": text["cert"], "cert": text["plan"]}, "C1",
           "Plan text and certificate are exchanged. Exchange the two files.")


def doubts_wrong_files(browser, folder):
    """A wrong file is named before it is judged. Then the verdict names it, and it is told but once."""
    opened(browser)
    faults = []
    for texts, code, words in texts_with_doubts():
        choose(browser, crossing(folder, **texts))
        browser.value("element('k').value = '2'")
        found = missing(soon(browser, "element('doubts').innerText", words), words)
        browser.click_on("#check")
        title, *told = verdict(browser)
        reason, _, advice = words.removesuffix(".").partition(". ")
        found += missing(title, f"Refused: {reason[0].lower()}{reason[1:]}", f"({code})") + missing(told, REASON_SEEN)
        found += missing(" ".join(told), f"{advice}.".lstrip(".")) + missing(" ".join(told), f"{code} means that")
        found += [] if browser.value("element('doubts').innerText") == "" else ["it is told twice"]
        found += ["it advises another certificate"] if "another certificate may" in " ".join(told) else []
        faults += [f"{code}, {words}: {fault}" for fault in found]
    whole = crossing(folder)
    choose(browser, whole)
    lines = put(folder / "lines", {name: (CROSSING / name).read_bytes().replace(b"\n", b"\r\n") for name in TEXTS})
    choose(browser, lines[:2])
    time.sleep(0.3)
    told = browser.value("element('doubts').innerText")
    return faults + ([f"of a map and a scenario with CR LF it tells {told}"] if told else [])


def hints_at_what_is_wrong(browser, folder):
    """A refusal is told with a hint that is marked as not proved, and nothing is drawn before the plan is judged."""
    opened(browser)
    faults = []
    for texts, agents, code, is_drawn, hint in texts_with_hints():
        title, *told = checked(browser, crossing(folder, **texts), agents)
        found = missing(title, "Refused: ", f"({code})") + missing("\n".join([title, *told]), hint)
        found += missing(told, *([] if code == "C5" else [REASON_SEEN])) + drawn(browser, is_drawn)
        found += ["it advises another certificate"] if "another certificate may" in " ".join(told) else []
        found += [] if ("get it again" in " ".join(told)) == (code == "C2") else [f"it tells {told}"]
        faults += [f"{code}, {hint}: {fault}" for fault in found]
    return faults


def says_what_is_proved_of_a_refused_answer(browser, folder):
    """Where a certificate is refused, its plan is proved valid, whatever the refusal; of another answer nothing is."""
    cert, plan = ((CROSSING / text).read_bytes() for text in ("cert", "plan"))
    limit = b"mapf-plan 2\nagents 2\nlimit 3 bound 5\nend\n"
    three = b"mapf-cert 2\nagents 3\nclaim cost 5\nleaf 0\nend\n"
    trials = [
        ({"cert": cert.replace(b"at 0,1 0 3", b"at 0,1 0 4")}, "refused C7", True),
        ({"cert": cert[:-4]}, "refused C2", True),
        ({"cert": three}, "refused C3", True),
        ({"cert": cert.replace(b"cost 5", b"cost 6")}, "refused C4", True),
        ({"plan": limit}, "refused C4", False),
        ({"plan": limit, "cert": cert[:-4].replace(b"cost", b"bound")}, "refused C2", False),
        ({"plan": limit.replace(b"mapf-plan 2", b"mapf-plan 1")}, "refused C1", False),
        ({"plan": plan.replace(b"agents 2", b"agents 3")}, "refused C1", False),
        ({"plan": plan.replace(b"0,1 0,1 1,1", b"0,1 1,1 1,1"), "cert": three}, "refused C5", False),
    ]
    opened(browser)
    faults = []
    for texts, line, is_proved in trials:
        told = checked(browser, crossing(folder, **texts), 2)
        faults += drawn(browser, is_proved or line == "refused C5")
        found = line_of(told)
        faults += [] if found == line else [f"{found}, wanted {line}"]
        words = " ".join(told)
        for sentence, is_wanted in ((PLAN_PROVED, is_proved), ("Nothing is proved.", not is_proved)):
            faults += [] if (sentence in words) == is_wanted else [f"{line}: {sentence!r} is {'not ' * is_wanted}told"]
    return faults


def says_why_nothing_is_drawn(browser, folder):
    opened(browser)
    limit, one = b"mapf-plan 2\nagents 2\nlimit 3 bound 5\nend\n", b"mapf-plan 1\nagents 2\nlimit 3\nend\n"
    bound = (CROSSING / "cert").read_bytes().replace(b"cost", b"bound")
    early, no_plan = "Nothing is drawn: the texts were refused before a plan", "This answer has no plan to draw."
    trials = [({"map": b""}, "refused F1", early), ({"plan": limit, "cert": bound}, "bound 5", no_plan),
              ({"plan": limit}, "refused C4", no_plan), ({"plan": one}, "refused C4", no_plan)]
    faults = []
    for texts, line, words in trials:
        faults += missing(checked(browser, crossing(folder, **texts), 2), line) + drawn(browser, False)
        faults += missing(browser.value("element('side').innerText"), words)
    browser.choose("#map", [CROSSING / "map"])
    return faults + missing(soon(browser, "element('side').innerText", AFTERWARDS), AFTERWARDS)


def says_nothing_green_of_a_drawing(browser, folder):
    opened(browser)
    faults = missing(checked(browser, crossing(folder), 2), "optimal 5") + drawn(browser, True)
    time.sleep(0.3)
    inner = "document.querySelector('iframe').contentDocument"
    faults += missing(browser.value(f"{inner}.querySelector('#sums').innerText"), NO_FAULT)
    return faults + ([] if browser.value(f"{inner}.querySelector('.good') === null") else ["it is green"])


def knows_windows_line_ends(browser, folder):
    """The number of agents is read of such a plan text, and the cause of the refusal is told."""
    opened(browser)
    words = "he plan text has Windows line ends (CR LF)"
    plan = (CROSSING / "plan").read_bytes().replace(b"\n", b"\r\n")
    choose(browser, crossing(folder, plan=plan))
    faults = missing(browser.value("element('doubts').innerText"), words)
    faults += [] if browser.value("element('k').value") == "2" else ["K isn't taken"]
    browser.click_on("#check")
    return faults + missing(" ".join(verdict(browser)), "(C1)", words)


def marks_another_number(browser, folder):
    opened(browser)
    choose(browser, crossing(folder))
    browser.click_on("#k")
    faults = []
    for key, number, wanted in (("End", 35, ["2", "The plan text says 2.", ""]),
                                ("Backspace", 8, ["", "The plan text says 2.", ""]),
                                ("3", 51, ["3", "The plan text says 2, not 3.", "bad"])):
        browser.control(key, number, **({"text": key} if len(key) == 1 else {}))
        time.sleep(0.3)
        note = "element('k-note')"
        found = browser.value(f"[element('k').value, {note}.innerText, {note}.className]")
        faults += [] if found == wanted else [f"after {key}: {found}"]
    return faults


# Files that come together.

def takes_all_that_is_dropped(browser, folder):
    """Several files, or a folder, that are dropped on the row of one text are told apart by what is in them."""
    faults = []
    for dropped in (crossing(folder), [CROSSING]):
        opened(browser)
        drop_on(browser, "#scen", *dropped)
        found = soon(browser, CHOSEN, [*TEXTS, "2"])
        faults += [] if found == [*TEXTS, "2"] else [f"of {dropped} it takes {found}"]
    return faults


def drop_on_drawing(browser, *files):
    """Drops files on the frame of the drawing. When they are taken, the frame is gone."""
    place = browser.value("(box => [box.left + 90, box.top + 200])(element('side').getBoundingClientRect())")
    browser.drop(files, *place)
    return soon(browser, "document.querySelector('iframe') === null", True)


def takes_what_is_dropped_on_the_drawing(browser, folder):
    """Files, and a folder, that are dropped on the drawing are taken whole: nothing is told of those before."""
    forty = example("random-32-32", 40)
    top = folder / "forty"
    top.mkdir()
    for file in forty:
        shutil.copy(file, top)
    faults = []
    for name, dropped in (("two files", forty[2:]), ("four files", forty), ("a folder", [top])):
        opened(browser)
        found = missing(checked(browser, example("random-32-32", 20)), "optimal 496") + drawn(browser, True)
        found += [] if drop_on_drawing(browser, *dropped) else ["the drawing stays"]
        wanted = [*(file.name for file in forty), "40"]
        chosen = soon(browser, CHOSEN, wanted)
        found += [] if chosen == wanted else [f"it takes {chosen}"]
        found += missing(browser.value("element('k-note').innerText"), "The plan text says 40.")
        browser.click_on("#check")
        found += missing(verdict(browser), "optimal 990")
        faults += [f"of {name}: {fault}" for fault in found]
    return faults


def forgets_doubts_of_other_files(browser, folder):
    """What was told of a certificate isn't told of the next one, also where that is dropped on the drawing."""
    words = "Windows line ends"
    cert = (CROSSING / "cert").read_bytes()
    bad, misspelt = folder / "bad", folder / "misspelt"
    bad.write_bytes(cert.replace(b"\n", b"\r\n"))
    misspelt.write_bytes(cert.replace(b"leaf", b"laef", 1))
    faults = []
    opened(browser)
    trials = ("a misspelt one", misspelt, "(C2)"), ("the good one", CROSSING / "cert", "optimal 5")
    for name, next_one, wanted in trials:
        faults += missing(" ".join(checked(browser, [*crossing(folder)[:3], bad], 2)), words, "(C2)")
        faults += drawn(browser, True) + ([] if drop_on_drawing(browser, next_one) else ["the drawing stays"])
        time.sleep(0.3)
        browser.click_on("#check")
        told = " ".join(verdict(browser))
        found = missing(told, wanted) + ([f"it tells {told}"] if words in told else [])
        found += [] if browser.value("element('doubts').innerText") == "" else ["the doubt stays"]
        faults += [f"after {name}: {fault}" for fault in found]
    return faults


def tells_of_large_folders(browser, folder):
    many = folder / "many"
    many.mkdir()
    for number in range(MOST_FILES + 1):
        (many / f"{number}.map").write_bytes(b"type octile\n")
    faults = []
    for way in ("dropped", "chosen"):
        opened(browser)
        browser.value(KEEP_COMPLAINTS)
        drop_on(browser, "h2", many) if way == "dropped" else browser.choose("#folder", [many])
        end = time.monotonic() + 30
        while len(browser.value("complaints")) < 2 and time.monotonic() < end:
            time.sleep(0.1)
        found = browser.value("complaints")
        wanted = ["Reading the folder", "Only the first 2,000 files were looked at."]
        faults += [] if found == wanted else [f"of what is {way} it tells {found}"]
    return faults


def lists_paths(browser, folder):
    """In the lists files of folders have their paths, in order."""
    top = folder / "top"
    for name in ("b10", "b9", "a"):
        put(top / name, {text: (CROSSING / text).read_bytes() for text in TEXTS})
    faults = []
    for way in ("dropped", "chosen"):
        opened(browser)
        drop_on(browser, "h2", top) if way == "dropped" else browser.choose("#folder", [top])
        time.sleep(0.5)
        found = browser.value("[...element('map-found').options].map((option) => option.text)")
        wanted = ["choose one of 3", *(f"top/{name}/map" for name in ("a", "b9", "b10"))]
        faults += [] if found == wanted else [f"of what is {way} it lists {found}"]
    return faults


def finds_what_goes_together(browser, folder):
    """Once one file is chosen from a list, the other lists hold what goes with it: of its folder, or by its name."""
    files = [EXAMPLES / name for name in ("random-32-32.map", "empty-8-8.map", "random-32-32.scen", "empty-8-8.scen")]
    files += [EXAMPLES / f"{name}-{text}.txt" for name in ("random-32-32-20", "random-32-32-40", "empty-8-8-18")
              for text in ("plan", "cert")]
    opened(browser)
    browser.choose("#files", [*files, TOP / "docs" / "plan.png"])
    soon(browser, "element('plan-found').options.length", 4)
    faults = []
    for text, name, wanted in (
            ("plan", "empty-8-8-18-plan.txt", ["empty-8-8", "empty-8-8", "empty-8-8-18", "empty-8-8-18", "18"]),
            ("plan", "random-32-32-40-plan.txt", ["random-32-32", "random-32-32", *["random-32-32-40"] * 2, "40"]),
            ("cert", "random-32-32-20-cert.txt", ["random-32-32", "random-32-32", "random-32-32-40", "random-32-32-20",
                                                  "40"])):
        pick_from(browser, text, name)
        endings = ".map", ".scen", "-plan.txt", "-cert.txt", ""
        names = [part + ending for part, ending in zip(wanted, endings)]
        found = soon(browser, CHOSEN, names)
        faults += [] if found == names else [f"with {name} it takes {found}"]
        shown = browser.value("texts.map((text) => element(`${text}-found`).selectedOptions[0].text)")
        faults += [] if shown == names[:4] else [f"with {name} the lists show {shown}"]
    top = folder / "sets"
    for name in ("a", "b"):
        put(top / name, {text: (CROSSING / text).read_bytes() for text in TEXTS})
    opened(browser)
    browser.choose("#folder", [top])
    soon(browser, "element('plan-found').options.length", 3)
    pick_from(browser, "scen", "sets/b/scen")
    soon(browser, CHOSEN, [*TEXTS, "2"])
    shown = browser.value("texts.map((text) => element(`${text}-found`).selectedOptions[0].text)")
    return faults + ([] if shown == [f"sets/b/{text}" for text in TEXTS] else [f"of a folder the lists show {shown}"])


def pick_from(browser, text, name):
    """Chooses a file of the list of a text."""
    browser.value(f"""(list => {{
      list.value = [...list.options].findIndex((option) => option.text === "{name}") - 1;
      list.dispatchEvent(new Event("change"));
    }})(element("{text}-found"))""")


# Places.

def keeps_places(browser, folder):
    """What can be pressed stays where it is from Check on, while it is judged, and when another verdict comes."""
    faults = []
    for width, height in ((1280, 1100), (1280, 700), (1000, 1100)):
        opened(browser, width, height)
        choose(browser, crossing(folder))
        before = browser.value(PLACES)
        browser.click_on("#check")
        faults += missing(verdict(browser), "optimal 5")
        scrolled = height == 700
        faults += [] if scrolled or browser.value(PLACES) == before else [f"{width}: a verdict moves what is pressed"]
        choose(browser, long_texts(folder))
        browser.value("document.querySelector('details').scrollIntoView({ block: 'end' })")
        before = browser.value("element('check').getBoundingClientRect().top")
        browser.click_on("#check")
        time.sleep(0.3)
        boxes = browser.value("['stop', 'work', 'check'].map((id) => element(id).getBoundingClientRect())"
                              ".map(({ top, bottom }) => [top, bottom])")
        faults += [] if boxes[1][0] < boxes[0][1] <= height else [f"the progress isn't beside Stop: {boxes}"]
        faults += [] if boxes[2][0] == before else ["Check moves while it is at work"]
        faults += [] if all(44 <= boxes[i][1] - boxes[i][0] < 46 for i in (0, 2)) else [f"the buttons grow: {boxes}"]
        browser.click_on("#stop")
    return faults


def leads_to_the_plan(browser, folder):
    """In a narrow window a link of the verdict leads to the drawing, which is the next below; in a wide one there is
    none, and the drawing fills its place."""
    faults = []
    for width, is_phone in ((412, True), (1000, False), (1280, False)):
        opened(browser, width, 900, is_phone)
        checked(browser, crossing(folder), 2)
        is_narrow = width < 1100
        order = browser.value("['verdict', 'side'].map((id) => element(id).getBoundingClientRect())"
                              ".map(({ top, bottom, left, right }) => [top, bottom, left, right])")
        shown = browser.value("document.querySelector('#verdict a')?.checkVisibility()")
        faults += [] if shown == is_narrow else [f"{width}: the link is {'not ' * is_narrow}shown"]
        if is_narrow:
            faults += [] if 0 < order[1][0] - order[0][1] < 40 else [f"{width}: the places are {order}"]
            browser.click_on("#verdict a")
            top = soon(browser, "Math.round(element('side').getBoundingClientRect().top) + 0", 0)
            faults += [] if abs(top) < 2 else [f"{width}: the link leads elsewhere, {top}"]
            browser.choose("#cert", [CROSSING / "plan"])
            time.sleep(0.3)
            faults += ["an old verdict has the link"] if browser.value(
                "document.querySelector('#verdict a').checkVisibility()") else []
        else:
            faults += [] if order[1][0] == 0 and order[1][1:] == [900, 560, 1280] else [f"the places are {order}"]
    return faults


def shows_whole_names(browser, folder):
    """The names of examples/ fit beside their buttons, where the window is wide, and a long K stays in its card."""
    opened(browser, 1280, 900)
    choose(browser, example("random-32-32", 20))
    wide = browser.value("""texts.map((text) => {
      const canvas = document.createElement("canvas").getContext("2d");
      canvas.font = getComputedStyle(element(text)).font;
      const button = canvas.measureText("Choose File").width + 28 + 2 + 10;
      return element(text).clientWidth - button - canvas.measureText(element(text).files[0].name).width;
    })""")
    faults = [f"a name lacks {-left:.0f} pixels" for left in wide if left < 0]
    plan = b"mapf-plan 2\nagents " + b"9" * 40 + b"\ncost 5\nend\n"
    for width, is_phone in ((1280, False), (320, True)):
        opened(browser, width, 900, is_phone)
        choose(browser, crossing(folder, plan=plan))
        soon(browser, "element('k-note').innerText !== ''", True)
        out = browser.value("element('k-note').getBoundingClientRect().right > element('fields')"
                            ".getBoundingClientRect().right + 0.5")
        faults += [f"{width}: the note of K runs out of its card"] if out else []
    return faults


def scrolls_by_a_finger(browser, folder):
    """On a phone one finger on the map of the drawing scrolls the page."""
    opened(browser, 412, 915, True)
    checked(browser, example("random-32-32", 20))
    browser.value("element('side').scrollIntoView()")
    time.sleep(0.5)
    before = browser.value("scrollY")
    for at in range(12):
        browser.ask("Input.dispatchTouchEvent", type="touchMove" if at else "touchStart",
                    touchPoints=[{"x": 200, "y": 300 + 20 * at}])
        time.sleep(0.03)
    browser.ask("Input.dispatchTouchEvent", type="touchEnd", touchPoints=[])
    time.sleep(0.3)
    moved = before - browser.value("scrollY")
    return [] if moved > 100 else [f"the page is scrolled by {moved} pixels"]


IN_BROWSER = {
    "outdates a verdict": outdates_a_verdict,
    "ends a run after a change": ends_a_run_after_a_change,
    "notes a file chosen again": notes_a_file_chosen_again,
    "judges the example": judges_the_example,
    "hints at what is wrong": hints_at_what_is_wrong,
    "doubts wrong files": doubts_wrong_files,
    "says what is proved of a refused answer": says_what_is_proved_of_a_refused_answer,
    "says why nothing is drawn": says_why_nothing_is_drawn,
    "says nothing green of a drawing": says_nothing_green_of_a_drawing,
    "knows Windows line ends": knows_windows_line_ends,
    "marks another number": marks_another_number,
    "takes all that is dropped": takes_all_that_is_dropped,
    "takes what is dropped on the drawing": takes_what_is_dropped_on_the_drawing,
    "forgets doubts of other files": forgets_doubts_of_other_files,
    "tells of large folders": tells_of_large_folders,
    "lists paths": lists_paths,
    "finds what goes together": finds_what_goes_together,
    "keeps places": keeps_places,
    "leads to the plan": leads_to_the_plan,
    "shows whole names": shows_whole_names,
    "scrolls by a finger": scrolls_by_a_finger,
}
