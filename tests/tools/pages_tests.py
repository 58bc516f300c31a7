"""Tries the page of tools/draw as somebody meets it on a phone, and with the keyboard alone, where a browser is."""

import tempfile
from pathlib import Path

from browser import Browser, installed
from draw_tests import FAULTY, VALID, opened

# How many frames of a page that plays are looked at.
FRAMES = 6

# How often the page is drawn in so many frames.
DRAWS = """new Promise(end => {
  let [draws, frames] = [0, 0];
  const drawn = drawFaults;
  drawFaults = () => { draws++; drawn(); };
  const look = () => {
    if (++frames < %d) {
      requestAnimationFrame(look);
    } else {
      drawFaults = drawn;
      end(draws);
    }
  };
  requestAnimationFrame(look);
})"""

FOCUSED = "document.activeElement.id || document.activeElement.innerText"


def tests(tally):
    if not installed():
        tally.skip("pages", "no chromium is installed")
        return
    with tempfile.TemporaryDirectory() as name, Browser(installed()) as browser:
        for title, test in TESTS.items():
            try:
                faults = test(browser, Path(name))
            except (OSError, TimeoutError) as error:
                faults = [str(error)]
            tally.add(f"pages, {title}", faults or browser.problems)


def draws_once_a_frame(browser, folder):
    """While it plays. A page that draws more often each time soon stands still."""
    browser.resize(640, 480)
    opened(browser, folder, [[(tick % 2, 1) for tick in range(1000)], [(1, 0)]])
    browser.value("setSpeed(4); play(true); 1")
    draws = browser.value(DRAWS % FRAMES)
    is_on = browser.value("shows.plays && shows.time > 0")
    browser.value("play(false)")
    faults = [] if draws <= FRAMES + 1 else [f"{draws} times in {FRAMES} frames"]
    return faults + ([] if is_on else ["it stands still"])


def keeps_the_focus(browser, folder):
    """On a button that leads to the first or last tick, where it does nothing more."""
    opened(browser, folder, VALID, "#tick=1")
    faults = []
    for name, tick, is_dull in (("back", 0, True), ("forth", 1, False), ("last", 3, True), ("first", 0, True)):
        browser.value(f"element('{name}').focus()")
        browser.enter()
        told = browser.value(f"[shows.time, {FOCUSED}, element('{name}').getAttribute('aria-disabled')]")
        faults += [] if told == [tick, name, str(is_dull).lower()] else [f"after Enter on {name}: {told}"]
    return faults


def shows_the_focus(browser, folder):
    """All controls come by Tab, and the ring around each is seen: it isn't cut where its list ends."""
    opened(browser, folder, FAULTY, "#tick=1&agent=0")
    wanted = {"canvas", "tick", "first", "back", "play", "forth", "last", "speed", "paths", "goals", "nearer",
              "further", "fit", "agent", "Keys", *browser.value("faults.map((fault) => fault.words)")}
    came, faults = set(), []
    for _ in range(60):
        browser.tab()
        name = browser.value(FOCUSED)
        came.add(name)
        style = browser.value("(style => [style.outlineStyle, style.outlineWidth, parseFloat(style.outlineOffset)])"
                              "(getComputedStyle(document.activeElement))")
        is_in_list = browser.value("document.activeElement.closest('#legs, #fault-list') !== null")
        is_seen = style[:2] == ["solid", "3px"] and (not is_in_list or style[2] <= -3)
        faults += [] if is_seen or name not in wanted else [f"{name} has the ring {style}"]
    return faults + [f"Tab doesn't lead to {name}" for name in sorted(wanted - came)]


def shows_what_a_list_leads_to(browser, folder):
    """On a phone the map is out of sight where a list is tapped, and comes into sight."""
    browser.resize(390, 844, True)
    opened(browser, folder, FAULTY, "#agent=0")
    faults = []
    for name in ("fault-list", "legs"):
        browser.value("scrollTo(0, document.documentElement.scrollHeight); 1")
        browser.settle()
        if browser.value("canvas.getBoundingClientRect().top") >= 0:
            faults.append("the map isn't out of sight before")
        browser.value(f"element('{name}').querySelector('button').click()")
        browser.settle()
        top, bottom, height = browser.value(
            "(box => [box.top, box.bottom, innerHeight])(canvas.getBoundingClientRect())")
        faults += [] if top > -1 and bottom < height + 1 else [f"after a tap in {name} the map is at {top} to {bottom}"]
    browser.resize(640, 480)
    return faults


TESTS = {
    "draws once a frame while it plays": draws_once_a_frame,
    "a button keeps the focus": keeps_the_focus,
    "shows what has the focus": shows_the_focus,
    "shows what a list leads to": shows_what_a_list_leads_to,
}
