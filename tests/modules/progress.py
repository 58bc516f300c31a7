"""How far a runner is. On a terminal standard error has it in one line, which is written over; elsewhere it gets a line
from time to time.
"""

import contextlib
import os
import sys
import threading
import time
from pathlib import Path

# How many seconds pass at least between two lines where standard error is no terminal.
SECONDS = 30


class Screen:
    """Where lines are printed, and how far each of those is that tell it: on a terminal below these lines."""

    def __init__(self):
        self.lock = threading.RLock()
        self.progress = {}
        self.told_at = time.monotonic()

    @contextlib.contextmanager
    def lines(self):
        """For as long as lines are printed, nobody else prints any, and the progress isn't shown."""
        with self.lock:
            draw("")
            yield
            draw(self.text())

    def show(self, who, how_far):
        """Shows how far somebody is, or nothing of that one any more."""
        with self.lock:
            self.progress.pop(who, None)
            if how_far:
                self.progress[who] = how_far
            draw(self.text())
            if how_far and not sys.stderr.isatty() and time.monotonic() - self.told_at >= SECONDS:
                print(self.text(), file=sys.stderr, flush=True)
                self.told_at = time.monotonic()

    def text(self):
        return "; ".join(self.progress.values())


def draw(text):
    """Puts a text in place of the last line of standard error, where that is a terminal."""
    if sys.stderr.isatty():
        sys.stdout.flush()
        # A terminal may say that it has no columns at all.
        columns = os.get_terminal_size(sys.stderr.fileno()).columns or 80
        print(f"\r\x1b[K{text[:columns - 1]}", end="", file=sys.stderr, flush=True)


SCREEN = Screen()


def say(text):
    """Prints a line, or several."""
    with SCREEN.lines():
        print(text, flush=True)


class Progress:
    """How many of so many items are done. It is shown until the end of the block that it is for."""

    def __init__(self, count, title=""):
        self.count, self.done = count, 0
        self.title = ", ".join(filter(None, [Path(sys.argv[0]).name, title]))

    def __enter__(self):
        self.tell()
        return self

    def __exit__(self, *_):
        SCREEN.show(self, "")

    def step(self, *_):
        """One more is done."""
        with SCREEN.lock:
            self.done += 1
            self.tell()

    def tell(self):
        SCREEN.show(self, f"{self.title}: {self.done} of {self.count}")


def one_by_one(items, title=""):
    """Each of the items. How many are done is told."""
    items = list(items)
    with Progress(len(items), title) as progress:
        for item in items:
            yield item
            progress.step()
