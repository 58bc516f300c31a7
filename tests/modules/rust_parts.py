"""Parts of a test that run side by side, each as soon as what it needs is done."""

import threading
import time
from collections.abc import Callable
from dataclasses import dataclass

from harness import Tally
from progress import SCREEN, say


@dataclass(frozen=True)
class Part:
    """A part: its name, what tries it, and the names of the parts whose products it needs. What tries it counts in a
    tally, and may answer a line that tells of it."""

    name: str
    attempt: Callable[["PartTally"], str | None]
    needs: tuple[str, ...] = ()


class PartTally(Tally):
    """What a part counts. Its lines begin with its name."""

    def __init__(self, part):
        super().__init__()
        self.part = part
        self.is_made = True  # Whether there is what other parts need of this one.

    def add(self, name, faults):
        super().add(f"{self.part}: {name}", faults)

    def skip(self, name, why):
        super().skip(f"{self.part}: {name}", why)

    def say(self, text):
        """Prints a line, or several."""
        say(f"{self.part}: {text}")


class Schedule:
    """Runs parts, so many at a time. Those that stand first begin first."""

    def __init__(self, parts, jobs):
        self.waiting = list(parts)
        self.count = len(self.waiting)
        self.jobs = jobs
        self.changed = threading.Condition()
        self.running = {}
        self.done = {}

    def run(self):
        """Runs all parts, and answers a tally of everything."""
        workers = [threading.Thread(target=self.work, daemon=True) for _ in range(self.jobs)]
        for worker in workers:
            worker.start()
        for worker in workers:
            worker.join()
        SCREEN.show(self, "")
        whole = Tally()
        for tally in self.done.values():
            whole.add_counts(tally.passed, tally.failed, tally.skipped)
        return whole

    def work(self):
        """Tries one part after another, until none is left to begin."""
        while part := self.taken():
            tally = self.running[part.name]
            began = time.monotonic()
            try:
                said = self.attempt(part, tally)
            except Exception as error:  # A part that breaks off is a failure, and the others go on.
                tally.add("breaks off", [f"{type(error).__name__}: {error}"])
                tally.is_made, said = False, None
            said = f", {said}" if said else ""
            tally.say(f"{counts_of(tally)} in {time.monotonic() - began:.0f} s{said}")
            with self.changed:
                self.done[part.name] = self.running.pop(part.name)
                self.changed.notify_all()
                self.tell()

    def attempt(self, part, tally):
        """Tries a part, unless something that it needs isn't there."""
        if missing := [name for name in part.needs if not self.done[name].is_made]:
            tally.add("not tried", [f"since {' and '.join(missing)} isn't there"])
            return None
        return part.attempt(tally)

    def taken(self):
        """The next part that can begin; None where none is left. Waits for one."""
        with self.changed:
            while self.waiting:
                for part in self.waiting:
                    if all(name in self.done for name in part.needs):
                        self.waiting.remove(part)
                        self.running[part.name] = PartTally(part.name)
                        self.tell()
                        return part
                self.changed.wait()
        return None

    def tell(self):
        """Shows how far the parts are."""
        at_work = ", ".join(self.running) or "nothing"
        SCREEN.show(self, f"rust: {len(self.done)} of {self.count} parts are done; at work: {at_work}")


def counts_of(tally):
    skipped = f", {tally.skipped} skipped" if tally.skipped else ""
    return f"{tally.passed} passed, {tally.failed} failed{skipped}"
