"""The plots of a map, as SVG figures: its success rate and its runtime against the number of agents, and how many runs
are solved in which time.
"""

from collections.abc import Callable, Iterable, Mapping
from dataclasses import dataclass
from html import escape
from math import ceil, floor, log10

from .sweep_points import Point

WIDTH, HEIGHT = 340, 250
LEFT, RIGHT, TOP, BOTTOM = 46, 12, 28, 42

# How far the frame is from the least and the greatest values.
PAD = 7

# The marks of the kinds of scenarios, in their order, around (0, 0).
MARKS = ('<circle r="3.4"/>', '<rect x="-3.2" y="-3.2" width="6.4" height="6.4"/>', '<path d="M0-4.4 4 3.2H-4z"/>',
         '<path d="M0-4.6 4.6 0 0 4.6-4.6 0z"/>', '<path d="M0 4.4-4-3.2H4z"/>',
         '<path d="M-1.3-4h2.6v2.7H4v2.6H1.3V4h-2.6V1.3H-4v-2.6h2.7z"/>')

# Processor time is measured in milliseconds, so that less than one counts as one.
LEAST_SECONDS = 0.001

# A mark of a curve: x, y, its class, and what it says when it is pointed at.
Mark = tuple[float, float, str, str]


# The plots.

def plot(name: str, found: list[Point]) -> str:
    """The success rate of one map, from its points."""
    most = max(one.agents for one in found)
    kinds = kinds_of(found)
    curves = "".join(curve([
        (across(one.agents, most), up(one.rate()), "partly" if one.pending else "whole",
         f"{one.agents} agents: {one.solved} of {one.tried} solved")
        for one in found if one.kind == kind], number) for number, kind in enumerate(kinds))
    rates = {fifth / 5: f"{fifth / 5:.1f}" for fifth in range(6)}
    return figure(name, "success rate", frame(most, "number of agents", rates, "success rate") + curves
                  + legend(kinds, HEIGHT - BOTTOM - PAD - 8 - 16 * (len(kinds) - 1)))


def runtime(name: str, found: list[Point], words: Callable[[float], str]) -> str:
    """The median of the seconds in which a map is solved, from its points. `words` spells seconds."""
    there = [one for one in found if one.solve is not None]
    if not there:
        return ""
    most, scale, kinds = max(one.agents for one in found), Decades.of([one.solve for one in there]), kinds_of(found)
    curves = "".join(curve([
        (across(one.agents, most), up(scale.part(one.solve)), "whole",
         f"{one.agents} agents: {words(one.solve)}, median of {one.solved}")
        for one in there if one.kind == kind], number) for number, kind in enumerate(kinds))
    return figure(name, "runtime", frame(most, "number of agents", scale.ticks(), "seconds of solve") + curves
                  + legend(kinds, TOP + 14), "runtime")


def cactus(name: str, times: Mapping[str, list[float]], words: Callable[[float], str]) -> str:
    """How many runs of a map are solved in which time: of each kind the seconds of the solved runs."""
    there = {number: sorted(seconds) for number, seconds in enumerate(times.values()) if seconds}
    if not there:
        return ""
    most = max(map(len, there.values()))
    scale = Decades.of([second for seconds in there.values() for second in seconds])
    curves = ""
    for number, seconds in there.items():
        places = [(across(at, most), up(scale.part(second))) for at, second in enumerate(seconds, 1)]
        last = (*places[-1], "whole", f"{len(seconds)} runs solved, each in at most {words(seconds[-1])}")
        curves += group(number, line(places) + mark(last, number))
    return figure(name, "runs solved", frame(most, "runs solved", scale.ticks(), "seconds of solve") + curves
                  + legend(list(times), TOP + 14), "cactus")


def kinds_of(found: Iterable[Point]) -> list[str]:
    """The kinds of scenarios that the points have, each once."""
    return list(dict.fromkeys(one.kind for one in found))


# Scales.

def tick_step(most: int) -> int:
    """The least step of 1, 2 or 5 times a power of ten with which at most seven ticks are needed."""
    return next(step for power in range(9) for step in (10**power, 2 * 10**power, 5 * 10**power) if most < 7 * step)


def across(count: int, most: int) -> float:
    """Where a number of up to so many stands, from the left."""
    return round(LEFT + PAD + (WIDTH - LEFT - RIGHT - 2 * PAD) * count / most, 1)


def up(part: float) -> float:
    """Where a part of the height stands, from the top."""
    return round(HEIGHT - BOTTOM - PAD - (HEIGHT - TOP - BOTTOM - 2 * PAD) * part, 1)


@dataclass(frozen=True)
class Decades:
    """A logarithmic scale of seconds, from one power of ten to another."""

    low: int
    high: int

    @classmethod
    def of(cls, values: list[float]) -> "Decades":
        """The scale on which all these seconds stand."""
        low = floor(log10(max(min(values), LEAST_SECONDS)))
        return cls(low, max(ceil(log10(max(*values, LEAST_SECONDS))), low + 1))

    def part(self, seconds: float) -> float:
        """The part of the height at which so many seconds stand."""
        return (log10(max(seconds, LEAST_SECONDS)) - self.low) / (self.high - self.low)

    def ticks(self) -> dict[float, str]:
        """The parts of the height that have a number, each with it."""
        return {self.part(10.0 ** power): f"{10.0 ** power:g}" for power in range(self.low, self.high + 1)}


# Their parts.

def figure(name: str, what: str, parts: str, kind: str = "") -> str:
    """A plot of a map with these parts, and a class if it has a kind."""
    kind = kind and f' class="{kind}"'
    return (f'<figure{kind}><svg viewBox="0 0 {WIDTH} {HEIGHT}" role="img" aria-label="{what} on {escape(name)}">'
            f'<text class="title" x="{(LEFT + WIDTH - RIGHT) / 2}" y="17">{escape(name)}</text>'
            f"{parts}</svg></figure>\n")


def frame(most: int, x_name: str, y_ticks: Mapping[float, str], y_name: str) -> str:
    """The rules with their numbers, and the names of both axes. The ticks are the parts of the height with a word."""
    left, right, low, high = LEFT, WIDTH - RIGHT, HEIGHT - BOTTOM, TOP
    parts = []
    for part, word in y_ticks.items():
        y = up(part)
        parts.append(f'<path class="rule" d="M{left} {y}H{right}"/>'
                     f'<text class="tick y" x="{left - 6}" y="{y + 4}">{word}</text>')
    for count in range(0, most + 1, tick_step(most)):
        x = across(count, most)
        parts.append(f'<path class="rule" d="M{x} {low}V{high}"/>'
                     f'<text class="tick" x="{x}" y="{low + 15}">{count}</text>')
    middle = (low + high) / 2
    return ("".join(parts) + f'<path class="frame" d="M{left} {low}H{right}V{high}H{left}z"/>'
            f'<text class="axis" x="{(left + right) / 2}" y="{HEIGHT - 7}">{x_name}</text>'
            f'<text class="axis" x="12" y="{middle}" transform="rotate(-90 12 {middle})">{y_name}</text>')


def curve(marks: list[Mark], number: int) -> str:
    """A line through the marks of one kind."""
    return group(number, line([one[:2] for one in marks]) + "".join(mark(one, number) for one in marks))


def group(number: int, parts: str) -> str:
    """Parts with the look of the kind of this number."""
    return f'<g class="kind{number % len(MARKS)}">{parts}</g>'


def line(places: Iterable[tuple[float, float]]) -> str:
    """A line through these places."""
    return f'<polyline points="{" ".join(f"{x},{y}" for x, y in places)}"/>'


def mark(one: Mark, number: int) -> str:
    """A mark with the sign of the kind of this number."""
    x, y, kind, title = one
    return (f'<g class="{kind}" transform="translate({x} {y})">{MARKS[number % len(MARKS)]}'
            f"<title>{title}</title></g>")


def legend(kinds: list[str], top: float) -> str:
    """The names of the kinds, if there are several, at the left, where curves seldom are."""
    parts = []
    for number, kind in enumerate(kinds if len(kinds) > 1 else []):
        y = top + 16 * number
        sign = f'<g class="whole" transform="translate({LEFT + 20} {y})">{MARKS[number % len(MARKS)]}</g>'
        parts.append(group(number, line([(LEFT + 8, y), (LEFT + 32, y)]) + sign)
                     + f'<text class="key" x="{LEFT + 38}" y="{y + 4}">{escape(kind or "other")}</text>')
    return "".join(parts)
