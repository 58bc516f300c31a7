"""What tools/sweep --gap shows of its rows: the mean gap of each map, as a table and as a page that stands alone."""

from dataclasses import dataclass
from html import escape
from math import ceil

from .gap_points import GapPoint, mean_of
from .sweep_plot import TOP, across, curve, figure, frame, legend, tick_step, up
from .sweep_report import MANY, aligned, document, ends, folded, seconds, to_go, troubles
from .sweep_rows import Row

# The steps of a scale of gaps are whole multiples of this part of 1; of 1% without a gap above 0.
FINEST, PERCENT = 100_000, 1000

PARTLY = " A hollow mark: not every problem has been tried yet."


# Values in words.

def percent(gap: float | None) -> str:
    """A gap in percent. What isn't known is an empty text."""
    if gap is None:
        return ""
    return "<0.01%" if 0 < gap < 0.00005 else f"{100 * gap:.2f}%"


def head(most_seconds: float) -> tuple[str, ...]:
    """The head of a table."""
    last = f"gap after {most_seconds:g} s"
    return "agents", "problems", "plans found", "first plan", "quick gap", last, "shown cheapest"


def cells(one: GapPoint) -> tuple[str, ...]:
    """What a table shows of a point, below its head."""
    return (str(one.agents), f"{one.tried}{to_go(one.pending)}", str(one.plans), seconds(one.seconds()),
            percent(mean_of(one.quick_gaps)), percent(mean_of(one.last_gaps)), f"{one.share():.2f}")


def table(found: list[GapPoint], most_seconds: float) -> str:
    """The points as a table that can be read as it is, and that Markdown knows."""
    return aligned([("map", *head(most_seconds)), *((one.map, *cells(one)) for one in found)])


# The plots.

@dataclass(frozen=True)
class Scale:
    """A scale of gaps from 0 to a multiple of its step, both in parts of FINEST."""

    step: int
    most: int

    @classmethod
    def of(cls, gaps: list[float]) -> "Scale":
        """The scale on which all these gaps stand."""
        most = ceil(max(gaps) * FINEST) or PERCENT
        step = tick_step(most)
        return cls(step, step * ceil(most / step))

    def part(self, gap: float) -> float:
        """The part of the height at which a gap stands."""
        return gap * FINEST / self.most

    def ticks(self) -> dict[float, str]:
        """The parts of the height that have a number, each with it."""
        return {at / self.most: f"{at / PERCENT:g}%" for at in range(0, self.most + 1, self.step)}


def plot(name: str, found: list[GapPoint], last_name: str) -> str:
    """The mean gaps of one map, of the quick and of the last answer, from its points."""
    named = {"quick answer": [(one, one.quick_gaps) for one in found if one.quick_gaps],
             last_name: [(one, one.last_gaps) for one in found if one.last_gaps]}
    means = [mean_of(gaps) for there in named.values() for _, gaps in there]
    if not means:
        return ""
    most, scale = max(one.agents for one in found), Scale.of(means)
    curves = "".join(curve([
        (across(one.agents, most), up(scale.part(mean_of(gaps))), "partly" if one.pending else "whole",
         f"{one.agents} agents: {escape(percent(mean_of(gaps)))}, mean of {len(gaps)}")
        for one, gaps in there], number) for number, there in enumerate(named.values()))
    return figure(name, "mean gap", frame(most, "number of agents", scale.ticks(), "mean gap") + curves
                  + legend(list(named), TOP + 14))


# The page.

def page(found: list[GapPoint], rows: list[Row], limit: int, most_seconds: float) -> str:
    """The page of a sweep of gaps."""
    of_map: dict[str, list[GapPoint]] = {}
    for one in found:
        of_map.setdefault(one.map, []).append(one)
    last = f"after {most_seconds:g} s"
    plots = "".join(plot(name, there, last) for name, there in of_map.items())
    tables = "".join(folded(name, [head(most_seconds), *map(cells, there)], len(found) <= MANY)
                     for name, there in of_map.items())
    partly = PARTLY if any(one.pending for one in found) else ""
    return document("Gaps of mapf", f"""\
<p>How far plans may be from the cheapest, against the number of agents. A plan of cost C has the gap (C - B) / B where
no valid plan costs less than B. The quick answer is that of <code>mapf solve --search cbsh</code> with LIMIT 0; the
other one is the last that came within {most_seconds:g} seconds by the clock, with rising limits of up to {limit:,}
splits. <code>mapf check</code> confirmed both.{partly}</p>
<main>{plots}</main>
<p>{escape(ends(rows))}</p>
<h2>Each number of agents</h2>
<p>A first plan has no improvements; its time is the processor time of <code>mapf solve</code>, as a median. Gaps are
means over the problems with a plan. Shown cheapest is the share of problems whose last answer is a cheapest plan.</p>
{tables}{troubles(rows)}""")
