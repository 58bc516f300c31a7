"""What tools/sweep shows of its rows: the success rate of each map, as a table and as a page that stands alone."""

from collections import Counter
from collections.abc import Iterable
from html import escape
from pathlib import Path

from .sweep_plot import cactus, plot, runtime
from .sweep_points import Point, kind_of, label
from .sweep_rows import SOLVED, USUAL, Row

STYLE = Path(__file__).resolve().with_name("sweep_report.css")

# The rows of solvers by their names. Where there is one solver, its name is empty.
Tables = dict[str, list[Row]]

# Tables of more points than this are folded when the page opens.
MANY = 60


# Values in words.

def seconds(value: float | None) -> str:
    """Seconds as a person reads them. What isn't known is an empty text, here and below."""
    if value is None:
        return ""
    return f"{1000 * value:.0f} ms" if value < 0.9995 else f"{value:.2f} s" if value < 10 else f"{value:.1f} s"


def count(value: float | None) -> str:
    """A number without its fraction."""
    return "" if value is None else f"{value:,.0f}"


def size(value: float | None) -> str:
    """A number of bytes, in the unit that fits it."""
    if value is None:
        return ""
    for unit in ("B", "kB", "MB"):
        if value < 999.5:
            break
        value /= 1000
    else:
        unit = "GB"
    return f"{value:.0f} {unit}" if value >= 9.95 or unit == "B" else f"{value:.1f} {unit}"


HEAD = ("agents", "solved", "rate", "makespan", "solve", "check", "splits", "certificate", "memory")


def cells(one: Point) -> tuple[str, ...]:
    """What a table shows of a point, below HEAD."""
    return (str(one.agents), f"{one.solved} of {one.tried}{to_go(one.pending)}", f"{one.rate():.2f}",
            count(one.makespan), seconds(one.solve), seconds(one.check), count(one.splits), size(one.certificate),
            size(one.memory * 1024) if one.memory else "")


def to_go(pending: int) -> str:
    """How many are still due, as it follows a number."""
    return f", {pending} to go" if pending else ""


def table(found: list[Point]) -> str:
    """The points as a table that can be read as it is, and that Markdown knows."""
    lines = [("map", "scenarios", *HEAD)] + [(one.map, one.kind, *cells(one)) for one in found]
    if len({one.kind for one in found}) < 2:
        lines = [(line[0], *line[2:]) for line in lines]
    return aligned(lines)


def aligned(lines: list[tuple[str, ...]]) -> str:
    """The lines of a table, of which the first is its head, with columns of equal width."""
    widths = [max(map(len, column)) for column in zip(*lines)]
    padded = [[cell.ljust(width) if at == 0 else cell.rjust(width)
               for at, (cell, width) in enumerate(zip(line, widths))] for line in lines]
    rule = ["-" * width if at == 0 else "-" * (width - 1) + ":" for at, width in enumerate(widths)]
    return "\n".join("| " + " | ".join(line) + " |" for line in [padded[0], rule, *padded[1:]])


# The page.

def page(found: list[Point], tables: Tables, search: str, limit: int, most_seconds: float) -> str:
    """The page of a sweep. Of the tables the first is its own."""
    own, *others = tables
    rows = tables[own]
    maps = list(dict.fromkeys(one.map for one in found))
    of_map = {name: [one for one in found if one.map == name] for name in maps}
    plots = "".join(plot(name, of_map[name]) for name in maps)
    times = "".join(runtime(name, of_map[name], seconds) for name in maps)
    counts = "".join(cactus(name, times_of(tables, name), seconds) for name in maps)
    tables = "".join(table_of(name, of_map[name], len(found) <= MANY) for name in maps)
    partly = " A hollow mark: not every scenario has come that far yet." if any(one.pending for one in found) else ""
    return document("Success rate of mapf", f"""\
<p>The share of scenarios that were solved, against the number of agents. Solved: <code>mapf solve --search
{search}</code> found a cheapest plan within {limit:,} splits and {most_seconds:g} seconds, and <code>mapf check</code>
confirmed from its certificate that no valid plan is cheaper. After the first number of agents with which it isn't
solved a scenario isn't tried again, and counts as not solved.{partly}{of_others(others)}</p>
<main>{plots}</main>
<p>{escape(ends(rows))}</p>
<h2>Runtime</h2>
<p>The processor time of <code>mapf solve</code>, against the number of agents: medians over the scenarios that were
solved.</p>
<div class="plots">{times}</div>
<h2>Runs solved</h2>
<p>How many runs, each a scenario with a number of agents, <code>mapf solve</code> solved in at most so much processor
time: a cactus plot.</p>
<div class="plots">{counts}</div>
<h2>Each number of agents</h2>
<p>Seconds are processor time. Makespans, seconds, splits and sizes of certificates are medians over the scenarios that
were solved; memory is the most that solve or check held in any run (8 MB is that of the process that started them).</p>
{tables}{troubles(rows)}""")


def document(title: str, body: str) -> str:
    """A page of HTML: no network, no script."""
    return f"""<!doctype html>
<html lang="en">
<meta charset="utf-8">
<meta name="viewport" content="width=device-width, initial-scale=1">
<meta name="color-scheme" content="light dark">
<title>{title}</title>
<style>
{STYLE.read_text()}</style>
<h1>{title}</h1>
{body}</html>
"""


def of_others(solvers: list[str]) -> str:
    """What is to be known of the other solvers."""
    if not solvers:
        return ""
    names = escape(", ".join(solvers))
    return f" The runs of {names} are those of tables that were given; nothing of them was confirmed."


def times_of(tables: Tables, name: str) -> dict[str, list[float]]:
    """The seconds of the solved runs of a map, of each solver and kind of scenarios."""
    found: dict[str, list[float]] = {}
    for solver, rows in tables.items():
        here = [row for row in rows if row.map == name]
        for kind in sorted({kind_of(row.scenario) for row in here}):
            found[label(solver, kind)] = [float(row.solve_seconds) for row in here
                                          if kind_of(row.scenario) == kind and row.status == SOLVED]
    return found


def ends(rows: list[Row]) -> str:
    """How many runs ended in which way, in one sentence."""
    counts = sorted(Counter(row.status for row in rows).items(), key=lambda one: (-one[1], one[0]))
    return f"{len(rows):,} runs: " + ", ".join(f"{number:,} {status}" for status, number in counts) + "."


def table_of(name: str, found: list[Point], is_open: bool) -> str:
    """The points of one map as a table of the page."""
    kinds = len({one.kind for one in found}) > 1
    lines = [(("scenarios",) if kinds else ()) + HEAD, *(((one.kind,) if kinds else ()) + cells(one) for one in found)]
    return folded(name, lines, is_open)


def folded(name: str, lines: list[tuple[str, ...]], is_open: bool) -> str:
    """A table of the page, of which the first of the lines is its head, below a name that opens and folds it."""
    return (f"<details{' open' if is_open else ''}><summary>{escape(name)}</summary><div class=\"wide\"><table>"
            f"{html_rows(lines)}</table></div></details>\n")


def html_rows(lines: list[tuple[str, ...]]) -> str:
    """The rows of a table, of which the first is its head."""
    return (f"<thead>{html_line('th', lines[0])}</thead>"
            f"<tbody>{''.join(html_line('td', line) for line in lines[1:])}</tbody>")


def html_line(tag: str, values: Iterable[str]) -> str:
    """A line of a table, with cells of this tag."""
    return "<tr>" + "".join(f"<{tag}>{escape(value)}</{tag}>" for value in values) + "</tr>\n"


def troubles(rows: list[Row]) -> str:
    """Of these runs those that ended otherwise than with an answer or a limit."""
    lines = [(row.scenario, row.agents, row.status, row.note, row.verdict) for row in rows if row.status not in USUAL]
    if not lines:
        return ""
    head = ("scenario", "agents", "status", "what was said", "verdict")
    return (f"<h2>Runs that failed</h2>\n<div class=\"wide\"><table class=\"words\">{html_rows([head, *lines])}"
            "</table></div>\n")
