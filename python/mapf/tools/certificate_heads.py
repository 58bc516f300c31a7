"""The first three lines of a certificate: its version, its number of agents and its claim."""

import io
from dataclasses import dataclass
from pathlib import Path

from . import recheck
from .process import ToolError


@dataclass(frozen=True)
class Certificate:
    """The head of a certificate: its version, its number of agents, and what it claims, which is 'cost', 'bound' or
    'impossible'. `number` is the cost or the bound, None of 'impossible'.
    """

    version: int
    agents: int
    claim: str
    number: int | None


def read_certificate(path: str | Path) -> Certificate:
    """The head of the certificate in a file. Nothing of the rest is read."""
    try:
        with open(path, "rb") as file:
            lines = recheck.Lines(file, "C2 K", recheck.LONGEST_LINE)
            return head_of(lines)
    except OSError as error:
        raise ToolError(f"{path} can't be read: {error.strerror}") from None
    except recheck.Refused:
        raise ToolError(f"{path}, line {lines.number}: a certificate begins with 'mapf-cert V', 'agents K' and a claim "
                        "as docs/FORMATS.md shows them") from None


def head_in(text: bytes) -> Certificate | None:
    """The head of the certificate that a text is; none where it doesn't begin as one."""
    try:
        return head_of(recheck.Lines(io.BytesIO(text), "C2 K", recheck.LONGEST_LINE))
    except recheck.Refused:
        return None


def head_of(lines: recheck.Lines) -> Certificate:
    """The head of the certificate of these lines, which aren't begun."""
    version = lines.title("mapf-cert", 3)
    ranges = recheck.ranges_of((1, 1, set()), 1, 0)
    agents: int = lines.take(["agents K"], ranges)[1][0]
    shape, numbers = lines.take(recheck.CLAIMS[version], ranges)
    return Certificate(version, agents, shape.split(" ")[1], numbers[0] if numbers else None)
