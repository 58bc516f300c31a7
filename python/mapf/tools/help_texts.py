"""Reads what `mapf --help` and `mapf COMMAND --help` print: commands, arguments, options, and the texts around them."""

import re
import subprocess
from collections.abc import Iterable, Iterator
from dataclasses import dataclass
from functools import cached_property

from .process import ToolError

# The command that prints the help of the others. It has no help of its own.
HELP = "help"

# The values of options that take one of a few words. The help says them in a sentence.
VALUES = {"--search": ("cbs", "cbsh")}

# How a row of a list begins, by the heading of the list. Its other lines are indented further.
ROWS = {
    "Commands:": re.compile(r" {2}(\S+)"),
    "Arguments:": re.compile(r" {2}[<\[](\w+)[>\]](?:\.\.\.)?"),
    "Options:": re.compile(r" {2}(?:(-\w)|(?= {4}--))(?:, | {4})?(--[\w-]+)?(?: <(\w+)>)?"),
}

HEADING = re.compile(r"[A-Z]\w+(?: \w+)?:")


@dataclass(frozen=True)
class Argument:
    """A word that a command takes by its place."""

    name: str
    words: str

    def is_number(self) -> bool:
        """Whether its help gives a range of numbers."""
        return re.search(r"\b\d+ to \d+\b", self.words) is not None


@dataclass(frozen=True)
class Option:
    """An option, of which either name may be missing, and so may its value."""

    short: str | None
    long: str | None
    value: str | None
    words: str

    def names(self) -> list[str]:
        """Its names, with their hyphens."""
        return [name for name in (self.long, self.short) if name]

    def values(self) -> tuple[str, ...]:
        """The words that its value may be, where they are few."""
        return VALUES.get(self.long or "", ())


@dataclass(frozen=True)
class Item:
    """A row of a list in a text: what it is about, and what it says of that."""

    term: str
    words: str


@dataclass(frozen=True)
class Block:
    """A part of a text: a heading or a paragraph, or neither, and the list below it."""

    heading: str
    paragraph: str
    items: tuple[Item, ...]


@dataclass(frozen=True)
class Help:
    """The help of the program or of one of its commands."""

    name: str
    about: str
    usage: str
    commands: tuple[Argument, ...]
    arguments: tuple[Argument, ...]
    options: tuple[Option, ...]
    blocks: tuple[Block, ...]


@dataclass(frozen=True)
class Manual:
    """All that the program says of how it is called."""

    version: str
    program: Help
    commands: tuple[Help, ...]

    @cached_property
    def files(self) -> set[str]:
        """The arguments that name files: those of which the program's help speaks below 'Files:', without numbers."""
        told = {word for block in self.program.blocks if block.heading == "Files:"
                for item in block.items for word in re.findall(r"[A-Z]+\b", f"{item.term} {item.words}")}
        return {one.name for command in self.commands for one in command.arguments
                if one.name in told and not one.is_number()}


def manual_of(program: str, version: str) -> Manual:
    """The manual that this program prints, part by part."""
    first = help_of("mapf", output_of(program))
    return Manual(version, first, tuple(command_help(program, one) for one in first.commands))


def command_help(program: str, command: Argument) -> Help:
    """The help of a command."""
    if command.name == HELP:
        return Help(HELP, command.words, f"mapf {HELP} [COMMAND]", (), (Argument("COMMAND", "The command"),), (), ())
    return help_of(command.name, output_of(program, command.name))


def output_of(program: str, *words: str) -> str:
    """What the program prints as the help of these words."""
    ended = subprocess.run([program, *words, "--help"], stdin=subprocess.DEVNULL, capture_output=True, text=True,
                           errors="replace")
    if ended.returncode != 0 or "\nUsage: " not in ended.stdout:
        raise ToolError(f"{' '.join((program, *words))} --help prints no help, so this isn't mapf: set MAPF to mapf")
    return ended.stdout


def help_of(name: str, text: str) -> Help:
    """The help that a text spells."""
    about, _, rest = text.partition("\nUsage: ")
    usage, _, rest = rest.partition("\n\n")
    chunks = rest.rstrip("\n").split("\n\n")
    lists = {chunk.partition("\n")[0]: chunk for chunk in chunks if chunk.partition("\n")[0] in ROWS}
    others = [chunk for chunk in chunks if chunk not in lists.values()]
    return Help(
        name, joined(about.splitlines()), joined(usage.splitlines()),
        tuple(Argument(found[1], words) for found, words in rows_of(lists, "Commands:")),
        tuple(Argument(found[1], words) for found, words in rows_of(lists, "Arguments:")),
        tuple(Option(*found.groups(), words) for found, words in rows_of(lists, "Options:")),
        tuple(block for chunk in others for block in blocks_of(chunk)))


def rows_of(lists: dict[str, str], heading: str) -> Iterator[tuple[re.Match[str], str]]:
    """The rows of the list of this heading: what is at the beginning of each, and the words after it."""
    found: re.Match[str] | None = None
    words: list[str] = []
    for line in lists.get(heading, heading).splitlines()[1:]:
        begins = ROWS[heading].match(line)
        if begins:
            if found:
                yield found, joined(words)
            found, words = begins, [line[begins.end():]]
        else:
            words.append(line)
    if found:
        yield found, joined(words)


def blocks_of(chunk: str) -> Iterator[Block]:
    """The blocks that a text without empty lines spells: in each, lines that aren't indented, then a list of those
    that are.
    """
    above: list[str] = []
    rows: list[str] = []
    for line in chunk.splitlines():
        if rows and not line.startswith(" "):
            yield block_of(above, rows)
            above, rows = [], []
        (rows if line.startswith(" ") else above).append(line)
    if above or rows:
        yield block_of(above, rows)


def block_of(above: list[str], rows: list[str]) -> Block:
    """The block of these lines."""
    items: list[Item] = []
    for line in rows:
        begins = re.fullmatch(r" {2}(\S.*?)(?: {2,}(\S.*))?", line)
        if begins:
            items.append(Item(begins[1], begins[2] or ""))
        elif items:
            items[-1] = Item(items[-1].term, joined((items[-1].words, line)))
    text = joined(above)
    is_heading = HEADING.fullmatch(text) is not None
    return Block(text if is_heading else "", "" if is_heading else text, tuple(items))


def joined(lines: Iterable[str]) -> str:
    """The lines as one, with one space between words."""
    return " ".join(" ".join(lines).split())
