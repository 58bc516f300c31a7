"""Writes the man page of mapf from its help, in the macros of man(7)."""

import re
import textwrap
from collections.abc import Iterable, Iterator, Sequence
from itertools import groupby

from .help_texts import Argument, Block, Help, Item, Manual, Option

# What a page says that no help does.
SEE_ALSO = ("Of the documents of mapf, docs/USE.md shows each command with an example, and docs/FORMATS.md has each "
            "text that is read or written, and the codes of errors and refusals.")

# The longest line of the page's source, and what stands before a line that roff would take for a request.
COLUMNS, GUARD = 80, r"\&"

# Letters that roff reads or prints in another way.
ESCAPED = {"\\": r"\e", "'": r"\(aq", "`": r"\(ga", "^": r"\(ha", "~": r"\(ti"}


def man_page(manual: Manual, date: str) -> str:
    """The page, with this date."""
    program = manual.program
    paragraphs = [block for block in program.blocks if not block.heading]
    lines = [
        f'.TH MAPF 1 "{date}" "mapf {manual.version}" "User Commands"',
        *section("Name", [rf"mapf \- {plain(purpose(program.about))}"]),
        *section("Synopsis", synopsis([program, *manual.commands])),
        *section("Description", [*filled(program.about), *lines_of(paragraphs)]),
        *section("Commands", [line for command in manual.commands for line in lines_of_command(command)]),
        *section("Options", lines_of_options(program.options)),
    ]
    for block in program.blocks:
        if block.heading:
            lines += section(block.heading.rstrip(":"), lines_of_items(block.items))
    return "\n".join([*lines, *section("See also", filled(SEE_ALSO)), ""])


def purpose(about: str) -> str:
    """The first part of what the program is about, as the second half of a line of names."""
    first = re.split(r"[:.]", about)[0]
    return first[:1].lower() + first[1:]


def section(title: str, lines: Iterable[str]) -> list[str]:
    """A section of the page. It begins with no break, since its title is one."""
    return [f".SH {title.upper()}", *without_break(list(lines))]


def without_break(lines: list[str]) -> list[str]:
    """The lines without a first one that only parts them from what stands before."""
    return lines[1:] if lines[:1] == [".PP"] else lines


def synopsis(calls: Sequence[Help]) -> Iterator[str]:
    """How the program and each command are called."""
    for number, call in enumerate(calls):
        if number > 0:
            yield ".br"
        yield usage(call)


def usage(call: Help) -> str:
    """A call, its own words bold and those that stand for others in italics."""
    return " ".join(styled(word) for word in call.usage.split())


def styled(word: str) -> str:
    """A word of a call: one in brackets stands for another word."""
    found = re.fullmatch(r"([<\[]+)([\w=-]+)([>\]]+(?:\.\.\.)?)", word)
    if found is None:
        return bold(word)
    opening, closing = (mark.translate({ord("<"): None, ord(">"): None}) for mark in (found[1], found[3]))
    return rf"{opening}\fI{plain(found[2])}\fR{closing}"


def lines_of_command(command: Help) -> list[str]:
    """What a command does, takes and prints."""
    return [
        f".SS {plain(command.name)}", usage(command), ".PP", *filled(command.about + "."),
        *lines_of_arguments(command.arguments), *lines_of_options(command.options), *lines_of(command.blocks)]


def lines_of_arguments(arguments: Iterable[Argument]) -> Iterator[str]:
    """A list of arguments."""
    for one in arguments:
        yield from (".TP", rf"\fI{plain(one.name)}\fR", *filled(one.words))


def lines_of_options(options: Iterable[Option]) -> Iterator[str]:
    """A list of options."""
    for one in options:
        value = rf" \fI{plain(one.value)}\fR" if one.value else ""
        names = ", ".join(bold(name) for name in (one.short, one.long) if name)
        yield from (".TP", names + value, *filled(one.words))


def lines_of(blocks: Iterable[Block]) -> Iterator[str]:
    """Paragraphs and lists."""
    for block in blocks:
        yield from (".PP", *filled(block.paragraph or block.heading))
        yield from lines_of_items(block.items)


def lines_of_items(items: Iterable[Item]) -> Iterator[str]:
    """A list. Rows that say nothing besides are shown together, as they are."""
    for is_said, rows in groupby(items, lambda item: bool(item.words)):
        if is_said:
            for item in rows:
                yield from (".TP", bold(item.term), *filled(item.words))
        else:
            yield from (".PP", ".RS", ".nf", *(bold(item.term) for item in rows), ".fi", ".RE")


def filled(text: str) -> list[str]:
    """A text that is filled, in short lines. A line must not begin as a request of roff does."""
    lines = textwrap.wrap(plain(text), COLUMNS - len(GUARD), break_long_words=False, break_on_hyphens=False)
    return [GUARD + line if line.startswith(".") else line for line in lines]


def bold(text: str) -> str:
    """What is typed or printed as it stands."""
    return rf"\fB{plain(text)}\fR"


def plain(text: str) -> str:
    """A text, with what roff would read as its own."""
    return re.sub(r"\S+", lambda word: escaped(word[0]), text)


def escaped(word: str) -> str:
    """A word in which a hyphen that parts no letters is a minus, and so is each in what is typed or printed."""
    hyphens = "-" if word[0] in "-'" else r"(?<![A-Za-z])-|-(?![A-Za-z])"
    return re.sub(hyphens, r"\\-", "".join(ESCAPED.get(letter, letter) for letter in word))
