"""Damages certificates of version 3 in one way each, drawn by lot."""

import re

# What a number may become besides one near it: the limits of the ranges of the format, and what lies beyond them.
LIMITS = [0, 1, 2, 200, 201, 1_000, 1_001, 200_000, 200_001, 999_999, 1_000_000, 9_999_998, 9_999_999, 10_000_000,
          1_999_999_800, 1_999_999_801, 9_999_999_999, 10_000_000_000, 2 ** 64 - 1, 2 ** 64]

# Lines that name a lemma, lines of constraints and splits, lines that are listed, and lines that begin a part.
USES = re.compile(rb"use [0-9]+( [0-9]+)?|costs [0-9]+ [0-9]+ [0-9]+ [0-9]+ [0-9]+")
CONSTRAINTS = re.compile(rb"(not|clear|most|least|vertex|swap|cost) .*")
ENTRIES = re.compile(rb"(at|cells|price) .*")
HEADS = re.compile(rb"(prices|lemmas|list|one|two|never|cases|leaf|group) .*")
OF_AGENTS = re.compile(rb"(not|clear|most|least|vertex|swap|cost|costs|one|two|never|agent|clash) [0-9].*")

BYTES = b"0129 ,-*\n\r\tax\x00\xff"


def by_one(draw):
    """A change of a number by 1."""
    return lambda number: max(0, number + draw.choice((-1, 1)))


def near_number(lines, draw):
    """A number becomes one that is greater or less by 1."""
    return with_number(lines, draw, by_one(draw))


def limit(lines, draw):
    """A number becomes a limit of some range."""
    return with_number(lines, draw, lambda _: draw.choice(LIMITS))


def claim(lines, draw):
    """The claim becomes another one."""
    if draw.randrange(2):
        return with_number(lines, draw, by_one(draw), [2])
    return [*lines[:2], b"claim " + draw.choice((b"cost 5", b"bound 5", b"bound 0", b"impossible")), *lines[3:]]


def head(lines, draw):
    """A number of a line that begins a part changes by 1, so that its lines are too many or too few."""
    return with_number(lines, draw, by_one(draw), at_lines(lines, HEADS))


def entry(lines, draw):
    """A number of an entry, a joint cell or a price changes by 1."""
    return with_number(lines, draw, by_one(draw), at_lines(lines, ENTRIES))


def lemma(lines, draw):
    """A number of a use becomes another one."""
    return with_number(lines, draw, lambda number: max(0, number + draw.choice((-2, -1, 1, 2))), at_lines(lines, USES))


def constraint(lines, draw):
    """The tick or cost of a constraint, or of a split, changes by 1."""
    return with_number(lines, draw, by_one(draw), at_lines(lines, CONSTRAINTS), is_last=True)


def agent(lines, draw):
    """The agent of a constraint, a split, a lemma or a clash becomes another one."""
    found = at_lines(lines, OF_AGENTS)
    if not found:
        return None
    at = draw.choice(found)
    word, number, rest = re.fullmatch(rb"(\w+) ([0-9]+)(.*)", lines[at]).groups()
    other = max(0, int(number) + draw.choice((-1, 1, 2)))
    return [*lines[:at], word + b" %d" % other + rest, *lines[at + 1:]]


def drop(lines, draw):
    """A line is left out."""
    at = draw.randrange(len(lines))
    return [*lines[:at], *lines[at + 1:]]


def double(lines, draw):
    """A line stands twice."""
    at = draw.randrange(len(lines))
    return [*lines[:at], lines[at], *lines[at:]]


def exchange(lines, draw):
    """A line is exchanged with the next one."""
    at = draw.randrange(len(lines) - 1)
    return [*lines[:at], lines[at + 1], lines[at], *lines[at + 2:]]


def move(lines, draw):
    """A line stands elsewhere."""
    at, to = draw.randrange(len(lines)), draw.randrange(len(lines))
    rest = [*lines[:at], *lines[at + 1:]]
    return [*rest[:to], lines[at], *rest[to:]]


def words(lines, draw):
    """Two words of a line are exchanged."""
    at = draw.randrange(len(lines))
    parts = lines[at].split(b" ")
    if len(parts) < 2:
        return None
    one, other = draw.sample(range(len(parts)), 2)
    parts[one], parts[other] = parts[other], parts[one]
    return [*lines[:at], b" ".join(parts), *lines[at + 1:]]


def word(lines, draw):
    """A word becomes one of another line."""
    at, of = draw.randrange(len(lines)), draw.randrange(len(lines))
    parts = lines[at].split(b" ")
    parts[draw.randrange(len(parts))] = draw.choice([*lines[of].split(b" "), b"inf", b"-", b"*"])
    return [*lines[:at], b" ".join(parts), *lines[at + 1:]]


def byte(lines, draw):
    """A byte becomes another one, is left out or is put in."""
    text = b"".join(line + b"\n" for line in lines)
    at = draw.randrange(len(text))
    new = bytes([draw.choice(BYTES)])
    return text[:at] + draw.choice((new, b"", new + text[at:at + 1])) + text[at + 1:]


def cut(lines, draw):
    """The text ends early."""
    text = b"".join(line + b"\n" for line in lines)
    return text[:draw.randrange(len(text))]


def at_lines(lines, pattern):
    """Where lines of this kind stand."""
    return [at for at, line in enumerate(lines) if pattern.fullmatch(line)]


def with_number(lines, draw, change, places=None, is_last=False):
    """One number in one of these lines, or in any line, is changed: any of the line, or its last one."""
    places = range(len(lines)) if places is None else places
    places = [at for at in places if re.search(rb"[0-9]", lines[at])]
    if not places:
        return None
    at = draw.choice(places)
    numbers = list(re.finditer(rb"[0-9]+", lines[at]))
    found = numbers[-1] if is_last else draw.choice(numbers)
    line = lines[at][:found.start()] + b"%d" % change(int(found[0])) + lines[at][found.end():]
    return [*lines[:at], line, *lines[at + 1:]]


# The kinds of damage, each with its share. Most of the others leave a text that is no certificate.
DAMAGES = {
    "a number by 1": (near_number, 3), "an entry by 1": (entry, 4), "a lemma's number": (lemma, 4),
    "a constraint's tick": (constraint, 4), "an agent": (agent, 4), "a number to a limit": (limit, 3),
    "the claim": (claim, 1), "a count by 1": (head, 1), "a line dropped": (drop, 1), "a line doubled": (double, 1),
    "two lines exchanged": (exchange, 1), "a line moved": (move, 1), "two words exchanged": (words, 1),
    "another word": (word, 2), "a byte": (byte, 1), "the end cut": (cut, 1),
}


def damage(text, draw):
    """The kind of a damage and the text with it. Where there is nothing for it, a number becomes another one."""
    kind, = draw.choices(list(DAMAGES), [share for _, share in DAMAGES.values()])
    lines = text.split(b"\n")[:-1]
    changed = DAMAGES[kind][0](lines, draw)
    if isinstance(changed, bytes):
        return kind, changed
    return kind, b"".join(line + b"\n" for line in changed or near_number(lines, draw))
