"""Damages certificates of versions 1 and 2 in one way each, drawn by lot."""

import functools
import re

from lemma_damage import at_lines, byte, by_one, claim, cut, double, drop, limit, near_number, with_number, word

SPLITS = re.compile(rb"(vertex|swap) .*")
LEAVES = re.compile(rb"leaf .*")
NODES = re.compile(rb"(vertex|swap|leaf) .*")
BLOCKS = re.compile(rb"agent .*")
ENTRIES = re.compile(rb"at .*")
AGENTS = re.compile(rb"(vertex|swap|agent|clash) .*")


def exchange(lines, draw):
    """A line is exchanged with any other one."""
    one, other = draw.sample(range(len(lines)), 2)
    lines = list(lines)
    lines[one], lines[other] = lines[other], lines[one]
    return lines


def value(lines, draw):
    """A number becomes another number of the text."""
    numbers = re.findall(rb"[0-9]+", draw.choice([line for line in lines if re.search(rb"[0-9]", line)]))
    return with_number(lines, draw, lambda _: int(draw.choice(numbers)))


def digit(lines, draw):
    """A digit becomes another one."""
    text = b"".join(line + b"\n" for line in lines)
    at = draw.choice([found.start() for found in re.finditer(rb"[0-9]", text)])
    return text[:at] + b"%d" % draw.randrange(10) + text[at + 1:]


def label(lines, draw):
    """A label becomes greater by 1."""
    return with_number(lines, draw, lambda number: number + 1, at_lines(lines, ENTRIES), is_last=True)


def entry(lines, draw):
    """A number of an entry changes by 1."""
    return with_number(lines, draw, by_one(draw), at_lines(lines, ENTRIES))


def split(lines, draw):
    """A number of a split changes by 1."""
    return with_number(lines, draw, by_one(draw), at_lines(lines, SPLITS))


def agent(lines, draw):
    """The first agent of a split, a block or a clash becomes another one, or the two of a split are exchanged."""
    found = at_lines(lines, AGENTS)
    if not found:
        return None
    at = draw.choice(found)
    kind, first, *rest = lines[at].split(b" ")
    if kind != b"agent" and draw.randrange(2):
        first, rest[0] = rest[0], first
    else:
        first = b"%d" % max(0, int(first) + draw.choice((-1, 1, 2)))
    return [*lines[:at], b" ".join([kind, first, *rest]), *lines[at + 1:]]


def entry_left_out(lines, draw):
    """An entry is left out, and its block is said to have one fewer."""
    found = at_lines(lines, ENTRIES)
    if not found:
        return None
    at = draw.choice(found)
    head = at_lines(lines[:at], BLOCKS)[-1]
    if lines[head].endswith(b" 1"):
        return block_left_out(lines, draw)
    return [*lines[:head], one_fewer(lines[head]), *lines[head + 1:at], *lines[at + 1:]]


def block_left_out(lines, draw):
    """A block is left out, and its node is said to have one fewer."""
    found = at_lines(lines, BLOCKS)
    if not found:
        return None
    at = draw.choice(found)
    node = at_lines(lines[:at], NODES)[-1]
    end = at + 1 + int(lines[at].split(b" ")[-1])
    return [*lines[:node], one_fewer(lines[node]), *lines[node + 1:at], *lines[end:]]


def entry_at_goal(goals, lines, draw):
    """A block has one more entry, that its agent, at its goal, needs one tick more. It is sound only if the goal is
    barred later."""
    found = at_lines(lines, BLOCKS)
    if not found:
        return None
    at = draw.choice(found)
    _, agent, count = lines[at].split(b" ")
    end = at + 1 + int(count)
    tick = draw.randrange(state_of(lines[end - 1])[0] + 3)
    entry = b"at %d,%d %d 1" % (*goals[int(agent)], tick)
    entries = sorted([*lines[at + 1:end], entry], key=state_of)
    return [*lines[:at], b"agent %b %d" % (agent, len(entries)), *entries, *lines[end:]]


def state_of(entry):
    """What the entries of a block rise by: the tick, the row and the column."""
    _, cell, tick, _ = entry.split(b" ")
    x, y = cell.split(b",")
    return int(tick), int(y), int(x)


def sides_exchanged(lines, draw):
    """The two children of a split are exchanged with all below them, and so are its agents and cells. The same holds
    then."""
    found = at_lines(lines, SPLITS)
    if not found:
        return None
    at = draw.choice(found)
    left = after_blocks(lines, at)
    right = after_tree(lines, left)
    end = after_tree(lines, right)
    kind, one, other, *rest = lines[at].split(b" ")
    if kind == b"swap":
        rest[:2] = rest[1::-1]
    line = b" ".join([kind, other, one, *rest])
    return [*lines[:at], line, *lines[at + 1:left], *lines[right:end], *lines[left:right], *lines[end:]]


def leaf_split(lines, draw):
    """In place of a leaf stands a split with that leaf on both sides. Where it is a split, the same holds then."""
    found = at_lines(lines, LEAVES)
    agents = int(lines[1].split(b" ")[1])
    if not found or agents == 1:
        return None
    at = draw.choice(found)
    leaf = lines[at:after_blocks(lines, at)]
    cells = re.findall(rb"[0-9]+,[0-9]+", b" ".join(lines)) or [b"0,0"]
    line = b"vertex %d %d %b %d" % (*draw.sample(range(agents), 2), draw.choice(cells), draw.randrange(9))
    return [*lines[:at], line + b" 0" * (lines[0] == b"mapf-cert 2"), *leaf, *lines[at:]]


def tree_copied(lines, draw):
    """A node with all below it stands in place of another one."""
    found = at_lines(lines, NODES)
    if not found:
        return None
    at, of = draw.choice(found), draw.choice(found)
    return [*lines[:at], *lines[of:after_tree(lines, of)], *lines[after_tree(lines, at):]]


def after_blocks(lines, at):
    """Where the line stands that follows a node and its blocks."""
    at += 1
    while lines[at].startswith((b"agent ", b"at ")):
        at += 1
    return at


def after_tree(lines, at):
    """Where the line stands that follows a node and all below it."""
    due = 1
    while due:
        due += 1 if SPLITS.fullmatch(lines[at]) else -1
        at = after_blocks(lines, at)
    return at


def one_fewer(line):
    """A line with its last number less by 1."""
    *words, count = line.split(b" ")
    return b" ".join([*words, b"%d" % (int(count) - 1)])


# The kinds of damage, each with its share. Most of those with a small one leave a text that is no certificate.
DAMAGES = {
    "a number by 1": (near_number, 3), "a number to another's value": (value, 2), "a digit": (digit, 2),
    "a number to a limit": (limit, 1), "a label raised": (label, 3), "an entry by 1": (entry, 3),
    "a split by 1": (split, 3), "an agent": (agent, 3), "the claim": (claim, 1),
    "an entry left out": (entry_left_out, 3), "a block left out": (block_left_out, 3),
    "sides exchanged": (sides_exchanged, 2), "a leaf split": (leaf_split, 2), "a tree copied": (tree_copied, 2),
    "a line dropped": (drop, 1), "a line doubled": (double, 1), "two lines exchanged": (exchange, 2),
    "another word": (word, 1), "a byte": (byte, 1), "the end cut": (cut, 1),
}


def damaged(text, goals, draw):
    """The kind of a damage, and the text with it, which differs from the one without it. The goals are those of the
    agents, each a column and a row."""
    lines = text.split(b"\n")[:-1]
    damages = {**DAMAGES, "an entry at the goal": (functools.partial(entry_at_goal, goals), 3)}
    while True:
        kind, = draw.choices(list(damages), [share for _, share in damages.values()])
        changed = damages[kind][0](lines, draw)
        if isinstance(changed, list):
            changed = b"".join(line + b"\n" for line in changed)
        if changed not in (None, text):
            return kind, changed
