"""Plan texts and certificates in another version, where they say the same in it."""

import re

PLAN_TITLES = b"mapf-plan 1\n", b"mapf-plan 2\n"
TITLE, TITLE_TWO = b"mapf-cert 1\n", b"mapf-cert 2\n"

# A split of version 2 without blocks, and any split.
BARE_SPLIT = re.compile(rb"^((?:vertex|swap) .*) 0$", re.MULTILINE)
SPLIT = re.compile(rb"^(?:vertex|swap)\b", re.MULTILINE)


def plan_in_other_version(plan):
    """The plan text in the other version, where it has none of the lines in which the versions differ, those of a
    limit."""
    one, two = PLAN_TITLES
    if not plan.startswith(PLAN_TITLES) or b"\nlimit" in plan:
        return None
    return two + plan.removeprefix(one) if plan.startswith(one) else one + plan.removeprefix(two)


def in_version_two(certificate):
    """The text of version 1 with what version 2 adds to its lines: the 2, and that no split has blocks. A bound is
    nothing that version 1 claims."""
    if not certificate.startswith(TITLE) or b"\nclaim bound" in certificate:
        return None
    lines = certificate.removeprefix(TITLE).split(b"\n")
    added = [line + b" 0" if line.startswith((b"vertex ", b"swap ")) else line for line in lines]
    return TITLE_TWO + b"\n".join(added)


def in_version_one(certificate):
    """The text of version 2 without what version 2 adds, where no split has blocks and no bound is claimed."""
    if not certificate.startswith(TITLE_TWO) or b"\nclaim bound" in certificate:
        return None
    if len(SPLIT.findall(certificate)) != len(BARE_SPLIT.findall(certificate)):
        return None
    return TITLE + BARE_SPLIT.sub(rb"\1", certificate.removeprefix(TITLE_TWO))


def with_blocks_on_leaves(certificate):
    """The text of version 2 with no block on a split: each leaf has the blocks that hold there. The text has to be of
    the grammar."""
    lines = iter(certificate.split(b"\n"))
    given = [next(lines) for _ in range(3)]
    due = [{}]              # Of each node to come, the blocks of agents from above.
    while due:
        blocks = dict(due.pop())
        kind, *words = next(lines).split(b" ")
        for _ in range(0 if kind == b"clash" else int(words.pop())):
            block = [next(lines)]
            _, agent, count = block[0].split(b" ")
            blocks[int(agent)] = block + [next(lines) for _ in range(int(count))]
        if kind == b"leaf":
            given += [b"leaf %d" % len(blocks), *(line for agent in sorted(blocks) for line in blocks[agent])]
        elif kind == b"clash":
            given.append(b" ".join([kind, *words]))
        else:
            given.append(b" ".join([kind, *words, b"0"]))
            due += [blocks, blocks]
    return b"\n".join([*given, *lines])


def in_version_three(certificate):
    """The text of version 2 with each block as a lemma of one agent, under the constraints of the agent at its node. A
    leaf uses of each agent the deepest. The text has to be of the grammar.
    """
    head, lines = certificate.decode().split("\n")[:3], iter(certificate.decode().split("\n")[3:])
    lemmas, tree = [], []
    due = [([], {})]        # Of each node to come, what the splits above constrain, and the agents' deepest lemmas.
    while due:
        constraints, deepest = due.pop()
        kind, *words = next(lines).split(" ")
        deepest = dict(deepest)
        for _ in range(0 if kind == "clash" else int(words.pop())):
            _, agent, count = next(lines).split(" ")
            own = sorted({f"not {agent} {place}" for of_agent, place in constraints if of_agent == agent})
            deepest[agent] = len(lemmas)
            lemmas.append([f"one {agent} {len(own)} {count} -", *own, *(next(lines) for _ in range(int(count)))])
        if kind == "leaf":
            tree += [f"leaf {len(deepest)} 0 -", *(f"use {lemma}" for lemma in sorted(deepest.values()))]
            continue
        tree.append(" ".join([kind, *words]))
        if kind != "clash":
            one, other, *cells, tick = words
            due += [([*constraints, (other, " ".join([*reversed(cells), tick]))], deepest),
                    ([*constraints, (one, " ".join([*cells, tick]))], deepest)]
    text = ["mapf-cert 3", *head[1:], "prices 0", f"lemmas {len(lemmas)}", *sum(lemmas, []), *tree, *lines]
    return "\n".join(text).encode()
