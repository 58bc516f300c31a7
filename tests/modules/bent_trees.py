"""Edits of tools/recheck that bend how it judges certificates, each of which some vector of rules/ notices.

BENT is as in bent_texts.py. HARMLESS has edits that no vector can notice, each with the reason.
"""

from bent_texts import LABEL, SUM, of_line

# The lines of trees.

CLAIMS_1 = '1: ["claim cost C", "claim impossible"]'
ITEMS_1 = '1: ["vertex I J x,y T", "swap I J x,y x,y T", "leaf N", "clash I J"]'
ITEMS_2 = '2: ["vertex I J x,y T N", "swap I J x,y x,y T N", "leaf N", "clash I J"]'
SHAPE = 'found[0] in "LP" else NUMBER, shape)'
OUT_OF_PLACE = "        self.refuse_if(wanted is not None and shape not in wanted, 1)\n"
SKIPPED = ("        if wanted is not None and shape not in wanted and shape in (BLOCK, ENTRY):\n"
           "            return self.take(shapes, ranges, wanted)\n")
TAKE_BLOCK = "            agent, entry_count = self.take([BLOCK])[1]\n"
TAKE_ENTRY = "                x, y, tick, label = self.take([ENTRY])[1]\n"
RISE, LAST = "(tick, y, x) <= last", "last = (tick, y, x)"
BLOCKS_OF_NODE = "for agent, entries in blocks:"
DUE = "            due.extend(reversed(self.judge_item(due.pop())))\n"
JUDGE_ITEM = "    def judge_item(self, node: Node) -> list[Node]:\n"
JUDGE_BELOW = ("    def judge_below(self, node):\n        for child in self.judge_item(node):\n"
               "            self.judge_below(child)\n\n")


def unless_another_comes(take):
    """The edit after which another line ends a list of lines, however many were told."""
    indent = take[:len(take) - len(take.lstrip())]
    body = (f"place = self.lines.file.tell(), self.lines.number\ntry:\n    {take.strip()}\nexcept Refused:\n"
            "    self.lines.file.seek(place[0])\n    self.lines.number = place[1]\n    break\n")
    return take, "".join(f"{indent}{line}\n" for line in body.splitlines())


LINES = {
    "takes bounds in version 1": [(CLAIMS_1, CLAIMS_1[:-1] + ', "claim bound B"]')],
    "takes a claim without its kind for one of a cost": [of_line(r're.sub("^claim ([0-9])", r"claim cost \1", line)')],
    "takes splits without a number of blocks in version 2": [
        (ITEMS_2, ITEMS_2[:-1] + ', "vertex I J x,y T", "swap I J x,y x,y T"]')],
    "takes splits with a number of blocks in version 1": [
        (ITEMS_1, ITEMS_1[:-1] + ', "vertex I J x,y T N", "swap I J x,y x,y T N"]')],
    "takes a leaf without a number of blocks": [(ITEMS_2, ITEMS_2[:-1] + ', "leaf"]')],
    "takes a space for the comma of a pair": [(SHAPE, SHAPE + '.replace(",", "[ ,]")')],
    "takes inf for the tick of a split": [(SHAPE, SHAPE.replace('"LP"', '"LT"'))],
    "takes other words for inf": [(LABEL, LABEL.replace("inf", "inf|infinity|nan|-1")),
                                  ('if word == "inf" else', 'if word in ("inf", "infinity", "nan", "-1") else')],
    "takes later ticks of splits": [('"T": (0, 999_999)', '"T": (0, 9_999_999)')],
    "takes no split at the last tick": [('"T": (0, 999_999)', '"T": (0, 999_998)')],
    "takes no split at tick 0": [('"T": (0, 999_999)', '"T": (1, 999_999)')],
    "takes blocks of no entries": [('"M": (1, ', '"M": (0, ')],
    "takes greater labels": [('"L": (1, 9_999_999)', '"L": (1, 99_999_999)')],
    "takes labels below the greatest alone": [('"L": (1, 9_999_999)', '"L": (1, 9_999_998)')],
    "takes no label of 1": [('"L": (1, 9_999_999)', '"L": (2, 9_999_999)')],
    "ignores blocks of agents that aren't there": [
        ('"I": (0, agents - 1)', '"I": (0, agents)'), ("Way(goals)", "Way([*goals, None])"),
        (BLOCKS_OF_NODE, "for agent, entries in [block for block in blocks if block[0] < len(self.goals)]:")],
    "takes a split of an agent that isn't there": [
        ('"J": (0, agents - 1)', '"J": (0, agents)'), ("Way(goals)", "Way([*goals, None])")],
    "takes agents in any order": [("blocks and agent <= blocks[-1][0]", "False")],
    "takes an agent twice": [("agent <= blocks[-1][0]", "agent < blocks[-1][0]")],
    "takes entries in any order": [(RISE, "False")],
    "takes an entry twice": [(RISE, RISE.replace("<=", "<"))],
    "sorts entries by columns first": [(RISE, "(tick, x, y) <= last"), (LAST, "last = (tick, x, y)")],
    "sorts entries by rows alone": [(RISE, "(tick, y) < last"), (LAST, "last = (tick, y)")],
    "sorts entries by cells first": [(RISE, "(y, x, tick) <= last"), (LAST, "last = (y, x, tick)")],
    "compares entries with those of the block before": [
        (f"entries and {RISE}", f"(entries or blocks) and {RISE}")],
    "takes a tree that ends early": [
        ("        while due:\n", '        while due and not self.lines.file.peek(4).startswith(b"end"):\n')],
    "skips blocks and entries that nobody expects": [(OUT_OF_PLACE, SKIPPED + OUT_OF_PLACE)],
    "takes fewer entries than a block tells": [unless_another_comes(TAKE_ENTRY)],
    "takes fewer blocks than a node tells": [unless_another_comes(TAKE_BLOCK)],
    "judges a tree by calls within calls": [(DUE, "            self.judge_below(due.pop())\n"),
                                            (JUDGE_ITEM, JUDGE_BELOW + JUDGE_ITEM)],
}

# Splits, and what they constrain.

BAD_SPLIT = "    if one == other or any(cell not in free for cell in cells):\n"
BAD_SWAP = "    if here == there or there not in steps_from(here, free):\n"
LEFT_VERTEX, RIGHT_VERTEX = (f'Node(depth, {agent}, ("vertex", cells[0], tick))' for agent in ("one", "other"))
LEFT_EDGE = 'Node(depth, one, ("edge", here, there, tick))'
RIGHT_EDGE = 'Node(depth, other, ("edge", there, here, tick))'
IS_VERTEX, CELLS_OF_SWAP = '    if kind == "vertex":\n', "    here, there = cells\n"
BARS = "self.way.bars[agent]"
UP = "reversed(self.way.nodes)"
NODE = "        self.depth, self.agent, self.bar = depth, agent, bar\n"
ENTER = "        self.nodes.append(node)\n        if node.bar:\n"
LEAVE = "            node = self.nodes.pop()\n"
REMOVE = "            if node.is_new:\n"
JUDGED = f"            self.judge_entries(entries, self.way.blocks[agent][-1], {BARS}, agent)\n"
IS_FORBIDDEN = '("vertex", cell, tick) in bars'
ENTERS, MOVES = '("vertex", other, tick + 1) in bars', '("edge", cell, other, tick) in bars'
LEAVES_AT_TICK = 'any(bar[:2] == ("edge", cell) and bar[3] == tick for bar in bars)'

# After these edits the bar of a node's sibling holds too, if it is named.
SIBLING = [(NODE, NODE + "        self.sibling = None\n"),
           (ENTER, "        if node.sibling:\n            self.enter(node.sibling)\n"
                   "            self.nodes.pop()\n" + ENTER),
           (LEAVE, LEAVE + "            if node.sibling:\n                self.nodes.append(node.sibling)\n"
                           "                self.leave(len(self.nodes) - 1)\n")]


def of_children(change):
    """The edit after which something is done with the two children of a split."""
    return DUE, ("            children = self.judge_item(due.pop())\n            if children:\n"
                 f"                left, right = children\n                {change}\n"
                 "            due.extend(reversed(children))\n")


def of_own_split(children):
    """The edit after which a split's own blocks are judged with constraints of its children too."""
    bars = f"{BARS} | {{child.bar for child in {children} if child.agent == agent}}"
    return JUDGED, JUDGED.replace(BARS, bars)


def of_bars(bars):
    """The edit after which other constraints hold for an agent."""
    return JUDGED, JUDGED.replace(BARS, f"{{{bars}}}")


def of_edge(change):
    """The edits after which both children of a swap split have another constraint."""
    return [(LEFT_EDGE, LEFT_EDGE.replace(*change)), (RIGHT_EDGE, RIGHT_EDGE.replace(*change))]


SORTED = "    one, other = sorted((one, other))\n"

SPLITS = {
    "takes splits of one agent": [(BAD_SPLIT, BAD_SPLIT.replace("one == other or ", ""))],
    "takes splits on blocked cells": [(BAD_SPLIT, "    if one == other:\n"),
                                      (BAD_SWAP, BAD_SWAP.replace("free)", "free | {here, there})"))],
    "takes swaps of one cell": [(BAD_SWAP, BAD_SWAP.replace("here == there or ", ""))],
    "takes swaps of any cells": [(BAD_SWAP, "    if here == there:\n")],
    "takes swaps of diagonal cells": [
        (BAD_SWAP, "    if max(abs(here[0] - there[0]), abs(here[1] - there[1])) != 1:\n")],
    "takes swaps in rows alone": [(BAD_SWAP, "    if abs(here[0] - there[0]) != 1 or here[1] != there[1]:\n")],
    "takes swaps to the right or down alone": [(BAD_SWAP, BAD_SWAP.replace("here == there", "here >= there"))],
    "takes splits of the smaller agent first alone": [(BAD_SPLIT, BAD_SPLIT.replace("one == other", "one >= other"))],
    "constrains the first agent of a vertex split twice": [(RIGHT_VERTEX, LEFT_VERTEX)],
    "constrains the second agent of a vertex split twice": [(LEFT_VERTEX, RIGHT_VERTEX)],
    "constrains the first agent of a swap split twice": [(RIGHT_EDGE, LEFT_EDGE)],
    "constrains the second agent of a swap split twice": [(LEFT_EDGE, RIGHT_EDGE)],
    "constrains the smaller agent in the left child": [(IS_VERTEX, SORTED + IS_VERTEX)],
    "constrains all agents": [of_bars("node.bar for node in self.way.nodes if node.bar")],
    "constrains both agents of a swap split in one direction": [
        (RIGHT_EDGE, RIGHT_EDGE.replace("there, here", "here, there"))],
    "exchanges the directions of a swap split": [(CELLS_OF_SWAP, "    there, here = cells\n")],
    "constrains both directions of a swap split": [(MOVES, f'{MOVES} or ("edge", other, cell, tick) in bars')],
    "takes the tick of a swap split for that of arrival": of_edge(("tick", "tick - 1")),
    "takes the tick of a swap split for one before departure": of_edge(("tick", "tick + 1")),
    "constrains an edge at all ticks": [(MOVES, 'any(bar[:3] == ("edge", cell, other) for bar in bars)')],
    "constrains a vertex a tick later": [(ENTERS, '("vertex", other, tick) in bars')],
    "constrains a vertex a tick earlier": [(ENTERS, '("vertex", other, tick + 2) in bars')],
    "constrains a vertex at all ticks": [(ENTERS, 'any(bar[:2] == ("vertex", other) for bar in bars)')],
    "forbids the first cell of an edge": [(IS_FORBIDDEN, f"{IS_FORBIDDEN} or {LEAVES_AT_TICK}")],
    "forbids the second cell of an edge": [
        (IS_FORBIDDEN, f'{IS_FORBIDDEN} or any(bar[2:] == (cell, tick - 1) for bar in bars)')],
    "forbids to enter the second cell of an edge": [
        (MOVES, "any(bar[2:] == (other, tick) for bar in bars)")],
    "forbids to leave the first cell of an edge": [(MOVES, f"other != cell and {LEAVES_AT_TICK}")],
    "ignores vertex constraints of steps": [(ENTERS, "False")],
    "ignores edge constraints": [(MOVES, "False")],
    "lets a wait meet a vertex constraint": [(ENTERS, f"other != cell and {ENTERS}")],
    "lets the left child's constraint hold at the split": [of_own_split("children[:1]")],
    "lets the right child's constraint hold at the split": [of_own_split("children[1:]")],
    "lets the left child's constraint hold in the right child": [
        *SIBLING, of_children("right.sibling = Node(left.depth, left.agent, left.bar)")],
    "lets the right child's constraint hold in the left child": [
        *SIBLING, of_children("left.sibling = Node(right.depth, right.agent, right.bar)")],
    "never takes back a constraint": [(REMOVE, "            if False:\n")],
    "loses a constraint that was added twice": [
        (REMOVE, "            if node.bar and node.bar in self.bars[node.agent]:\n")],
    "takes the constraint of the nearest split alone": [of_bars("node.bar for node in [node] if node.agent == agent")],
    "takes the agent's nearest constraint alone": [
        of_bars(f"node.bar for node in [node for node in {UP} if node.agent == agent][:1]")],
}

# Blocks.

DISTANCE = "self.distances[agent].get(cell, INFINITE)"
ABOVE_DISTANCE = f'            refuse_if(label <= {DISTANCE}, f"C7 {{line}}")\n'
FORBIDDEN = f"            if {IS_FORBIDDEN}:\n                continue\n"
LAST_BAR = "last_bar_of_goal = self.way.goal_ticks[agent][-1]"
RULE_A = '            refuse_if(cell == goal and last_bar_of_goal < tick, f"C7 {line}")\n'
STEPS_B = "for other in steps_from(cell, self.free):"
NEXT = "self.label(block, agent, other, tick + 1)"
RULE_B = f"label > 1 + {NEXT}"
ENTRIES = "for line, cell, tick, label in entries:"
ON_GOAL = '("vertex", goal)'


def above_distance(change):
    return [(ABOVE_DISTANCE, ABOVE_DISTANCE.replace(*change))]


def of_last_bar(bars, tick="bar[2]", which="max"):
    """The edit after which (a) looks at other constraints."""
    return [(LAST_BAR, f"last_bar_of_goal = {which}(({tick} for bar in {bars}), default=-1)")]


def of_bars_on_goal(nodes, which=""):
    """The edits after which (a) looks at the constraints on the goal of other nodes."""
    bars = f"[node.bar for node in {nodes} if node.bar and node.bar[:2] == {ON_GOAL}]"
    return of_last_bar(bars + which)


def without_step(right, down):
    """The edit after which (b) leaves out a step."""
    step = f"(cell[0] + {right}, cell[1] + {down})"
    return [(STEPS_B, f"for other in set(steps_from(cell, self.free)) - {{{step}}}:")]


def of_entries(condition):
    """The edit after which only some entries are judged."""
    return [(ENTRIES, f"for line, cell, tick, label in [entry for entry in entries if {condition}]:")]


def of_blocks(condition):
    """The edit after which only some blocks are judged."""
    return [(JUDGED, f"            if {condition}:\n    {JUDGED}")]


ARE_GOALS_IN_REACH = "all(start in there for start, there in zip(self.starts, self.distances))"
GREATEST_LABEL = ("            allowed = [other for other in steps_from(cell, self.free)\n"
                  f"                       if not ({ENTERS} or {MOVES})]\n"
                  f"            least = min(({NEXT} for other in allowed), default=INFINITE)\n"
                  '            refuse_if(label != 1 + least, "C7")\n')
IS_NEAR = ('            right, down = cell[0] - self.starts[agent][0], cell[1] - self.starts[agent][1]\n'
           '            refuse_if(abs(right) + abs(down) > tick, "C7")\n')

BLOCKS = {
    "takes labels at cells that aren't free": above_distance(("INFINITE", "INFINITE if cell in self.free else 0")),
    "takes labels where the goal is out of reach": above_distance(("INFINITE", "0 if cell in self.free else INFINITE")),
    "takes numbers where the goal is out of reach": above_distance(("INFINITE", "0 if label < INFINITE else INFINITE")),
    "takes inf where the goal is out of reach": above_distance(("<=", "< INFINITE and label <=")),
    "takes labels of the distance": above_distance(("<=", "<")),
    "takes labels less than the distance": [(ABOVE_DISTANCE, "")],
    "takes any label at a forbidden state": [(ABOVE_DISTANCE, ""), (FORBIDDEN, FORBIDDEN + ABOVE_DISTANCE)],
    "judges (a) at forbidden states": [(FORBIDDEN + RULE_A, RULE_A.replace("<", "<=") + FORBIDDEN)],
    "judges (b) at forbidden states": [(FORBIDDEN, "")],
    "takes a state for forbidden that was so earlier": [
        (IS_FORBIDDEN, 'any(bar[:2] == ("vertex", cell) and bar[2] <= tick for bar in bars)')],
    "takes a state for forbidden that will be so later": [
        (IS_FORBIDDEN, 'any(bar[:2] == ("vertex", cell) and bar[2] >= tick for bar in bars)')],
    "takes numbers alone at forbidden states": [(IS_FORBIDDEN, f"{IS_FORBIDDEN} and label < INFINITE")],
    "judges no (a)": [(RULE_A, "")],
    "takes an earlier constraint on the goal for (a)": [(RULE_A, RULE_A.replace("< tick", "< 0"))],
    "takes the earliest constraint on the goal for (a)": of_last_bar(f"bars if bar[:2] == {ON_GOAL}", which="min"),
    "takes a constraint on the goal a tick later for too early": [(RULE_A, RULE_A.replace("< tick", "< tick + 2"))],
    "takes edge constraints from the goal for (a)": of_last_bar("bars if bar[1] == goal", "bar[-1]"),
    "takes edge constraints into the goal for (a)": of_last_bar(f"bars if bar[:2] == {ON_GOAL} or bar[2] == goal",
                                                               "bar[-1]"),
    "takes constraints on any cell for (a)": of_last_bar('bars if bar[0] == "vertex"'),
    "takes constraints on any agent for (a)": of_bars_on_goal(UP),
    "takes constraints that were taken back for (a)": [("                self.goal_ticks[node.agent].pop()\n",
                                                       "                pass\n")],
    "takes the nearest constraint on the goal for (a)": of_bars_on_goal(UP, "[:1]"),
    "takes the farthest constraint on the goal for (a)": of_bars_on_goal(UP, "[-1:]"),
    "loses a constraint on the goal that was added twice": [
        (REMOVE, "            if node.bar and node.bar in self.bars[node.agent]:\n"),
        *of_last_bar(f"bars if bar[:2] == {ON_GOAL}")],
    "judges no (b)": [(RULE_B, "False")],
    "judges (b) of waits alone": [(STEPS_B, "for other in [cell]:")],
    "judges (b) of moves alone": without_step(0, 0),
    "judges no (b) of moves up": without_step(0, -1),
    "judges no (b) of moves left": without_step(-1, 0),
    "judges no (b) of moves right": without_step(1, 0),
    "judges no (b) of moves down": without_step(0, 1),
    "judges (b) of one step alone": [(STEPS_B, "for other in sorted(steps_from(cell, self.free))[:1]:")],
    "takes labels that are two more": [(RULE_B, RULE_B.replace("1 +", "2 +"))],
    "takes no labels that are one more": [(RULE_B, RULE_B.replace("1 +", "0 +"))],
    "takes labels after a step of the same tick": [(RULE_B, RULE_B.replace("tick + 1", "tick"))],
    "takes distances for all labels after a step": [(RULE_B, RULE_B.replace("block,", "{},"))],
    "judges no (b) of inf": [(RULE_B, f"label < INFINITE and {RULE_B}")],
    "judges no (b) of inf before a move": [(RULE_B, f"(label < INFINITE or other == cell) and {RULE_B}")],
    "judges no (b) of inf before a wait": [(RULE_B, f"(label < INFINITE or other != cell) and {RULE_B}")],
    "takes no number before inf": [(RULE_B, f"({RULE_B} or label < {NEXT} == INFINITE)")],
    "takes no inf before inf": [(RULE_B, f"({RULE_B} or label == {NEXT} == INFINITE)")],
    "judges entries of tick 0 alone": of_entries("entry[2] == 0"),
    "judges entries of starts alone": of_entries("entry[1] == self.starts[agent]"),
    "judges the first entry alone": of_entries("entry == entries[0]"),
    "judges the last entry alone": of_entries("entry == entries[-1]"),
    "judges the first block alone": of_blocks("agent == blocks[0][0]"),
    "judges the last block alone": of_blocks("agent == blocks[-1][0]"),
    "judges the blocks of leaves alone": of_blocks('kind == "leaf"'),
    "judges no blocks where a goal is out of reach": of_blocks(ARE_GOALS_IN_REACH),
    "takes no entries that no path reaches": [(ABOVE_DISTANCE, ABOVE_DISTANCE + IS_NEAR)],
    "takes blocks of the agent alone that the nearest split constrains": [
        (JUDGED, '            refuse_if(node.agent != agent, "C7")\n' + JUDGED)],
    "takes the greatest sound labels alone": [(RULE_A, GREATEST_LABEL + RULE_A)],
}

# Inheritance, leaves and clashes.

NEAREST = "self.way.blocks[agent][-1]"
OWN = "{(cell, tick): label for _, cell, tick, label in entries}"
TAKE_BACK, ADD_BLOCK = "                self.blocks[agent].pop()\n", "self.blocks[agent].append(block)"
WEAK = "total < self.least"
SUM = "self.judge_sum(sum(labels), line)"
START_LABEL = f"self.label({NEAREST}, agent, start, 0)"
LEAST = "numbers[0] if numbers else INFINITE, grid"
CLASH = "one == other or self.goals[one] != self.goals[other]"
SIDE = NODE, NODE + '        self.side = "root"\n'
BOTH_SIDES = of_children('left.side, right.side = "left", "right"')


def of_block(block):
    """The edit after which another block holds at a leaf."""
    return START_LABEL, START_LABEL.replace(NEAREST, block)


def of_start_label(others):
    """The edit after which the greatest of a start's label and of others counts."""
    return [(START_LABEL, f"max([{START_LABEL}, *{others}])")]


def of_own_entries(condition):
    entries = f"{NEAREST}.items()"
    return of_start_label(f"[label for (cell, tick), label in {entries} if {condition}]")


def of_sum(counted):
    """The edit after which this is judged in place of the sum of a leaf's start labels."""
    return SUM, f"self.judge_sum({counted}, line)"


def of_leaves(condition):
    """The edit after which leaves of which this holds are judged alone."""
    return SUM, f"if {condition}:\n                {SUM}"


ALL_BLOCKS = "self.way.blocks[agent]"
MANHATTAN = "{cell: abs(cell[0] - goal[0]) + abs(cell[1] - goal[1]) for cell in distances}"

LEAVES = {
    "lets no block hold below": [of_block("node.blocks.get(agent, {})")],
    "lets a block hold in its children alone": [
        of_block("next((node.blocks[agent] for node in self.way.nodes[:-3:-1] if agent in node.blocks), {})")],
    "lets a block of any agent end the others": [
        of_block(f"next((node.blocks.get(agent, {{}}) for node in {UP} if node.blocks), {{}})")],
    "adds a deeper block to the one above": [(OWN, f"{{**{NEAREST}, **{OWN}}}")],
    "lets a deeper block borrow from the one above": [
        (RULE_B, RULE_B.replace("block,", f"{{**{ALL_BLOCKS}[-2], **block}},"))],
    "takes the greatest label of a start in blocks above": of_start_label(
        f"[self.label(block, agent, start, 0) for block in {ALL_BLOCKS}]"),
    "takes the block above for a start that isn't listed": [
        of_block(f"next((block for block in reversed({ALL_BLOCKS}) if any(tick == 0 for _, tick in block)), {{}})")],
    "never takes back a block": [(TAKE_BACK, "                pass\n")],
    "takes back a block after one that replaced it": [
        (TAKE_BACK, "                self.blocks[agent].clear()\n                self.blocks[agent].append({})\n"),
        (ADD_BLOCK, "self.blocks[agent][1:] = [block]")],
    "takes entries of other agents for labels of starts": of_start_label(
        "[self.way.blocks[other][-1].get((start, 0), 0) for other in range(len(self.goals))]"),
    "takes any sum at a leaf": [(WEAK, "False")],
    "takes a sum that is one less": [(WEAK, "total + 1 < self.least")],
    "takes the claimed sum alone": [(WEAK, "total != self.least")],
    "takes sums alone that are more than is claimed": [(WEAK, "total <= self.least")],
    "takes any sum for impossible": [(LEAST, "numbers[0] if numbers else 0, grid")],
    "takes the greatest label for infinite": [(LEAST, "numbers[0] if numbers else 9_999_999, grid")],
    "takes inf at any state": of_own_entries("label == INFINITE"),
    "takes infinite labels for impossible alone": [
        of_sum("sum(label for label in labels if label < INFINITE or self.least == INFINITE)")],
    "takes infinite distances for 0": [
        (f"block.get((cell, tick), {DISTANCE})", "block.get((cell, tick), self.distances[agent].get(cell, 0))")],
    "takes the label of a start at any tick": of_own_entries("cell == start"),
    "takes the label of any cell at tick 0": of_own_entries("tick == 0"),
    "adds up the labels of blocks alone": [(START_LABEL, f"{NEAREST}.get((start, 0), 0)")],
    "adds up the labels of two agents alone": [of_sum("sum(labels[:2])")],
    "judges leaves without blocks alone": [of_leaves("not blocks")],
    "judges leaves with blocks alone": [of_leaves("blocks")],
    "judges left leaves alone": [SIDE, BOTH_SIDES, of_leaves('node.side != "right"')],
    "judges right leaves alone": [SIDE, BOTH_SIDES, of_leaves('node.side != "left"')],
    "takes distances as if no cell were blocked": [("    return distances\n", f"    return {MANHATTAN}\n")],
    "takes distances of some way": [("cell = queue.popleft()", "cell = queue.pop()")],
    "takes any clash": [(CLASH, "one == other")],
    "takes a clash of one agent": [(CLASH, CLASH.replace("one == other or ", ""))],
    "takes a clash of goals in one row": [(CLASH, "one == other or self.goals[one][1] != self.goals[other][1]")],
    "takes a clash of goals in one column": [(CLASH, "one == other or self.goals[one][0] != self.goals[other][0]")],
    "takes a clash of one start": [(CLASH, f"{CLASH} and self.starts[one] != self.starts[other]")],
    "takes a clash of a goal and a start": [(CLASH, f"{CLASH} and self.goals[one] != self.starts[other]")],
    "takes a clash of an agent that isn't there": [
        ('"J": (0, agents - 1)', '"J": (0, agents)'),
        (CLASH, "one == other or self.goals[one] != read_scenario.goals[other]"),
        ("    return [(x, y) for x, y, _, _ in ends]",
         "    read_scenario.goals = [tuple(map(value, words[6:8])) for words in rows[1:]]\n"
         "    return [(x, y) for x, y, _, _ in ends]")],
    "takes a clash of the smaller agent first alone": [(CLASH, CLASH.replace("==", ">="))],
    "takes a clash of agents 0 and 1 alone": [(CLASH, f"{CLASH} or one + other > 1")],
    "takes a clash at the root alone": [(CLASH, f"{CLASH} or node.depth > 0")],
    "takes a clash for impossible alone": [(CLASH, f"{CLASH} or self.least < INFINITE")],
    "takes a clash for bounds alone": [(CLASH, f"{CLASH} or self.least == INFINITE")],
    "judges clashes at the root alone": [(CLASH, f"node.depth == 0 and ({CLASH})")],
}

BENT = {**LINES, **SPLITS, **BLOCKS, **LEAVES}

HARMLESS = {
    "takes costs of paths above the range": (
        [('"P": (0, 9_999_999)', '"P": (0, 99_999_999)')],
        "such a path has over 10,000,000 pairs, and no vector is as long"),
    "takes sums of costs above the range": (
        [('"C": (0, 1_999_999_800)', '"C": (0, 2_000_000_000)')],
        "a sum of at most 200 costs of paths is in the range"),
    "takes any agent in the line of a path": (
        [('["I", "P"]', '["U", "P"]')],
        "no other agent than the expected one is taken"),
    "takes more agents than 200": (
        [('"K": (1, 200)', '"K": (0, 10 ** 20)')],
        "no problem has as many agents, and the texts have the problem's number"),
    "takes more blocks than agents": (
        [("ranges_of(grid, len(goals), len(goals))", "ranges_of(grid, len(goals), 10 ** 20)")],
        "the agents of the blocks rise strictly, and each is below K"),
    "takes entries after the last tick": (
        [('"U": (0, 9_999_999)', '"U": (0, 10 ** 20)')],
        "no constraint is as late, and without a later one no entry is sound"),
    "takes labels of 0": (
        [('"L": (1, 9_999_999)', '"L": (0, 9_999_999)')],
        "a label is greater than the distance"),
    "takes longer lines of certificates": (
        [('"C2 K", LONGEST_LINE', '"C2 K", 4096')],
        "by the ranges no line has more than 43 bytes"),
    "lets the last two pairs of a path be equal": (
        [(" or (cost > 0 and path[-1] == path[-2])", "")],
        "then the sum of the costs is more than the plan costs, and no tree shows it"),
    "takes a sum of costs that is too great": (
        [(SUM, SUM.replace("!=", ">"))],
        "no tree shows more than the costs of a valid plan"),
    "asks in (a) for a constraint after the entry's own tick": (
        [(RULE_A, RULE_A.replace("<", "<="))],
        "with a constraint at its own tick the state is forbidden, and (a) isn't asked"),
    "takes cells off the grid": (
        [('"x": (0, width - 1)', '"x": (0, 10 ** 20)'), ('"y": (0, height - 1)', '"y": (0, 10 ** 20)')],
        "no such cell is free, and the goal is out of its reach"),
}
