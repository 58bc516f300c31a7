"""Edits of what tools/recheck has for version 3, the files recheck3.py, recheck3_labels.py and recheck3_trees.py. Each
makes a wrong checker, which some vector of version 3 has to notice. An edit is the text that becomes another one.
"""

BENT_LINES = {
    "takes prices in any order": (
        "            order = tick, len(cells), order_of(*cells)\n"
        "            self.lines.refuse_if(last is not None and order <= last, 1)\n",
        "            order = tick, len(cells), order_of(*cells)\n"),
    "takes a price twice": (
        "            order = tick, len(cells), order_of(*cells)\n"
        "            self.lines.refuse_if(last is not None and order <= last, 1)\n",
        "            order = tick, len(cells), order_of(*cells)\n"
        "            self.lines.refuse_if(last is not None and order < last, 1)\n"),
    "wants the prices of edges first": (
        "            order = tick, len(cells), order_of(*cells)\n",
        "            order = tick, -len(cells), order_of(*cells)\n"),
    "takes an edge from its greater cell": (
        "            self.lines.refuse_if(len(cells) == 2 and order_of(cells[0]) >= order_of(cells[1]), 1)\n", ""),
    "takes prices of all cells": ("        self.judge_places(places)\n", ""),
    "takes constraints on all cells": (
        "        self.judge_places([(line, constraint.cells) for line, constraint in taken])\n", ""),
    "takes edges between any cells": ("and here != there and there in self.problem.steps_from(here)", ""),
    "takes edges from a cell to itself": ("self.are_free(cells) and here != there and", "self.are_free(cells) and"),
    "takes edges of blocked cells": ("return self.are_free(cells) and here != there", "return here != there"),
    "takes constraints of other agents": ("            self.lines.refuse_if(agent not in agents, 1)\n", ""),
    "takes entries in any order": (
        "            self.lines.refuse_if(last is not None and (tick, y, x) <= last, 1)\n", ""),
    "wants entries by columns": (
        "(tick, y, x) <= last, 1)\n            last = tick, y, x",
        "(tick, x, y) <= last, 1)\n            last = tick, x, y"),
    "takes joint entries in any order": (
        "            kind, cells = JOINT_ENTRY.index(shape), cells_of(pairs)\n"
        "            order = tick, kind, order_of(*cells)\n"
        "            self.lines.refuse_if(last is not None and order <= last, 1)\n",
        "            kind, cells = JOINT_ENTRY.index(shape), cells_of(pairs)\n"
        "            order = tick, kind, order_of(*cells)\n"),
    "takes a joint entry twice": (
        "            kind, cells = JOINT_ENTRY.index(shape), cells_of(pairs)\n"
        "            order = tick, kind, order_of(*cells)\n"
        "            self.lines.refuse_if(last is not None and order <= last, 1)\n",
        "            kind, cells = JOINT_ENTRY.index(shape), cells_of(pairs)\n"
        "            order = tick, kind, order_of(*cells)\n"
        "            self.lines.refuse_if(last is not None and order < last, 1)\n"),
    "wants no order of the kinds of joint entries": ("order = tick, kind, order_of", "order = tick, order_of"),
    "takes the one that has arrived for the other": (
        "pair = (cells, (None, *cells), (*cells, None))[kind]", "pair = (cells, (*cells, None), (None, *cells))[kind]"),
    "takes joint cells in any order": (
        "            self.lines.refuse_if(last is not None and order_of(*cells) <= last, 1)\n", ""),
    "takes agents of cases in any order": ("            self.lines.refuse_if(agents and agent <= agents[-1], 1)\n", ""),
    "takes uses in any order": ("            self.lines.refuse_if(uses and use[0] <= uses[-1][1][0], 1)\n", ""),
    "takes a use twice": ("use[0] <= uses[-1][1][0]", "use[0] < uses[-1][1][0]"),
    "has a list more": ('self.ranges["Q"] = 0, lists - 1', 'self.ranges["Q"] = 0, lists'),
}

BENT_LEMMAS = {
    "leaves out the price of the start of one agent": (
        " + labels.prices.of_cell(start, 0)\n        return Lemma(frozenset([agent])",
        "\n        return Lemma(frozenset([agent])"),
    "leaves out the prices of both starts": (" + sum(labels.prices.of_cell(start, 0) for start in starts)", ""),
    "judges no entries of one agent": ("        self.judge_entries(labels, entries)\n        start", "        start"),
    "judges no entries of the first of two agents": (
        "        self.judge_entries(labels, entries)\n        self.judge_entries(other",
        "        self.judge_entries(other"),
    "judges no entries of the second of two agents": ("        self.judge_entries(other_labels, other_entries)\n", ""),
    "judges joint entries first": (
        "        self.judge_entries(labels, entries)\n        self.judge_entries(other_labels, other_entries)\n"
        "        for line, state, label in joint_entries:\n"
        "            are_free = self.are_free(cell for cell in state[:2] if cell is not None)\n"
        '            self.refuse_line_if(not are_free or not joint_labels.is_sound(*state, label), "C7", line)\n',
        "        for line, state, label in joint_entries:\n"
        "            are_free = self.are_free(cell for cell in state[:2] if cell is not None)\n"
        '            self.refuse_line_if(not are_free or not joint_labels.is_sound(*state, label), "C7", line)\n'
        "        self.judge_entries(labels, entries)\n        self.judge_entries(other_labels, other_entries)\n"),
    "takes joint entries at blocked cells": ("not are_free or not joint_labels", "not joint_labels"),
    "takes one agent for two": (
        '        self.refuse_line_if(one == other, "C10", line)\n        constraints', "        constraints"),
    "judges constraints before the first line": (
        '        self.refuse_line_if(one == other, "C10", line)\n'
        "        constraints = self.judged_constraints(taken)\n",
        "        constraints = self.judged_constraints(taken)\n"
        '        self.refuse_line_if(one == other, "C10", line)\n'),
    "takes one agent for two that never arrive": ('        self.refuse_line_if(one == other, "C10", first_line)\n', ""),
    "takes joint cells without the starts": (
        '        self.refuse_line_if(starts not in pairs, "C7", first_line)\n', ""),
    "takes joint cells that are blocked": (
        "is_allowed = self.are_free(cells) and cells[0] != cells[1] and", "is_allowed = cells[0] != cells[1] and"),
    "takes joint cells that are one": ("and cells[0] != cells[1] and cells != goals", "and cells != goals"),
    "takes joint cells with both goals": (" and cells != goals", ""),
    "takes joint cells that can be left": (" or not is_closed(*cells, pairs, self.problem)", ""),
    "never lets agents pass": (" or is_conflict(cell, other_cell, there, other_there)\n", "\n"),
    "lets no constraints of cases stand": (
        "self.judge_tree(agents, constraints, least)\n        return",
        "self.judge_tree(agents, [], least)\n        return"),
    "asks nothing of cases": (
        "self.judge_tree(agents, constraints, least)\n        return",
        "self.judge_tree(agents, constraints, 0)\n        return"),
    "forgets the constraints of cases": (
        "frozenset(agents), frozenset(constraints), None, least", "frozenset(agents), frozenset(), None, least"),
    "lets cases be about all agents": (
        "self.judge_tree(agents, constraints, least)\n        return",
        "self.judge_tree(range(len(self.problem.goals)), constraints, least)\n        return"),
}

BENT_LABELS = {
    "counts no total": ("        self.total += price\n", ""),
    "has prices of edges in one direction": (
        "self.edges[cells[0], cells[1], tick] = self.edges[cells[1], cells[0], tick] = price",
        "self.edges[cells[0], cells[1], tick] = price"),
    "steps without a unit": ("return self.unit + self.edges.get", "return 1 + self.edges.get"),
    "steps without prices of edges": ("self.edges.get((cell, other, tick), 0) + self.of_cell", "self.of_cell"),
    "has prices of edges a tick later": ("(cell, other, tick), 0)", "(cell, other, tick + 1), 0)"),
    "has prices of cells a tick earlier": ("self.of_cell(other, tick + 1)", "self.of_cell(other, tick)"),
    "lets rest cost the price of its tick": (
        "sums[bisect_right(self.ticks.get(cell, []), tick)]", "sums[bisect_right(self.ticks.get(cell, []), tick - 1)]"),
    "lets rest cost nothing": ("return sums[-1] - sums[", "return 0 * sums["),
    "takes constraints of one for the other": ("            if of_agent != agent:\n                continue\n", ""),
    "takes the greatest most": ("self.most = min(self.most, number)", "self.most = number"),
    "takes the smallest least": ("self.least = max(self.least, number)", "self.least = number"),
    "takes the last clear": ("min(number, self.cleared.get(cells[0], number))", "number"),
    "takes the last constraint on a goal": (
        "self.last_forbidden_at_goal = max(self.last_forbidden_at_goal, number)",
        "self.last_forbidden_at_goal = number"),
    "bars no cell by not": ("((cell,), tick) in self.forbidden or ", ""),
    "bars no cell by clear": ("self.cleared.get(cell, INFINITE) <= tick\n                or ", ""),
    "bars cells after clear": ("self.cleared.get(cell, INFINITE) <= tick", "self.cleared.get(cell, INFINITE) < tick"),
    "bars no cell by most": ("\n                or self.most < tick + self.distances.get(cell, INFINITE))", ")"),
    "bars by most a tick early": ("self.most < tick + self.distances", "self.most <= tick + self.distances"),
    "bars by most without the distance": (
        "self.most < tick + self.distances.get(cell, INFINITE))", "self.most < tick)"),
    "forbids no edges": ("((cell, other), tick) not in self.forbidden and ", ""),
    "forbids edges in both directions": (
        "((cell, other), tick) not in self.forbidden and",
        "((cell, other), tick) not in self.forbidden and ((other, cell), tick) not in self.forbidden and"),
    "steps onto barred cells": (" and not self.is_barred(other, tick + 1)", ""),
    "steps onto cells barred a tick before": ("self.is_barred(other, tick + 1)", "self.is_barred(other, tick)"),
    "rests anywhere": ("return (cell == self.goal and self.last", "return (self.last"),
    "rests before a constraint": ("self.last_forbidden_at_goal < tick and ", ""),
    "rests before clear": (" and cell not in self.cleared", ""),
    "rests too early for least": ("\n                and self.least <= tick)", ")"),
    "rests only after least": ("and self.least <= tick)", "and self.least < tick)"),
    "has defaults without a unit": ("return self.prices.unit * max(", "return max("),
    "has defaults without least": (
        "max(self.limits.distances.get(cell, INFINITE), self.limits.least - tick)",
        "self.limits.distances.get(cell, INFINITE)"),
    "has defaults with least at all ticks": ("self.limits.least - tick)", "self.limits.least)"),
    "overlooks entries": (
        "return self.default(cell, tick) if entry is None else entry", "return self.default(cell, tick)"),
    "takes labels of the default": ("if label <= self.default(cell, tick)", "if label < self.default(cell, tick)"),
    "takes labels below the default": ("        if label <= self.default(cell, tick):\n            return False\n", ""),
    "judges barred states": ("        if self.limits.is_barred(cell, tick):\n            return True\n", ""),
    "lets rest bound no label": ("return label <= self.rest(cell, tick) and all(", "return all("),
    "lets steps bound no label": (
        " and all(\n"
        "            label <= cost + self.label(other, tick + 1) for other, cost in self.steps(cell, tick))",
        ""),
    "steps at one tick": ("cost + self.label(other, tick + 1) for", "cost + self.label(other, tick) for"),
}

BENT_JOINT_LABELS = {
    "overlooks joint entries": (
        "        if entry is not None:\n            return entry\n        return ((0", "        return ((0"),
    "has the greater default of two": (
        "return ((0 if cell is None else self.one.label(cell, tick))\n                + (0",
        "return max((0 if cell is None else self.one.label(cell, tick)),\n                (0"),
    "judges states of one cell": ("return (cell == other_cell or self.one", "return (self.one"),
    "judges states that are barred for the first": (
        "self.one.limits.is_barred(cell, tick)\n                or self.other", "self.other"),
    "judges states that are barred for the second": (
        "                or self.other.limits.is_barred(other_cell, tick)\n                or self.is_below",
        "                or self.is_below"),
    "lets no arrival bound a label": (
        "self.is_below_arrivals(cell, other_cell, tick, label)\n                and ", ""),
    "lets no steps bound a joint label": (
        "\n                and self.is_below_steps(cell, other_cell, tick, label))", ")"),
    "overlooks arrivals of the first": (
        "label <= self.one.rest(cell, tick) + self.label(None, other_cell, tick)\n                and ", ""),
    "overlooks arrivals of the second": (
        "\n                and label <= self.other.rest(other_cell, tick) + self.label(cell, None, tick))", ")"),
    "adds one unit for two steps": (
        "label <= cost + other_cost + self.label(there", "label <= cost + self.label(there"),
    "steps with both at one tick": (
        "self.label(there, other_there, tick + 1)\n", "self.label(there, other_there, tick)\n"),
    "lets two agents meet": ("return there == other_there or (there", "return (there"),
    "lets two agents exchange cells": (
        "return there == other_there or (there == other_cell and other_there == cell)", "return there == other_there"),
    "forbids following": (
        "(there == other_cell and other_there == cell)", "there == other_cell or other_there == cell"),
    "judges an agent at the other's goal": ("return (cell == goal or labels", "return (labels"),
    "judges barred states of one agent": ("cell == goal or labels.limits.is_barred(cell, tick)\n", "cell == goal\n"),
    "lets no rest of the last bound a label": ("or label <= labels.rest(cell, tick)\n            and all(", "or all("),
    "steps to the other's goal": ("for rest, there in following if there != goal))", "for rest, there in following))"),
    "lets no steps of the last bound a label": (
        "\n            and all(label <= rest for rest, there in following if there != goal))", ")"),
}

BENT_TREES = {
    "lets what a sibling adds stand": (
        "            scope.standing.leave(depth)\n", "            scope.standing.leave(0)\n"),
    "takes clashes of one agent": ("is_true = one != other and self", "is_true = self"),
    "takes clashes of different goals": (
        "one != other and self.problem.goals[one] == self.problem.goals[other]", "one != other"),
    "takes splits on costs of one agent": ('            self.refuse_line_if(one == other, "C6", line)\n', ""),
    "takes splits on costs without a lemma": (
        '            self.refuse_line_if(not scope.may_cost({one, other}, lemma, cost + least_other), "C10", line)\n',
        ""),
    "adds no least to the other agent": (
        '[[*left, Constraint("least", other, (), least_other)], right]', "[left, right]"),
    "adds that least to the first agent": (
        'Constraint("least", other, (), least_other)', 'Constraint("least", one, (), least_other)'),
    "takes splits of one agent": (
        "self.refuse_line_if(one == other or not self.is_place", "self.refuse_line_if(not self.is_place"),
    "takes splits on any cells": ('one == other or not self.is_place(cells), "C6"', 'one == other, "C6"'),
    "forbids one direction of a swap": (
        'Constraint("not", other, cells[::-1], tick)', 'Constraint("not", other, cells, tick)'),
    "exchanges the children of a split": (
        'return [[Constraint("not", one, cells, tick)], [Constraint("not", other, cells[::-1], tick)]]',
        'return [[Constraint("not", other, cells[::-1], tick)], [Constraint("not", one, cells, tick)]]'),
    "adds no most": ('return [[Constraint("most", agent, (), cost), Constraint', "return [[Constraint"),
    "clears no goal": (', Constraint("arrived", agent, (), cost)],', "],"),
    "clears a goal a tick later": (
        'Constraint("arrived", agent, (), cost)', 'Constraint("arrived", agent, (), cost + 1)'),
    "adds the least of the other child": (
        'Constraint("least", agent, (), cost + 1)', 'Constraint("least", agent, (), cost)'),
    "lets the last constraint count": (
        'number = max(number, before) if constraint.kind == "least" else min(number, before)', "pass"),
    "keeps what was added below": (
        "                if before is None:\n                    del self.numbers[key]\n                else:\n"
        "                    self.numbers[key] = before\n",
        "                pass\n"),
    "loses a constraint that stood twice": (
        "                    self.numbers[key] = before\n", "                    del self.numbers[key]\n"),
    "wants the same least": (
        "number is not None and number >= constraint.number", "number is not None and number == constraint.number"),
    "meets least by any": ("return number is not None and number >= constraint.number", "return number is not None"),
    "meets least 0 always": (
        "return number is not None and number >= constraint.number",
        "return number is not None and number >= constraint.number or constraint.number == 0"),
    "wants the same most or clear": (
        "if number is not None and number <= constraint.number",
        "if number is not None and number == constraint.number"),
    "meets edges by clear": (
        'constraint.kind != "most" and len(constraint.cells) == 1 and', 'constraint.kind != "most" and'),
    "meets nothing by clear": (
        'return constraint.kind != "most" and len(constraint.cells) == 1 and self.is_cleared(constraint)',
        "return False"),
    "meets not at each tick": ('number if kind == "not" else None', "None"),
    "meets nothing by its own clear": (
        '        if self.numbers.get(("clear", agent, cells, None), INFINITE) <= tick:\n            return True\n', ""),
    "clears the goal for its agent too": (" if other != agent)", ")"),
    "clears any cell": (
        "for other in self.agents_to.get(cells[0], []) if", "for other in sum(self.agents_to.values(), []) if"),
    "uses lemmas of other agents": ("if lemma and lemma.agents <= self.agents and all(", "if lemma and all("),
    "uses lemmas without their constraints": (" and all(map(self.standing.is_met, lemma.constraints))", ""),
    "splits on costs by a lemma with prices": (
        "lemma.prices is None and lemma.agents == agents", "lemma.agents == agents"),
    "splits on costs by a lemma of other agents": (" and lemma.agents == agents and", " and"),
    "splits on costs by a lemma of more agents": ("lemma.agents == agents", "lemma.agents >= agents"),
    "splits on costs by a weak lemma": (" and lemma.bound >= bound", ""),
    "splits on costs by a lemma that is weaker by 1": ("lemma.bound >= bound", "lemma.bound + 1 >= bound"),
}

BENT_LEAVES = {
    "uses lemmas of other lists": (
        "lemma if lemma and (lemma.prices is None or lemma.prices is self.named) else None", "lemma"),
    "uses no lemmas without a list beside a list": (
        "lemma if lemma and (lemma.prices is None or lemma.prices is self.named) else None",
        "lemma if lemma and lemma.prices is self.named else None"),
    "uses lemmas of two agents outside groups": (
        "lemma is None or len(lemma.agents) != 1 or not", "lemma is None or not"),
    "uses two lemmas for an agent": (" or not self.single.keys().isdisjoint(lemma.agents)", ""),
    "has an agent in two groups": (" or not self.grouped.isdisjoint(lemma.agents)", ""),
    "has an agent in the first and third group": (
        "self.grouped |= self.groups[-1].weights.keys()", "self.grouped = set(self.groups[-1].weights)"),
    "counts no unit": (
        "return self.prices.unit * lemma.bound if lemma.prices is None else lemma.bound", "return lemma.bound"),
    "counts the unit twice": (
        "return self.prices.unit * lemma.bound if lemma.prices is None else lemma.bound",
        "return self.prices.unit * lemma.bound"),
    "has no unit of distances": ("self.single.get(agent, unit * far)", "self.single.get(agent, far)"),
    "counts the better of use and distance": (
        "self.single.get(agent, unit * far)", "max(self.single.get(agent, 0), unit * far)"),
    "takes infinite counts for none": (
        "if INFINITE in labels.values() or INFINITE in counts", "if INFINITE in labels.values()"),
    "takes no total off": ("max(0, shown - self.prices.total)", "shown"),
    "lets a total go below 0": ("max(0, shown - self.prices.total)", "shown - self.prices.total"),
    "rounds the bound down": (
        "rounded_up(max(0, shown - self.prices.total), self.prices.unit)",
        "max(0, shown - self.prices.total) // self.prices.unit"),
    "lets a use count less than nothing": (
        "return max(0, self.count(lemma) - sum(", "return (self.count(lemma) - sum("),
    "counts lemmas in place of what they exceed": (
        "self.count(lemma) - sum(labels[agent] for agent in lemma.agents))", "self.count(lemma))"),
    "adds up weights of all agents": (
        "self.weights[agent] = self.weights.get(agent, 0) + weight",
        "self.weights[agent] = sum(self.weights.values()) + weight"),
    "takes weights above the divisor": (
        "return all(self.weights[agent] <= self.divisor for agent in lemma.agents)", "return True"),
    "takes each weight by itself": (
        "return all(self.weights[agent] <= self.divisor for agent in lemma.agents)", "return weight <= self.divisor"),
    "wants weights below the divisor": (
        "self.weights[agent] <= self.divisor for", "self.weights[agent] < self.divisor for"),
    "divides by nothing": (
        "sum(weight * excess(lemma) for lemma, weight in self.uses), self.divisor)",
        "sum(weight * excess(lemma) for lemma, weight in self.uses), 1)"),
    "rounds each use": (
        "rounded_up(sum(weight * excess(lemma) for lemma, weight in self.uses), self.divisor)",
        "sum(rounded_up(weight * excess(lemma), self.divisor) for lemma, weight in self.uses)"),
    "rounds groups down": (
        "return rounded_up(sum(weight * excess(lemma) for lemma, weight in self.uses), self.divisor)",
        "return sum(weight * excess(lemma) for lemma, weight in self.uses) // self.divisor"),
    "asks for less than a claim": (
        'self.refuse_line_if(leaf.bound() < least, "C8", line)',
        'self.refuse_line_if(leaf.bound() + 1 < least, "C8", line)'),
    "asks for more than a claim": (
        'self.refuse_line_if(leaf.bound() < least, "C8", line)',
        'self.refuse_line_if(leaf.bound() <= least, "C8", line)'),
}

BENT = {**BENT_LINES, **BENT_LEMMAS, **BENT_LABELS, **BENT_JOINT_LABELS, **BENT_TREES, **BENT_LEAVES}
