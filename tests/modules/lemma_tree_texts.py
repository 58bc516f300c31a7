"""Trees of certificates of version 3, written by hand as those in lemma_texts.py, and shapes and ranges of lines.

JUDGED_IN_TREES is as JUDGED_ALONE there, with whole trees. A text may also begin with `plan` and another answer than
the one that fits its claim.
"""

# The lines of a valid plan of some problems.
PLANS = {"crossing": ["path 0 3 0,1 0,1 1,1 2,1", "path 1 2 1,0 1,1 1,2"]}

# Lemmas of the crossing: agent 0 costs 3 if it is barred from 1,1 at tick 1, both cost 5, agent 0 costs 3 or more.
RAISED_0 = "one 0 1 1 - / not 0 1,1 1 / at 0,1 0 3"
RAISED_1 = "one 1 1 1 - / not 1 1,1 1 / at 1,0 0 3"
JOINT = "two 0 1 0 0 0 1 - / at 0,1 1,0 0 5"
LEAST_0, LEAST_1 = "one 0 1 0 - / least 0 3", "one 1 1 0 - / least 1 3"
PRICED = "list 1 1 / price 1,1 1 1"
PRICED_0, PRICED_1 = "one 0 0 1 0 / at 0,1 0 3", "one 1 0 1 0 / at 1,0 0 3"
LEAF = "leaf 0 0 -"
PAIR = "leaf 0 1 - / group 1 1 / use 0 1"

CLAIMS = {
    "crossing": {
        "a cost": f"plan cost 5 / claim cost 5 / {JOINT} / {PAIR}",
        "a bound that the plan reaches": f"plan cost 5 / claim bound 5 / {JOINT} / {PAIR}",
        "a bound below the plan": f"plan cost 5 / claim bound 4 / {LEAF}",
        "a bound above the plan": f"plan cost 5 / !C4 claim bound 6 / {JOINT} / {PAIR}",
        "a cost below the plan": f"plan cost 5 / !C4 claim cost 4 / {LEAF}",
        "a bound below that of the plan text": f"plan bound 4 / !C4 claim bound 3 / {LEAF}",
        "a cost beside a bound": f"plan bound 4 / !C4 claim cost 4 / {LEAF}",
        "a bound beside impossible": f"plan impossible / !C4 claim bound 4 / {LEAF}",
        "impossible beside a plan": f"plan cost 5 / !C4 claim impossible / {LEAF}",
    },
    "exchange": {
        "impossible by joint cells": f"claim impossible / never 0 1 1 / cells 0,0 1,0 / {PAIR}",
        "a bound by joint cells": f"claim bound 1999999800 / never 0 1 1 / cells 0,0 1,0 / {PAIR}",
        "impossible by distances": f"claim impossible / !C8 {LEAF}",
    },
    "wall": {"impossible by distance": f"claim impossible / {LEAF}",
             "impossible by distance, with prices": "claim impossible / list 7 1 / price 0,0 0 9 / leaf 0 0 0"},
}

PLACES = {
    "crossing": {
        "end before the tree": "prices 0 / lemmas 0 / !K1 end",
        "end before the second child": f"vertex 0 1 1,1 1 / {LEAF} / !K1 end",
        "another tree": f"{LEAF} / !K1 {LEAF}",
        "a line after end": f"{LEAF} / end / !K4 end",
        "fewer lists than told": "prices 2 / list 1 0 / !K1 lemmas 0",
        "more lists than told": "prices 1 / list 1 0 / !K1 list 1 0 / lemmas 0",
        "fewer lemmas than told": "prices 0 / lemmas 2 / one 0 0 0 - / !K1 leaf 0 0 -",
        "more lemmas than told": "prices 0 / lemmas 0 / !K1 one 0 0 0 -",
        "fewer prices than told": "list 1 2 / price 0,0 0 1 / !K1 lemmas 0",
        "a lemma after one by cases": f"cases 1 0 2 / agent 0 / {LEAF} / one 0 0 0 - / leaf 1 0 - / use 0",
        "a list that isn't there": f"!K3 one 0 0 0 0 / {LEAF}",
        "a later list": f"list 1 0 / !K3 two 0 1 0 0 0 0 1 / {LEAF}",
        "a leaf with a list that isn't there": "list 1 0 / !K3 leaf 0 0 1",
        "agents of cases fall": f"cases 2 0 1 / agent 1 / !K1 agent 0 / {LEAF} / {LEAF}",
        "an agent of cases twice": f"cases 2 0 1 / agent 1 / !K1 agent 1 / {LEAF} / {LEAF}",
        "uses fall": "one 0 0 0 - / one 1 0 0 - / leaf 2 0 - / use 1 / !K1 use 0",
        "a use twice": "one 0 0 0 - / leaf 2 0 - / use 0 / !K1 use 0",
        "uses of a group fall": "one 0 0 0 - / one 1 0 0 - / leaf 0 1 - / group 2 1 / use 1 1 / !K1 use 0 1",
        "a use of a group twice": "one 0 0 0 - / leaf 0 1 - / group 2 9 / use 0 1 / !K1 use 0 1",
        "uses of each group rise": "one 0 0 0 - / one 1 0 0 - / leaf 1 2 - / use 1 / group 1 1 / use 1 1 / group 1 1 "
                                   "/ use 0 1",
        "a use with a weight outside groups": "one 0 0 0 - / leaf 1 0 - / !K1 use 0 1",
        "a use without a weight in a group": "one 0 0 0 - / leaf 0 1 - / group 1 1 / !K1 use 0",
        "a leaf is read whole": "leaf 1 1 - / use 7 / !K1 end",
        "a group in place of a use": "leaf 1 1 - / !K1 group 1 1",
    },
}

SPLITS = {
    "crossing": {
        "a vertex split": f"claim bound 5 / {RAISED_0} / {RAISED_1} / vertex 0 1 1,1 1 / leaf 1 0 - / use 0 "
                          "/ leaf 1 0 - / use 1",
        "a leaf too weak": f"claim bound 5 / {RAISED_0} / {RAISED_1} / vertex 0 1 1,1 1 / leaf 1 0 - / use 0 "
                           f"/ !C8 {LEAF}",
        "one agent at a vertex": "!C6 vertex 0 0 1,1 1 / end",
        "one agent on an edge": "!C6 swap 1 1 1,1 1,0 1 / end",
        "the greater agent first": f"vertex 1 0 1,1 1 / {LEAF} / {LEAF}",
        "cells that aren't adjacent": "!C6 swap 0 1 1,1 0,0 1 / end",
        "an edge of one cell": "!C6 swap 0 1 1,1 1,1 1 / end",
        "a cost": f"claim bound 4 / cost 0 7 / {LEAF} / {LEAF}",
        "costs": f"claim bound 5 / {JOINT} / {LEAST_0} / {LEAST_1} / costs 0 2 1 3 0 / leaf 1 0 - / use 2 "
                 "/ leaf 1 0 - / use 1",
        "costs that add up to less": f"{JOINT} / costs 1 2 0 2 0 / {LEAF} / {LEAF}",
        "costs that add up to more": f"{JOINT} / !C10 costs 0 2 1 4 0 / end",
        "costs of one agent": f"{JOINT} / !C6 costs 0 2 0 3 9 / end",
        "costs by a lemma that isn't there": f"{JOINT} / !C10 costs 0 2 1 3 1 / end",
        "costs by a lemma of one agent": "one 0 0 0 - / !C10 costs 0 0 1 0 0 / end",
        "costs by a lemma with prices": "list 1 0 / two 0 1 0 0 0 0 0 / !C10 costs 0 0 1 0 0 / end",
        "costs by a lemma under other constraints":
            "two 0 1 1 0 0 0 - / not 0 1,1 1 / !C10 costs 0 0 1 0 0 / end",
        "costs by a lemma under constraints that stand":
            f"two 0 1 1 0 0 0 - / not 0 1,1 1 / vertex 0 1 1,1 1 / costs 0 0 1 0 0 / {LEAF} / {LEAF} / {LEAF}",
        "costs by a lemma under what the split adds":
            "two 0 1 1 0 0 0 - / most 0 0 / !C10 costs 0 0 1 0 0 / end",
        "costs by cases": f"cases 2 0 4 / agent 0 / agent 1 / {LEAF} / costs 0 1 1 3 0 / {LEAF} / {LEAF}",
        "costs out of scope": f"{JOINT} / cases 1 0 1 / agent 0 / !C10 costs 0 2 1 3 0 / end",
        "a false clash": "!C9 clash 0 1",
        "a clash of one agent": "!C9 clash 0 0",
    },
    "three": {
        "costs by a lemma of three agents":
            f"cases 3 0 4 / agent 0 / agent 1 / agent 2 / {LEAF} / !C10 costs 0 0 1 0 0 / end",
        "costs by a lemma of another agent": "two 0 2 0 0 0 0 - / !C10 costs 0 0 1 0 0 / end",
    },
    "exchange": {
        "costs by joint cells": f"never 0 1 1 / cells 0,0 1,0 / costs 0 9999998 1 9999999 0 / {LEAF} / {LEAF}",
    },
    "one goal": {
        "a clash": "claim impossible / clash 0 1",
        "a clash below a split": "claim impossible / cost 1 3 / clash 1 0 / clash 0 1",
        "a clash by cases": "claim impossible / cases 1 0 inf / agent 0 / clash 0 1 / leaf 1 0 - / use 0",
        "cleared by another agent with the same goal":
            f"one 0 1 0 - / clear 0 1,0 3 / cost 1 3 / leaf 1 0 - / use 0 / {LEAF}",
        "not cleared by itself": f"one 1 1 0 - / clear 1 1,0 3 / cost 1 3 / leaf 1 0 - / !C10 use 0 / {LEAF}",
    },
    "wall": {
        "a blocked cell": "!C6 vertex 0 1 1,0 1 / end",
        "an edge of a blocked cell": "!C6 swap 0 1 0,0 1,0 1 / end",
    },
}

CASES = {
    "crossing": {
        "constraints stand": f"claim bound 4 / {RAISED_0} / cases 1 1 3 / agent 0 / not 0 1,1 1 / leaf 1 0 - / use 0 "
                             f"/ {LEAF}",
        "a leaf too weak": f"{RAISED_0} / cases 1 1 4 / agent 0 / not 0 1,1 1 / !C8 leaf 1 0 - / use 0 / {LEAF}",
        "the distances of its agents alone": f"cases 1 0 3 / agent 0 / !C8 {LEAF} / {LEAF}",
        "inf": f"cases 1 0 inf / agent 0 / !C8 {LEAF} / {LEAF}",
        "a bound that is used": f"claim bound 5 / {RAISED_0} / cases 1 1 3 / agent 0 / not 0 1,1 1 / leaf 1 0 - "
                                f"/ use 0 / {RAISED_1} / vertex 0 1 1,1 1 / leaf 1 0 - / use 1 / leaf 1 0 - / use 2",
        "its constraints stand in its tree alone": f"{RAISED_0} / cases 1 1 3 / agent 0 / not 0 1,1 1 / leaf 1 0 - "
                                                   "/ use 0 / leaf 1 0 - / !C10 use 0",
        "its constraints aren't met where it is used": f"{RAISED_0} / cases 1 1 3 / agent 0 / not 0 1,1 1 / leaf 1 0 - "
                                                       "/ use 0 / leaf 1 0 - / !C10 use 1",
        "a lemma of an agent out of scope": "one 1 0 0 - / cases 1 0 1 / agent 0 / leaf 1 0 - / !C10 use 0",
        "a lemma of two agents, one out of scope":
            f"{JOINT} / cases 1 0 1 / agent 0 / leaf 0 1 - / group 1 1 / !C10 use 0 1",
        "splits out of scope": f"cases 1 0 2 / agent 0 / vertex 1 0 1,1 1 / cost 1 7 / {LEAF} / {LEAF} / {LEAF} "
                               f"/ {LEAF}",
        "itself": "cases 1 0 1 / agent 0 / leaf 1 0 - / !C10 use 0",
        "a later one": "cases 1 0 1 / agent 0 / leaf 1 0 - / !C10 use 1 / one 0 0 0 -",
        "an earlier one by cases": f"cases 1 0 2 / agent 0 / {LEAF} / cases 1 0 2 / agent 0 / leaf 1 0 - / use 0 "
                                   f"/ {LEAF}",
        "constraints that contradict each other": f"cases 1 2 1 / agent 0 / most 0 1 / least 0 9 / {LEAF} / {LEAF}",
        "constraints of agents of its own": "one 1 1 0 - / least 1 9 / cases 2 2 1 / agent 0 / agent 1 / least 1 9 "
                                            f"/ not 0 0,0 4 / leaf 1 0 - / use 0 / {LEAF}",
        "a list": f"{PRICED} / {PRICED_0} / {PRICED_1} / cases 2 0 5 / agent 0 / agent 1 / leaf 2 0 0 / use 0 / use 1 "
                  f"/ {LEAF}",
    },
}

USES = {
    "crossing": {
        "a lemma that isn't there": "leaf 1 0 - / !C10 use 0",
        "a lemma that isn't there, in a group": "leaf 0 1 - / group 1 1 / !C10 use 0 1",
        "two agents outside groups": f"{JOINT} / leaf 1 0 - / !C10 use 0",
        "one agent in a group": "one 0 0 0 - / leaf 0 1 - / group 1 1 / use 0 1",
        "an agent twice outside groups": "one 0 0 0 - / one 0 0 0 - / leaf 2 0 - / use 0 / !C10 use 1",
        "constraints in a group": f"{RAISED_0} / leaf 0 1 - / group 1 1 / !C10 use 0 1",
        "a list of another number": "list 1 0 / list 1 0 / one 0 0 0 1 / leaf 1 0 0 / !C10 use 0",
        "a list beside none": "list 1 0 / one 0 0 0 0 / leaf 1 0 - / !C10 use 0",
        "a list beside none, in a group": "list 1 0 / one 0 0 0 0 / leaf 0 1 - / group 1 1 / !C10 use 0 1",
        "no list beside one": f"claim bound 4 / list 1 0 / {JOINT} / one 0 0 0 - / leaf 1 1 0 / use 1 / group 1 1 "
                              "/ use 0 1",
        "a weight of the divisor": f"{JOINT} / leaf 0 1 - / group 1 7 / use 0 7",
        "a weight above the divisor": f"{JOINT} / leaf 0 1 - / group 1 7 / !C10 use 0 8",
        "weights that add up to the divisor": f"{JOINT} / {JOINT} / leaf 0 1 - / group 2 7 / use 0 3 / use 1 4",
        "weights above the divisor": f"{JOINT} / one 0 0 0 - / one 1 0 0 - / leaf 0 1 - / group 3 7 / use 0 3 "
                                     "/ use 1 4 / !C10 use 2 5",
        "weights of different agents": "one 0 0 0 - / one 1 0 0 - / leaf 0 1 - / group 2 3 / use 0 3 / use 1 3",
        "an agent in two groups": f"{JOINT} / one 1 0 0 - / leaf 0 2 - / group 1 1 / use 0 1 / group 1 1 "
                                  "/ !C10 use 1 1",
        "a lemma outside groups and in one": "one 0 0 0 - / leaf 1 1 - / use 0 / group 1 1 / use 0 1",
        "uses before groups are judged first":
            f"{JOINT} / leaf 1 1 - / !C10 use 0 / group 1 1 / use 9 1",
        "uses are judged before the bound": f"claim bound 9 / {JOINT} / leaf 1 0 - / !C10 use 0",
    },
    "three": {
        "an agent in the first and the third group":
            "one 0 0 0 - / one 1 0 0 - / two 0 2 0 0 0 0 - / leaf 0 3 - / group 1 1 / use 0 1 / group 1 1 / use 1 1 "
            "/ group 1 1 / !C10 use 2 1",
        "groups of different agents": f"claim bound 5 / {JOINT} / one 2 0 0 - / leaf 0 2 - / group 1 1 / use 0 1 "
                                      "/ group 1 1 / use 1 1",
    },
}

# In the crossing the distances add up to 4, and the excess of the pair is 1.
LEAVES = {
    "crossing": {
        "the distances": f"claim bound 4 / {LEAF}",
        "more than the distances": f"claim bound 5 / !C8 {LEAF}",
        "a pair": f"claim bound 5 / {JOINT} / {PAIR}",
        "more than a pair": f"claim bound 6 / {JOINT} / !C8 {PAIR}",
        "a lemma that isn't used": f"claim bound 5 / {JOINT} / !C8 {LEAF}",
        "the worth is rounded up": f"claim bound 5 / {JOINT} / leaf 0 1 - / group 1 1000 / use 0 1",
        "the sum of a group is rounded once":
            f"claim bound 6 / {JOINT} / {JOINT} / !C8 leaf 0 1 - / group 2 2 / use 0 1 / use 1 1",
        "no excess is less than 0":
            "claim bound 4 / two 0 1 0 0 0 1 - / at 0,1 1,0 0 1 / leaf 0 1 - / group 1 1 / use 0 1",
        "an excess over what is used for single agents":
            f"claim bound 5 / {JOINT} / {RAISED_0} / {RAISED_1} / vertex 0 1 1,1 1 / leaf 1 1 - / use 1 / group 1 1 "
            "/ use 0 1 / leaf 1 0 - / use 2",
        "the same excess, too weak for more":
            f"claim bound 6 / {JOINT} / {RAISED_0} / {RAISED_1} / vertex 0 1 1,1 1 / !C8 leaf 1 1 - / use 1 "
            "/ group 1 1 / use 0 1 / leaf 1 0 - / use 2",
        "a use that counts less than the distance":
            f"claim bound 4 / cases 1 0 1 / agent 0 / {LEAF} / !C8 leaf 1 0 - / use 0",
        "a use that counts less than the distance, for less":
            f"claim bound 3 / cases 1 0 1 / agent 0 / {LEAF} / leaf 1 0 - / use 0",
        "a leaf without the lemma": f"claim bound 11 / one 0 1 0 - / least 0 9 / cost 0 8 / !C8 {LEAF} / leaf 1 0 - "
                                    "/ use 0",
        "constraints of one child": "one 0 1 0 - / least 0 9 / cases 1 1 9 / agent 0 / least 0 9 / leaf 1 0 - / use 0 "
                               f"/ {LEAF}",
        "prices": f"claim bound 5 / {PRICED} / {PRICED_0} / {PRICED_1} / leaf 2 0 0 / use 0 / use 1",
        "more than prices show": f"claim bound 6 / {PRICED} / {PRICED_0} / {PRICED_1} / !C8 leaf 2 0 0 / use 0 / use 1",
        "the total is taken off": f"claim bound 4 / {PRICED} / !C8 leaf 0 0 0",
        "the total is taken off, for less": f"claim bound 3 / {PRICED} / leaf 0 0 0",
        "a total of several prices": "claim bound 1 / list 1 3 / price 0,0 0 1 / price 0,0 1,0 0 1 / price 0,0 7 1 "
                                     "/ leaf 0 0 0",
        "a total of several prices, for more": "claim bound 2 / list 1 3 / price 0,0 0 1 / price 0,0 1,0 0 1 "
                                               "/ price 0,0 7 1 / !C8 leaf 0 0 0",
        "a leaf without a list takes nothing off": f"claim bound 4 / {PRICED} / {LEAF}",
        "a total above the sum": "claim bound 0 / list 1 1 / price 0,0 0 9999999 / leaf 0 0 0",
        "a total above the sum, for 1": "claim bound 1 / list 1 1 / price 0,0 0 9999999 / !C8 leaf 0 0 0",
        "a unit": "claim bound 5 / list 2 1 / price 1,1 1 1 / one 0 0 1 0 / at 0,1 0 5 / one 1 0 1 0 / at 1,0 0 5 "
                  "/ leaf 2 0 0 / use 0 / use 1",
        "a unit, for more": "claim bound 6 / list 2 1 / price 1,1 1 1 / one 0 0 1 0 / at 0,1 0 5 / one 1 0 1 0 "
                            "/ at 1,0 0 5 / !C8 leaf 2 0 0 / use 0 / use 1",
        "a unit times distances": "claim bound 4 / list 2 1 / price 1,1 1 1 / leaf 0 0 0",
        "a unit times what has no list": f"claim bound 5 / list 2 1 / price 1,1 1 1 / {JOINT} / leaf 0 1 0 / group 1 1 "
                                         "/ use 0 1",
        "prices of starts": "claim bound 4 / list 1 1 / price 0,1 0 3 / one 0 0 0 0 / leaf 1 0 0 / use 0",
        "prices of both starts": "claim bound 4 / list 1 2 / price 1,0 0 4 / price 0,1 0 3 / two 0 1 0 0 0 0 0 "
                                 "/ leaf 0 1 0 / group 1 1 / use 0 1",
        "prices of both starts, for more": "claim bound 5 / list 1 2 / price 1,0 0 4 / price 0,1 0 3 "
                                           "/ two 0 1 0 0 0 0 0 / !C8 leaf 0 1 0 / group 1 1 / use 0 1",
    },
    "exchange": {
        "infinite in a group, with weights": "claim impossible / never 0 1 1 / cells 0,0 1,0 / leaf 0 1 - "
                                             "/ group 1 1000 / use 0 1",
        "infinite in a group, less a total": "claim impossible / list 9 1 / price 0,0 0 9999999 / never 0 1 1 "
                                             "/ cells 0,0 1,0 / leaf 0 1 0 / group 1 1 / use 0 1",
        "infinite by cases": "claim impossible / never 0 1 1 / cells 0,0 1,0 / cases 2 0 inf / agent 0 / agent 1 "
                             f"/ {PAIR} / leaf 0 1 - / group 1 1 / use 1 1",
        "one barred at its start": "claim impossible / one 0 1 1 - / not 0 0,0 0 / at 0,0 0 inf / never 0 1 1 "
                                   "/ cells 0,0 1,0 / vertex 0 1 0,0 0 / leaf 1 0 - / use 0 / leaf 0 1 - "
                                   "/ group 1 1 / use 1 1",
    },
    "wall": {
        "a use in place of an infinite distance":
            f"claim impossible / cases 1 0 1 / agent 0 / {LEAF} / !C8 leaf 1 0 - / use 0",
        "a group cannot be worth less than an infinite distance":
            f"claim impossible / cases 1 0 1 / agent 0 / {LEAF} / leaf 0 1 - / group 1 1 / use 0 1",
        "an infinite distance out of scope": f"cases 1 0 2 / agent 1 / !C8 {LEAF} / {LEAF}",
    },
}

# Of each split, and what it adds to the left and to the right child: constraints that are met there, and such that
# aren't.
MET = {
    "vertex 0 1 1,1 1": (
        (["not 0 1,1 1"], ["not 1 1,1 1", "not 0 1,1 2", "not 0 1,1 0", "not 0 1,0 1", "clear 0 1,1 1",
                           "not 0 0,1 1,1 0"]),
        (["not 1 1,1 1"], ["not 0 1,1 1"])),
    "swap 0 1 1,1 1,0 2": (
        (["not 0 1,1 1,0 2"], ["not 0 1,0 1,1 2", "not 0 1,0 3", "not 0 1,1 2", "not 1 1,1 1,0 2", "not 0 1,1 1,0 3"]),
        (["not 1 1,0 1,1 2"], ["not 1 1,1 1,0 2", "not 0 1,0 1,1 2"])),
    "cost 0 4": (
        (["most 0 4", "most 0 5", "clear 1 2,1 4", "clear 1 2,1 5", "clear 2 2,1 4", "not 1 2,1 4", "not 1 2,1 9"],
         ["most 0 3", "most 1 4", "clear 1 2,1 3", "clear 1 1,1 4", "clear 0 2,1 4", "not 1 2,1 3", "not 0 2,1 4",
          "not 1 1,1 2,1 4", "not 1 2,1 1,1 4", "not 0 0,0 5", "least 0 0", "least 0 5"]),
        (["least 0 5", "least 0 4", "least 0 0"],
         ["least 0 6", "least 1 5", "most 0 4", "most 0 9", "clear 1 2,1 4", "not 0 2,1 4"])),
    "cost 0 9 / cost 0 4 / leaf 0 0 -": (
        (["most 0 9", "least 0 5", "clear 1 2,1 9"], ["most 0 8", "least 0 6", "clear 1 2,1 4", "not 1 2,1 8"]),
        (["least 0 10"], ["most 0 9", "clear 1 2,1 9"])),
    "cost 0 4 / cost 0 9": (
        (["most 0 4", "clear 1 2,1 4"], ["most 0 3"]),
        (["most 0 4", "least 0 10", "least 0 7", "clear 1 2,1 4"], ["most 0 3", "clear 1 2,1 3"])),
    "cost 0 9 / leaf 0 0 - / cost 0 4": (
        (["least 0 10", "most 0 4"], ["least 0 11", "most 0 3"]),
        (["least 0 10"], ["least 0 11", "most 0 9", "clear 1 2,1 9"])),
    "vertex 0 1 1,1 1 / vertex 0 1 1,1 1 / leaf 0 0 -": (
        (["not 0 1,1 1", "not 1 1,1 1"], []),
        (["not 1 1,1 1"], ["not 0 1,1 1"])),
    "cost 1 6 / cost 1 6 / leaf 0 0 -": (
        (["most 1 6", "least 1 7", "clear 0 1,2 6"], ["most 1 5"]),
        (["least 1 7"], ["most 1 6", "clear 0 1,2 6"])),
}

# The same of `costs 0 2 1 3 1`, by lemma 1.
MET_BY_COSTS = (
    (["most 0 2", "least 1 3", "least 1 2", "clear 1 2,1 2", "clear 2 2,1 9"],
     ["most 0 1", "least 1 4", "least 0 3", "clear 1 1,2 2", "most 1 3"]),
    (["least 0 3", "least 0 2"], ["least 0 4", "least 1 3", "most 0 2", "clear 1 2,1 2"]))

# Of constraints that stand in a tree of cases.
MET_BY_CASES = {
    "clear 0 1,1 3": (["clear 0 1,1 3", "clear 0 1,1 4", "not 0 1,1 3", "not 0 1,1 7"],
                      ["clear 0 1,1 2", "not 0 1,1 2", "not 0 0,1 1,1 3", "clear 0 1,0 3"]),
    "not 0 1,1 3": (["not 0 1,1 3"], ["clear 0 1,1 3", "not 0 1,1 4"]),
    "not 0 0,1 1,1 3": (["not 0 0,1 1,1 3"], ["not 0 1,1 0,1 3", "not 0 0,1 1,1 4", "not 0 1,1 4"]),
    "most 0 3": (["most 0 3", "most 0 4"], ["most 0 2", "not 0 0,0 9"]),
    "least 0 3": (["least 0 3", "least 0 1"], ["least 0 4"]),
}


def used(constraint, is_met):
    """A leaf that uses lemma 0, and the mark of the use if the constraint of the lemma isn't met there."""
    return f"leaf 1 0 - / {'' if is_met else '!C10 '}use 0"


def lemma_of(constraint):
    """A lemma under one constraint."""
    return f"one {constraint.split(' ')[1]} 1 0 - / {constraint}"


def met_texts():
    """What a text shows, and the text."""
    for split, sides in [*MET.items(), ("costs 0 2 1 3 1", MET_BY_COSTS)]:
        lemmas = f" / {JOINT}" if split.startswith("costs") else ""
        # A split below others is the first child, so the second children of those end the text.
        more = f" / {LEAF}" * (split.count("cost ") + split.count("vertex") - split.count("leaf") - 1)
        for side, constraints in zip(("left", "right"), sides):
            for is_met, constraint in [(is_met, one) for is_met, some in zip((True, False), constraints)
                                       for one in some]:
                use = used(constraint, is_met)
                children = f"{use} / {LEAF}" if side == "left" else f"{LEAF} / {use}"
                yield (f"{constraint} at the {side} of {split}",
                       f"{lemma_of(constraint)}{lemmas} / {split} / {children}{more}")
    for standing, constraints in MET_BY_CASES.items():
        for is_met, some in zip((True, False), constraints):
            for constraint in some:
                yield (f"{constraint} by cases under {standing}",
                       f"{lemma_of(constraint)} / cases 1 1 1 / agent 0 / {standing} / {used(constraint, is_met)}"
                       f" / {LEAF}")


JUDGED_IN_TREES = {
    "of claims": CLAIMS, "of places": PLACES, "of splits": SPLITS, "of cases": CASES, "of uses": USES,
    "of leaves": LEAVES, "of what stands": {"three": dict(met_texts())},
}

# Lines that have no shape, each with numbers out of range.
SHAPES = [
    "", "prices", "prices -1", "prices 01", "prices  99999999999", "prices 99999999999 ", "lists 9 9", "list 9999",
    "list 9999 9 9", "price 9,9 9", "price 9,9 inf 9", "price 9,9 9,9 9,9 9 9", "lemmas inf", "one 9 9 9",
    "one 9 9 9 - -",
    "one 9 9 9 inf", "one 9 9 inf -", "two 9 9 9 9 9 -", "two 9 9 9 9 9 9", "never 9 9 1 -", "cases 9 9 -", "cases 9 9",
    "cells 9,9", "cells 9,9 *", "cells 9,9 9,9 9", "agent 9 9", "agent *", "not 9 9,9", "not 9 9,9 9,9 9,9 9",
    "not 9 9,9 inf", "clear 9 9,9 9,9 9", "most 9", "least 9 inf", "at 9,9 9", "at 9,9 inf 9", "at 9,9 9 -",
    "at * * 9 9", "at * 9,9", "at 9,9 * inf 9", "at *,9 9 9", "vertex 9 9 9,9", "vertex 9 9 9,9 9 0", "swap 9 9 9,9 9",
    "cost 9 9 9", "cost 9", "costs 9 9 9 9", "costs 9 9 9 9 -", "clash 9", "clash 9 9 9", "leaf 9 9", "leaf 9 9 inf",
    "leaf 9", "leaf 9 9 - -", "use", "use inf", "use 9 inf", "use 9 9999 9", "group 9", "group 9 9999 9", "end 9",
    "agents 999", "claim bound 9999999999", "claim cost 9999999999", "mapf-cert 3", "use 9999999999999" + "9" * 48,
]

AGENT, SIDE, TICK, COST, COUNT = (0, 2), (0, 2), (0, 999_999), (0, 9_999_999), (0, 9_999_999_999)
EARLY, LABEL = (0, 9_999_998), (1, 9_999_999_999)

# The shapes of lines, with the range of each number where three agents are on a grid of 3 by 3.
RANGES = {
    "prices {}": [COUNT],
    "list {} {}": [(1, 1000), COUNT],
    "price {},{} {} {}": [SIDE, SIDE, TICK, (1, 9_999_999)],
    "price {},{} {},{} {} {}": [SIDE, SIDE, SIDE, SIDE, TICK, (1, 9_999_999)],
    "lemmas {}": [COUNT],
    "one {} {} {} -": [AGENT, (0, 1000), COUNT],
    "two {} {} {} {} {} {} -": [AGENT, AGENT, (0, 1000), COUNT, COUNT, COUNT],
    "never {} {} {}": [AGENT, AGENT, (1, 9_999_999_999)],
    "cases {} {} {}": [(1, 3), (0, 1000), (1, 1_999_999_800)],
    "cells {},{} {},{}": [SIDE, SIDE, SIDE, SIDE],
    "agent {}": [AGENT],
    "not {} {},{} {}": [AGENT, SIDE, SIDE, TICK],
    "not {} {},{} {},{} {}": [AGENT, SIDE, SIDE, SIDE, SIDE, TICK],
    "clear {} {},{} {}": [AGENT, SIDE, SIDE, EARLY],
    "most {} {}": [AGENT, EARLY],
    "least {} {}": [AGENT, COST],
    "at {},{} {} {}": [SIDE, SIDE, COST, LABEL],
    "at {},{} {},{} {} {}": [SIDE, SIDE, SIDE, SIDE, COST, LABEL],
    "at * {},{} {} {}": [SIDE, SIDE, COST, LABEL],
    "at {},{} * {} {}": [SIDE, SIDE, COST, LABEL],
    "vertex {} {} {},{} {}": [AGENT, AGENT, SIDE, SIDE, TICK],
    "swap {} {} {},{} {},{} {}": [AGENT, AGENT, SIDE, SIDE, SIDE, SIDE, TICK],
    "cost {} {}": [AGENT, EARLY],
    "costs {} {} {} {} {}": [AGENT, EARLY, AGENT, COST, COUNT],
    "clash {} {}": [AGENT, AGENT],
    "leaf {} {} -": [(0, 3), (0, 3)],
    "group {} {}": [(1, 200_000), (1, 1000)],
    "use {}": [COUNT],
    "use {} {}": [COUNT, (1, 1000)],
}
