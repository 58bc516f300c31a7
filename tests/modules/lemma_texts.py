"""Certificates of version 3 by the rule that decides each, written by hand. lemma_vectors makes vectors of them.

PROBLEMS has maps with the starts and goals of agents. JUDGED_ALONE has for each kind of rule, and each problem, what a
text shows, and what follows its claim up to the last tree, with ` / ` between lines. The lines `prices N`, `lemmas N`
and `end` are left out where they tell nothing. A text may begin with its claim, else it is `claim bound 0`. Before the
line for which it is refused stands `!` and why. So a text without `!` is accepted.
"""

# The rows of the map, and of each agent its start and goal.
PROBLEMS = {
    "crossing": ("...|...|...", "0,1 2,1", "1,0 1,2"),
    "three": ("...|...|...", "0,1 2,1", "1,0 1,2", "0,0 0,0"),
    "exchange": ("..", "0,0 1,0", "1,0 0,0"),
    "corridor": ("...", "0,0 2,0", "2,0 0,0"),
    "behind": ("...", "0,0 1,0", "2,0 0,0"),
    "row": ("....", "0,0 2,0", "3,0 1,0"),
    "wall": (".@.|.@.", "0,0 2,0", "0,1 0,0"),
    "one goal": ("...", "0,0 1,0", "2,0 1,0"),
    "exchange beside blocked cells": ("..@@", "0,0 1,0", "1,0 0,0"),
}

PLAIN = " / leaf 0 0 -"

# Labels of one agent. In the crossing agent 0 is 2 steps from its goal, and both shortest ways begin through 1,1.
ENTRIES = {
    "crossing": {
        "no entries": "one 0 0 0 -",
        "a label of the distance": "one 0 1 1 - / not 0 1,1 1 / !C7 at 0,1 0 2",
        "a vertex constraint raises a label": "one 0 1 1 - / not 0 1,1 1 / at 0,1 0 3",
        "a label too high after a wait": "one 0 1 1 - / not 0 1,1 1 / !C7 at 0,1 0 4",
        "a label too high after a move": "one 0 0 1 - / !C7 at 0,1 0 3",
        "a vertex constraint at another tick": "one 0 1 1 - / not 0 1,1 2 / !C7 at 0,1 0 3",
        "an edge constraint raises a label": "one 0 1 1 - / not 0 0,1 1,1 0 / at 0,1 0 3",
        "an edge constraint in the other direction": "one 0 1 1 - / not 0 1,1 0,1 0 / !C7 at 0,1 0 3",
        "an edge constraint at another tick": "one 0 1 1 - / not 0 0,1 1,1 1 / !C7 at 0,1 0 3",
        "labels at several ticks": "one 0 2 2 - / not 0 1,1 2 / not 0 1,1 1 / at 0,1 0 4 / at 0,1 1 3",
        "a label too high above a raised one": "one 0 2 2 - / not 0 1,1 2 / not 0 1,1 1 / !C7 at 0,1 0 5 / at 0,1 1 3",
        "clear raises a label": "one 0 1 1 - / clear 0 1,1 1 / at 0,1 0 3",
        "clear from an earlier tick on": "one 0 1 2 - / clear 0 1,1 0 / at 0,1 0 3 / at 0,1 7 3",
        "clear from a later tick on": "one 0 1 1 - / clear 0 1,1 2 / !C7 at 0,1 0 3",
        "the earliest clear counts": "one 0 2 1 - / clear 0 1,1 0 / clear 0 1,1 9 / at 0,1 0 3",
        "any label at a forbidden state": "one 0 1 1 - / not 0 0,1 0 / at 0,1 0 inf",
        "any label at a cleared state": "one 0 1 1 - / clear 0 0,1 3 / at 0,1 4 9999999999",
        "a label before clear": "one 0 1 1 - / clear 0 0,1 3 / !C7 at 0,1 2 9",
        "most bars a state from which the agent is late": "one 0 1 1 - / most 0 1 / at 0,1 0 inf",
        "most allows the cost": "one 0 1 1 - / most 0 2 / !C7 at 0,1 0 inf",
        "most bars the goal later": "one 0 1 1 - / most 0 2 / at 2,1 3 1",
        "most doesn't bar the goal at its tick": "one 0 1 1 - / most 0 2 / !C7 at 2,1 2 1",
        "most bars steps": "one 0 2 1 - / most 0 2 / not 0 1,1 1 / at 0,1 0 inf",
        "the least most counts": "one 0 2 1 - / most 0 1 / most 0 5 / at 0,1 0 inf",
        "least raises the default": "one 0 1 1 - / least 0 5 / !C7 at 0,1 0 5",
        "least falls with the tick": "one 0 2 1 - / least 0 5 / not 0 2,1 5 / at 2,1 4 2",
        "the greatest least counts": "one 0 3 1 - / least 0 5 / least 0 1 / not 0 2,1 5 / !C7 at 2,1 4 1",
        "a raised label at the goal": "one 0 0 1 - / !C7 at 2,1 0 1",
        "a later constraint forbids rest": "one 0 1 1 - / not 0 2,1 5 / at 2,1 4 1",
        "a constraint of the tick forbids rest": "one 0 1 1 - / not 0 2,1 5 / at 2,1 5 1",
        "an earlier constraint forbids no rest": "one 0 1 1 - / not 0 2,1 5 / !C7 at 2,1 6 1",
        "an edge constraint forbids no rest": "one 0 2 1 - / not 0 2,1 1,1 5 / not 0 1,1 2,1 5 / !C7 at 2,1 4 1",
        "the last of several constraints on the goal": "one 0 2 1 - / not 0 2,1 5 / not 0 2,1 2 / at 2,1 4 1",
        "clear forbids rest before its tick": "one 0 1 1 - / clear 0 2,1 9 / at 2,1 0 1",
        "clear of another cell forbids no rest": "one 0 1 1 - / clear 0 1,1 9 / !C7 at 2,1 0 1",
        "entries of a tick by rows": "one 0 2 2 - / not 0 2,0 3 / not 0 0,1 3 / at 2,0 3 inf / at 0,1 3 inf",
        "entries of a tick whose rows fall":
            "one 0 2 2 - / not 0 2,0 3 / not 0 0,1 3 / at 0,1 3 inf / !K1 at 2,0 3 inf",
        "constraints twice": "one 0 2 1 - / not 0 1,1 1 / not 0 1,1 1 / at 0,1 0 3",
        "entries of both agents, of the second a wrong one":
            "two 0 1 2 1 1 0 - / not 0 1,1 1 / not 1 1,1 1 / at 0,1 0 3 / !C7 at 1,0 0 4",
        "a constraint of the other agent": "two 0 1 1 1 0 0 - / not 1 1,1 1 / !C7 at 0,1 0 3",
    },
    "exchange": {
        "least forbids rest": "list 1 1 / price 1,0 1 3 / one 0 2 1 0 / least 0 5 / not 0 0,0 1 / at 1,0 0 8",
        "least doesn't forbid rest at its tick": "one 0 1 1 - / least 0 5 / !C7 at 1,0 5 1",
    },
    "wall": {
        "a blocked cell": "one 0 0 1 - / !C7 at 1,0 0 inf",
        "a cell from which the goal can't be reached": "one 0 0 1 - / !C7 at 0,0 0 inf",
        "such a cell, forbidden": "one 0 1 1 - / not 0 0,0 0 / !C7 at 0,0 0 inf",
    },
}

PRICES = {
    "crossing": {
        "no prices": "list 1000 0",
        "a price of a cell raises a label": "list 1 1 / price 1,1 1 1 / one 0 0 1 0 / at 0,1 0 3",
        "a price of another tick": "list 1 1 / price 1,1 0 1 / one 0 0 1 0 / !C7 at 0,1 0 3",
        "the prices of another list":
            "list 1 1 / price 1,1 1 1 / list 1 0 / one 0 0 1 1 / !C7 at 0,1 0 3",
        "the prices of no list": "list 1 1 / price 1,1 1 1 / one 0 0 1 - / !C7 at 0,1 0 3",
        "a price of an edge raises a label": "list 1 1 / price 0,1 1,1 0 1 / one 0 0 1 0 / at 0,1 0 3",
        "a price of an edge at another tick": "list 1 1 / price 0,1 1,1 1 1 / one 0 0 1 0 / !C7 at 0,1 0 3",
        "prices of an edge and its cell":
            "list 1 4 / price 0,0 0,1 0 9 / price 0,1 1,1 0 1 / price 0,1 1 1 / price 1,1 1 1 "
            "/ one 0 0 1 0 / at 0,1 0 4",
        "a unit": "list 2 0 / one 0 1 1 0 / not 0 1,1 1 / at 0,1 0 6",
        "a label of the default with its unit": "list 2 0 / one 0 1 1 0 / not 0 1,1 1 / !C7 at 0,1 0 4",
        "a label too high with its unit": "list 2 0 / one 0 1 1 0 / not 0 1,1 1 / !C7 at 0,1 0 7",
        "a unit times least": "list 2 0 / one 0 2 1 0 / least 0 5 / not 0 2,1 5 / !C7 at 2,1 4 2",
        "rest costs its prices": "list 1 1 / price 2,1 2 3 / one 0 0 1 0 / at 2,1 1 2",
        "rest costs less than moves": "list 1 1 / price 2,1 1 1 / one 0 0 1 0 / !C7 at 2,1 0 2",
        "rest costs all later prices":
            "list 1 3 / price 2,1 1 1 / price 2,1 3 1 / price 2,1 9 1 / one 0 0 2 0 / at 2,1 0 2 / !C7 at 2,1 8 2",
        "rest costs no price of its own tick": "list 1 1 / price 2,1 3 9 / one 0 0 1 0 / !C7 at 2,1 3 1",
        "a price of a blocked cell's edge isn't one of a wait":
            "list 1 1 / price 0,1 1,1 0 5 / one 0 1 1 0 / not 0 1,1 1 / !C7 at 0,1 0 4",
        "the cells of an edge aren't adjacent": "list 1 2 / price 0,0 0 1 / !C10 price 0,0 1,1 0 1",
        "prices by tick, then cells before edges, then by number":
            "list 1 6 / price 2,0 0 1 / price 0,1 0 1 / price 0,0 1,0 0 1 / price 0,0 0,1 0 1 / price 1,0 2,0 0 1 "
            "/ price 0,0 1 1",
        "ticks of prices fall": "list 1 2 / price 0,0 1 1 / !K1 price 0,1 0 1",
        "a cell's price after an edge's": "list 1 2 / price 0,0 1,0 1 1 / !K1 price 0,1 1 1",
        "cells of prices fall": "list 1 2 / price 0,1 1 1 / !K1 price 2,0 1 1",
        "a price twice": "list 1 2 / price 0,1 1 1 / !K1 price 0,1 1 2",
        "first cells of edges fall": "list 1 2 / price 1,0 2,0 1 1 / !K1 price 0,0 0,1 1 1",
        "second cells of edges fall": "list 1 2 / price 0,0 0,1 1 1 / !K1 price 0,0 1,0 1 1",
        "the cells of an edge fall": "list 1 1 / !K1 price 1,1 0,1 0 1",
        "the cells of an edge are one": "list 1 1 / !K1 price 1,1 1,1 0 1",
        "a list is read before it is judged": "list 1 2 / price 0,0 2,2 0 1 / !K1 price 0,0 0 1",
        "prices of the next list begin anew": "list 1 1 / price 0,1 1 1 / list 1 1 / price 0,0 0 1",
    },
    "row": {
        "a price of an edge in the other direction": "list 1 1 / price 2,0 3,0 0 1 / one 1 0 1 0 / at 3,0 0 3",
    },
    "wall": {
        "a price of a blocked cell": "list 1 1 / !C10 price 1,0 0 1",
        "a price of an edge into a blocked cell": "list 1 1 / !C10 price 0,0 1,0 0 1",
    },
}

# Joint labels. In the row neither agent can pass the other.
JOINT_ENTRIES = {
    "crossing": {
        "both can't go through one cell": "two 0 1 0 0 0 1 - / at 0,1 1,0 0 5",
        "a joint label too high": "two 0 1 0 0 0 1 - / !C7 at 0,1 1,0 0 6",
        "a joint label less than the distances": "two 0 1 0 0 0 1 - / at 0,1 1,0 0 1",
        "the agents in the other order": "two 1 0 0 0 0 1 - / at 1,0 0,1 0 5",
        "one cell": "two 0 1 0 0 0 1 - / at 1,1 1,1 3 inf",
        "barred for the first": "two 0 1 1 0 0 1 - / not 0 0,1 0 / at 0,1 1,0 0 inf",
        "barred for the second": "two 0 1 1 0 0 1 - / not 1 1,0 0 / at 0,1 1,0 0 inf",
        "late for the second": "two 0 1 1 0 0 1 - / most 1 1 / at 0,1 1,0 0 inf",
        "barred for the other agent's constraint": "two 0 1 1 0 0 1 - / not 1 0,1 0 / !C7 at 0,1 1,0 0 inf",
        "both may rest": "two 0 1 0 0 0 1 - / !C7 at 2,1 1,2 0 1",
        "the first may rest": "two 0 1 0 0 0 1 - / !C7 at 2,1 1,0 0 3",
        "the first may rest, and the rest is as much": "two 0 1 0 0 0 1 - / at 2,1 1,0 0 2",
        "the first may not rest": "two 0 1 1 0 0 1 - / not 0 2,1 9 / at 2,1 1,0 0 3",
        "the second may rest": "two 0 1 0 0 0 1 - / !C7 at 0,1 1,2 0 3",
        "the second may not rest": "two 0 1 1 0 0 1 - / clear 1 1,2 9 / at 0,1 1,2 0 3",
        "constraints on steps": "two 0 1 2 0 0 1 - / not 0 0,1 1,1 0 / not 1 1,1 1 / at 0,1 1,0 0 6",
        "labels of single agents": "two 0 1 2 1 0 1 - / not 0 1,1 1 / not 0 1,1 2 / at 0,1 1 3 / at 0,1 1,0 0 6",
        "labels of single agents, too high": "two 0 1 2 1 0 1 - / not 0 1,1 1 / not 0 1,1 2 / at 0,1 1 3 "
                                             "/ !C7 at 0,1 1,0 0 7",
        "units and prices": "list 2 1 / price 1,1 1 1 / two 0 1 0 0 0 1 0 / at 0,1 1,0 0 11",
        "units and prices, too high": "list 2 1 / price 1,1 1 1 / two 0 1 0 0 0 1 0 / !C7 at 0,1 1,0 0 12",
        "prices of edges": "list 1 2 / price 1,0 1,1 0 1 / price 0,1 1,1 0 1 / two 0 1 0 0 0 1 0 / at 0,1 1,0 0 6",
        "the price of one edge": "list 1 1 / price 0,1 1,1 0 1 / two 0 1 0 0 0 1 0 / !C7 at 0,1 1,0 0 6",
        "prices of rest": "list 1 1 / price 2,1 9 1 / two 0 1 0 0 0 1 0 / at 2,1 1,0 0 3",
        "prices of rest, too high": "list 1 1 / price 2,1 9 1 / two 0 1 0 0 0 1 0 / !C7 at 2,1 1,0 0 4",
        "entries by tick, then arrivals of the first before those of the second":
            "two 0 1 0 0 0 6 - / at 0,1 1,0 0 1 / at 0,1 2,0 0 1 / at 1,1 0,0 0 1 / at * 2,0 0 1 / at 0,1 * 0 1 "
            "/ at 0,0 0,1 1 1",
        "an arrival before a joint entry": "two 0 1 0 0 0 2 - / at * 2,0 0 1 / !K1 at 0,1 1,0 0 1",
        "an arrival of the second before one of the first": "two 0 1 0 0 0 2 - / at 2,0 * 0 1 / !K1 at * 2,0 0 1",
        "first cells fall": "two 0 1 0 0 0 2 - / at 0,1 1,0 0 1 / !K1 at 2,0 0,0 0 1",
        "second cells fall": "two 0 1 0 0 0 2 - / at 0,1 1,0 0 1 / !K1 at 0,1 0,0 0 1",
        "an entry twice": "two 0 1 0 0 0 2 - / at * 1,0 0 1 / !K1 at * 1,0 0 2",
        "ticks fall": "two 0 1 0 0 0 2 - / at 0,1 1,0 1 1 / !K1 at 1,1 1,0 0 1",
        "entries of the second agent begin anew": "two 0 1 2 1 1 0 - / not 0 1,1 1 / not 1 1,1 1 / at 0,1 0 3 "
                                                  "/ at 1,0 0 3",
        "entries of an agent fall": "two 0 1 2 0 2 0 - / not 1 1,1 1 / not 1 1,0 2 / at 1,0 2 4 / !K1 at 1,0 0 3",
        "a joint entry in place of one": "two 0 1 0 1 0 0 - / !K1 at 0,1 1,0 0 5",
        "an entry in place of a joint one": "two 0 1 0 0 0 1 - / !K1 at 0,1 0 5",
        "entries of single agents are judged before joint ones":
            "two 0 1 1 0 1 1 - / not 1 1,1 1 / !C7 at 1,0 0 4 / at 0,1 1,0 0 9",
        "the two are one agent": "!C10 two 0 0 0 0 0 1 - / at 0,1 0,1 0 inf",
        "the two are one agent, and a constraint is wrong": "!C10 two 0 0 1 0 0 0 - / not 0 0,0 1,1 0",
    },
    "exchange": {
        "neither can move": "two 0 1 0 0 0 2 - / at 0,0 1,0 0 6 / at 0,0 1,0 1 4",
        "neither can move, too high": "two 0 1 0 0 0 2 - / !C7 at 0,0 1,0 0 7 / at 0,0 1,0 1 4",
    },
    "row": {
        "the first is in the way": "two 0 1 0 0 0 1 - / at * 3,0 0 3",
        "the first is in the way, too high": "two 0 1 0 0 0 1 - / !C7 at * 3,0 0 4",
        "the second is in the way": "two 0 1 0 0 0 1 - / at 0,0 * 0 3",
        "the second is in the way, too high": "two 0 1 0 0 0 1 - / !C7 at 0,0 * 0 4",
        "beside the first at its goal": "two 0 1 0 0 0 1 - / at * 2,0 5 inf",
        "beside the second at its goal": "two 0 1 0 0 0 1 - / at 1,0 * 5 inf",
        "the second is barred": "two 0 1 1 0 0 1 - / not 1 3,0 4 / at * 3,0 4 inf",
        "the first is barred": "two 0 1 1 0 0 1 - / not 0 0,0 4 / at 0,0 * 4 inf",
        "the one that has arrived is barred": "two 0 1 1 0 0 1 - / not 0 2,0 4 / !C7 at * 3,0 4 inf",
        "the second may rest too": "two 0 1 0 0 0 1 - / !C7 at * 1,0 0 1",
        "the second may not rest": "two 0 1 1 0 0 1 - / not 1 1,0 4 / at * 1,0 0 1",
        "the first may rest too": "two 0 1 0 0 0 1 - / !C7 at 2,0 * 0 1",
        "the first may not rest": "two 0 1 1 0 0 1 - / clear 0 2,0 4 / at 2,0 * 0 1",
        "steps that a constraint forbids": "two 0 1 1 0 0 1 - / not 1 3,0 1 / at * 3,0 0 inf",
        "the rest of the first leads to a raised label": "two 0 1 0 0 0 2 - / at 2,0 3,0 0 3 / at * 3,0 0 3",
        "the rest of the first leads to a label at another tick":
            "two 0 1 0 0 0 2 - / !C7 at 2,0 3,0 0 3 / at * 3,0 1 3",
        "the rest of the second leads to a raised label": "two 0 1 0 0 0 2 - / at 0,0 1,0 0 3 / at 0,0 * 0 3",
        "the rest of the second doesn't": "two 0 1 0 0 0 2 - / !C7 at 0,0 1,0 0 3 / at * 3,0 0 3",
        "labels at several ticks": "two 0 1 0 0 0 2 - / at * 3,0 0 4 / at * 3,0 1 3",
        "labels of the second at several ticks": "two 0 1 0 0 0 2 - / at 0,0 * 0 4 / at 0,0 * 1 3",
        "a price on the way": "list 3 1 / price 3,0 1 4 / two 0 1 0 0 0 1 0 / at * 3,0 0 13",
        "a price on the way, too high": "list 3 1 / price 3,0 1 4 / two 0 1 0 0 0 1 0 / !C7 at * 3,0 0 14",
        "a price of the one that has arrived": "list 3 1 / price 2,0 1 4 / two 0 1 0 0 0 1 0 / !C7 at * 3,0 0 13",
        "a price of rest": "list 1 1 / price 1,0 9 2 / two 0 1 0 0 0 1 0 / at * 1,0 0 1",
        "a price of an edge": "list 1 1 / price 0,0 1,0 0 1 / two 1 0 0 0 0 1 0 / at 2,0 0,0 0 3",
    },
    "wall": {
        "a blocked cell": "two 0 1 0 0 0 1 - / !C7 at 1,0 0,1 0 inf",
        "a blocked cell twice": "two 0 1 0 0 0 1 - / !C7 at 1,0 1,0 0 inf",
        "a blocked cell beside an arrival": "two 0 1 0 0 0 1 - / !C7 at * 1,0 0 inf",
        "a blocked cell before an arrival": "two 0 1 0 0 0 1 - / !C7 at 1,0 * 0 inf",
        "a goal out of reach": "two 0 1 0 0 0 1 - / at 0,0 0,1 0 inf",
        "most at a goal out of reach": "two 0 1 1 0 0 1 - / most 0 9 / at 0,0 0,1 0 inf",
        "most bars where the goal is out of reach":
            "two 0 1 1 0 0 2 - / most 0 9 / at 0,0 0,1 0 inf / at 0,0 0,1 1 7",
        "a number after inf": "two 0 1 0 0 0 2 - / !C7 at 0,0 0,1 0 inf / at 0,0 0,1 1 7",
        "a number at a goal out of reach": "two 0 1 0 0 0 1 - / at 0,0 0,1 0 7",
    },
}

NEVER = {
    "exchange": {
        "two agents can't pass": "never 0 1 1 / cells 0,0 1,0",
        "one agent": "!C10 never 0 0 1 / cells 0,0 0,0",
        "the goals": "never 0 1 2 / cells 0,0 1,0 / !C7 cells 1,0 0,0",
        "the starts are missing": "!C7 never 0 1 1 / cells 1,0 0,0",
        "the starts of the agents in the other order": "!C7 never 1 0 1 / cells 0,0 1,0",
        "the starts are told before lines": "!C7 never 0 1 1 / cells 0,0 0,0",
        "no lines": "!K3 never 0 1 0",
    },
    "corridor": {
        "all joint cells": "never 0 1 3 / cells 0,0 1,0 / cells 0,0 2,0 / cells 1,0 2,0",
        "a step of the second leads out": "never 0 1 2 / !C7 cells 0,0 2,0 / cells 1,0 2,0",
        "a step of both leads out": "never 0 1 2 / !C7 cells 0,0 1,0 / cells 0,0 2,0",
        "lines fall": "never 0 1 3 / cells 0,0 1,0 / cells 1,0 2,0 / !K1 cells 0,0 2,0",
        "second cells fall": "never 0 1 3 / cells 0,0 2,0 / !K1 cells 0,0 1,0 / cells 1,0 2,0",
        "a line twice": "never 0 1 2 / cells 0,0 1,0 / !K1 cells 0,0 1,0",
        "lines are read before they are judged": "never 0 1 3 / cells 0,0 0,0 / !K1 agent 0",
    },
    "behind": {
        "one of the two at its goal": "never 0 1 3 / cells 0,0 1,0 / cells 0,0 2,0 / cells 1,0 2,0",
    },
    "exchange beside blocked cells": {
        "a blocked cell of the first": "never 0 1 2 / cells 0,0 1,0 / !C7 cells 3,0 0,0",
        "a blocked cell of the second": "never 0 1 2 / cells 0,0 1,0 / !C7 cells 0,0 3,0",
    },
    "wall": {
        "a goal out of reach": "never 0 1 2 / cells 0,0 0,1 / cells 0,1 0,0",
        "equal cells": "never 0 1 3 / !C7 cells 0,0 0,0 / cells 0,0 0,1 / cells 0,1 0,0",
    },
}

CONSTRAINTS = {
    "crossing": {
        "constraints of both agents": "two 0 1 5 0 0 0 - / not 1 1,1 1 / not 0 1,1 1 / clear 1 0,0 0 / most 0 9 "
                                      "/ least 1 0",
        "an edge of cells that aren't adjacent": "one 0 2 0 - / most 0 3 / !C10 not 0 0,0 1,1 0",
        "an edge of one cell": "one 0 1 0 - / !C10 not 0 0,0 0,0 0",
        "an edge in either direction": "one 0 2 0 - / not 0 1,0 0,0 0 / not 0 0,0 1,0 0",
        "another agent": "one 0 1 0 - / !K1 not 1 1,1 1",
        "another agent by cases": "cases 1 1 1 / agent 0 / !K1 most 1 3",
        "an agent that isn't there": "one 0 1 0 - / !K3 not 2 1,1 1",
        "a constraint in place of an entry": "one 0 1 1 - / not 0 1,1 1 / !K1 not 0 1,1 2",
        "an entry in place of a constraint": "one 0 1 1 - / !K1 at 0,1 0 3",
        "labels are read before constraints are judged": "one 0 1 1 - / not 0 0,0 1,1 0 / !K1 leaf 0 0 -",
        "constraints are judged before labels": "one 0 1 1 - / !C10 not 0 0,0 1,1 0 / at 0,1 0 2",
        "of cases": "cases 1 2 2 / agent 0 / not 0 1,1 1 / !C10 not 0 0,0 1,1 0 / leaf 9 9 -",
    },
    "wall": {
        "a blocked cell": "one 0 1 0 - / !C10 not 0 1,0 3",
        "an edge from a blocked cell": "one 0 1 0 - / !C10 not 0 1,0 0,0 3",
        "an edge into a blocked cell": "one 0 1 0 - / !C10 not 0 0,0 1,0 3",
        "clear of a blocked cell": "one 0 1 0 - / !C10 clear 0 1,0 3",
        "cells that no path reaches": "one 0 2 0 - / not 0 2,1 3 / clear 0 2,1 3",
    },
}

JUDGED_ALONE = {
    "of entries": ENTRIES, "of prices": PRICES, "of joint entries": JOINT_ENTRIES, "of joint cells": NEVER,
    "of constraints": CONSTRAINTS,
}
