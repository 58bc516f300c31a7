"""The least sum of costs of a problem by a search through the joint states of its agents, written from the definition
of a valid plan (docs/FORMATS.md, section 2). It shares nothing with the program.
"""

import heapq
from itertools import count

from random_problems import STEPS

# What stands for an agent that stays at its goal for good.
AT_REST = None


def least_sum(problem):
    """The least sum of costs of a valid plan, None if no plan is valid."""
    goals = [goal for _, goal in problem.agents]
    distances = [distances_to(goal, set(problem.cells())) for goal in goals]
    order, waiting, seen = count(), [], set()

    def push(cost, states):
        for state in states:
            left = [distance.get(cell) for cell, distance in zip(state, distances) if cell is not AT_REST]
            if None not in left:
                heapq.heappush(waiting, (cost + sum(left), next(order), cost, state))

    push(0, joint(goals, None, [with_rest([start], goal) for start, goal in problem.agents]))
    while waiting:
        _, _, cost, state = heapq.heappop(waiting)
        moving = len(state) - state.count(AT_REST)
        if moving == 0:
            return cost
        if state not in seen:
            seen.add(state)
            choices = [steps_of(*agent) for agent in zip(state, goals, distances)]
            # Each agent that isn't at rest yet pays for this tick.
            push(cost + moving, joint(goals, places_of(state, goals), choices))
    return None


def distances_to(goal, cells):
    """How many steps it is from each cell that can reach the goal."""
    found = {goal: 0}
    for x, y in (queue := [goal]):
        for dx, dy in STEPS:
            cell = (x + dx, y + dy)
            if cell in cells and cell not in found:
                found[cell] = found[(x, y)] + 1
                queue.append(cell)
    return found


def steps_of(cell, goal, distance):
    """Where an agent may be one tick later."""
    if cell is AT_REST:
        return [AT_REST]
    x, y = cell
    return with_rest([to for to in [cell, *((x + dx, y + dy) for dx, dy in STEPS)] if to in distance], goal)


def with_rest(cells, goal):
    """The cells, and where the goal is among them also a rest there for good."""
    return [*cells, AT_REST] if goal in cells else cells


def places_of(state, goals):
    return [goal if cell is AT_REST else cell for cell, goal in zip(state, goals)]


def joint(goals, before, choices):
    """The joint states of such choices without a conflict, from the places that the agents had before, if any."""
    states = [()]
    for agent, choice in enumerate(choices):
        states = [(*state, cell) for state in states for cell in choice if fits(goals, before, state, agent, cell)]
    return states


def fits(goals, before, state, agent, cell):
    """Whether the next agent's choice conflicts with none of those of the agents before it."""
    to = goals[agent] if cell is AT_REST else cell
    for other, place in enumerate(places_of(state, goals)):
        if place == to or before and (before[other], before[agent]) == (to, place):
            return False
    return True
