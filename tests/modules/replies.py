"""What agents are told that follow a plan, by the rules of docs/FORMATS.md, section 7, stated here once more."""

import re

# The bytes that a request may have, without its LF.
LONGEST_REQUEST = 64


class Followers:
    """Agents that follow paths. Each is in the first of the visits that are kept of it."""

    def __init__(self, paths):
        self.visits = [[(tick, cell) for tick, cell in enumerate(path) if tick == 0 or cell != path[tick - 1]]
                       for path in paths]

    def awaited(self, agent):
        """The agents that enter the next cell earlier in the plan and haven't left it; none where there is no next."""
        if len(self.visits[agent]) == 1:
            return []
        entry, cell = self.visits[agent][1]
        return [other for other, left in enumerate(self.visits)
                if any(at == cell and tick < entry for tick, at in left)]

    def reply(self, agent):
        """The line that an agent gets which asks: it goes into the next cell of its path once all others have left it
        that enter it earlier in the plan, else it is held by the least of these."""
        if len(self.visits[agent]) == 1:
            return f"done {agent}\n"
        if awaited := self.awaited(agent):
            return f"hold {agent} by {awaited[0]}\n"
        del self.visits[agent][0]
        return "go %d %d,%d\n" % (agent, *self.visits[agent][0][1])

    def in_cycles(self):
        """The agents in a cycle of agents each of which is held by the next."""
        held = {agent: awaited[0] for agent in range(len(self.visits)) if (awaited := self.awaited(agent))}
        return [agent for agent in held if agent in chain(held, agent)]

    def answer(self, number, line):
        """What `follow` answers to the line of this number, which isn't `end`."""
        if line == b"status":
            return "".join(["cycle", *(f" {agent}" for agent in self.in_cycles()), "\n"]).encode()
        if len(line) > LONGEST_REQUEST or not re.fullmatch(rb"0|[1-9][0-9]*", line):
            return b"error E1 %d\n" % number
        return self.reply(int(line)).encode() if int(line) < len(self.visits) else b"error E3 %d\n" % number


def chain(held, agent):
    """The agents after this one, each of which holds the one before, up to one that is held by nobody or is there."""
    found = []
    while agent in held and held[agent] not in found:
        agent = held[agent]
        found.append(agent)
    return found


def drawn_lines(numbers, agents, count):
    """Lines drawn by lot: mostly agents that ask, also `status`, agents that aren't there, and no requests."""
    others = [b"status", b"%d" % agents, b"9" * LONGEST_REQUEST, b"9" * (LONGEST_REQUEST + 1), b"", b"00", b"End"]
    return [b"%d" % numbers.randrange(agents) if numbers.random() < 0.9 else numbers.choice(others)
            for _ in range(count)]
