"""Small problems drawn by lot on several kinds of maps: always the same ones, by their kinds and numbers."""

import random
from dataclasses import dataclass
from itertools import product

FREE, BLOCKED = ".", "@"


@dataclass(frozen=True)
class Problem:
    """The rows of a map, and the start and the goal of each agent, each a column and a row."""

    name: str
    rows: tuple[str, ...]
    agents: tuple[tuple[tuple[int, int], tuple[int, int]], ...]

    def map_text(self):
        return f"type octile\nheight {len(self.rows)}\nwidth {len(self.rows[0])}\nmap\n" + "\n".join(self.rows) + "\n"

    def scen_text(self):
        head = f"0 drawn.map {len(self.rows[0])} {len(self.rows)}"
        return "version 1\n" + "".join("%s %d %d %d %d 0\n" % (head, *start, *goal) for start, goal in self.agents)

    def cells(self):
        """The free cells."""
        return cells_of(self.rows)


def drawn(kind, number):
    """The problem of this number of a kind, which KINDS or TINY names."""
    name = f"{kind}-{number}"
    lot = random.Random(name)
    make_rows, make_ends, most = KINDS[kind]
    while True:
        rows = tuple("".join(row) for row in make_rows(lot))
        agents = make_ends(lot, rows, lot.randint(2, most))
        if agents:
            return Problem(name, rows, tuple(agents))


def empty(lot):
    width, height = lot.randint(3, 9), lot.randint(3, 9)
    return [FREE * width] * height


def obstacles(lot, shares=(5, 30)):
    width, height, share = lot.randint(4, 10), lot.randint(4, 10), lot.randint(*shares)
    return scattered(lot, width, height, share)


def scattered(lot, width, height, share):
    """A map of which so many of a hundred cells are blocked."""
    return [[BLOCKED if lot.randrange(100) < share else FREE for _ in range(width)] for _ in range(height)]


def rooms(lot):
    """Square rooms, mostly with a door between two that are side by side."""
    size, count = lot.choice([(2, 3), (3, 2), (4, 2)])
    side = (size + 1) * count - 1
    rows = [[FREE if (x + 1) % (size + 1) and (y + 1) % (size + 1) else BLOCKED for x in range(side)]
            for y in range(side)]
    for wall, room in product(range(1, count), range(count)):
        at = wall * (size + 1) - 1
        for is_upright in (True, False):
            door = room * (size + 1) + lot.randrange(size)
            if lot.randrange(10):
                x, y = (at, door) if is_upright else (door, at)
                rows[y][x] = FREE
    return rows


def maze(lot):
    """Corridors that branch, with one to six more openings, by which some of them meet again."""
    width, height = lot.choice([5, 7, 9]), lot.choice([5, 7, 9])
    rows = [[BLOCKED] * width for _ in range(height)]
    rows[0][0] = FREE
    trail = [(0, 0)]
    while trail:
        x, y = trail[-1]
        ways = [(dx, dy) for dx, dy in STEPS if is_in(rows, x + 2 * dx, y + 2 * dy)
                and rows[y + 2 * dy][x + 2 * dx] == BLOCKED]
        if not ways:
            trail.pop()
            continue
        dx, dy = lot.choice(ways)
        rows[y + dy][x + dx] = rows[y + 2 * dy][x + 2 * dx] = FREE
        trail.append((x + 2 * dx, y + 2 * dy))
    walls = [(x, y) for x, y in product(range(width), range(height)) if rows[y][x] == BLOCKED]
    for x, y in lot.sample(walls, lot.randint(1, 6)):
        rows[y][x] = FREE
    return rows


def corridor(lot):
    """A corridor of one cell's width, straight or round, with one to four bays."""
    width, height = lot.randint(4, 10), lot.choice([3, 3, 4, 5, 6])
    rows = [[BLOCKED] * (width + 2) for _ in range(height + 2)]
    for x in range(1, width + 1):
        rows[1][x] = FREE
        if height > 3:
            rows[height][x] = FREE
    for y in range(1, height + 1 if height > 3 else 1):
        rows[y][1] = rows[y][width] = FREE
    sides = [(x, y) for x, y in product(range(width + 2), range(height + 2)) if rows[y][x] == BLOCKED
             and any(is_in(rows, x + dx, y + dy) and rows[y + dy][x + dx] == FREE for dx, dy in STEPS)]
    for x, y in lot.sample(sides, lot.randint(1, 4)):
        rows[y][x] = FREE
    return rows


def warehouse(lot):
    """Shelves of one or two rows, apart by aisles of one cell's width."""
    width, height = lot.randint(6, 10), lot.randint(5, 10)
    length, depth = lot.randint(2, 4), lot.randint(1, 2)
    return [[FREE if x % (length + 1) == 0 or y % (depth + 1) == 0 else BLOCKED for x in range(width)]
            for y in range(height)]


def any_map(lot):
    return lot.choice([empty, obstacles, rooms, maze, corridor, warehouse])(lot)


def parts(lot):
    """So many obstacles that the free cells fall into parts."""
    return obstacles(lot, (35, 55))


def tiny(lot):
    """A map of at most nine free cells."""
    while True:
        width, height = lot.choice([(3, 3), (3, 3), (4, 2), (4, 3), (5, 2), (5, 3), (4, 4), (9, 1)])
        rows = scattered(lot, width, height, lot.choice([0, 10, 20, 30, 40, 50]))
        if len(cells_of(rows)) <= 9:
            return rows


STEPS = ((0, -1), (-1, 0), (1, 0), (0, 1))


def is_in(rows, x, y):
    return 0 <= y < len(rows) and 0 <= x < len(rows[0])


def cells_of(rows):
    return [(x, y) for y, row in enumerate(rows) for x, sign in enumerate(row) if sign == FREE]


def part_of(rows, cell):
    """The cells that can be reached from a cell, in the order in which they are met."""
    met = {cell: None}
    for x, y in (queue := [cell]):
        for dx, dy in STEPS:
            to = (x + dx, y + dy)
            if is_in(rows, *to) and rows[to[1]][to[0]] == FREE and to not in met:
                met[to] = None
                queue.append(to)
    return list(met)


def ends_in_one_part(lot, rows, count):
    """Different starts and different goals, all in one part of the map. None if that is too small."""
    cells = cells_of(rows)
    part = part_of(rows, lot.choice(cells)) if cells else []
    return ends_among(lot, part, count)


def ends_anywhere(lot, rows, count):
    """Different starts and different goals in any parts."""
    return ends_among(lot, cells_of(rows), count)


def ends_among(lot, cells, count):
    if len(cells) < count:
        return None
    return list(zip(lot.sample(cells, count), lot.sample(cells, count)))


def ends_without_plan(lot, rows, count):
    """Ends that leave no plan: two agents share a start, or a goal, or a goal can't be reached."""
    ends = ends_in_one_part(lot, rows, count)
    if not ends:
        return None
    first, second = lot.sample(range(count), 2)
    (start, goal), (other_start, other_goal) = ends[first], ends[second]
    apart = sorted(set(cells_of(rows)) - set(part_of(rows, start)))
    changed = [(other_start, goal), (start, other_goal)] + [(start, cell) for cell in apart[:1]]
    ends[first] = lot.choice(changed)
    return ends


def ends_of_all_sorts(lot, rows, count):
    """Mostly ends in one part; some leave no plan."""
    return lot.choice([ends_in_one_part] * 8 + [ends_anywhere, ends_without_plan])(lot, rows, count)


# Of each kind how its map and its agents' starts and goals are drawn, and how many agents it has at most.
KINDS = {
    "empty": (empty, ends_in_one_part, 7),
    "obstacles": (obstacles, ends_in_one_part, 7),
    "rooms": (rooms, ends_in_one_part, 6),
    "maze": (maze, ends_in_one_part, 3),
    "corridor": (corridor, ends_in_one_part, 3),
    "warehouse": (warehouse, ends_in_one_part, 6),
    "parts": (parts, ends_anywhere, 5),
    "unsolvable": (any_map, ends_without_plan, 5),
    "tiny": (tiny, ends_of_all_sorts, 3),
}
