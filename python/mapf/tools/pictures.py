"""Pictures of a plan: one of a tick, and a film of all ticks. Each agent is a disc with its number, its goal a ring of
the same colour, and its path a line. What is wrong at a tick has a red square around each of its cells.
"""

from collections.abc import Iterable, Iterator, Sequence
from math import isqrt

from .colours import colours
from .image_files import Colour, Image, gif, png
from .plans import Agent, Cell, Fault, Grid

# The colours before those of the agents, by their numbers. No pixel has that of KEPT: it stands for what stays as it
# was.
FREE, BLOCKED, RULE, DARK, LIGHT, WRONG, KEPT = range(7)
GROUND: list[Colour] = [(255, 255, 255), (86, 90, 97), (226, 228, 232), (20, 20, 20), (255, 255, 255), (214, 0, 28),
                        (0, 0, 0)]

# A side of a picture has about so many pixels, and a cell at most so many.
SIDE, GREATEST_CELL = 960, 48

# From so many pixels on a cell has rules at its right and below.
LEAST_RULED = 8

# How long a film shows a tick, and the last one, in hundredths of a second.
DELAY, LAST_DELAY = 25, 150

# The digits, each as the rows of 3 pixels that it has, from the top on.
DIGITS = [(7, 5, 5, 5, 7), (2, 6, 2, 2, 7), (7, 1, 7, 4, 7), (7, 1, 7, 1, 7), (5, 5, 7, 1, 1), (7, 4, 7, 1, 7),
          (7, 4, 7, 5, 7), (7, 1, 1, 1, 1), (7, 5, 7, 5, 7), (7, 5, 7, 1, 7)]


class Canvas:
    """An image of a map on which cells are drawn, each a square of so many pixels. What is outside is left out."""

    def __init__(self, image: Image, cell: int) -> None:
        self.image = image
        self.cell = cell

    def copy(self) -> "Canvas":
        """The same once more."""
        return Canvas(Image(self.image.width, self.image.height, self.image.pixels[:]), self.cell)

    def fill(self, left: int, top: int, right: int, bottom: int, colour: int) -> None:
        """Fills a rectangle, of which the right and the bottom don't belong to it."""
        left, right = max(left, 0), min(right, self.image.width)
        for y in range(max(top, 0), min(bottom, self.image.height)):
            if left < right:
                begin = y * self.image.width
                self.image.pixels[begin + left:begin + right] = bytes([colour]) * (right - left)

    def middle(self, cell: Cell) -> tuple[int, int]:
        """The pixel in the middle of a cell."""
        return cell[0] * self.cell + self.cell // 2, cell[1] * self.cell + self.cell // 2

    def disc(self, cell: Cell, radius: int, colour: int) -> None:
        """Draws a disc in a cell."""
        x, y = self.middle(cell)
        for down in range(-radius, radius + 1):
            half = isqrt(radius * radius + radius - down * down) if radius else 0
            self.fill(x - half, y + down, x + half + 1, y + down + 1, colour)

    def square(self, cell: Cell, thickness: int, colour: int) -> None:
        """Draws a square just inside a cell."""
        left, top = cell[0] * self.cell, cell[1] * self.cell
        right, bottom = left + self.cell, top + self.cell
        for edge in ((left, top, right, top + thickness), (left, bottom - thickness, right, bottom),
                     (left, top, left + thickness, bottom), (right - thickness, top, right, bottom)):
            self.fill(*edge, colour)

    def step(self, here: Cell, there: Cell, thickness: int, colour: int) -> None:
        """Draws a line from the middle of a cell to that of one beside it."""
        (x, y), (to_x, to_y) = self.middle(min(here, there)), self.middle(max(here, there))
        before = thickness // 2
        self.fill(x - before, y - before, to_x - before + thickness, to_y - before + thickness, colour)

    def number(self, cell: Cell, number: int, room: int, colour: int) -> None:
        """Writes a number into the middle of a cell, where it has room."""
        digits = [DIGITS[int(digit)] for digit in str(number)]
        scale = min(room // (4 * len(digits) - 1), room // 6)
        x, y = self.middle(cell)
        left, top = x - (4 * len(digits) - 1) * scale // 2, y - 5 * scale // 2
        for at, rows in enumerate(digits):
            for down, row in enumerate(rows):
                for right in range(3):
                    if row & 4 >> right:
                        begin = left + (4 * at + right) * scale
                        self.fill(begin, top + down * scale, begin + scale, top + (down + 1) * scale, colour)


class Scene:
    """What is drawn of a plan: on one ground, which has the map, the goals and the paths, the agents of each tick."""

    def __init__(self, grid: Grid, agents: Sequence[Agent], paths: Sequence[list[Cell]],
                 faults: Iterable[Fault]) -> None:
        self.paths = paths
        self.palette = [*GROUND, *map(colour_of, colours(len(agents)))]
        self.faults: dict[int, list[Cell]] = {}
        for fault in faults:
            self.faults.setdefault(fault.tick, []).extend(fault.cells)
        cell = min(GREATEST_CELL, max(1, SIDE // max(grid.width, grid.height)))
        self.radius = max(0, (2 * cell - 1) // 5)
        self.thin = max(1, cell // 10)
        self.ground = Canvas(ground_of(grid, cell), cell)
        for number, agent in enumerate(agents, len(GROUND)):
            self.ground.disc(agent.goal, self.radius, number)
            self.ground.disc(agent.goal, self.radius - 2 * self.thin, FREE)
        for number, path in enumerate(paths, len(GROUND)):
            for here, there in set(zip(path, path[1:])):
                if abs(here[0] - there[0]) + abs(here[1] - there[1]) == 1:
                    self.ground.step(here, there, self.thin, number)

    def ticks(self) -> int:
        """How many ticks there are, from 0 to the last at which a path has a cell."""
        return max(map(len, self.paths))

    def at(self, tick: int) -> Image:
        """The picture of a tick."""
        canvas = self.ground.copy()
        for number, path in enumerate(self.paths):
            cell = path[min(tick, len(path) - 1)]
            colour = self.palette[len(GROUND) + number]
            canvas.disc(cell, self.radius, len(GROUND) + number)
            canvas.number(cell, number, 7 * self.radius // 4, LIGHT if is_dark(colour) else DARK)
        for cell in self.faults.get(tick, ()):
            canvas.square(cell, self.thin, WRONG)
        return canvas.image


def ground_of(grid: Grid, cell: int) -> Image:
    """The map, with rules between its cells where there is room."""
    rule = 1 if cell >= LEAST_RULED else 0
    free = bytes([FREE]) * (cell - rule) + bytes([RULE]) * rule
    pixels = bytearray()
    for y in range(grid.height):
        squares = [free if grid.is_free((x, y)) else bytes([BLOCKED]) * cell for x in range(grid.width)]
        ruled = [bytes([RULE if grid.is_free((x, y)) else BLOCKED]) * cell for x in range(grid.width)]
        pixels += b"".join(squares) * (cell - rule) + b"".join(ruled) * rule
    return Image(grid.width * cell, grid.height * cell, pixels)


def colour_of(word: str) -> Colour:
    """The colour that '#rrggbb' spells."""
    return int(word[1:3], 16), int(word[3:5], 16), int(word[5:7], 16)


def is_dark(colour: Colour) -> bool:
    """Whether white can be read on this colour better than black."""
    red, green, blue = colour
    return 299 * red + 587 * green + 114 * blue < 140_000


# Files.

def png_of(scene: Scene, tick: int) -> bytes:
    """The picture of a tick as PNG."""
    return png(scene.at(tick), scene.palette)


def gif_of(scene: Scene) -> Iterator[bytes]:
    """The parts of the film of all ticks as GIF."""
    last = scene.ticks() - 1
    frames = ((scene.at(tick), LAST_DELAY if tick == last else DELAY) for tick in range(last + 1))
    return gif(frames, scene.palette, KEPT)
