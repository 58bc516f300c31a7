"""Colours for agents that can be told apart, on light ground and on dark."""

import math

# The place of a colour in Oklab: its lightness, and its two axes of colour.
Place = tuple[float, float, float]

# The lightness, strength and hues of which colours are chosen, in Oklch. All stand out from the greys of a map.
LIGHTNESS = (0.50, 0.58, 0.66, 0.74, 0.82)
STRENGTH = (0.10, 0.14, 0.18, 0.22)
HUES = range(0, 360, 6)

# The first: a blue.
FIRST = (0.58, 0.18, 258)


def colours(count: int) -> list[str]:
    """So many colours as '#rrggbb', always the same. Each is the one that is furthest from those before it."""
    there = [place for place in candidates() if rgb(place) is not None]
    chosen = [place_of(*FIRST)]
    nearest = [distance(place, chosen[0]) for place in there]
    while len(chosen) < count:
        best = max(range(len(there)), key=nearest.__getitem__)
        chosen.append(there[best])
        nearest = [min(before, distance(place, there[best])) for before, place in zip(nearest, there)]
    return ["#%02x%02x%02x" % rgb(place) for place in chosen[:count]]


def candidates() -> list[Place]:
    """The places among which colours are chosen. Not each has a colour in sRGB."""
    return [place_of(light, strength, hue) for light in LIGHTNESS for strength in STRENGTH for hue in HUES]


def place_of(light: float, strength: float, hue: float) -> Place:
    """The place of a colour in Oklab, where equal distances look about equally different."""
    angle = math.radians(hue)
    return light, strength * math.cos(angle), strength * math.sin(angle)


def distance(one: Place, other: Place) -> float:
    """How different two colours look. Lightness counts less than in Oklab: on a map, small discs differ more by their
    hue.
    """
    return math.hypot(0.7 * (one[0] - other[0]), one[1] - other[1], one[2] - other[2])


def rgb(place: Place) -> tuple[int, ...] | None:
    """The bytes of a colour in sRGB, None where it has none."""
    light, a, b = place
    long, middle, short = (
        (light + 0.3963377774 * a + 0.2158037573 * b) ** 3,
        (light - 0.1055613458 * a - 0.0638541728 * b) ** 3,
        (light - 0.0894841775 * a - 1.2914855480 * b) ** 3,
    )
    linear = (
        4.0767416621 * long - 3.3077115913 * middle + 0.2309699292 * short,
        -1.2684380046 * long + 2.6097574011 * middle - 0.3413193965 * short,
        -0.0041960863 * long - 0.7034186147 * middle + 1.7076147010 * short,
    )
    if not all(-0.0005 <= part <= 1.0005 for part in linear):
        return None
    return tuple(round(255 * encoded(min(max(part, 0), 1))) for part in linear)


def encoded(part: float) -> float:
    """The part of a colour that sRGB has for this part of its light."""
    return 12.92 * part if part <= 0.0031308 else 1.055 * part ** (1 / 2.4) - 0.055
