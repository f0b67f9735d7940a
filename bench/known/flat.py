"""Flat shapes of known measure, a little off the grid of the middles of pixels, as things stand in a scan.

Shapes may be changed here, and shapes of one group become one row of a table. A true measure that has no formula is left out.
"""
import math
from dataclasses import dataclass

import numpy as np
from scipy import special

from known import thickness

OFF = (0.3, 0.1)
TWELVE = range(0, 180, 15)


@dataclass(frozen=True)
class Shape:
    group: str
    picture: np.ndarray
    true: dict


def drawn(reach, holds):
    """The pixels whose middles the shape holds, given how far it reaches from its middle, and where the middle lies."""
    side = 2 * math.ceil(reach) + 12
    middle = [side // 2 + off for off in OFF]
    y, x = np.mgrid[:side, :side]
    return holds(x - middle[0], y - middle[1]), dict(zip("xy", middle))


def turned(x, y, degrees):
    """Places along a direction and across it, given as an angle from x towards y."""
    angle = math.radians(degrees)
    return x * math.cos(angle) + y * math.sin(angle), y * math.cos(angle) - x * math.sin(angle)


def shape(group, reach, holds, **true):
    """A shape; what follows from its measures by a quotient is added."""
    picture, middle = drawn(reach, holds)
    true.setdefault("euler", 1)
    true["borders"] = true["border"] + true.get("hole_border", 0)
    true["solidity"] = true["area"] / true["convex_area"]
    true["circularity"] = 4 * math.pi * true["area"] / true["border"] ** 2
    if "major" in true:  # ImageJ gives its ellipse the area of the object
        ratio = true["major"] / true["minor"]
        true["major_by_area"], true["minor_by_area"] = (math.sqrt(4 * true["area"] / math.pi * r) for r in (ratio, 1 / ratio))
    return Shape(group, picture, {**middle, **true})


def thick(wide, mean=None, deviation=0):
    """The thickness of a shape: one and the same everywhere where no mean is given."""
    return {"thickness": mean or wide, "thickness_sd": deviation, "thickness_max": wide}


def convex(area, border, **true):
    return {"area": area, "border": border, "convex_area": area, "convex_perimeter": border, **true}


def disc(radius):
    wide = 2 * radius
    same = dict.fromkeys(("feret", "min_feret", "major", "minor"), wide)
    true = convex(math.pi * radius**2, math.pi * wide, **same, **thick(wide))
    return shape(f"disc of radius {radius}", radius, lambda x, y: x**2 + y**2 <= radius**2, **true)


def ellipse(long, wide, degrees):
    def holds(x, y):
        along, across = turned(x, y, degrees)
        return (2 * along / long) ** 2 + (2 * across / wide) ** 2 <= 1

    true = convex(math.pi * long * wide / 4, 2 * long * special.ellipe(1 - (wide / long) ** 2))
    axes = {"feret": long, "min_feret": wide, "major": long, "minor": wide, "angle": degrees, "thickness_max": wide}
    return shape(f"ellipse of {long} by {wide}, at twelve angles", long / 2, holds, **true, **axes)


def bar(group, long, wide, degrees):
    def holds(x, y):
        along, across = turned(x, y, degrees)
        return (abs(along) <= long / 2) & (abs(across) <= wide / 2)

    diagonal = math.hypot(long, wide)
    true = convex(long * wide, 2 * (long + wide), feret=diagonal, min_feret=wide, **thick(wide, *thickness.of_box(long, wide)))
    true |= {"major": long * math.sqrt(4 / 3), "minor": wide * math.sqrt(4 / 3)}
    if long > wide:
        true |= {"angle": degrees, "side": degrees}
    return shape(group, diagonal / 2, holds, **true)


def ring(inner, outer):
    def holds(x, y):
        return (x**2 + y**2 >= inner**2) & (x**2 + y**2 <= outer**2)

    wide, axis = outer - inner, 2 * math.sqrt(inner**2 + outer**2)
    true = {"area": math.pi * (outer**2 - inner**2), "border": 2 * math.pi * outer, "hole_border": 2 * math.pi * inner}
    true |= {"convex_area": math.pi * outer**2, "convex_perimeter": 2 * math.pi * outer, "feret": 2 * outer, "min_feret": 2 * outer}
    true |= {"major": axis, "minor": axis, "euler": 0, **thick(wide)}
    return shape(f"ring from radius {inner} to {outer}", outer, holds, **true)


def star(radius):
    """One with five points, whose edges go on to the edges of a point two on."""
    inner = radius * math.sin(math.radians(18)) / math.sin(math.radians(54))
    edge = radius * math.sin(math.radians(36)) / math.sin(math.radians(54))

    def holds(x, y):
        x, y = turned(x, y, 7)
        beyond = [x * math.cos(k * math.tau / 5) + y * math.sin(k * math.tau / 5) > radius * math.cos(math.radians(72)) for k in range(5)]
        return np.sum(beyond, axis=0) < 2

    hull = 2.5 * radius**2 * math.sin(math.radians(72)), 10 * radius * math.sin(math.radians(36))
    true = {"area": 5 * radius * inner * math.sin(math.radians(36)), "border": 10 * edge, "convex_area": hull[0], "convex_perimeter": hull[1]}
    true |= {"feret": 2 * radius * math.sin(math.radians(72)), "min_feret": radius * (1 + math.cos(math.radians(36)))}
    return shape(f"star with five points, of radius {radius}", radius, holds, **true)


def shapes():
    """All of them; those of a group stand together."""
    yield from map(disc, (10, 20, 50, 100, 400))
    yield from (ellipse(100, 50, degrees) for degrees in TWELVE)
    yield from (bar("square of side 100, along the axes" if not degrees else "square of side 100, turned by 5 to 45 degrees", 100, 100, degrees) for degrees in range(0, 50, 5))
    yield from (bar("bar of 100 by 20, at twelve angles", 100, 20, degrees) for degrees in TWELVE)
    yield ring(60, 80)
    yield star(100)
