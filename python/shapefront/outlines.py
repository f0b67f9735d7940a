"""What the contours of a flat picture's report are to a draughtsman: circles, straight sides and corners; as tables, each with whose border it is."""
from __future__ import annotations

from collections.abc import Iterator
from dataclasses import dataclass

import numpy as np

from .circles import Circle, circle_of
from .components import numbered
from .holes import Holes
from .report import Contours
from .sides import Side, sides_of
from .tables import Row, spelled_rows

CIRCLES = ["object", "hole", "x", "y", "diameter", "distance"]
SIDES = ["object", "hole", "side", "length", "angle", "from_x", "from_y", "to_x", "to_y", "distance"]
CORNERS = ["object", "hole", "corner", "x", "y", "angle"]


@dataclass(frozen=True)
class Outline:
    """The border of an object, by its number, or of one of its holes (0: its outer border): a circle, or its sides in order."""

    object: int
    hole: int
    circle: Circle | None
    sides: list[Side]

    @property
    def corners(self) -> list[tuple[Side, Side]]:
        """The sides that meet in a corner, two and two."""
        pairs = zip(self.sides, self.sides[1:] + self.sides[:1])
        return [(one, other) for one, other in pairs if one.is_corner]


def outlines_of(contours: Contours, steps: int, mask: np.ndarray | None = None) -> list[Outline]:
    """The outlines of all contours, with sides of at least so many steps, in their order; without numbers where the picture is not given."""
    objects, holes = (None, None) if mask is None else (numbered(mask, by_corners=True), Holes.of(mask).numbers)
    found = []
    for contour in contours:
        x, y = map(int, contour.points[0])
        circle = circle_of(contour)
        hole = int(holes[y + 1, x]) if holes is not None and contour.is_hole else 0
        found.append(Outline(0 if objects is None else int(objects[y, x]), hole, circle, [] if circle else sides_of(contour, steps)))
    return found


def summary(outlines: list[Outline]) -> str:
    """How many sides and circles there are, and how far the border lies from them at most, in words."""
    circles = [outline.circle for outline in outlines if outline.circle]
    sides = [side for outline in outlines for side in outline.sides]
    far = max([one.distance for one in (*circles, *sides)], default=0.0)
    return f"sides {len(sides)}, circles {len(circles)}; the border is at most {far:.2f} pixels away from them"


def arranged(outlines: list[Outline]) -> dict[str, bytes]:
    """The tables of sides, corners and circles, by the ends of their files' names."""
    tables = {
        ".sides.csv": [SIDES, *_sides(outlines)],
        ".corners.csv": [CORNERS, *_corners(outlines)],
        ".circles.csv": [CIRCLES, *_circles(outlines)],
    }
    return {suffix: spelled_rows(rows) for suffix, rows in tables.items()}


def _sides(outlines: list[Outline]) -> Iterator[Row]:
    for outline in outlines:
        for k, side in enumerate(outline.sides, 1):
            numbers = (side.length, -side.degrees % 180, *side.begin, *side.end, side.distance)
            yield [*map(str, (outline.object, outline.hole, k)), *map(_told, numbers)]


def _corners(outlines: list[Outline]) -> Iterator[Row]:
    for outline in outlines:
        for k, (one, other) in enumerate(outline.corners, 1):
            inside = 180 - ((other.degrees - one.degrees + 540) % 360 - 180)
            yield [*map(str, (outline.object, outline.hole, k)), *map(_told, (*one.end, inside))]


def _circles(outlines: list[Outline]) -> Iterator[Row]:
    for outline in outlines:
        if circle := outline.circle:
            numbers = (circle.x, circle.y, 2 * circle.radius, circle.distance)
            yield [str(outline.object), str(outline.hole), *map(_told, numbers)]


def _told(value: float) -> str:
    """A number with three digits behind the point; 0 without a sign."""
    return f"{round(value, 3) + 0.0:.3f}"
