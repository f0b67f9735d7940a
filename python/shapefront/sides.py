"""Straight sides and corners of a contour, off its segments.

A side is a segment of at least so many steps, or several one behind the other on one line: that of least squares. It is known far better than to a
pixel: moved outwards by the half pixel that contours lie inside, sides meet in corners that are right within some hundredths of a pixel.
"""
from __future__ import annotations

import math
from dataclasses import dataclass, replace

import numpy as np

from .fitting import fits
from .report import Contour

Point = tuple[float, float]
Line = tuple[float, float, float]


@dataclass(frozen=True)
class Side:
    """A straight side: from its beginning to its end, on the line `a x + b y = c`; in pixels, y downwards.

    `degrees` is its direction with the object on the right hand, `distance` the greatest distance of the middle of a border pixel from the
    line in their middle; `is_corner` tells whether it ends in a corner with the next one.
    """

    begin: Point
    end: Point
    line: Line
    degrees: float
    distance: float
    is_corner: bool = False

    @property
    def length(self) -> float:
        return math.dist(self.begin, self.end)


@dataclass(frozen=True)
class _Stretch:
    """A stretch of a contour, from one place to another, counted on round it, and its direction."""

    begin: int
    end: int
    degrees: float


def sides_of(contour: Contour, steps: int = 20, turn: float = 20.0) -> list[Side]:
    """The sides of a contour, of segments of at least so many steps, in order. Where the next turns by more than so many degrees the two end and
    begin in their corner, if it lies no further than so many pixels from their ends; else each where its segment does."""
    found = [_grown(contour, stretch, steps) for stretch in _merged(contour, _long(contour, steps), turn)]
    alone = [_side(contour, stretch) for stretch in _merged(contour, found, turn)]
    count = len(alone)
    corners = [_corner(alone[k], alone[(k + 1) % count], turn, steps) if count > 1 else None for k in range(count)]
    return [
        replace(side, begin=corners[k - 1] or side.begin, end=corners[k] or side.end, is_corner=corners[k] is not None)
        for k, side in enumerate(alone)
    ]


def _long(contour: Contour, steps: int) -> list[_Stretch]:
    """The segments of at least so many steps."""
    rows = (row for row in contour.segments.rows[:, :2].tolist() if row[1] - row[0] >= steps)
    return [_Stretch(begin, end, _fitted(contour, begin, end)[2]) for begin, end in rows]


def _merged(contour: Contour, found: list[_Stretch], turn: float) -> list[_Stretch]:
    """The stretches with those in one that follow one another on one line."""
    count = len(contour.points)
    joints = [k for k in range(len(found)) if _joined(contour, found[k - 1], found[k], turn) is None]
    first = joints[0] if joints else 0
    merged: list[_Stretch] = []
    for stretch in found[first:] + [replace(one, begin=one.begin + count, end=one.end + count) for one in found[:first]]:
        both = _joined(contour, merged[-1], stretch, turn) if merged else None
        merged = [*merged[:-1], both] if both else [*merged, stretch]
    return merged


def _grown(contour: Contour, stretch: _Stretch, steps: int) -> _Stretch:
    """A stretch with as many further points before and behind it, so many at a time, as lie on its line, too: a rough side has short segments there."""
    reach = (steps, 0), (0, steps)
    while any(grown := [_one(contour, stretch.begin - before, stretch.end + behind) for before, behind in reach]):
        stretch = next(filter(None, grown))
    return stretch


def _joined(contour: Contour, one: _Stretch, other: _Stretch, turn: float) -> _Stretch | None:
    """Two stretches as one, with what is between them; None where they are on no line, or go round."""
    count = len(contour.points)
    length = (other.end - one.begin) % count
    if _turn(one.degrees, other.degrees) > turn or length < one.end - one.begin:
        return None
    return _one(contour, one.begin, one.begin + length)


def _one(contour: Contour, begin: int, end: int) -> _Stretch | None:
    """The stretch between two places; None where its points are on no line, or go half round."""
    if end - begin >= len(contour.points) / 2:
        return None
    _, distances, degrees = _fitted(contour, begin, end)
    return _Stretch(begin, end, degrees) if fits(distances) else None


def _turn(degrees: float, other: float) -> float:
    """By how much two directions differ, from 0 to 180."""
    return abs((other - degrees + 540) % 360 - 180)


def _side(contour: Contour, stretch: _Stretch) -> Side:
    """A stretch as a side, not yet cut by the next ones: on the line of its points, but for two at either end, which may go round a corner."""
    ends = contour.points[stretch.begin % len(contour.points)], contour.points[stretch.end % len(contour.points)]
    left_out = min(2, (stretch.end - stretch.begin) // 4)
    line, distances, degrees = _fitted(contour, stretch.begin + left_out, stretch.end - left_out)
    return Side(_onto(ends[0], line), _onto(ends[1], line), line, degrees, float(distances.max()))


def _fitted(contour: Contour, begin: int, end: int) -> tuple[Line, np.ndarray, float]:
    """The line of least squares through the points between two places, moved outwards by half of a pixel; the distances of the points from it
    before that, and its direction."""
    points = contour.points[np.arange(begin, end + 1) % len(contour.points)].astype(float)
    middle = points.mean(0)
    _, axes = np.linalg.eigh((points - middle).T @ (points - middle))
    along = axes[:, 1] if axes[:, 1] @ (points[-1] - points[0]) > 0 else -axes[:, 1]
    out = np.array([along[1], -along[0]])
    distances = np.abs((points - middle) @ out)
    line = (float(out[0]), float(out[1]), float(middle @ out + 0.5 * np.abs(out).max()))
    return line, distances, math.degrees(math.atan2(along[1], along[0]))


def _onto(point: np.ndarray, line: Line) -> Point:
    """The point of the line that is nearest to a point."""
    a, b, c = line
    far = (c - a * point[0] - b * point[1]) / (a * a + b * b)
    return float(point[0] + a * far), float(point[1] + b * far)


def _corner(one: Side, other: Side, turn: float, reach: float) -> Point | None:
    """Where two sides meet, and None where the second turns too little for a corner or right back, or that is too far from their ends."""
    (a, b, c), (d, e, f) = one.line, other.line
    across = a * e - d * b
    if not across or _turn(one.degrees, other.degrees) <= turn:
        return None
    corner = (c * e - f * b) / across, (a * f - d * c) / across
    return corner if max(math.dist(corner, one.end), math.dist(corner, other.begin)) <= reach else None
