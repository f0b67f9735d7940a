"""Lengths of borders by the segments of contours, in units of which a million million are the side of a pixel.

The length of a step along a line depends on the slope alone, and one slope has the least lines that hold a segment of two points or more.
So lengths by least lines depend on the picture alone.
"""
import functools
from math import isqrt

HALF_PIXEL = 2828427124746
UNIT = 10**12


@functools.lru_cache(None)
def step_length(dx, dy, a, b):
    """The length of a step along a line with these coefficients, in units, rounded down."""
    return isqrt((dx * b - dy * a) ** 2 * UNIT**2 // (a * a + b * b))


def length(points, segments):
    """The length of the line through the points of a contour: each step counts with the mean of its lengths along the segments that cover it."""
    n = len(points)
    lengths = [[] for _ in points]
    for segment in segments:
        for place in range(segment.first, segment.last):
            (x, y), (u, v) = points[place % n], points[(place + 1) % n]
            lengths[place % n].append(step_length(u - x, v - y, *segment.row))
    return sum(sum(along) // len(along) for along in lengths if along)


def borders(contours):
    """By the first pixel of each contour the length of the border that stands half a pixel outside of it: of the outer ones, and of holes."""
    outer, holes = {}, {}
    for (pixel, side), path, segments, _ in contours:
        if side == 0:
            outer[pixel] = length(path.points, segments) + HALF_PIXEL
        else:
            holes[pixel] = holes.get(pixel, 0) + max(0, length(path.points, segments) - HALF_PIXEL)
    return outer, holes
