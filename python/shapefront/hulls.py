"""The least width of sets of points between two parallel lines, their least Feret diameter, by their convex hulls; of many sets at once."""
from __future__ import annotations

from collections.abc import Iterator
from decimal import Decimal

import numpy as np

_THOUSANDTH = Decimal("0.001")


def least_widths(numbers: np.ndarray, x: np.ndarray, y: np.ndarray) -> Iterator[Decimal]:
    """For each set of points the least distance of two parallel lines that have all of them between them, rounded to the nearest thousandth.

    Points have the numbers of their sets, from 1 on without a gap, and whole coordinates. One of the two lines holds an edge of the convex
    hull, so it is the least over these edges of the greatest distance of a corner from the edge.
    """
    order = np.lexsort((x, y, numbers))
    numbers, x, y = numbers[order], x[order], y[order]
    is_first = np.append(True, (numbers[1:] != numbers[:-1]) | (y[1:] != y[:-1]))[: len(x)]
    is_last = np.append(is_first[1:], True)[: len(x)]
    left, right = _chain(numbers[is_first], y[is_first], x[is_first]), _chain(numbers[is_last], y[is_last], -x[is_last])
    for own, other in zip(left, right):
        yield _width([*((x, y) for y, x in own), *((-x, y) for y, x in reversed(other))])


def _chain(numbers: np.ndarray, t: np.ndarray, v: np.ndarray) -> Iterator[list[tuple[int, int]]]:
    """For each set the points (t, v), in order of their t, at which the greatest convex function below them turns, with the first and the last."""
    while True:
        (before_t, after_t), (before_v, after_v) = _beside(t), _beside(v)
        is_between = np.logical_and.reduce([beside == numbers for beside in _beside(numbers)])
        goes = is_between & ((v - before_v) * (after_t - before_t) >= (after_v - before_v) * (t - before_t))
        if not goes.any():
            break
        numbers, t, v = numbers[~goes], t[~goes], v[~goes]
    points, ends = [*zip(t.tolist(), v.tolist())], [*(np.flatnonzero(np.diff(numbers)) + 1).tolist(), len(t)]
    yield from (points[start:end] for start, end in zip([0, *ends], ends) if end)


def _beside(values: np.ndarray) -> tuple[np.ndarray, np.ndarray]:
    """For each value the one before it and the one after it; 0 where there is none."""
    before, after = np.zeros_like(values), np.zeros_like(values)
    before[1:], after[:-1] = values[:-1], values[1:]
    return before, after


def _width(corners: list[tuple[int, int]]) -> Decimal:
    """The least width of a convex polygon with these corners in order, of which some may be told twice: as one goes round by edges, the corner that is
    farthest from the edge goes round, too."""
    ring = [corner for k, corner in enumerate(corners) if corner != corners[k - 1]] or corners[:1]
    least, far = (0, 1), 0
    for k, (x, y) in enumerate(ring):
        edge_x, edge_y = ring[k - 1][0] - x, ring[k - 1][1] - y
        across, far = _farthest(ring, far, edge_x, edge_y, edge_x * y - edge_y * x)
        square = edge_x * edge_x + edge_y * edge_y
        if not across:
            return Decimal(0).quantize(_THOUSANDTH)
        if least == (0, 1) or across * across * least[1] < least[0] * least[0] * square:
            least = across, square
    return (least[0] / Decimal(least[1]).sqrt()).quantize(_THOUSANDTH)


def _farthest(ring: list[tuple[int, int]], far: int, edge_x: int, edge_y: int, at: int) -> tuple[int, int]:
    """How far across an edge a corner goes, from this one on as long as they go farther, times the edge's length; and which corner that is."""
    count = len(ring)
    across = abs(edge_x * ring[far][1] - edge_y * ring[far][0] - at)
    for step in range(1, count + 1):
        x, y = ring[(far + step) % count]
        further = abs(edge_x * y - edge_y * x - at)
        if further <= across:
            return across, (far + step - 1) % count
        across = further
    return across, far
