"""The holes of a picture's objects: each is an object of the picture turned over, measured by the proved program.

Objects that touch at a corner are one, and holes are not. So holes that touch at a corner come into different pictures.
"""
from __future__ import annotations

from collections import defaultdict
from collections.abc import Iterator, Sequence
from dataclasses import dataclass
from decimal import Decimal

import numpy as np

from .components import numbered
from .hulls import least_widths
from .tables import Row, dicts_of

_MEASURED = ("area", "left", "top", "right", "bottom", "x", "y", "feret", "border")
COLUMNS = ["object", "hole", "area", "left", "top", "right", "bottom", "x", "y", "equivalent_diameter", "feret", "min_feret", "border"]

_PI = Decimal("3.14159265358979323846264338")
_THOUSANDTH = Decimal("0.001")


@dataclass(frozen=True)
class Holes:
    """The number of the hole that each pixel is of, from 1 on in raster order of first pixels, 0 elsewhere; and for each hole the number of
    the object that it is in, and the number of the picture that it comes into, from 0 on."""

    numbers: np.ndarray
    objects: list[int]
    layers: list[int]

    @classmethod
    def of(cls, mask: np.ndarray) -> Holes:
        """The holes of the objects of a flat picture."""
        background = numbered(np.pad(~mask, 1, constant_values=True), by_corners=False)[1:-1, 1:-1]
        numbers = np.maximum(background - 1, 0)
        places = np.flatnonzero(numbers > 0)
        if not places.size:
            return cls(numbers, [], [])
        first = places[np.diff(np.maximum.accumulate(numbers.ravel()[places]), prepend=0) > 0]
        objects = numbered(mask, by_corners=True).ravel()[first - mask.shape[1]].tolist()
        return cls(numbers, objects, _layers(numbers, len(objects)))

    def pictures(self) -> list[np.ndarray]:
        """The holes as objects of pictures, no two of which touch at a corner."""
        if not self.layers:
            return []
        layer = np.array([-1, *self.layers], np.int16)[self.numbers]
        return [layer == k for k in range(max(self.layers) + 1)]

    def rows(self, tables: Sequence[str]) -> list[Row]:
        """A row for each hole, the header first, by the program's tables of the pictures."""
        if not self.objects:
            return [COLUMNS]
        measured = [iter(dicts_of(table)) for table in tables]
        y, x = _ends_in_rows(self.numbers > 0)
        widths = least_widths(self.numbers[y, x], x, y)
        found = [COLUMNS]
        for k, (of, layer, width) in enumerate(zip(self.objects, self.layers, widths), 1):
            row = next(measured[layer])
            diameter = (4 * Decimal(row["area"]) / _PI).sqrt().quantize(_THOUSANDTH)
            own = {**{name: row[name] for name in _MEASURED}, "object": of, "hole": k, "equivalent_diameter": diameter, "min_feret": width}
            found.append([str(own[name]) for name in COLUMNS])
        return found


def _ends_in_rows(mask: np.ndarray) -> tuple[np.ndarray, ...]:
    """The points, as rows and columns, that are the first or the last of a stretch of true points in a row: the corners of hulls are among them."""
    before, after = np.zeros_like(mask), np.zeros_like(mask)
    before[:, 1:], after[:, :-1] = mask[:, :-1], mask[:, 1:]
    return np.nonzero(mask & ~(before & after))


def _layers(numbers: np.ndarray, count: int) -> list[int]:
    """For each hole the number of a picture, the least that has no earlier hole that touches it at a corner."""
    beside = defaultdict(set)
    for one, other in _touching(numbers):
        beside[max(one, other)].add(min(one, other))
    layers: list[int] = []
    for k in range(1, count + 1):
        taken = {layers[other - 1] for other in beside[k]} if k in beside else ()
        layers.append(next(layer for layer in range(len(taken) + 1) if layer not in taken))
    return layers


def _touching(numbers: np.ndarray) -> Iterator[tuple[int, int]]:
    """The pairs of numbers of holes that touch at a corner, some of them several times."""
    width = numbers.shape[1]
    flat = np.concatenate([numbers.ravel(), np.zeros(width + 1, numbers.dtype)])
    places = np.flatnonzero(flat)
    for away, at_side in ((width + 1, width - 1), (width - 1, 0)):
        own = places[places % width != at_side]
        one, other = flat[own], flat[own + away]
        touch = (other > 0) & (one != other)
        yield from zip(one[touch].tolist(), other[touch].tolist())
