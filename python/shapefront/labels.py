"""Label images: each label is a picture of its own, its box with a margin of one pixel, and one row of a table, in however many pieces it is.

Rows come out of the tables of these pictures. Of a label in several pieces the front door computes the centroid and the Feret diameter by itself,
off the label's picture; it adds counts, areas and lengths of the pieces, and leaves empty what is said of one connected object alone.
"""
from __future__ import annotations

from collections.abc import Callable, Iterable, Iterator, Sequence
from dataclasses import dataclass
from decimal import ROUND_HALF_UP, Decimal

import numpy as np

from .layout import HOLES, OBJECTS, SPACED
from .places import moved
from .tables import Row, rows_of, spelled_rows

_SUMS = ("area", "voxels", "skeleton", "ends", "junctions", "holes", "border", "hole_border", "sides", "euler", "surface", "volume")
_LEAST, _GREATEST = ("left", "top", "x0", "y0", "z0"), ("right", "bottom", "x1", "y1", "z1")
_DEEPEST = ("radius", "cx", "cy", "cz")
_FERET = {2: ("feret", "from_x", "from_y", "to_x", "to_y"), 3: ("feret", "from_x", "from_y", "from_z", "to_x", "to_y", "to_z")}
# How many points at once are compared with all others.
_AT_ONCE = 256
_CENTROID = ("x", "y", "z")


@dataclass(frozen=True)
class Box:
    """A label's picture: its number, the place of the picture's first pixel in the image, x first, and the label's points in it.

    The margin may lie outside of the image, so a place may be -1.
    """

    label: int
    place: tuple[int, ...]
    mask: np.ndarray

    def touches(self, sides: Sequence[int]) -> bool:
        """Whether the label has a point at the border of its image, which has these sides."""
        ends = zip(self.place, reversed(self.mask.shape), sides)
        return any(at == -1 or at + own - 2 == side - 1 for at, own, side in ends)


def boxes(labels: np.ndarray) -> list[Box]:
    """The pictures of all labels but 0, by their numbers."""
    where = np.flatnonzero(labels)
    values = labels.ravel()[where]
    order = np.argsort(values, kind="stable")
    where, values = where[order], values[order]
    starts = np.flatnonzero(np.append(True, values[1:] != values[:-1])) if values.size else values
    return [_box(int(labels.flat[own[0]]), np.unravel_index(own, labels.shape)) for own in np.split(where, starts[1:]) if own.size]


def _box(label: int, points: tuple[np.ndarray, ...]) -> Box:
    low = [int(own.min()) - 1 for own in points]
    mask = np.zeros([int(own.max()) - first + 2 for own, first in zip(points, low)], bool)
    mask[tuple(own - first for own, first in zip(points, low))] = True
    return Box(label, tuple(reversed(low)), mask)


def header_of(table: str) -> Row:
    """The names of the columns of a table of labels, whose pictures have such tables."""
    return ["label", "pieces", *rows_of(table)[0][1:]]


def row_of(box: Box, table: str, sides: Sequence[int], voxel: Sequence[int] | None = None) -> Row:
    """The row of a label, by the table of its picture, which has a row for each piece; the image has these sides. Lengths are by those of a voxel, where they are given."""
    names, *pieces = rows_of(table)
    columns = {name: [piece[k] for piece in pieces] for k, name in enumerate(names)}
    own = {name: values[0] for name, values in columns.items()} if len(pieces) == 1 else _together(box, columns, voxel or (1,) * box.mask.ndim)
    own["touches"] = str(int(box.touches(sides)))
    return [str(box.label), str(len(pieces)), *(moved(name, own[name], box.place) for name in names[1:])]


def _together(box: Box, columns: dict[str, list[str]], voxel: Sequence[int]) -> dict[str, str]:
    """What is said of a label in several pieces, by the columns of its pieces."""
    own = dict.fromkeys(columns, "")
    for name in own:
        values = columns[name]
        if name in _SUMS and all(values):
            own[name] = str(sum(map(Decimal, values)))
        elif name in _LEAST or name in _GREATEST:
            own[name] = str((min if name in _LEAST else max)(map(int, values)))
    if all(columns.get("radius", [""])):
        deepest = max(range(len(columns["radius"])), key=lambda k: Decimal(columns["radius"][k]))
        own |= {name: columns[name][deepest] for name in _DEEPEST if name in columns}
    own |= {name: value for name, value in zip(_CENTROID, _centroid(box.mask)) if name in columns}
    if "feret" in columns:
        own |= dict(zip(_FERET[box.mask.ndim], feret(box.mask, voxel)))
    return own


def _centroid(mask: np.ndarray) -> list[str]:
    """The mean of all points, x first, to three digits."""
    points = [axis.tolist() for axis in reversed(np.nonzero(mask))]
    return [str((Decimal(sum(axis)) / len(axis)).quantize(Decimal("0.001"), ROUND_HALF_UP)) for axis in points]


def feret(mask: np.ndarray, voxel: Sequence[int] = (1, 1, 1)) -> list[str]:
    """The greatest distance of two points, and two that have it: the first in raster order, and the last one at that distance from it; a step along an axis is as long as
    a voxel's side there."""
    points = np.array(sorted(_outermost(mask), key=lambda point: point[::-1]))
    places = points * np.array(voxel[: mask.ndim])
    most = np.concatenate([_squares(places[k : k + _AT_ONCE], places).max(1) for k in range(0, len(places), _AT_ONCE)])
    first = int(most.argmax())
    last = len(points) - 1 - int(_squares(places[first : first + 1], places)[0, ::-1].argmax())
    length = Decimal(int(most.max())).sqrt().quantize(Decimal("0.001"), ROUND_HALF_UP)
    return [str(length), *map(str, points[first].tolist()), *map(str, points[last].tolist())]


def _squares(some: np.ndarray, places: np.ndarray) -> np.ndarray:
    """The squared distances of some places from all."""
    return ((some[:, None] - places[None]) ** 2).sum(2)


def _outermost(mask: np.ndarray) -> set[tuple[int, ...]]:
    """Points among which the two are that lie farthest apart: the corners of the convex hull, or of those of all slices."""
    if mask.ndim == 2:
        return _hull(_ends_of_rows(mask))
    return {(*point, z) for z, own in enumerate(mask) if own.any() for point in _hull(_ends_of_rows(own))}


def _ends_of_rows(mask: np.ndarray) -> list[tuple[int, int]]:
    """The first and the last point of each row, as (x, y)."""
    rows = np.flatnonzero(mask.any(1))
    first, last = mask[rows].argmax(1), mask.shape[1] - 1 - mask[rows][:, ::-1].argmax(1)
    return [*zip(first.tolist(), rows.tolist()), *zip(last.tolist(), rows.tolist())]


def _hull(points: list[tuple[int, int]]) -> set[tuple[int, int]]:
    """The corners of the convex hull."""
    ordered = sorted(set(points))
    return {*_chain(ordered), *_chain(ordered[::-1])}


def _chain(points: list[tuple[int, int]]) -> list[tuple[int, int]]:
    """One side of the hull of points in their order."""
    chain: list[tuple[int, int]] = []
    for x, y in points:
        while len(chain) > 1 and _turn(chain[-2], chain[-1], (x, y)) <= 0:
            chain.pop()
        chain.append((x, y))
    return chain


def _turn(a: tuple[int, int], b: tuple[int, int], c: tuple[int, int]) -> int:
    return (b[0] - a[0]) * (c[1] - a[1]) - (b[1] - a[1]) * (c[0] - a[0])


def joined_rows(tables: Sequence[tuple[Box, str]]) -> Iterator[Row]:
    """The rows of tables of the labels' pictures below one header, each with its label before it, and places as they are in the image."""
    for k, (box, table) in enumerate(tables):
        names, *rows = rows_of(table)
        if not k:
            yield ["label", *names]
        for row in rows:
            yield [str(box.label), *(moved(name, value, box.place) for name, value in zip(names, row))]


def tables(own: Sequence[Box], sides: Sequence[int], table_of: Callable[[Box, str], str], suffixes: Iterable[str], voxel: Sequence[int] | None = None) -> dict[str, bytes]:
    """The tables of a label image, by what their names end in: a row for each label, and of further tables the rows of all labels' own.

    `table_of` gives the table of a label's picture whose name ends so, or nothing where it has none; `sides` are those of the image, and `voxel` those of a voxel that
    is no cube.
    """
    made = {}
    for suffix, lengths in ((".csv", None), (SPACED[OBJECTS], voxel)):
        if given := table_of(own[0], suffix):
            made[suffix] = [header_of(given), *(row_of(box, table_of(box, suffix), sides, lengths) for box in own)]
    for suffix in ({HOLES, *suffixes} - {".csv"}):
        if given := [(box, table) for box in own if (table := table_of(box, suffix))]:
            made[suffix] = joined_rows(given)
    return {suffix: spelled_rows(rows) for suffix, rows in made.items()}
