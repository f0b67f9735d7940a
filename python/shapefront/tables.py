"""Tables as rows of words: those of all pictures in one, each row with its image's name and its lengths and areas in a unit.

Nothing is computed but products with the pixel's size, and places in an image by those in the smaller picture that was made of it.
"""
from __future__ import annotations

import csv
import io
from collections.abc import Callable, Iterable, Iterator, Sequence
from dataclasses import dataclass
from functools import partial

from .faults import Fault
from .files import encoded
from .places import PLACES, in_image
from .spacing import BY_SIDES, Spacing
from .units import POWERS, Size

Row = list[str]

MARK = b"\xef\xbb\xbf"


@dataclass(frozen=True)
class Part:
    """One picture's table, with what the rows of all of them say of the picture: how many of the image's pixels one is wide, and the image's sides.

    `rest` is a further table with the rest of each row, where there is one; `size` the size of its own voxels, where it has one, and `spaced` a table of
    the same rows in the unit of the sides of voxels that are no cubes, where there is one.
    """

    image: str
    fit: int
    original: Sequence[int]
    table: str
    rest: str | None = None
    size: Size | None = None
    spaced: str | None = None


def rows_of(table: str) -> list[Row]:
    return list(csv.reader(io.StringIO(table)))


def dicts_of(table: str) -> list[dict[str, str]]:
    """The rows of a table, each with its values by the names of their columns."""
    names, *rows = rows_of(table) or [[]]
    return [dict(zip(names, row)) for row in rows if row]


def spelled_rows(rows: Iterable[Row]) -> bytes:
    out = io.StringIO()
    csv.writer(out, lineterminator="\n").writerows(rows)
    return encoded(out.getvalue())


def marked(table: bytes) -> bytes:
    """A table as a spreadsheet opens it right: with the mark of UTF-8 before it where it has other letters than those of ASCII."""
    return table if table.isascii() else MARK + table


def text_of(table: bytes) -> str:
    """The text of a table's file, without that mark."""
    return table.removeprefix(MARK).decode("utf-8", "surrogateescape")


@dataclass(frozen=True)
class Joint:
    """How the tables of pictures are put together: the columns of each, those of their further tables, whether each row tells how many of the
    image's pixels one of the picture's is wide, and in what lengths are told."""

    header: Row
    more: Row
    fits: bool
    pixel: Size | None

    def names(self, part: Part) -> Row:
        """The names of the columns, where this is one of the pictures."""
        further = _further(self.header, part, self.pixel, self.fits)
        return ["image", *(["fit"] if self.fits else []), *self.header, *(column.name for column in further), *self.more]

    def rows(self, part: Part) -> Iterator[Row]:
        """The rows of a picture. A Fault where its table has other columns, or its further table other rows."""
        first, *rest = rows_of(part.table) or [[]]
        if first != self.header:
            raise Fault(part.image, "its table has other columns than the others have", "was it made by another version? measure again into an empty folder")
        further, own = list(_further(first, part, self.pixel, self.fits)), [part.image, *([str(part.fit)] if self.fits else [])]
        for row, others, spaced in zip(rest, _rest(part, self.more, len(rest)), _spaced(part, len(rest))):
            yield [*own, *row, *(spaced.get(column.name) or (column.of(row[column.at]) if row[column.at] else "") for column in further), *others]


def _rest(part: Part, header: Row, count: int) -> list[Row]:
    """The rest of each of so many rows of a picture: empty cells where it has none. A Fault where its further table has others."""
    if part.rest is None:
        return [[""] * len(header)] * count
    own, *rows = rows_of(part.rest)
    if own != header or len(rows) != count:
        raise Fault(part.image, "its further table does not fit to its table", "measure again into an empty folder")
    return rows


def _spaced(part: Part, count: int) -> list[dict[str, str]]:
    """Of each of so many rows of a picture the columns in the unit that its table in the unit of its voxels' sides gives. A Fault where that has other rows."""
    size = part.size.in_whole if part.spaced is not None and isinstance(part.size, Spacing) else None
    if part.spaced is None or size is None:
        return [{}] * count
    rows = dicts_of(part.spaced)
    if len(rows) != count:
        raise Fault(part.image, "its table by the sides of its voxels does not fit to its table", "measure again into an empty folder")
    return [{part.size.column(name): size.times(row[name], POWERS[name], part.fit) for name in BY_SIDES if name in row} for row in rows]


@dataclass(frozen=True)
class Further:
    """A column that follows from another one, by its place in the row: its name, and its value by that of the other."""

    name: str
    at: int
    of: Callable[[str], str]


def _further(header: Row, part: Part, size: Size | None, fits: bool) -> Iterator[Further]:
    """Places in pixels of the image where some image was made smaller; and in the unit the lengths and areas, and where centroids are."""
    at = {name: k for k, name in enumerate(header)}
    placed = {name: partial(in_image, name, fit=part.fit, sides=part.original) for name in header if name in PLACES}
    if fits:
        yield from (Further(f"{name}_px", at[name], of) for name, of in placed.items())
    if size:
        own = part.size or size
        yield from (Further(size.column(name), at[name], partial(own.times, power=POWERS[name], fit=part.fit)) for name in header if name in POWERS)
        yield from (Further(f"{name}_{size.unit}", at[name], _scaled(own, axis, placed[name])) for axis, name in enumerate("xyz") if name in at)


def _scaled(size: Size, axis: int, place: Callable[[str], str]) -> Callable[[str], str]:
    return lambda value: size.along(axis, place(value))
