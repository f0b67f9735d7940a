"""The columns of a table that are places: how they change with the place of the picture in its image, and with the size of its pixels."""
from __future__ import annotations

from collections.abc import Sequence
from decimal import Decimal

# The axis of each column that is a place, and which point of a pixel it means where the pixel is several of the image's: its middle, its first or its last.
MIDDLE, FIRST, LAST = "middle", "first", "last"
PLACES = {
    **{name: (axis, MIDDLE) for axis, letter in enumerate("xyz") for name in (letter, f"c{letter}", f"from_{letter}", f"to_{letter}")},
    **{name: (axis, FIRST) for axis, names in enumerate((("left", "x0"), ("top", "y0"), ("z0",))) for name in names},
    **{name: (axis, LAST) for axis, names in enumerate((("right", "x1"), ("bottom", "y1"), ("z1",))) for name in names},
}


def moved(column: str, value: str, place: Sequence[int]) -> str:
    """A value of a picture whose first pixel lies at this place, as one of the whole: a place is moved there, with its digits, and all else stays."""
    if column not in PLACES or not value:
        return value
    return str(Decimal(value) + place[PLACES[column][0]])


def in_image(column: str, value: str, fit: int, sides: Sequence[int]) -> str:
    """A place in a picture of which one pixel is `fit` of the image's wide, in pixels of the image, which has these sides.

    Both have the middle of their first pixel at 0. What is the last pixel of a box goes no further than the image.
    """
    if not value or fit == 1:
        return value
    axis, point = PLACES[column]
    if point == FIRST:
        return str(int(value) * fit)
    if point == LAST:
        return str(min(int(value) * fit + fit - 1, sides[axis] - 1))
    return f"{Decimal(value) * fit + Decimal(fit - 1) / 2:f}"
