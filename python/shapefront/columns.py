"""What a page says of the columns of a table: a name for people, the unit, what it is, and which of them it shows at first."""
from __future__ import annotations

from dataclasses import dataclass
from typing import Any

from .intensities import COLUMNS as INTENSITIES
from .places import PLACES
from .tables import Row
from .units import POWERS, Size

_ABOUT = {
    "image": "the file",
    "label": "its value in the label image",
    "object": "its number in the drawing",
    "fit": "how many pixels of the image one pixel of the picture is wide",
    "pieces": "in how many connected pieces the label is",
    "area": "how many pixels it has",
    "voxels": "how many voxels it has",
    "x": "its centroid; the middle of the first pixel is at 0, 0",
    "y": "its centroid; the middle of the first pixel is at 0, 0",
    "z": "its centroid; the middle of the first voxel is at 0, 0, 0",
    "radius": "the greatest distance of its points to the background",
    "skeleton": "how many of its points the thinning leaves",
    "ends": "points of its skeleton with one neighbour",
    "junctions": "points of its skeleton with three neighbours or more",
    "touches": "1 where it touches the border of the image, and may go on outside",
    "holes": "how many holes it has",
    "euler": "its Euler number: 1 less its holes; of a volume 1 less its tunnels, and 1 more for each of its cavities",
    "convex_area": "the area of its convex hull",
    "circularity": "4 pi area over the square of its border: 1 for a disc",
    "solidity": "its area over that of its convex hull",
    "side_y": "the direction of the lines of its least width",
    "side_x": "the direction of the lines of its least width",
    "min_feret": "its least width between two parallel lines",
    "convex_perimeter": "the length of the border of its convex hull",
    "surface": "the area of its surface",
    "thickness": "the mean of its local thickness: at each point the diameter of the greatest ball of it that holds the point",
    "thickness_sd": "the standard deviation of its local thickness",
    "thickness_max": "the greatest local thickness",
    "border": "the length of its outer border",
    "hole_border": "the length of the borders of its holes together",
    "feret": "the greatest distance of two of its pixels",
    "sides": "how many sides of its voxels are exposed",
    "intensity_mean": "the mean of the image's values in it",
    "intensity_min": "the least of the image's values in it",
    "intensity_max": "the greatest of the image's values in it",
    "intensity_sum": "the sum of the image's values in it",
    "intensity_std": "the standard deviation of the image's values in it",
}
# The columns that a page shows first, in this order, and those that it shows last; all others come between them as they stand in the table.
_FIRST = ("image", "label", "object", "fit", "pieces", "area", "voxels", "radius", "border", "feret", "holes", "hole_border")
_LAST = ("x", "y", "z", "touches", "skeleton", "ends", "junctions")
_OWN = " (computed by shapes from the image, not by the proved program)"
_NO_MEASURES = ("image", "label", "object", "fit", "touches")


@dataclass(frozen=True)
class Column:
    """A column of a table as the page shows it. `is_hidden` where only `all columns` shows it, `is_measure` where it has a histogram."""

    name: str
    title: str
    unit: str | None
    about: str
    is_hidden: bool
    is_measure: bool
    is_own: bool

    def told(self, cells: list[Any]) -> dict[str, Any]:
        """What the page's script reads of it, with its values."""
        return {
            "name": self.name, "title": self.title, "unit": self.unit, "about": self.about, "isHidden": self.is_hidden,
            "isMeasure": self.is_measure, "isOwn": self.is_own, "isImage": self.name == "image", "cells": cells,
        }  # fmt: skip


def columns_of(header: Row, pixel: Size | None) -> list[tuple[int, Column]]:
    """The columns of a table with these names, as a page orders them, each with its place in the table.

    Of one that is told in pixels and in the unit the page shows the latter at first.
    """
    scaled = {told: name for name in header if (told := _scaled(name, pixel))}
    own = [(at, _column(name, scaled.get(name), _scaled(name, pixel) in header, pixel)) for at, name in enumerate(header)]
    return sorted(own, key=lambda one: _order(one[1].title))


def _order(title: str) -> int:
    if title in _FIRST:
        return _FIRST.index(title) - len(_FIRST)
    return _LAST.index(title) + 1 if title in _LAST else 0


def _scaled(name: str, pixel: Size | None) -> str | None:
    """What a column is called where it is told in the unit; None where it is not."""
    if pixel is None:
        return None
    return f"{name}_{pixel.unit}" if name in ("x", "y", "z") else pixel.column(name)


def _column(name: str, base: str | None, has_scaled: bool, pixel: Size | None) -> Column:
    plain = base or name
    is_place = plain in PLACES or name.removesuffix("_px") in PLACES
    unit = None
    if base and pixel:
        unit = pixel.unit.replace("um", "µm") + {2: "²", 3: "³"}.get(POWERS.get(base, 1), "")
    about = _ABOUT.get(plain, "a place, in pixels" if is_place else plain) + (_OWN if name in INTENSITIES else "")
    is_hidden = has_scaled or (is_place and plain not in ("x", "y", "z"))
    return Column(name, plain, unit, about, is_hidden, not is_place and plain not in _NO_MEASURES, name in INTENSITIES)
