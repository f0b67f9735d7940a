"""Drawings of a volume by Pillow: its six faces, its skeleton seen along the three axes, slices through its middle, and all slices small for the page.

They are about the black and white volume, which lies in the folder; the slices show the values of the file, too. Nothing is measured off them.
"""
from __future__ import annotations

from collections.abc import Iterator, Sequence
from dataclasses import dataclass
from functools import cached_property
from typing import Any

import numpy as np

from .blocks import has_two_values
from .graphs import pairs_of
from .images import pillow
from .lettering import QUIET, bar, pen_of, sheet_of, spelled_as, text
from .overlay import OUTER, THUMBNAIL, shown
from .spacing import Spacing

# How wide a drawing is at least about, and a slice of the page at most; and how many of these there are at most.
WIDE, TILE, TILES = 1900, 256, 64
_PAPER, _NEAR, _FAR, _SHADOW = np.array([255.0] * 3), np.array([233.0, 214.0, 178.0]), np.array([70.0, 78.0, 104.0]), np.array([226.0, 227.0, 232.0])
_LINE_NEAR, _LINE_FAR = np.array([86.0, 10.0, 122.0]), np.array([206.0, 200.0, 216.0])
# The lines of a skeleton cover at most this part of a view.
_COVERED = 0.15


@dataclass(frozen=True)
class Solid:
    """A volume [z, y, x], the values of its file, of which one voxel of the volume is `fit` wide, and the size of a voxel where it is told."""

    mask: np.ndarray
    original: np.ndarray
    fit: int = 1
    spacing: Spacing | None = None

    def faces(self) -> bytes:
        """The six faces as a PNG: the box unfolded about the face z -, each seen from outside, lit from the upper left and darker the deeper it lies."""
        depth, height, width = self.mask.shape
        scale, size, gap = _scale(2 * (width + depth)), 22, 34
        sheet = sheet_of(round(scale * 2 * (width + depth)) + 5 * gap, round(scale * (height + 2 * depth)) + 4 * gap + 2 * size)
        pen = pen_of(sheet)
        rows = [gap, 2 * gap + round(scale * depth), 3 * gap + round(scale * (depth + height))]
        columns = [gap, 2 * gap + round(scale * depth), 3 * gap + round(scale * (depth + width)), 4 * gap + round(scale * (2 * depth + width))]
        for name, (across, down), (column, row), view in _faces(self.mask):
            picture = _pasted(sheet, _lit(view, self.mask.shape), (columns[column], rows[row]), scale)
            _letters(pen, name, across, down, (columns[column], rows[row]), picture.size, size)
        bar(pen, (columns[2], sheet.size[1] - gap), min(scale * (width + depth), 400), scale, self._own, size)
        return spelled_as(sheet, "PNG")

    def skeleton(self, points: np.ndarray) -> bytes:
        """Three views of a skeleton, whose points are these (x, y, z), as a PNG: lines fade the deeper they lie, over the shadow of the object. Lines end where they
        would cover the view; how deep that is stands below."""
        depth, height, width = self.mask.shape
        scale, size, gap = _scale(2 * width + depth), 22, 44
        sheet = sheet_of(round(scale * (2 * width + depth)) + 4 * gap, round(scale * max(height, depth)) + 2 * gap + 3 * size)
        pen, left, pairs = pen_of(sheet), gap, pairs_of(points)
        for axis, name, (across, down) in ((2, "along z", ("x", "y")), (1, "along y", ("x", "z")), (0, "along x", ("z", "y"))):
            shadow = self.mask.any(2 - axis)
            shadow = shadow.T if axis == 0 else shadow
            picture = _pasted(sheet, np.where(shadow[..., None], _SHADOW, _PAPER), (left, gap), scale)
            deepest = _lines(pen, points, pairs, axis, (left, gap), scale, shadow.size)
            _letters(pen, name, across, down, (left, gap), picture.size, size)
            if deepest < points[:, axis].max(initial=0):
                text(pen, (left + picture.size[0] / 2, gap + picture.size[1] + 1.6 * size), f"lines down to {deepest} voxels", size * 3 // 4, QUIET)
            left += picture.size[0] + gap
        bar(pen, (gap, sheet.size[1] - gap // 2), min(scale * width, 400), scale, self._own, size)
        return spelled_as(sheet, "PNG")

    def slices(self) -> bytes:
        """The three slices through the middle as a PNG, with the borders of the object."""
        depth, height, width = self.mask.shape
        scale, size, gap = _scale(2 * width + depth), 22, 44
        sheet = sheet_of(round(scale * (2 * width + depth)) + 4 * gap, round(scale * max(height, depth)) + 2 * gap + 2 * size)
        pen, left = pen_of(sheet), gap
        for axis, (across, down) in enumerate((("x", "y"), ("x", "z"), ("z", "y"))):
            at = self.mask.shape[axis] // 2
            picture = _pasted(sheet, self._bordered(axis, at), (left, gap), scale / self.fit)
            _letters(pen, f"{'zyx'[axis]} = {at}", across, down, (left, gap), picture.size, size)
            left += picture.size[0] + gap
        bar(pen, (gap, sheet.size[1] - gap // 2), min(scale * width, 400), scale, self._own, size)
        return spelled_as(sheet, "PNG")

    def thumbnail(self) -> bytes:
        """The middle slice with the borders of the object, as a JPEG for the page."""
        image_of, _ = pillow()
        picture = image_of.fromarray(self._bordered(0, len(self.mask) // 2))
        scale = THUMBNAIL / max(picture.size)
        sides = max(1, round(picture.size[0] * scale)), max(1, round(picture.size[1] * scale))
        return spelled_as(picture.resize(sides, image_of.BOX if scale < 1 else image_of.NEAREST), "JPEG")

    def sheet(self) -> bytes:
        """Slices from the first to the last, evenly apart, side by side in one JPEG, as `Tiles` tells."""
        image_of, _ = pillow()
        tiles = Tiles.of(self.mask.shape[::-1], self.original.shape[::-1])
        sheet = sheet_of(tiles.row * tiles.width, -(-len(tiles.places) // tiles.row) * tiles.height)
        for k, at in enumerate(tiles.places):
            tile = image_of.fromarray(self._bordered(0, at)).resize((tiles.width, tiles.height), image_of.NEAREST if tiles.width >= self.original.shape[2] else image_of.BOX)
            sheet.paste(tile, (k % tiles.row * tiles.width, k // tiles.row * tiles.height))
        return spelled_as(sheet, "JPEG")

    @cached_property
    def _most(self) -> Any:
        """The greater of the two values of the file, where it has no more; else None."""
        return self.original.max() if has_two_values(self.original) else None

    @property
    def _own(self) -> Spacing | None:
        return self.spacing.by(self.fit) if self.spacing else None

    def _bordered(self, axis: int, at: int) -> np.ndarray:
        """A slice of the file in colours, with the outermost points of the object in it marked."""
        values = self.original.take(min(at * self.fit + self.fit // 2, self.original.shape[axis] - 1), axis)
        own = self.mask.take(at, axis).repeat(self.fit, 0).repeat(self.fit, 1)[: values.shape[0], : values.shape[1]]
        values, own = (values.T, own.T) if axis == 2 else (values, own)
        inside = np.pad(own, 1)
        around = [np.roll(inside, step, side) for side in (0, 1) for step in (-1, 1)]
        values = values == self._most if self._most is not None else values
        colours = np.repeat(shown(np.ascontiguousarray(values))[:, :, None], 3, 2)
        colours[(inside & ~np.logical_and.reduce(around))[1:-1, 1:-1]] = OUTER
        return colours


@dataclass(frozen=True)
class Tiles:
    """How the slices of a volume lie in its sheet: which they are, how many stand in a row, and the sides of each."""

    places: list[int]
    row: int
    width: int
    height: int

    @classmethod
    def of(cls, sides: Sequence[int], original: Sequence[int]) -> Tiles:
        """That of a volume with these sides, whose file has those."""
        longest = max(original[:2])
        scale = TILE // longest if longest < TILE else TILE / longest
        places = np.unique(np.linspace(0, sides[2] - 1, min(sides[2], TILES)).round().astype(int)).tolist()
        wide, high = (max(1, round(side * scale)) for side in original[:2])
        return cls(places, int(np.ceil(np.sqrt(len(places)))), wide, high)


def _scale(width: int) -> float:
    """How many points wide a voxel is in a drawing of so many voxels: a whole number, or less than one."""
    return max(1, round(WIDE / width)) if width <= 2 * WIDE else 2 * WIDE / width


def _pasted(sheet: Any, colours: np.ndarray, at: tuple[int, int], scale: float) -> Any:
    """Puts a picture [y, x, 3] at a place, so many times as wide; the picture as it is there."""
    image_of, _ = pillow()
    height, width = colours.shape[:2]
    picture = image_of.fromarray(colours.astype(np.uint8)).resize((max(1, round(width * scale)), max(1, round(height * scale))), image_of.NEAREST if scale >= 1 else image_of.BOX)
    sheet.paste(picture, at)
    return picture


def _letters(pen: Any, name: str, across: str, down: str, at: tuple[int, int], sides: tuple[int, int], size: int) -> None:
    """The name of a view above it, and along it the letters of its axes, each with an arrow where it grows."""
    (x, y), (width, height) = at, sides
    pen.rectangle([x - 1, y - 1, x + width, y + height], outline=QUIET)
    text(pen, (x + 4, y - size * 0.7), name, size, anchor="lm")
    text(pen, (x + width - 4, y - size * 0.7), f"{across} \u2192" if across[0] != "-" else f"\u2190 {across[1]}", size, QUIET, "rm")
    text(pen, (x - 4, y + height - size * 0.6), f"{down[-1]}\n".strip(), size, QUIET, "rm")
    text(pen, (x - 4, y + height - size * 1.7), "\u2193" if down[0] != "-" else "\u2191", size, QUIET, "rm")


def _faces(mask: np.ndarray) -> Iterator[tuple[str, tuple[str, str], tuple[int, int], np.ndarray]]:
    """The six faces of a volume [z, y, x]: its name, which axes go across and down (with a stroke where they go back), its place in the unfolded box, and the volume turned
    so that its first axis goes away from who looks, and then come those down and across."""
    yield "z -", ("x", "y"), (1, 1), mask
    yield "z +", ("-x", "y"), (3, 1), mask[::-1, :, ::-1]
    yield "x -", ("-z", "y"), (0, 1), mask.transpose(2, 1, 0)[:, :, ::-1]
    yield "x +", ("z", "y"), (2, 1), mask.transpose(2, 1, 0)[::-1]
    yield "y -", ("x", "-z"), (1, 0), mask.transpose(1, 0, 2)[:, ::-1]
    yield "y +", ("x", "z"), (1, 2), mask.transpose(1, 0, 2)[::-1]


def _lit(view: np.ndarray, shape: tuple[int, ...]) -> np.ndarray:
    """A view of a volume along its first axis in colours: the nearest voxel at each place, lit by how its surface is inclined."""
    is_there, depth = view.any(0), view.argmax(0).astype(float)
    depth[~is_there] = len(view)
    down, across = (_mean(np.clip(slope, -1.5, 1.5)) for slope in (np.gradient(depth) if min(depth.shape) > 1 else (np.zeros(depth.shape),) * 2))
    light = (1 + 0.55 * across + 0.75 * down) / np.sqrt(1 + across**2 + down**2) / np.sqrt(1 + 0.55**2 + 0.75**2)
    shade = 0.42 + 0.72 * np.clip(light, 0, 1)
    near = np.exp(-depth / (0.3 * max(shape)))[..., None]
    colours = np.clip((_FAR + (_NEAR - _FAR) * near) * shade[..., None], 0, 255)
    return np.where(is_there[..., None], colours, _PAPER)


def _mean(values: np.ndarray) -> np.ndarray:
    """The mean of each value and the eight about it."""
    wide = np.pad(values, 1, mode="edge")
    height, width = values.shape
    return sum(wide[y : y + height, x : x + width] for y in range(3) for x in range(3)) / 9


def _lines(pen: Any, points: np.ndarray, pairs: np.ndarray, axis: int, at: tuple[int, int], scale: float, area: float) -> int:
    """Draws the lines between neighbouring points, seen along an axis, from the deepest to the nearest; the depth of the deepest. There are as many as leave the view to be seen."""
    if not len(points):
        return 0
    across, down = {2: (0, 1), 1: (0, 2), 0: (2, 1)}[axis]
    depth = points[:, axis]
    order = np.argsort(depth, kind="stable")
    keys = points[order][:, [across, down]] @ np.array([1, 1 << 20])
    first = np.sort(np.unique(keys, return_index=True)[1])
    most = max(1, int(_COVERED * area))
    deepest = int(depth[order][first[most]]) if len(first) > most else int(depth.max())
    whole = max(1, deepest)
    places = (_smooth(points, pairs)[:, [across, down]] + 0.5) * scale + np.array(at)
    kept = pairs[(depth[pairs] <= deepest).all(1)] if len(pairs) else pairs
    kept = kept[np.argsort(-depth[kept].mean(1), kind="stable")] if len(kept) else kept
    alone = np.setdiff1d(np.flatnonzero(depth <= deepest), kept)
    wide = max(1, int(np.ceil(scale * 0.6)))
    for one, other in kept.tolist():
        far = ((depth[one] + depth[other]) / 2 / whole) ** 0.8
        pen.line([*places[one], *places[other]], tuple((_LINE_NEAR + (_LINE_FAR - _LINE_NEAR) * far).astype(int)), wide)
    for one in alone.tolist():
        pen.point(tuple(places[one]), tuple(_LINE_NEAR.astype(int)))
    return deepest


def _smooth(points: np.ndarray, pairs: np.ndarray) -> np.ndarray:
    """The points of lines, each the mean of itself and its neighbours, and that once more: lines run straighter so."""
    found, counts = points.astype(float), np.ones(len(points)) + np.bincount(pairs.ravel(), minlength=len(points))
    for _ in range(2):
        sums = found.copy()
        for one, other in ((0, 1), (1, 0)):
            np.add.at(sums, pairs[:, one], found[pairs[:, other]])
        found = sums / counts[:, None]
    return found
