"""The original image with the borders of its objects and their numbers over it, by Pillow; what is drawn comes out of the report and the table.

Beside the drawing it makes what a page shows of the image: a thumbnail, and a map that has for each of its points the number of the object there.
"""
from __future__ import annotations

import io
from collections.abc import Iterable, Iterator
from dataclasses import dataclass, field
from functools import lru_cache
from typing import Any

import numpy as np

from .images import pillow
from .packing import png
from .report import borders_of

# The longest side of a drawing is at most the first, small images are enlarged to about the second, and that of a thumbnail is the third.
LONGEST, WANTED, THUMBNAIL = 4096, 1200, 512
OUTER, INNER, INK = (255, 64, 32), (0, 153, 255), (120, 0, 160)
# How wide the white rim of a number is.
_RIM = 2
# A drawing over an image of at most so many grey levels has a palette: these levels, shades from the ink of numbers to white, and the colours of borders.
# So it is half as large, and written in half the time.
GREYS, _SHADES = 246, 8
_COLOURS = (*(round(ink + (255 - ink) * k / (_SHADES - 1)) for k in range(_SHADES) for ink in INK), *OUTER, *INNER)


@dataclass(frozen=True)
class Border:
    """A closed border: its points (x, y) in pixels of the picture, the number of its object, and whether it is that of a hole."""

    points: np.ndarray
    number: int
    is_hole: bool


@dataclass(frozen=True)
class Number:
    """The number of an object, its deepest point in pixels of the picture, how far it is from the background there, and its area."""

    text: str
    x: float
    y: float
    radius: float
    area: float


def borders(report: bytes) -> list[Border]:
    """The borders of the text of a report, each before those that lie inside it; a hole has the number 0."""
    heads, points = borders_of(report)
    ends = np.cumsum(heads[:, 3])
    found, number = [], 0
    for (x, y, side, count), end in zip(heads[:, :4].tolist(), ends.tolist()):
        number += side != 2
        found.append(Border(points[end - count : end], 0 if side == 2 else number, side == 2))
    return sorted(found, key=lambda border: (*border.points[0][::-1].tolist(), border.is_hole))


def numbers(rows: Iterable[dict[str, str]], name: str = "object") -> list[Number]:
    """The numbers of the objects of a table, each at the deepest point of its object; none where the table has no such column."""
    return [Number(row[name], float(row["cx"]), float(row["cy"]), float(row["radius"]), float(row["area"])) for row in rows if "cx" in row]


def branches(report: bytes) -> tuple[list[Border], list[Number]]:
    """The branches of a network, by the report of their picture, as lines; and their numbers, each at the point next to the middle of its branch."""
    found = [border for border in borders(report) if not border.is_hole]
    places = [border.points[np.argmin(((border.points - border.points.mean(0)) ** 2).sum(1))] for border in found]
    return found, [Number(str(border.number), *map(float, place), 0.0, len(border.points)) for border, place in zip(found, places)]


@dataclass(frozen=True)
class Overlay:
    """An image [y, x] or, in colours, [y, x, 3], with the borders and numbers of its picture, of which one pixel is `fit` of the image's wide; and for each
    point of the picture the number of the row that it is of, 0 for background."""

    image: np.ndarray
    borders: list[Border]
    numbers: list[Number]
    fit: int = 1
    rows: np.ndarray = field(default_factory=lambda: np.zeros((1, 1), np.int32))

    def drawing(self, thick: int = 1) -> bytes:
        """The drawing as a PNG: the image, enlarged by whole numbers where it is small, its borders so many times as thick as they are usually, and as many
        numbers as find room."""
        image_of, _ = pillow()
        longest = max(self.image.shape[:2])
        scale = max(1, round(WANTED / longest)) if longest <= LONGEST else LONGEST / longest
        sheet = self._sheet(scale, image_of.NEAREST if scale > 1 else image_of.BOX)
        self._draw_borders(sheet, scale, thick * max(1, round(longest * scale / WANTED)))
        self._draw_numbers(sheet, scale)
        return png(np.array(sheet), sheet.getpalette() if sheet.mode == "P" else ())

    def thumbnail(self) -> bytes:
        """The image with its borders, as a JPEG whose longest side has `THUMBNAIL` pixels."""
        image_of, _ = pillow()
        scale = 2 * THUMBNAIL / max(self.image.shape[:2])
        sheet = self._sheet(scale, image_of.BOX if scale < 1 else image_of.NEAREST)
        self._draw_borders(sheet, scale, 2)
        out = io.BytesIO()
        sheet.convert("RGB").reduce(2).save(out, "JPEG", quality=80)
        return out.getvalue()

    def places(self) -> bytes:
        """The numbers of the rows at each point of the thumbnail, as a PNG: red and 256 times green and 65536 times blue; 0 is background."""
        values, scale = self.rows, THUMBNAIL / max(self.image.shape[:2])
        for axis, side in enumerate(reversed(self._sides(scale))):
            first = np.minimum((np.arange(side) / (scale * self.fit)).astype(int), values.shape[axis] - 1)
            values = np.maximum.reduceat(values, first, axis) if scale * self.fit < 1 else values.take(first, axis)
        return png(np.stack([values >> shift & 255 for shift in (0, 8, 16)], 2).astype(np.uint8))

    def _sides(self, scale: float) -> tuple[int, int]:
        height, width = self.image.shape[:2]
        return max(1, round(width * scale)), max(1, round(height * scale))

    def _sheet(self, scale: float, way: int) -> Any:
        """The image at a scale, with each of its grey levels as it is: with a palette where it has room for them all, else in colours."""
        image_of, _ = pillow()
        sheet = image_of.fromarray(shown(self.image)).resize(self._sides(scale), way)
        levels = [level for level, count in enumerate(sheet.histogram()) if count] if sheet.mode == "L" else []
        if not 0 < len(levels) <= GREYS:
            return sheet.convert("RGB")
        places = {level: place for place, level in enumerate(levels)}
        sheet = sheet.point([places.get(level, 0) for level in range(256)])
        sheet.putpalette(_palette(levels))
        return sheet

    def _placed(self, points: np.ndarray, scale: float) -> np.ndarray:
        """Where points of the picture lie in a drawing: its first pixel has its middle at 0, 0, as the picture's has."""
        return ((points + 0.5) * self.fit) * scale - 0.5

    def _lines(self, scale: float) -> Iterator[list[float]]:
        """The points of each border in a drawing, each as its x and its y."""
        if self.borders:
            flat, end = self._placed(np.concatenate([border.points for border in self.borders]), scale).ravel().tolist(), 0
            for border in self.borders:
                end += 2 * len(border.points)
                yield flat[end - 2 * len(border.points) : end]

    def _draw_borders(self, sheet: Any, scale: float, width: int) -> None:
        """The borders of holes over the others: as points where these are next to one another, which is quicker, and else as lines."""
        if scale <= 1:
            for colour, is_hole in ((OUTER, False), (INNER, True)):
                if own := [border.points for border in self.borders if border.is_hole == is_hole]:
                    _paint(sheet, np.rint(self._placed(np.concatenate(own), scale)).astype(int), colour, width)
            return
        pen = _pen(sheet)
        for border, points in zip(self.borders, self._lines(scale)):
            colour = INNER if border.is_hole else OUTER
            if len(points) == 2:
                pen.point(points, colour)
            else:
                pen.line(points + points[:2], colour, width)

    def _draw_numbers(self, sheet: Any, scale: float) -> None:
        """The numbers, those of the greatest objects first, beside an object that is smaller; one that would lie over another is left out."""
        size = max(11, max(sheet.size) // 90)
        taken = np.zeros((sheet.size[1] // 4 + 1, sheet.size[0] // 4 + 1), bool)
        places = self._placed(np.array([(number.x, number.y) for number in self.numbers]).reshape(-1, 2), scale).tolist()
        for number, (x, y) in sorted(zip(self.numbers, places), key=lambda own: -own[0].area):
            signs = [_sign(sign, size, sheet.mode) for sign in number.text]
            width, height = sum(sign.width - 2 * _RIM for sign, _ in signs), signs[0][0].height
            if (radius := number.radius * self.fit * scale) < width / 2:
                x += radius + width / 2 + 1
            left, top = (int(min(max(at - own / 2, 0), side - own)) for at, own, side in ((x, width, sheet.size[0]), (y, height, sheet.size[1])))
            place = slice(max(0, top) // 4, (top + height) // 4 + 1), slice(max(0, left) // 4, (left + width) // 4 + 1)
            if taken[place].any():
                continue
            taken[place] = True
            for sign, shape in signs:
                sheet.paste(sign, (left - _RIM, top), shape)
                left += sign.width - 2 * _RIM


def coloured(labels: np.ndarray) -> np.ndarray:
    """A label image in colours: those of labels that follow one another lie far apart, and 0 is nearly black."""
    found, where = np.unique(labels, return_inverse=True)
    hues = np.where(found == 0, 0.0, np.arange(len(found)) * 0.381966 % 1)
    colours = 0.55 + 0.25 * np.cos(2 * np.pi * (hues[:, None] + np.array([0, 1 / 3, 2 / 3])))
    colours[found == 0] = 0.1
    return (colours * 255).astype(np.uint8)[where].reshape(*labels.shape, 3)


def shown(image: np.ndarray) -> np.ndarray:
    """An image as one of eight bits that an eye can see: other values than those of eight bits are spread over so many of them as a palette has room for, but
    for one in a thousand at both ends."""
    if image.dtype == bool:
        return image.astype(np.uint8) * 255
    if image.dtype == np.uint8:
        return image
    values = image.astype(np.float64)
    few = values[:: max(1, values.shape[0] // 512), :: max(1, values.shape[1] // 512)]
    low, high = np.nanquantile(few, [0.001, 0.999])
    if low == high:
        low, high = np.nanmin(values), np.nanmax(values)
    places = (np.nan_to_num(np.clip((values - low) / ((high - low) or 1), 0, 1)) * (GREYS - 1)).astype(np.uint8)
    return np.rint(np.arange(GREYS) * (255 / (GREYS - 1))).astype(np.uint8)[places]


def _palette(levels: list[int]) -> list[int]:
    """The palette of a drawing over an image with these grey levels, which come first; the other colours come last."""
    return [own for level in levels for own in (level,) * 3] + [0] * 3 * (GREYS - len(levels)) + [*_COLOURS]


def _paint(sheet: Any, points: np.ndarray, colour: tuple[int, int, int], width: int) -> None:
    """Paints a square of this width about each of these points (x, y)."""
    image_of, _ = pillow()
    shape = np.zeros(sheet.size[::-1], np.uint8)
    steps = range((1 - width) // 2, (1 - width) // 2 + width)
    columns, rows = ([np.clip(own + step, 0, side - 1) for step in steps] for own, side in zip(points.T, sheet.size))
    for row in rows:
        for column in columns:
            shape[row, column] = 255
    sheet.paste(GREYS + _SHADES + (colour == INNER) if sheet.mode == "P" else colour, None, image_of.fromarray(shape))


@lru_cache
def _sign(text: str, size: int, mode: str) -> tuple[Any, Any]:
    """A sign of a number on a rim of white, as a small picture in a mode of colours, and its shape: it is drawn once and then copied, which is far quicker."""
    image_of, _ = pillow()
    font = _font(size)
    left, top, _, bottom = font.getbbox("0")
    sides = (font.getbbox(text)[2] - left + 2 * _RIM, bottom - top + 2 * _RIM)
    ink, shape = image_of.new("L", sides), image_of.new("L", sides)
    _pen(ink).text((_RIM - left, _RIM - top), text, 255, font)
    for x in range(-_RIM, _RIM + 1):
        for y in range(-_RIM, _RIM + 1):
            if x * x + y * y <= _RIM * _RIM:
                _pen(shape).text((_RIM - left + x, _RIM - top + y), text, 255, font)
    sign = ink.point([GREYS + _SHADES - 1 - k * (_SHADES - 1) // 255 for k in range(256)])
    sign.putpalette(_palette([0]))
    return sign.convert(mode) if mode != "P" else sign, shape.point([0] * 96 + [255] * 160).convert("1")


@lru_cache
def _font(size: int) -> Any:
    """A font of that size where the system has the common one, else that of Pillow."""
    from PIL import ImageFont

    try:
        return ImageFont.truetype("DejaVuSans-Bold.ttf", size)
    except OSError:
        return ImageFont.load_default()


def _pen(sheet: Any) -> Any:
    from PIL import ImageDraw

    return ImageDraw.Draw(sheet)
