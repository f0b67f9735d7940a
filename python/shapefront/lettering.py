"""Sheets to draw volumes on, with letters and scale bars, by Pillow."""
from __future__ import annotations

import io
from decimal import Decimal
from functools import lru_cache
from typing import Any

from .images import pillow
from .spacing import Spacing, spelled

INK, QUIET = (40, 40, 48), (120, 120, 132)


def sheet_of(width: int, height: int) -> Any:
    """A white sheet."""
    image_of, _ = pillow()
    return image_of.new("RGB", (width, height), "white")


def pen_of(sheet: Any) -> Any:
    """What draws on a sheet."""
    from PIL import ImageDraw

    return ImageDraw.Draw(sheet)


def spelled_as(sheet: Any, kind: str) -> bytes:
    """The bytes of a sheet as a PNG or a JPEG."""
    out = io.BytesIO()
    sheet.save(out, kind, **({"quality": 80} if kind == "JPEG" else {"compress_level": 4}))
    return out.getvalue()


@lru_cache
def font(size: int) -> Any:
    """A font of that size where the system has the common one, else that of Pillow."""
    from PIL import ImageFont

    try:
        return ImageFont.truetype("DejaVuSans-Bold.ttf", size)
    except OSError:
        return ImageFont.load_default()


def text(pen: Any, at: tuple[float, float], words: str, size: int, fill: tuple[int, int, int] = INK, anchor: str = "mm") -> None:
    """Writes words at a place, which is the middle of them or what the anchor says."""
    own = font(size)
    try:
        pen.text(at, words, fill=fill, font=own, anchor=anchor)
    except ValueError:  # a font of bits knows no anchors
        pen.text(at, words, fill=fill, font=own)


def bar(pen: Any, at: tuple[float, float], width: float, scale: float, spacing: Spacing | None, size: int) -> None:
    """A scale bar that begins at a place and is at most so many points wide, where a voxel is `scale` of them: with its length in the unit, where voxels are cubes
    of a told size, and else in voxels."""
    voxel = spacing.sizes[0] if spacing and spacing.is_cubic and spacing.unit else Decimal(1)
    length = _round_below(Decimal(width / scale) * voxel)
    x, y = at
    end = x + float(length / voxel) * scale
    pen.line([(x, y), (end, y)], INK, max(2, size // 6))
    for place in (x, end):
        pen.line([(place, y - size // 3), (place, y + size // 3)], INK, max(2, size // 8))
    told = f"{spelled(length)} {spacing.unit.replace('um', 'µm')}" if voxel != 1 or spacing and spacing.unit and spacing.is_cubic else f"{spelled(length)} voxel{'' if length == 1 else 's'}"
    text(pen, ((x + end) / 2, y - size), told, size)


def _round_below(length: Decimal) -> Decimal:
    """The greatest of 1, 2 and 5 times a power of ten that is no more than a length."""
    power = Decimal(10) ** length.adjusted()
    return next(step * power for step in (5, 2, 1) if step * power <= length)
