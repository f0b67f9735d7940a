"""The local thickness as a picture with a colour bar, by matplotlib: of a flat picture the whole, of a volume three slices through its middle.

It shows the mask that `shape mask thickness` writes, in hundredths of a pixel. Nothing is measured off it; colours and sizes are changed here.
"""
from __future__ import annotations

import importlib.util
import io
import re
from collections.abc import Iterator, Sequence
from dataclasses import dataclass
from pathlib import Path

import numpy as np

from .units import Pixel

# How wide a drawing is in inches, and how many points an inch has; and how many points a side of what is drawn has at most.
_WIDE, _DENSITY, _MOST = 12.0, 130, 2048
_PGM = re.compile(rb"P5\s(\d+)\s(\d+)\s\d+\s")


def can_draw() -> bool:
    """Whether matplotlib is installed."""
    return importlib.util.find_spec("matplotlib") is not None


def widths_in(path: Path, sides: Sequence[int]) -> np.ndarray:
    """The mask in a file, of a picture or a volume with these sides: the thickness in hundredths, [y, x] or [z, y, x], 0 where no object is."""
    if len(sides) == 3:
        return np.memmap(path, "<u2", "r", shape=tuple(sides)[::-1])
    data = path.read_bytes()
    head = _PGM.match(data)
    return np.frombuffer(data, ">u2", offset=head.end() if head else 0).reshape(tuple(sides)[::-1])


@dataclass(frozen=True)
class View:
    """What is drawn of a thickness: its name, the letters of the axes across and down, and the values [down, across] in hundredths."""

    name: str
    across: str
    down: str
    values: np.ndarray


def views_of(widths: np.ndarray) -> Iterator[View]:
    """All of a flat picture; of a volume the three slices through its middle."""
    if widths.ndim == 2:
        yield View("", "x", "y", widths)
        return
    z, y, x = (side // 2 for side in widths.shape)
    yield View(f"z = {z}", "x", "y", widths[z])
    yield View(f"y = {y}", "x", "z", widths[:, y])
    yield View(f"x = {x}", "z", "y", widths[:, :, x].T)


def drawing(widths: np.ndarray, pixel: Pixel | None) -> bytes:
    """The drawing as a PNG: lengths in the unit of the pixel's size, where that is told, and else in pixels. matplotlib has to be installed."""
    from matplotlib.backends.backend_agg import FigureCanvasAgg
    from matplotlib.figure import Figure

    views, size = list(views_of(widths)), float(pixel.size) if pixel else 1.0
    unit = pixel.unit.replace("um", "\u00b5m") if pixel else "pixels" if widths.ndim == 2 else "voxels"
    across, down = sum(view.values.shape[1] for view in views), max(view.values.shape[0] for view in views)
    figure = Figure(figsize=(_WIDE, max(2.5, min(_WIDE, (_WIDE - 1.5) * down / across + 1.2))), dpi=_DENSITY, layout="constrained")
    FigureCanvasAgg(figure)
    axes = figure.subplots(1, len(views), squeeze=False, gridspec_kw={"width_ratios": [view.values.shape[1] for view in views]})[0]
    most = max(int(view.values.max(initial=0)) for view in views) * size / 100 or 1.0
    for axis, view in zip(axes, views):
        shown = _drawn(axis, view, size, most, unit)
    bar = figure.colorbar(shown, ax=list(axes), fraction=0.04, pad=0.02)
    bar.set_label(f"local thickness ({unit})")
    out = io.BytesIO()
    figure.savefig(out, format="png")
    return out.getvalue()


def _drawn(axis, view: View, size: float, most: float, unit: str):
    """One view on its axes; the image that it is."""
    height, width = view.values.shape
    values = _smaller(view.values) * (size / 100)
    axis.set_facecolor("#e9e9ee")
    shown = axis.imshow(
        np.ma.masked_equal(values, 0), cmap="viridis", vmin=0, vmax=most, interpolation="nearest", extent=(0, width * size, height * size, 0),
    )  # fmt: skip
    axis.set_title(view.name, fontsize=10)
    axis.set_xlabel(f"{view.across} ({unit})")
    axis.set_ylabel(f"{view.down} ({unit})")
    return shown


def _smaller(values: np.ndarray) -> np.ndarray:
    """The greatest values of blocks, where there are more points than can be seen."""
    step = -(-max(values.shape) // _MOST)
    if step == 1:
        return np.asarray(values)
    for axis in (0, 1):
        values = np.maximum.reduceat(values, np.arange(0, values.shape[axis], step), axis)
    return values
