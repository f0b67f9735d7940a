"""TIFF files by tifffile: those of which Pillow would keep a part, as of many channels of 16 bits, and those that it does not know.

Which axis is what is read off the file, as is which of its images are pages of one stack.
"""
from __future__ import annotations

from dataclasses import dataclass
from pathlib import Path
from typing import Any

import numpy as np

from .faults import Fault, Missing

_BITS, _SAMPLES, _PLANES, _ORIENTATION = 258, 277, 284, 274
_CHANNELS = "SC"
TURNED = "turned upright as its camera says"

# By the tag `orientation`: whether rows and columns change places, and then which axes are turned over.
_TURNS = {2: (0, (1,)), 3: (0, (0, 1)), 4: (0, (0,)), 5: (1, ()), 6: (1, (1,)), 7: (1, (0, 1)), 8: (1, (0,))}


@dataclass(frozen=True)
class Pages:
    """The pages of a file, indexed [page, y, x, channel]; `is_colour` where the first three channels are red, green and blue.

    `notes` tell in words what was done to them, and what is not used.
    """

    values: np.ndarray
    is_colour: bool
    notes: tuple[str, ...]


def better_read(path: Path, image: Any) -> Pages | None:
    """The pages of a TIFF that Pillow opened, where tifffile reads it better: of several pages, or of which Pillow would keep a part.

    None where Pillow reads it whole, as it does pages one by one that tifffile cannot. Missing or a Fault where neither does.
    """
    tags = image.tag_v2
    is_whole = tags.get(_SAMPLES, 1) == 1 or max(tags.get(_BITS, (1,))) <= 8 and tags.get(_PLANES, 1) == 1
    if is_whole and getattr(image, "n_frames", 1) == 1:
        return None
    try:
        found = pages(path)
    except Fault:
        if not is_whole:
            raise
        return None
    if found is None and not is_whole:
        raise Fault(path, "a TIFF of which Pillow would read a part, and tifffile nothing", "open it in another program and save it as PNG or TIFF")
    return found


def pages(path: Path) -> Pages | None:
    """The pages of a TIFF; None where it is none. Missing where tifffile is not installed, and a Fault where it cannot read this one."""
    try:
        import tifffile
    except ImportError as error:
        raise Missing("tifffile", "this Python package is not installed", "`apt install python3-tifffile`, or `pip install tifffile`") from error
    try:
        with tifffile.TiffFile(path) as file:
            return _of_series(path, file.series)
    except (Fault, MemoryError):
        raise
    except tifffile.TiffFileError:
        return None
    except Exception as error:  # noqa: BLE001  tifffile raises errors of many kinds
        remedy = "save it without compression" if "imagecodecs" in str(error) or "not supported" in str(error) else "is it a whole file? copy it again"
        raise Fault(path, f"a TIFF that cannot be read ({error})", remedy) from error


def _of_series(path: Path, series: list[Any]) -> Pages:
    """The images of a file that are as the first one is, as pages, each with its channels."""
    first, alike = series[0], [one for one in series if (one.shape, one.dtype) == (series[0].shape, series[0].dtype)]
    axes, values = ("P" if len(alike) > 1 else "") + first.axes, np.stack([one.asarray() for one in alike])
    values = values if len(alike) > 1 else values[0]
    many = [axis for axis, size in zip(axes, values.shape) if size > 1 and axis not in "YX"]
    channels, others = [axis for axis in many if axis in _CHANNELS], [axis for axis in many if axis not in _CHANNELS]
    if len(channels) > 1 or len(others) > 1 or "Y" not in axes or "X" not in axes:
        raise Fault(path, f"an image with the axes {axes}", "save one image of it, or one stack")
    kept = [axes.index(axis) for axis in [*others, "Y", "X", *channels]]
    values = values.transpose([*(k for k in range(values.ndim) if k not in kept), *kept])
    height, width = values.shape[-2 - len(channels) :][:2]
    values = values.reshape(-1, height, width, values.shape[-1] if channels else 1)
    values, notes = _upright(values, first.keyframe)
    if more := len(series) - len(alike):
        notes.append(f"{more} other image{'s' if more > 1 else ''} in its file, of another size or kind: not used")
    return Pages(values, first.keyframe.photometric == 2 and channels == ["S"] and values.shape[3] > 2, tuple(notes))


def _upright(values: np.ndarray, page: Any) -> tuple[np.ndarray, list[str]]:
    """The pages as they are to be seen, great values light."""
    notes = []
    if page.photometric == 0 and np.issubdtype(values.dtype, np.unsignedinteger):
        values, notes = np.iinfo(values.dtype).max - values, ["turned from white to black, as it says that 0 is white"]
    tag = page.tags.get(_ORIENTATION)
    if tag is not None and tag.value in _TURNS:
        values, told = turned(values, tag.value)
        notes.append(told)
    return values, notes


def turned(values: np.ndarray, orientation: int) -> tuple[np.ndarray, str]:
    """Pages [page, y, x, ..] as a tag `orientation` says that they are to be seen, and in words what was done."""
    swap, over = _TURNS.get(orientation, (0, ()))
    return np.flip(values.swapaxes(1, 2) if swap else values, [1 + axis for axis in over]), TURNED
