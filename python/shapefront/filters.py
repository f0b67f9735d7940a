"""What is done to an image before its threshold, and to its picture after it, where a user asks for it. It comes before the proved part, and is told.

Lengths are in pixels of the picture, sizes in as many of its pixels.
"""
from __future__ import annotations

from dataclasses import dataclass
from typing import Any

import numpy as np

from .components import numbered
from .faults import Missing


def scipy_images() -> Any:
    """The module `ndimage` of scipy. Missing where it is not installed."""
    try:
        from scipy import ndimage
    except ImportError as error:
        raise Missing("scipy", "this Python package is not installed", "`apt install python3-scipy`, or `pip install scipy`") from error
    return ndimage


@dataclass(frozen=True)
class Filters:
    """What a user asked for, in the order in which it is done: on grey values the background taken off and smoothing, each by a Gaussian
    of this standard deviation; on the picture holes filled, objects left out that touch its border, and those of fewer pixels than `min_size`."""

    background: float | None = None
    smooth: float | None = None
    fill_holes: bool = False
    exclude_border: bool = False
    min_size: int | None = None

    @classmethod
    def told(cls, options: dict[str, Any]) -> Filters:
        """The filters that the options of a run or a command tell."""
        return cls(*(options[name] for name in cls.__dataclass_fields__))

    def before(self, values: np.ndarray) -> tuple[np.ndarray, tuple[str, ...]]:
        """The grey values that are cut by the threshold, and in words what was done. Whole numbers stay whole, rounded."""
        notes = []
        if self.background is not None:
            values = _rounded(values - _blurred(values, self.background), values.dtype, np.int64)
            notes.append(f"background taken off: the Gaussian mean of {self.background:g} {_points(values)}; the threshold is on the differences")
        if self.smooth is not None:
            values = _rounded(_blurred(values, self.smooth), values.dtype, values.dtype)
            notes.append(f"smoothed by a Gaussian of {self.smooth:g} {_points(values)}")
        return values, tuple(notes)

    def after(self, mask: np.ndarray) -> tuple[np.ndarray, tuple[str, ...]]:
        """The picture with what is asked for done to it, and in words what was done."""
        notes = []
        if self.fill_holes:
            filled = ~holes_of(mask, with_outside=True)
            notes.append(f"holes filled: {int((filled & ~mask).sum())} {_points(mask)}")
            mask = filled
        if self.exclude_border or self.min_size is not None:
            objects = numbered(mask, by_corners=True)
            if self.exclude_border:
                mask, count = _without(mask, objects, _on_border(objects))
                notes.append(f"left out as they touch the border: {_count(count)}")
            if self.min_size is not None:
                sizes = np.bincount(objects[mask], minlength=1)
                mask, count = _without(mask, objects, np.flatnonzero((sizes > 0) & (sizes < self.min_size)))
                notes.append(f"left out as they have fewer than {self.min_size} {_points(mask)}: {_count(count)}")
        return mask, tuple(notes)

    def on_labels(self, labels: np.ndarray) -> tuple[np.ndarray, tuple[str, ...]]:
        """A label image with the same done to each label by itself: its holes filled where they have no label, and labels left out."""
        notes: list[str] = []
        if self.fill_holes:
            labels, count = _filled(labels)
            notes.append(f"holes of labels filled: {count} {_points(labels)}")
        if self.exclude_border:
            labels, notes = _unlabelled(labels, _on_border(labels), "they touch the border", notes)
        if self.min_size is not None:
            values, sizes = np.unique(labels, return_counts=True)
            small = values[(values > 0) & (sizes < self.min_size)]
            labels, notes = _unlabelled(labels, small, f"they have fewer than {self.min_size} {_points(labels)}", notes)
        return labels, tuple(notes)


def _points(array: np.ndarray) -> str:
    """What the points of an image are called."""
    return "pixels" if array.ndim == 2 else "voxels"


def _on_border(numbers: np.ndarray) -> np.ndarray:
    """The numbers above 0 of outermost points."""
    ends = np.unique(np.concatenate([numbers.take(place, axis).ravel() for axis in range(numbers.ndim) for place in (0, -1)]))
    return ends[ends > 0]


def _filled(labels: np.ndarray) -> tuple[np.ndarray, int]:
    """The labels with the holes of each filled that have no label, and how many pixels these are."""
    labels, count = labels.copy(), 0
    for value in np.unique(labels[labels > 0]):
        box = _box(labels == value)
        filled = holes_of(labels[box] == value) & (labels[box] == 0)
        labels[box][filled] = value
        count += int(filled.sum())
    return labels, count


def _box(mask: np.ndarray) -> tuple[slice, ...]:
    """The least box that holds all true points of a mask that has some."""
    found = [np.flatnonzero(mask.any(tuple(other for other in range(mask.ndim) if other != axis))) for axis in range(mask.ndim)]
    return tuple(slice(int(places[0]), int(places[-1]) + 1) for places in found)


def _unlabelled(labels: np.ndarray, values: np.ndarray, why: str, notes: list[str]) -> tuple[np.ndarray, list[str]]:
    """The labels without these, and the notes with a further one that tells it."""
    told = f"left out as {why}: {len(values)} label{'' if len(values) == 1 else 's'}"
    return np.where(np.isin(labels, values), 0, labels), [*notes, told]


def holes_of(mask: np.ndarray, with_outside: bool = False) -> np.ndarray:
    """The points of the holes of a picture's objects; or those outside in their place."""
    background = numbered(np.pad(~mask, 1, constant_values=True), by_corners=False)[(slice(1, -1),) * mask.ndim]
    return background == 1 if with_outside else background > 1


def _without(mask: np.ndarray, objects: np.ndarray, numbers: np.ndarray) -> tuple[np.ndarray, int]:
    """The picture without the objects of these numbers, and how many they are."""
    goes = np.zeros(int(objects.max(initial=0)) + 1, bool)
    goes[numbers] = True
    return mask & ~goes[objects], len(numbers)


def _count(count: int) -> str:
    return f"{count} object{'' if count == 1 else 's'}"


def _blurred(values: np.ndarray, deviation: float) -> np.ndarray:
    """The Gaussian mean about each pixel; beyond the border the outermost values go on."""
    return scipy_images().gaussian_filter(values.astype(np.float64), deviation, mode="nearest")


def _rounded(values: np.ndarray, kind: np.dtype, whole: Any) -> np.ndarray:
    return values if np.issubdtype(kind, np.floating) else np.rint(values).astype(np.uint8 if whole == bool else whole)
