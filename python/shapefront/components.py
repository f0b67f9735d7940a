"""The connected sets of an image of truth values, numbered; by numpy alone, stretch by stretch of its rows."""
from __future__ import annotations

import itertools

import numpy as np

from secondreading.parts import join


def numbered(mask: np.ndarray, by_corners: bool) -> np.ndarray:
    """For each true point of a picture or a volume the number of its connected set, from 1 on in raster order of first points; 0 for the others.

    Points that touch at a corner belong together where `by_corners` says so, as points of objects do; else by sides alone, as those of holes do.
    """
    wide = _with_margin(mask)
    starts, ends, own = _stretches(wide, by_corners)
    found = np.zeros(wide.size, np.int32)
    found[starts], found[ends] = own, -own
    return np.cumsum(found, dtype=np.int32, out=found).reshape(wide.shape)[(slice(1, -1),) * mask.ndim]


def stretches(mask: np.ndarray, by_corners: bool) -> tuple[np.ndarray, np.ndarray]:
    """The stretches of true points in rows, in raster order: how long each is, and the number of its connected set as `numbered` gives it."""
    starts, ends, own = _stretches(_with_margin(mask), by_corners)
    return ends - starts, own


def _with_margin(mask: np.ndarray) -> np.ndarray:
    wide = np.zeros([side + 2 for side in mask.shape], bool)
    wide[(slice(1, -1),) * mask.ndim] = mask
    return wide


def _stretches(wide: np.ndarray, by_corners: bool) -> tuple[np.ndarray, np.ndarray, np.ndarray]:
    """Of an image with a margin of false points the places where stretches begin, and those behind their last points; and the numbers of their sets."""
    flat = wide.ravel()
    turns = np.flatnonzero(flat[1:] != flat[:-1]) + 1
    starts, ends = turns[::2], turns[1::2]
    number = np.arange(len(starts))
    reach = 1 if by_corners else 0
    for away in _rows_before(wide.shape, by_corners):
        first = np.searchsorted(ends, starts - away - reach, "right")
        last = np.searchsorted(starts, ends - away + reach, "left")
        join(number, *_pairs(first, last))
    is_first = number == np.arange(len(number))
    return starts, ends, np.cumsum(is_first, dtype=np.int32)[number]


def _rows_before(shape: tuple[int, ...], by_corners: bool) -> list[int]:
    """By how much the place of a point is greater than that of the one in the same column of each earlier row that its own row touches."""
    strides = [int(np.prod(shape[axis + 1 :])) for axis in range(len(shape) - 1)]
    steps = [step for step in itertools.product((-1, 0, 1), repeat=len(strides)) if step > (0,) * len(strides)]
    return [int(np.dot(step, strides)) for step in steps if by_corners or sum(map(abs, step)) == 1]


def _pairs(first: np.ndarray, last: np.ndarray) -> tuple[np.ndarray, np.ndarray]:
    """Each run with each of those from `first` to before `last`."""
    counts = np.maximum(last - first, 0)
    these = np.repeat(np.arange(len(first)), counts)
    return these, np.arange(len(these)) - np.repeat(np.cumsum(counts) - counts, counts) + np.repeat(first, counts)
