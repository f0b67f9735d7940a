"""Blocks of pixels or voxels made one, by one rule: of grey values their mean, and of two values what half and more of a block is."""
from __future__ import annotations

import numpy as np


def smaller(fit: int, axes: int = 2) -> str:
    """How many pixels become one, in words."""
    return " by ".join([str(fit)] * axes) + f" {'pixels' if axes == 2 else 'voxels'} are one"


def has_two_values(values: np.ndarray) -> bool:
    """Whether there are no more than two values, as in a picture in black and white."""
    least, most = values.min(), values.max()
    return bool(((values == least) | (values == most)).all())


def mean_of(values: np.ndarray, fit: int) -> np.ndarray:
    """The means of blocks so wide along each side; the last blocks of a side are as large as they are. Whole numbers stay whole, rounded."""
    means = _means(values, fit)
    return means if np.issubdtype(values.dtype, np.floating) else np.rint(means).astype(values.dtype)


def most_of(mask: np.ndarray, fit: int) -> np.ndarray:
    """Which blocks so wide along each side are true by half and more."""
    return _means(mask, fit) >= 0.5


def _means(values: np.ndarray, fit: int) -> np.ndarray:
    sums, counts = values.astype(np.float64), np.ones((1,) * values.ndim)
    for axis, side in enumerate(values.shape):
        starts = np.arange(0, side, fit)
        sums = np.add.reduceat(sums, starts, axis)
        counts = counts * np.diff(np.append(starts, side)).reshape([-1 if k == axis else 1 for k in range(values.ndim)])
    return sums / counts


def bias(before: float, after: float) -> str:
    """What blocks did to the share of the object, in words."""
    return f"of the image {before:.4f} is object, of what it was made {after:.4f}: {after - before:+.4f} by making it smaller"
