"""Voxels that are no cubes made cubes as wide as their least side, before the threshold: by whole factors, or by linear interpolation between middles."""
from __future__ import annotations

from dataclasses import replace
from decimal import Decimal

import numpy as np

from ..blocks import has_two_values
from ..faults import Fault
from ..images import Grey
from ..spacing import Spacing

# A factor that is no further from a whole number is taken as that.
_WHOLE = Decimal("0.001")


def cubes(image: Grey, are_labels: bool) -> Grey:
    """The volume in cubes, with a note of how. Two values and labels stay what they are: each voxel becomes some whole ones, where that
    goes, and else a cube takes the value that is nearer. A Fault where the size of a voxel is not told."""
    spacing = image.spacing
    if spacing is None:
        raise Fault(image.name, "the size of its voxels is not told, or told in two ways", "give --voxel-size, or leave out --cubes")
    if spacing.is_cubic:
        return image
    least = min(spacing.sizes)
    factors = [size / least for size in spacing.sizes]
    made = Spacing((least,) * 3, spacing.unit)
    if (are_labels or has_two_values(image.values)) and all(abs(factor - round(factor)) <= _WHOLE for factor in factors):
        times = [round(factor) for factor in factors]
        note = f"made cubes of {made}: each voxel is {times[0]} by {times[1]} by {times[2]} of them"
        values = image.values
        for axis, factor in enumerate(reversed(times)):
            values = values.repeat(factor, axis)
        return _cubed(image, values, made, note)
    if are_labels:
        values = _nearest(image.values, factors)
        return _cubed(image, values, made, f"made cubes of {made}: each has the label of the voxel that its middle lies in")
    if has_two_values(image.values):
        low, high = image.values.min(), image.values.max()
        values = np.where(_between((image.values == high).astype(np.float32), factors) >= 0.5, high, low)
        return _cubed(image, values, made, f"made cubes of {made}: by linear interpolation of its two values, cut in the middle")
    values = _between(image.values.astype(np.float32 if image.values.dtype.itemsize < 4 else np.float64), factors)
    values = values if np.issubdtype(image.values.dtype, np.floating) else np.rint(values).astype(image.values.dtype)
    return _cubed(image, values, made, f"made cubes of {made}: by linear interpolation before the threshold")


def _cubed(image: Grey, values: np.ndarray, spacing: Spacing, note: str) -> Grey:
    return replace(image, values=values, spacing=spacing, notes=(*image.notes, note))


def _places(side: int, factor: Decimal) -> np.ndarray:
    """Where the middles of cubes lie among those of so many voxels, each of which is so many cubes wide."""
    count = max(1, round(side * factor))
    return np.clip((np.arange(count) + 0.5) / float(factor) - 0.5, 0, side - 1)


def _between(values: np.ndarray, factors: list[Decimal]) -> np.ndarray:
    """The values at the middles of cubes, linear between those of voxels; beyond the outermost middles theirs go on."""
    for axis, factor in enumerate(reversed(factors)):
        if factor != 1:
            places = _places(values.shape[axis], factor)
            first = np.minimum(places.astype(int), max(values.shape[axis] - 2, 0))
            share = (places - first).astype(values.dtype).reshape([-1 if k == axis else 1 for k in range(values.ndim)])
            after = np.minimum(first + 1, values.shape[axis] - 1)
            values = values.take(first, axis) * (1 - share) + values.take(after, axis) * share
    return values


def _nearest(values: np.ndarray, factors: list[Decimal]) -> np.ndarray:
    for axis, factor in enumerate(reversed(factors)):
        values = values.take(np.floor(_places(values.shape[axis], factor) + 0.5).astype(int), axis)
    return values
