"""Whether the background of an image is even: one threshold for all of it is wrong where it is not.

What may be changed here is how an image is parted, and how much its background may vary.
"""
from __future__ import annotations

from collections.abc import Iterator

import numpy as np

# The image is looked at in so many parts along each side; the middle values of the background may differ by so much of what objects differ from it.
PARTS, MOST = 4, 0.4
# Values in so many levels are counted, which is quicker than to order them.
_LEVELS = 4096


def unevenness(values: np.ndarray, mask: np.ndarray) -> tuple[float, float] | None:
    """The least and the greatest of the background's medians in parts of a flat image, where they differ too much; None where it is even.

    A part with less than a tenth of background does not count.
    """
    if values.ndim != 2 or min(values.shape) < 8 * PARTS or not mask.any() or mask.all():
        return None
    few = (slice(None, None, max(1, max(values.shape) // 256)),) * 2
    values, mask = values[few], mask[few]
    if not mask.any() or mask.all():
        return None
    contrast, medians = _counted(values, mask) if _is_counted(values) else _ordered(values, mask)
    if len(medians) < 2 or max(medians) - min(medians) <= MOST * contrast:
        return None
    return min(medians), max(medians)


def _is_counted(values: np.ndarray) -> bool:
    return np.issubdtype(values.dtype, np.integer) and int(values.max()) - int(values.min()) < _LEVELS


def _ordered(values: np.ndarray, mask: np.ndarray) -> tuple[float, list[float]]:
    """How far the middle values of objects and background are apart, and the background's in each part that counts."""
    backgrounds = [(own[~objects], own.size) for own, objects in zip(_parts(values), _parts(mask))]
    medians = [float(np.median(background)) for background, size in backgrounds if background.size >= size / 10]
    return abs(float(np.median(values[mask])) - float(np.median(values[~mask]))), medians


def _parts(image: np.ndarray) -> Iterator[np.ndarray]:
    yield from (part for rows in np.array_split(image, PARTS) for part in np.array_split(rows, PARTS, 1))


def _counted(values: np.ndarray, mask: np.ndarray) -> tuple[float, list[float]]:
    """The same by how often each value occurs in each part, for values of few levels."""
    low = int(values.min())
    levels = int(values.max()) - low + 1
    down, across = (np.repeat(np.arange(PARTS), [side // PARTS + (k < side % PARTS) for k in range(PARTS)]) for side in values.shape)
    places = ((down[:, None] * PARTS + across) * 2 + mask) * levels + (values.astype(np.int64) - low)
    counts = np.bincount(places.ravel(), minlength=2 * PARTS**2 * levels).reshape(-1, 2, levels)
    both, sizes = _medians(counts.sum(0)), counts.sum(2)
    counts_much = sizes[:, 0] >= sizes.sum(1) / 10
    return abs(both[1] - both[0]), [median + low for median, counts_so in zip(_medians(counts[:, 0]), counts_much) if counts_so]


def _medians(counts: np.ndarray) -> list[float]:
    """The middle value of each row of counts of the values from 0 on: the mean of the two in the middle."""
    upto, sizes = counts.cumsum(1), counts.sum(1)
    low, high = ((upto <= middle[:, None]).sum(1) for middle in ((sizes - 1) // 2, sizes // 2))
    return ((low + high) / 2).tolist()
