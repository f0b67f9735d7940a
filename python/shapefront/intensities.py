"""The grey values of each object, computed here by numpy from the image itself: the proved program does not see them.

They are those of the image (of the channel that is taken, and of the smaller picture where it was made smaller) before any filter; or of the other
image that a user named for them.
"""
from __future__ import annotations

from dataclasses import dataclass

import numpy as np

from .components import stretches
from .convert import Picture
from .tables import Row

COLUMNS = ["intensity_mean", "intensity_min", "intensity_max", "intensity_sum", "intensity_std"]


def intensities(picture: Picture) -> list[Row]:
    """A row for each object or label of a picture or a volume with grey values, in the order of its table, the header first: mean, least and greatest
    value, sum, and standard deviation (the root of the mean square). Whole numbers are exact, others have 12 digits."""
    lengths, rows = _stretches(picture)
    if not lengths.size:
        return [COLUMNS]
    values = picture.grey[picture.mask].astype(np.float64)
    of_rows = _OfRows.of(lengths, rows)
    least, most, sums = (of_rows.told(kind, values) for kind in (np.minimum, np.maximum, np.add))
    sizes = np.bincount(rows, lengths)[1:]
    means = sums / sizes
    deviations = np.sqrt(of_rows.told(np.add, (values - np.repeat(means[rows - 1], lengths)) ** 2) / sizes)
    is_whole = not np.issubdtype(picture.grey.dtype, np.floating)
    columns = [(means, False), (least, is_whole), (most, is_whole), (sums, is_whole), (deviations, False)]
    spelled = [[str(int(value)) if whole else f"{value:.12g}" for value in column.tolist()] for column, whole in columns]
    return [COLUMNS, *map(list, zip(*spelled))]


def _stretches(picture: Picture) -> tuple[np.ndarray, np.ndarray]:
    """Stretches of the picture's points in raster order that are of one row of the table: how long each is, and the number of its row, from 1 on."""
    if picture.labels is None:
        return stretches(picture.mask, by_corners=True)
    labels = picture.labels[picture.mask]
    first = np.flatnonzero(np.append(True, labels[1:] != labels[:-1]))
    return np.diff(np.append(first, labels.size)), np.unique(labels[first], return_inverse=True)[1] + 1


@dataclass(frozen=True)
class _OfRows:
    """Where stretches begin, their order by the rows that they are of, and where in it each row begins."""

    first: np.ndarray
    order: np.ndarray
    starts: np.ndarray

    @classmethod
    def of(cls, lengths: np.ndarray, rows: np.ndarray) -> _OfRows:
        counts = np.bincount(rows)[1:]
        return cls(np.cumsum(lengths) - lengths, np.argsort(rows, kind="stable"), np.cumsum(counts) - counts)

    def told(self, kind: np.ufunc, values: np.ndarray) -> np.ndarray:
        """The least, the greatest or the sum of the values of each row."""
        return kind.reduceat(kind.reduceat(values, self.first)[self.order], self.starts)
