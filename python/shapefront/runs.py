"""Runs of points on digital lines: the segments of contours and the pieces of polygons."""
from __future__ import annotations

from dataclasses import dataclass

import numpy as np

from .equal import Alike


def offsets(counts: np.ndarray) -> np.ndarray:
    """Where each of some stretches begins that lie one behind the other, and where the last one ends."""
    return np.concatenate([[0], np.cumsum(counts)])


@dataclass(frozen=True, eq=False)
class Runs(Alike):
    """Runs on naive lines, a row for each: `begin, end, axis, a, b, mu`, and their `least` lines where the report has them.

    A run holds the contour's points from place `begin` to place `end`, counted on round it; its points lie on
    `mu <= a x + b y < mu + main`, where `main` is the coefficient of the axis: a for 0 (x), b for 1 (y).
    """

    rows: np.ndarray
    least: np.ndarray | None = None

    def __len__(self) -> int:
        return len(self.rows)

    def __getitem__(self, part: slice) -> Runs:
        return Runs(self.rows[part], None if self.least is None else self.least[part])

    @property
    def begin(self) -> np.ndarray:
        return self.rows[:, 0]

    @property
    def end(self) -> np.ndarray:
        return self.rows[:, 1]

    @property
    def axis(self) -> np.ndarray:
        return self.rows[:, 2]

    @property
    def lines(self) -> np.ndarray:
        """A row (a, b, mu) for each run."""
        return self.rows[:, 3:]
