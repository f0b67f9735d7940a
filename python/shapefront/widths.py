"""Length, volume and surface of a network by classes of width: each point of the skeleton has its share of the length, and a width of its own.

A stroke is taken for a tube as thick as it is wide. A point's width is twice its distance to the background less a part of a pixel, since
distances go to the middle of a background pixel: as much for all points as makes the mean width the area over the length, from 0 to 1.
"""
from __future__ import annotations

from collections.abc import Iterator, Sequence
from dataclasses import dataclass

import numpy as np

from .components import numbered
from .tables import Row

WIDTHS = ["width_from", "width_to", "length", "volume", "surface"]


@dataclass(frozen=True)
class Widths:
    """For each point of a skeleton its share of the length, and its width; both in pixels."""

    lengths: np.ndarray
    widths: np.ndarray

    @classmethod
    def of(cls, skeleton: np.ndarray, piece_lengths: Sequence[float], squares: np.ndarray, area: float) -> Widths:
        """Those of a skeleton whose pieces have these lengths, by the squares of the distances to the background at all points of the picture, and
        the area of its object."""
        steps, numbers = _steps(skeleton)[skeleton], numbered(skeleton, by_corners=True)[skeleton]
        total = np.bincount(numbers, steps, len(piece_lengths) + 1)
        factors = np.divide([0.0, *piece_lengths], total, out=np.zeros(len(total)), where=total > 0)
        lengths, widths = steps * factors[numbers], 2 * np.sqrt(squares[skeleton])
        length = float(lengths.sum())
        excess = float(np.clip(((lengths * widths).sum() - area) / length, 0, 1)) if length else 0.0
        return cls(lengths, widths - excess)

    @property
    def volume(self) -> float:
        """The volume of all tubes, in pixels cubed."""
        return float((self.lengths * self.widths**2).sum() * np.pi / 4)

    @property
    def surface(self) -> float:
        """The surface of all tubes without their ends, in pixels squared."""
        return float((self.lengths * self.widths).sum() * np.pi)

    def rows(self, edges: Sequence[float] | None, width: float) -> Iterator[Row]:
        """The rows of the table, without its header: classes between these edges, the first from 0 and the last without an end; or, where there
        are no edges, classes so wide, from the first to the last that has a point."""
        if edges is None:
            own = np.floor(self.widths / width).astype(int)
            classes = [(k, k * width, (k + 1) * width) for k in range(own.min(initial=1 << 30), own.max(initial=-1) + 1)]
        else:
            own = np.searchsorted(edges, self.widths, "right")
            classes = [(k, begin, end) for k, (begin, end) in enumerate(zip([0.0, *edges], [*edges, None]))]
        for k, begin, end in classes:
            held = Widths(self.lengths[own == k], self.widths[own == k])
            numbers = (float(held.lengths.sum()), held.volume, held.surface)
            yield [f"{begin:.12g}", "" if end is None else f"{end:.12g}", *(f"{number:.3f}" for number in numbers)]


def _steps(mask: np.ndarray) -> np.ndarray:
    """For each point half of the lengths of the steps to its neighbours: 1 along a row or a column, and the root of 2 aslant, where there is
    no way round."""
    half = np.zeros(mask.shape)
    for one, other, step in (
        (mask[:, :-1], mask[:, 1:], (0, 1)),
        (mask[:-1], mask[1:], (1, 0)),
        (mask[:-1, :-1] & ~(mask[:-1, 1:] | mask[1:, :-1]), mask[1:, 1:], (1, 1)),
        (mask[:-1, 1:] & ~(mask[:-1, :-1] | mask[1:, 1:]), mask[1:, :-1], (1, -1)),
    ):
        y, x = np.nonzero(one & other)
        x = x + 1 if step[1] < 0 else x
        length = np.hypot(*step) / 2
        np.add.at(half, (y, x), length)
        np.add.at(half, (y + step[0], x + step[1]), length)
    return half
