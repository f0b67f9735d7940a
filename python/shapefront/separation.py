"""The separation of an object: the local thickness of what is no object, as `shape mask thickness` writes it of the volume that was turned over.

Behind the border of a volume, or of its region, nobody knows what comes, so a ball of the background ends there. Points that lie as near to the border as
the greatest of these balls is wide from its middle are left out: another margin, or another mean, is a change here.
"""
from __future__ import annotations

import tempfile
from collections.abc import Iterator, Sequence
from dataclasses import dataclass
from pathlib import Path

import numpy as np

from secondreading.distances import least_squares

from .checking import plain
from .programs import made
from .report import text_of


@dataclass(frozen=True)
class Spread:
    """The mean of some lengths, their standard deviation, and the greatest."""

    mean: float
    deviation: float
    greatest: float

    @classmethod
    def of(cls, counts: np.ndarray, width: float) -> Spread | None:
        """That of lengths of which `counts[k]` are k times `width` long; None of none."""
        total, lengths = int(counts.sum()), np.arange(len(counts)) * width
        if not total:
            return None
        mean = float((counts * lengths).sum() / total)
        square = float((counts * (lengths - mean) ** 2).sum() / total)
        return cls(mean, square**0.5, float(lengths[np.flatnonzero(counts)[-1]]))


def separation(report: Path, sides: Sequence[int], region: np.ndarray | None) -> Spread | None:
    """The separation in the volume that was turned over, whose report this is and which has these sides, within the region where there is one. None where
    all is too near to the border."""
    with tempfile.TemporaryFile() as out:
        with plain(text_of(report)[0], report) as file:
            made("mask", "thickness", file, out=out, about=report)
        widths = np.memmap(out, "<u2", "r", shape=tuple(sides)[::-1])
        margin = int(widths.max()) / 200
        counts = np.zeros(1 << 16, np.int64)
        for own, kept in zip(widths, _far(sides, region, margin)):
            counts += np.bincount(own[kept & (own > 0)], minlength=len(counts))
    return Spread.of(counts, 0.01)


def _far(sides: Sequence[int], region: np.ndarray | None, margin: float) -> Iterator[np.ndarray]:
    """Slice by slice, from the first on, which points lie farther than the margin from the outside of the box, and from that of the region where there is one."""
    if region is not None:
        framed = np.pad(region, 1)
        yield from least_squares(framed)[1:-1, 1:-1, 1:-1] > margin**2
        return
    x, y, z = (np.minimum(np.arange(side) + 1, side - np.arange(side)) > margin for side in sides)
    for is_far in z:
        yield is_far & y[:, None] & x[None, :]
