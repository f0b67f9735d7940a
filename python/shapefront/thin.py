"""Thin lines of pixels: the branches and the junctions of a skeleton, and the skeleton without its short branches."""
from __future__ import annotations

from collections import deque
from collections.abc import Callable, Sequence
from dataclasses import dataclass

import numpy as np

from .components import numbered

# The eight points around one, from the right on, against the clock: first those that share a side, and between them those at corners.
_AROUND = ((0, 1), (-1, 1), (-1, 0), (-1, -1), (0, -1), (1, -1), (1, 0), (1, 1))

# The lengths of the objects of a picture, in raster order of their first points.
Lengths = Callable[[np.ndarray], Sequence[float]]


def neighbours(mask: np.ndarray) -> np.ndarray:
    """For each point how many of the eight around it are true."""
    height, width = mask.shape
    wide = np.pad(mask, 1).astype(np.uint8)
    return sum(wide[1 + y : 1 + y + height, 1 + x : 1 + x + width] for y, x in _AROUND)


def split(skeleton: np.ndarray) -> tuple[np.ndarray, np.ndarray]:
    """The points of a skeleton that have at most two neighbours among the eight around them, and the others."""
    are_junctions = skeleton & (neighbours(skeleton) >= 3)
    return skeleton & ~are_junctions, are_junctions


@dataclass(frozen=True)
class Pruned:
    """A skeleton without its short branches, its branches and its junctions, and how many branches were left out."""

    skeleton: np.ndarray
    branches: np.ndarray
    junctions: np.ndarray
    left_out: int


def pruned(skeleton: np.ndarray, least: float, lengths_of: Lengths) -> Pruned:
    """A skeleton without the branches that are shorter than `least`.

    A branch with a free end is taken away, of several at one junction the shortest first; then the junction may be none any more, and two branches
    are one. What is left between two junctions and shorter belongs to a junction with both.
    """
    left_out = 0
    while True:
        parts = _Parts.of(skeleton, lengths_of)
        goes = parts.short_with_an_end(least)
        if not goes:
            break
        left_out += len(goes)
        removed = np.isin(parts.numbers, goes)
        skeleton = _thinned(skeleton & ~removed, removed)
    inner = [k for k, length in enumerate(parts.lengths, 1) if length < least]
    between = np.isin(parts.numbers, inner) & skeleton
    return Pruned(skeleton, parts.branches & ~between, parts.junctions | between, left_out + len(inner))


@dataclass(frozen=True)
class _Parts:
    """The branches and the junctions of a skeleton; of each point of a branch the number of it, and of each branch its length."""

    branches: np.ndarray
    junctions: np.ndarray
    numbers: np.ndarray
    lengths: Sequence[float]

    @classmethod
    def of(cls, skeleton: np.ndarray, lengths_of: Lengths) -> _Parts:
        branches, junctions = split(skeleton)
        return cls(branches, junctions, numbered(branches, by_corners=True), lengths_of(branches))

    def short_with_an_end(self, least: float) -> list[int]:
        """The numbers of the branches below a length that end freely: all of those at no junction, and the shortest one of each junction."""
        at = np.where(self.branches, neighbours(self.junctions), 0)
        contacts = np.bincount(self.numbers.ravel(), at.ravel(), len(self.lengths) + 1)
        goes = [k for k, length in enumerate(self.lengths, 1) if length < least and contacts[k] == 0]
        of_junction: dict[int, int] = {}
        junction_beside = _greatest_around(numbered(self.junctions, by_corners=True))
        for y, x in np.argwhere(at > 0):
            k, junction = int(self.numbers[y, x]), int(junction_beside[y, x])
            if contacts[k] == 1 and self.lengths[k - 1] < least:
                other = of_junction.get(junction)
                if other is None or (self.lengths[k - 1], k) < (self.lengths[other - 1], other):
                    of_junction[junction] = k
        return goes + list(of_junction.values())


def _greatest_around(numbers: np.ndarray) -> np.ndarray:
    """For each point the greatest number of the eight around it."""
    height, width = numbers.shape
    wide = np.pad(numbers, 1)
    return np.maximum.reduce([wide[1 + y : 1 + y + height, 1 + x : 1 + x + width] for y, x in _AROUND])


def _thinned(skeleton: np.ndarray, removed: np.ndarray) -> np.ndarray:
    """The skeleton without the points that became needless where some were removed: they are simple, and no ends."""
    wide = np.pad(skeleton, 1)
    waiting = deque((y + 1, x + 1) for y, x in np.argwhere(skeleton & (neighbours(removed) > 0)).tolist())
    while waiting:
        y, x = waiting.popleft()
        around = [bool(wide[y + dy, x + dx]) for dy, dx in _AROUND]
        if wide[y, x] and sum(around) >= 2 and _is_simple(around):
            wide[y, x] = False
            waiting.extend((y + dy, x + dx) for (dy, dx), is_there in zip(_AROUND, around) if is_there)
    return wide[1:-1, 1:-1]


def _is_simple(around: list[bool]) -> bool:
    """Whether a point with these neighbours can go without a change of pieces and holes: Yokoi's number of it is 1."""
    off = [not one for one in around]
    return sum(off[k] - (off[k] and off[k + 1] and off[(k + 2) % 8]) for k in range(0, 8, 2)) == 1
