"""The graph of a skeleton in space: its nodes, which are free ends and junctions, and its branches between them; and the skeleton without short branches.

A junction is a connected set of points that have three neighbours or more, and a branch one of other points, as in the plane.
"""
from __future__ import annotations

import itertools
from collections import deque
from collections.abc import Iterable, Sequence
from dataclasses import dataclass
from functools import cached_property

import numpy as np

from secondreading.geometry import near_steps
from secondreading.parts import join
from secondreading.simple import is_simple

Point = tuple[int, ...]

# Of a path each point is replaced by the mean of so many before it, itself and as many behind it, and fewer near its ends: that takes the steps out of it.
_BESIDE = 2


@dataclass(frozen=True)
class Branch:
    """A branch: its points in their order along it, and the numbers of the junctions at its begin and its end, where it does not end freely; a ring
    has neither ends nor junctions."""

    points: np.ndarray
    at: tuple[int | None, int | None]
    is_ring: bool

    @property
    def ends(self) -> int:
        """How many of its two ends are free."""
        return 0 if self.is_ring else self.at.count(None)

    @property
    def junctions(self) -> int:
        return 0 if self.is_ring else 2 - self.ends


@dataclass(frozen=True)
class Graph:
    """The points of a skeleton (x, y, z) in raster order; of each the numbers of its neighbours, and whether it is of a junction."""

    points: np.ndarray
    beside: list[list[int]]
    are_junctions: np.ndarray

    @classmethod
    def of(cls, points: np.ndarray, joined: Iterable[Point] = ()) -> Graph:
        """The graph of the points of a skeleton; `joined` are some that are of junctions, though they have fewer neighbours."""
        pairs = pairs_of(points)
        beside: list[list[int]] = [[] for _ in range(len(points))]
        for one, other in pairs.tolist():
            beside[one].append(other)
            beside[other].append(one)
        of_junctions = np.array([len(own) >= 3 for own in beside], bool)
        if joined := set(joined):
            of_junctions |= np.array([tuple(point) in joined for point in points.tolist()], bool)
        return cls(points, beside, of_junctions)

    @cached_property
    def junction_of(self) -> np.ndarray:
        """Of each point the number of its junction, from 0 on in the order of first points; -1 for points of branches."""
        return _numbers(self.are_junctions, self.beside)

    @cached_property
    def middles(self) -> np.ndarray:
        """The middle of each junction, the mean of its points."""
        own = self.junction_of[self.are_junctions]
        counts = np.bincount(own)
        return np.stack([np.bincount(own, axis) / counts for axis in self.points[self.are_junctions].T], 1) if own.size else np.zeros((0, 3))

    @cached_property
    def branches(self) -> list[Branch]:
        """The branches, in the order of their first points."""
        own = _numbers(~self.are_junctions, self.beside)
        first = np.unique(own[own >= 0], return_index=True)[1]
        starts = np.flatnonzero(own >= 0)[first].tolist()
        return [self._branch(self._along(start)) for start in starts]

    def _along(self, start: int) -> list[int]:
        """The points of the branch of a point, from one of its ends to the other; a ring begins and ends anywhere."""
        found, ahead = deque([start]), [k for k in self.beside[start] if not self.are_junctions[k]]
        seen = {start}
        for step, add in zip(ahead, (found.append, found.appendleft)):
            at: int | None = step
            while at is not None and at not in seen:
                seen.add(at)
                add(at)
                at = next((k for k in self.beside[at] if not self.are_junctions[k] and k not in seen), None)
        return list(found)

    def _branch(self, own: list[int]) -> Branch:
        at = self._junctions_at(own)
        is_ring = at == (None, None) and len(own) > 2 and own[0] in self.beside[own[-1]]
        points = self.points[own]
        backwards = tuple(points[-1][::-1]) < tuple(points[0][::-1])
        return Branch(points[::-1], at[::-1], is_ring) if backwards else Branch(points, at, is_ring)

    def _junctions_at(self, own: list[int]) -> tuple[int | None, int | None]:
        """The junctions at both ends of a branch."""
        first, last = ([k for k in self.beside[own[place]] if self.are_junctions[k]] for place in (0, -1))
        if len(own) == 1:
            both = [int(self.junction_of[k]) for k in first]
            return (both[0] if both else None), (both[1] if len(both) > 1 else None)
        return tuple(int(self.junction_of[self._nearest(end, near)]) if near else None for end, near in ((own[0], first), (own[-1], last)))

    def _nearest(self, end: int, near: list[int]) -> int:
        return min(near, key=lambda k: (int(((self.points[k] - self.points[end]) ** 2).sum()), k))

    def line(self, branch: Branch) -> np.ndarray:
        """The line of a branch from one of its nodes to the other: through its points, and on to the middles of its junctions; its steps smoothed."""
        begin, end = ([self.middles[k]] if k is not None else [] for k in branch.at)
        if branch.is_ring:
            round_ = np.concatenate([branch.points[-_BESIDE:], branch.points, branch.points[: _BESIDE + 1]])
            return smoothed(round_)[_BESIDE:-_BESIDE]
        return smoothed(np.array([*begin, *branch.points, *end], float))


def smoothed(path: np.ndarray) -> np.ndarray:
    """The points of a path, each the mean of some about it; its ends stay."""
    places = np.arange(len(path))
    reach = np.minimum(_BESIDE, np.minimum(places, len(path) - 1 - places))
    sums = np.concatenate([np.zeros((1, path.shape[1])), np.cumsum(path, 0)])
    return (sums[places + reach + 1] - sums[places - reach]) / (2 * reach + 1)[:, None]


def length(line: np.ndarray) -> float:
    return float(np.linalg.norm(np.diff(line, axis=0), axis=1).sum())


@dataclass(frozen=True)
class Pruned:
    """A graph without short branches, and how many were left out."""

    graph: Graph
    left_out: int


def pruned(points: np.ndarray, least: float) -> Pruned:
    """The graph of a skeleton without the branches that are shorter than `least`, as in the plane: those with a free end are taken away, of several at one
    junction the shortest first; what is left between two junctions and shorter makes one junction of both."""
    left_out = 0
    while goes := _short(graph := Graph.of(points), least):
        left_out += len(goes)
        points = _thinned(points, np.concatenate([branch.points for branch in goes]))
    inner = [branch for branch in graph.branches if branch.ends == 0 and not branch.is_ring and length(graph.line(branch)) < least]
    joined = [tuple(point) for branch in inner for point in branch.points.tolist()]
    return Pruned(Graph.of(points, joined) if joined else graph, left_out + len(inner))


def _short(graph: Graph, least: float) -> list[Branch]:
    """The branches below a length that end freely: all of those at no junction, and the shortest one of each junction."""
    goes, of_junction = [], {}
    for branch in graph.branches:
        if branch.ends == 0 and not branch.is_ring or (own := length(graph.line(branch))) >= least:
            continue
        if branch.junctions == 0:
            goes.append(branch)
            continue
        junction = next(k for k in branch.at if k is not None)
        if junction not in of_junction or own < of_junction[junction][0]:
            of_junction[junction] = own, branch
    return goes + [branch for _, branch in of_junction.values()]


def _thinned(points: np.ndarray, removed: np.ndarray) -> np.ndarray:
    """The points without these, and without those that became needless where these were: they are simple, and no ends."""
    left, steps = set(map(tuple, points.tolist())) - set(map(tuple, removed.tolist())), near_steps(3)
    waiting = deque(sorted({near for point in removed.tolist() for near in _around(point, steps) if near in left}, key=lambda point: point[::-1]))
    while waiting:
        point = waiting.popleft()
        around = [near in left for near in _around(point, steps)]
        held = sum(1 << k for k, is_there in enumerate(around) if is_there)
        if point in left and sum(around) >= 2 and is_simple(3, held):
            left.discard(point)
            waiting.extend(near for near in _around(point, steps) if near in left)
    found = np.array(sorted(left, key=lambda point: point[::-1]), int)
    return found.reshape(-1, 3)


def _around(point: Sequence[int], steps: Iterable[Point]) -> list[Point]:
    x, y, z = point
    return [(x + dx, y + dy, z + dz) for dx, dy, dz in steps]


def pairs_of(points: np.ndarray) -> np.ndarray:
    """The pairs of neighbours among points in raster order, each by their places."""
    if not len(points):
        return np.zeros((0, 2), int)
    width, height = (points.max(0) + 3)[:2]
    strides = np.array([1, width, width * height])
    keys, found = (points + 1) @ strides, []
    for step in itertools.product((-1, 0, 1), repeat=3):
        away = int(np.dot(step, strides))
        if away > 0:
            place = np.minimum(np.searchsorted(keys, keys + away), len(keys) - 1)
            own = np.flatnonzero(keys[place] == keys + away)
            found.append(np.stack([own, place[own]], 1))
    return np.concatenate(found)


def _numbers(chosen: np.ndarray, beside: list[list[int]]) -> np.ndarray:
    """Of each chosen point the number of its connected set of such, from 0 on in the order of first points; -1 for others."""
    pairs = np.array([(one, other) for one in np.flatnonzero(chosen).tolist() for other in beside[one] if other > one and chosen[other]], int).reshape(-1, 2)
    number = np.arange(len(chosen))
    join(number, pairs[:, 0], pairs[:, 1])
    found = np.full(len(chosen), -1)
    found[chosen] = np.unique(number[chosen], return_inverse=True)[1]
    return found


def numbers_of(graph: Graph) -> np.ndarray:
    """Of each point of a skeleton the number of its connected piece, from 0 on."""
    return _numbers(np.ones(len(graph.points), bool), graph.beside)
