"""A picture or a volume, and what the definitions say of it: counts, least distances, contours, faces, and its thinning by each rule.

How each of these is found stands in a module of its own, and how a report tells it in the modules of the reports.
"""
import itertools
from functools import cached_property

import numpy as np

from secondreading import cracks, parts
from secondreading.distances import least_squares
from secondreading.geometry import near_steps, side_steps
from secondreading.thinning import thinning


class Picture:
    """A picture or a volume, of an array of truth values indexed [y, x] or [z, y, x]: object points are true, and all others of the whole space background."""

    def __init__(self, inside):
        self.framed = np.pad(np.asarray(inside, bool), 1)
        self.sides, self.axes = inside.shape[::-1], inside.ndim
        self.word = "pbm" if self.axes == 2 else "raw"
        self._thinnings = {}

    @classmethod
    def of(cls, sides, points):
        """The picture with these sides and object points."""
        inside = np.zeros(tuple(reversed(sides)), bool)
        for p in points:
            inside[p[::-1]] = True
        return cls(inside)

    @cached_property
    def order(self):
        """The object points in raster order."""
        return self.points_at(np.flatnonzero(self.framed))

    @cached_property
    def points(self):
        return frozenset(self.order)

    def points_at(self, places):
        """The points at some places of the flattened picture with its frame."""
        indices = np.unravel_index(np.asarray(places, int), self.framed.shape)
        return list(zip(*((index - 1).tolist() for index in reversed(indices))))

    @cached_property
    def squares(self):
        """The least squared distance to the background, at each place of the picture with its frame."""
        return least_squares(self.framed)

    @cached_property
    def square(self):
        """The least squared distance of each object point to the background."""
        return dict(zip(self.order, self.squares[self.framed].tolist()))

    def counts(self, framed):
        """How many points there are in a set of points of the framed box, and the components of them and of their background there."""
        return int(framed.sum()), parts.count(framed, near_steps(self.axes)), parts.count(~framed, side_steps(self.axes))

    @cached_property
    def parts(self):
        return self.counts(self.framed)

    @cached_property
    def cycles(self):
        """The first crack and the corners of each cycle of cracks of a flat picture."""
        return [(cycle[0], cracks.corner_path(cycle)) for cycle in cracks.cycles(self)]

    @cached_property
    def contours(self):
        """The first crack and the points of each contour of a flat picture."""
        return [(cycle[0], cracks.contour(cycle)) for cycle in cracks.cycles(self)]

    @cached_property
    def faces(self):
        """The axis, the sense and the exposed points of each face of a volume: those with background one step on."""
        found = []
        for t, sense in itertools.product(range(3), "-+"):
            ahead = np.roll(self.framed, 1 if sense == "-" else -1, self.axes - 1 - t)
            found.append((t, sense, self.points_at(np.flatnonzero(self.framed & ~ahead))))
        return found

    def thinning(self, rule):
        """The events of the thinning by a rule, each a word and a point, the points that it leaves, as a set of the framed box, and their counts."""
        if rule not in self._thinnings:
            events = thinning(self.framed, self.squares, rule)
            left = self.framed.copy()
            left.ravel()[[place for word, place in events if word == "del"]] = False
            told = list(zip([word for word, _ in events], self.points_at([place for _, place in events])))
            self._thinnings[rule] = told, left, self.counts(left)
        return self._thinnings[rule]
