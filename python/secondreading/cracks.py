"""Cracks of flat pictures, their cycles, and the contours and corner paths of these, word for word from the definitions.

A crack is an object pixel and one of its sides, over which the neighbour is background.
"""
import numpy as np

from secondreading.geometry import plus
from secondreading.parts import offsets

SIDES = ((0, -1), (1, 0), (0, 1), (-1, 0))
CORNERS = ((0, 0), (1, 0), (1, 1), (0, 1))


def successors(framed):
    """The cracks in their order, each the place of its pixel in the flattened picture and its side, and the place in this order of the one that follows each.

    That goes on along the edge, with the object on the right: with A the pixel ahead and B the one beside it over the side, it is a crack of B where B is
    object, else one of A where A is, else the next one of the pixel.
    """
    flat, over = framed.ravel(), np.array(offsets(framed.shape, SIDES))
    places = np.flatnonzero(flat)
    here, side = (part.ravel() for part in np.meshgrid(places, range(4), indexing="ij"))
    is_crack = ~flat[here + over[side]]
    here, side = here[is_crack], side[is_crack]
    a = here + over[(side + 1) % 4]
    b = a + over[side]
    following = np.where(flat[b], 4 * b + (side + 3) % 4, np.where(flat[a], 4 * a + side, 4 * here + (side + 1) % 4))
    return here, side, np.searchsorted(4 * here + side, following)


def cycles(picture):
    """The cycles of cracks, each from its least crack, in the order of these; a crack is told by its pixel and its side."""
    here, side, following = successors(picture.framed)
    told, following = list(zip(picture.points_at(here), side.tolist())), following.tolist()
    left, found = [True] * len(told), []
    for k in range(len(told)):
        cycle = []
        while left[k]:
            left[k] = False
            cycle.append(told[k])
            k = following[k]
        if cycle:
            found.append(cycle)
    return found


def contour(cycle):
    """The points of the contour of a cycle: the pixels of the cracks whose next one has another pixel, or else its one pixel."""
    pixels = [pixel for pixel, _ in cycle]
    return [p for p, q in zip(pixels, pixels[1:] + pixels[:1]) if p != q] or pixels[:1]


def corner_path(cycle):
    """The corners at which the cracks of a cycle begin."""
    return [plus(pixel, CORNERS[side]) for pixel, side in cycle]


class Path:
    """A closed path: place i stands for place i modulo the number of its points."""

    def __init__(self, points):
        self.points, self.rounds = points, points * 3

    def run(self, first, last):
        """The points from one place to another, which may go on round the path."""
        return self.rounds[first : last + 1]
