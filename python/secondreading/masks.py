"""The files of `shape mask` by plain code, word for word from docs/USING.md: the object, the points left, the distances, their squares, and the thickness."""
from math import isqrt

import numpy as np

from secondreading.distances import least_squares

MASKS = ("skeleton", "object", "distances", "squares", "thickness")


def mask(picture, rule, name):
    """The bytes of a mask of a report by a rule."""
    if name == "distances":
        return levels_mask(picture, unframed(picture.squares))
    if name == "thickness":
        return levels_mask(picture, 4 * unframed(thickness(picture.squares)))
    if name == "squares":
        return squares_mask(picture)
    return points_mask(picture, picture.thinning(rule)[1] if name == "skeleton" else picture.framed)


def unframed(framed):
    return framed[(slice(1, -1),) * framed.ndim]


def points_mask(picture, framed):
    """A raw PBM of eight pixels a byte, a row after the other, or 255 and 0 for each voxel."""
    if picture.axes == 3:
        return (unframed(framed) * np.uint8(255)).tobytes()
    return b"P4\n%d %d\n" % picture.sides + np.packbits(unframed(framed), axis=1).tobytes()


def thickness(squares):
    """Of each point the greatest square of a ball that holds it. The ball of an object point has all points nearer to it than its square.

    A point is in a ball of a square where the nearest centre with that square is nearer than it; greater squares come later.
    """
    greatest = np.zeros_like(squares)
    for square in np.unique(squares[squares > 0]).tolist():
        centres = squares == square
        box = tuple(slice(max(min(at) - isqrt(square), 0), max(at) + isqrt(square) + 1) for at in np.nonzero(centres))
        greatest[box][least_squares(~centres[box]) < square] = square
    return greatest


def levels_mask(picture, squares):
    """A PGM of 16 bits, or two bytes for each voxel with the lower first: the roots of the squares in hundredths, rounded down."""
    squares, places = np.unique(squares, return_inverse=True)
    levels = np.array([min(isqrt(10000 * s), 65535) for s in squares.tolist()])[places.ravel()]
    if picture.axes == 3:
        return levels.astype("<u2").tobytes()
    return b"P5\n%d %d\n65535\n" % picture.sides + levels.astype(">u2").tobytes()


def squares_mask(picture):
    """Four bytes for each point with the lowest first, of a picture and of a volume alike: the squared distances."""
    return unframed(picture.squares).astype("<u4").tobytes()
