"""Ball reports of pictures and volumes: each ball by its claim, and the union of the balls point by point."""
import math

import numpy as np

from secondreading.geometry import raster, square
from secondreading.texts import COORDINATE, COUNT, LENGTH, WEIGHT, Form, need, word

HEADINGS = {axes: Form("balls", word("1"), word({2: "pbm", 3: "raw"}[axes]), *[LENGTH] * axes, COUNT) for axes in (2, 3)}
BALL = {axes: Form("ball", *[COORDINATE] * (2 * axes), WEIGHT, *[COORDINATE] * axes) for axes in (2, 3)}


def read(picture, lines):
    """The balls: the centre, the squared distance and the own point of each."""
    _, _, *sides, m = lines.line(HEADINGS[picture.axes])
    need(tuple(sides) == picture.sides and m <= len(picture.points))
    covered, own_points, balls = np.zeros(picture.framed.shape, bool), np.zeros(picture.framed.shape, bool), []
    for _ in range(m):
        balls.append(read_ball(picture, balls, covered, own_points, lines))
    lines.exactly(b"end")
    need((covered | ~picture.framed).all())
    return balls


def read_ball(picture, before, covered, own_points, lines):
    """The next ball: its centre comes behind the ones before, its own point is in no earlier ball, and it has no earlier own point."""
    axes = picture.axes
    values = lines.line(BALL[axes])
    centre, near, s, own = tuple(values[:axes]), tuple(values[axes : 2 * axes]), values[2 * axes], tuple(values[2 * axes + 1 :])
    need(centre in picture.points and (not before or raster(before[-1][0]) < raster(centre)))
    need(near not in picture.points and s == square(centre, near) == picture.square[centre])
    need(square(centre, own) < s and not covered[at(own)])
    window, inside = ball(centre, s)
    need(not (own_points[window] & inside).any())
    covered[window] |= inside
    own_points[at(own)] = True
    return centre, s, own


def at(p):
    """The index of a point in arrays of the framed box."""
    return tuple(c + 1 for c in raster(p))


def ball(centre, s):
    """The points nearer to a point than a squared distance: the box that holds them, in arrays of the framed box, and which of it they are.

    A ball with the least squared distance lies in the object, so all of the box lies in the framed one.
    """
    r = math.isqrt(s - 1)
    along = np.arange(-r, r + 1) ** 2
    away = sum(np.meshgrid(*[along] * len(centre), indexing="ij", sparse=True))
    return tuple(slice(c - r, c + r + 1) for c in at(centre)), away < s
