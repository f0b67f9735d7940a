"""Piece reports: a split of each contour into straight runs, and what refuses each of these with the next point; each line by its claim."""
from secondreading.contours import AXIS, read_gap
from secondreading.digital import holds, is_proper, keeps_sense
from secondreading.texts import COORDINATE, COUNT, LENGTH, LONG, SIDE, Form, need, word

HEADING = Form("pieces", word("1"), LENGTH, LENGTH)
CHAIN = Form("chain", COORDINATE, COORDINATE, SIDE, COUNT, COUNT)
PIECE = Form("piece", COUNT, COUNT, AXIS, LONG, LONG, LONG)


def read(picture, lines):
    """For each contour its points, how many pieces it has, and the runs that are refused."""
    _, *sides = lines.line(HEADING)
    need(tuple(sides) == picture.sides)
    told = [read_chain(start, points, lines) for start, points in picture.contours]
    lines.exactly(b"end")
    return told


def read_chain(start, points, lines):
    *pixel, side, n, k = lines.line(CHAIN)
    need((tuple(pixel), side) == start and n == len(points) and 1 <= k <= n)
    place, gaps = 0, []
    for j in range(k):
        b, e = read_piece(points, place, j == k - 1, lines)
        if j < k - 1:
            gaps += [read_gap(axis, points[b : e + 2], lines) for axis in (0, 1)]
        place = e + 1
    return points, k, gaps


def read_piece(points, place, is_last, lines):
    """The next piece, which begins at this place."""
    b, e, t, *a, mu = lines.line(PIECE)
    last = len(points) - 1
    need(b == place and b <= e and (e == last if is_last else e < last))
    run = points[b : e + 1]
    need(is_proper(t, a) and holds(t, a, mu, run) and keeps_sense(t, run))
    return b, e
