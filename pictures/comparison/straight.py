"""Straight runs of points and of corners, and planes, by searches over all lines of small coefficients; and the fewest pieces by one over all splits.

No step of these is one of a finder or of a checker.
"""
import functools
import itertools

from secondreading.digital import keeps_sense
from secondreading.edges import steps_of
from secondreading.geometry import minus


def arc(path, first, last):
    """The points of a closed path from one place to another, which come round again."""
    return [path[k % len(path)] for k in range(first, last + 1)]


def maximal_runs(path, is_straight):
    """The first and last places of the maximal straight runs that begin among the places of a closed path, by a search over all runs."""
    n, found = len(path), []
    for b in range(n):
        e = b
        while is_straight(arc(path, b, e + 1)):
            e += 1
        if not is_straight(arc(path, b + n - 1, e + n)):
            found.append((b, e))
    return found


# ---- naive lines


def row(t, main, other):
    """The coefficients of a line of the axis t."""
    return (main, other) if t == 0 else (other, main)


@functools.lru_cache(100000)
def least_row(t, points):
    """The coefficients of a naive line of the axis that holds all these points, with the least main one; None where none does.

    Two of the conditions on the slope, between -1 and 1, come from two pairs of points and bound it by fractions with denominators below the number of
    points; so where there is a line at all, one has a main coefficient below twice that number.
    """
    for main in range(1, 2 * len(points) + 1):
        for other in range(-main, main + 1):
            a = row(t, main, other)
            values = [a[0] * x + a[1] * y for x, y in points]
            if max(values) - min(values) < main:
                return a
    return None


def from_origin(run):
    return tuple(minus(p, run[0]) for p in run)


def is_straight_for(t, run):
    """Whether a run is straight for an axis."""
    return keeps_sense(t, run) and least_row(t, from_origin(run)) is not None


def is_straight(run):
    return is_straight_for(0, run) or is_straight_for(1, run)


def fewest_pieces(points):
    """The least number of straight runs that make up the points in their order, over all splits."""
    n = len(points)
    least = [0] * (n + 1)
    for b in reversed(range(n)):
        ends = itertools.takewhile(lambda e: is_straight(points[b : e + 1]), range(b, n))
        least[b] = min(1 + least[e + 1] for e in ends)
    return least[0]


# ---- standard lines


def is_straight_path(run):
    """Whether some standard line holds a run of corners: sheared, they are naive lines of the main coefficient a + c, and small ones are enough."""
    return is_straight_from_origin(from_origin(run))


@functools.lru_cache(100000)
def is_straight_from_origin(run):
    for h, v in itertools.product((1, -1), repeat=2):
        if set(steps_of(run)) <= {(h, 0), (0, v)} and any(is_held(run, h, v, whole) for whole in range(1, 2 * len(run) + 1)):
            return True
    return False


def is_held(run, h, v, whole):
    """Whether some standard line of two signs with a + c being this number holds the run."""
    for a in range(whole + 1):
        values = [a * h * x - (whole - a) * v * y for x, y in run]
        if max(values) - min(values) < whole:
            return True
    return False


# ---- planes


def has_plane(t, points):
    """Whether a naive plane of the axis t holds all these points, by all corners of the polygon of their slopes.

    With u and v the other coefficients over that of the axis, each pair of points asks for u dx + v dy + dz < 1, and -1 <= u, v <= 1. The polygon of
    the slopes that meet this with <= is bounded. Its corners lie on two of its border lines, and the mean of them meets each condition with <
    that any slopes of the polygon do.
    """
    conditions = {}
    for p, q in itertools.product(points, repeat=2):
        step = minus(q, p)
        across, up = step[:t] + step[t + 1 :], step[t]
        conditions[across] = min(conditions.get(across, 1 - up), 1 - up)
    strict = [(x, y, most) for (x, y), most in conditions.items()]
    borders = strict + [(1, 0, 1), (-1, 0, 1), (0, 1, 1), (0, -1, 1)]
    corners = {c for one, other in itertools.combinations(borders, 2) for c in crossing(one, other) if all(is_below(c, b) for b in borders)}
    return bool(corners) and all(any(is_below(c, s, True) for c in corners) for s in strict)


def crossing(one, other):
    """Where two border lines `x u + y v = most` cross: the numerators of u and v, and their denominator, which is positive."""
    (x, y, most), (z, w, least) = one, other
    d = x * w - y * z
    if d == 0:
        return []
    sign = 1 if d > 0 else -1
    return [(sign * (most * w - y * least), sign * (x * least - most * z), sign * d)]


def is_below(corner, border, strictly=False):
    u, v, d = corner
    x, y, most = border
    return x * u + y * v < most * d or (not strictly and x * u + y * v == most * d)
