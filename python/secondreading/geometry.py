"""Points, their neighbours and their order, word for word from the definitions, in the plane and in space.

A point is a tuple of its coordinates, x first. A further notion of points belongs here, one of pictures in `picture`.
"""
import functools
import itertools


@functools.lru_cache(None)
def near_steps(axes):
    """The steps to the points that share a side, an edge or a corner."""
    return tuple(step for step in itertools.product((-1, 0, 1), repeat=axes) if any(step))


@functools.lru_cache(None)
def side_steps(axes):
    """The steps to the points that share a side."""
    return tuple(step for step in near_steps(axes) if sum(map(abs, step)) == 1)


@functools.lru_cache(None)
def edge_steps(axes):
    """The steps to the points that share a side or, in space, an edge; in the plane, a side or a corner."""
    return tuple(step for step in near_steps(axes) if sum(map(abs, step)) <= 2)


def plus(p, q):
    return tuple(a + b for a, b in zip(p, q))


def minus(p, q):
    return tuple(a - b for a, b in zip(p, q))


def unit(t, axes):
    return tuple(int(k == t) for k in range(axes))


def around(p, steps):
    return [plus(p, step) for step in steps]


def raster(p):
    """The key of raster order: layer by layer, row by row, each row from the left."""
    return p[::-1]


def square(p, q):
    """The squared distance of two points."""
    return sum([(a - b) ** 2 for a, b in zip(p, q)])


def touches(p, q):
    return p != q and all(abs(a - b) <= 1 for a, b in zip(p, q))
