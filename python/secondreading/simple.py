"""Simple points, by the set of near neighbours that a point has in a picture.

Such a set is a whole number: its bit k is set where the k-th near neighbour is object.
"""
import functools

from secondreading.geometry import edge_steps, minus, near_steps, side_steps


@functools.lru_cache(None)
def is_simple(axes, held):
    """Whether a point with these object neighbours is simple: both topological numbers are 1."""
    near = near_steps(axes)
    dark = bits(near, edge_steps(axes)) & ~held
    background = [part for part in parts(dark, links(axes, side_steps(axes))) if part & bits(near, side_steps(axes))]
    return len(background) == 1 and len(parts(held, links(axes, near))) == 1


def bits(near, steps):
    """The set of the neighbours at these steps."""
    return sum(1 << near.index(step) for step in steps)


@functools.lru_cache(None)
def links(axes, steps):
    """Of each near neighbour, by its bit, the set of those near neighbours that are one of these steps from it."""
    near = near_steps(axes)
    return {1 << k: bits(near, [q for q in near if minus(q, p) in steps]) for k, p in enumerate(near)}


def parts(held, beside):
    """The components of a set of neighbours, each such a set."""
    found = []
    while held:
        part = ahead = held & -held
        while ahead:
            one = ahead & -ahead
            new = beside[one] & held & ~part
            part, ahead = part | new, (ahead ^ one) | new
        found.append(part)
        held &= ~part
    return found
