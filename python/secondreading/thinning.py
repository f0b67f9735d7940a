"""The ordered thinning of a picture by a rule: which points are deleted or marked, one after another.

The next point is the least of all unmarked simple ones, by squared distance in the opening picture and then by raster.
"""
from heapq import heappop, heappush

import numpy as np

from secondreading.geometry import near_steps
from secondreading.parts import offsets
from secondreading.simple import is_simple

RULES = ("none", "curve", "few")


def is_marked(rule, neighbours, marked):
    """Whether a rule marks a point with so many object neighbours left, after it marked so many."""
    return {"none": False, "curve": neighbours == 1, "few": neighbours == 1 and marked < 2}[rule]


def thinning(framed, squares, rule):
    """The events of the thinning: each the word of its line and a place in the flattened picture with its frame.

    Whether a point is simple changes only when one near it is deleted. So it is enough to keep those waiting that may have become simple since they
    were looked at last: each unmarked simple point waits, and the first of those that wait is the next one, or is not simple.
    """
    axes, places = framed.ndim, np.flatnonzero(framed)
    order = places[np.argsort(squares.ravel()[places], kind="stable")].tolist()
    turn = dict(zip(order, range(len(order))))
    held, around = neighbours(framed), list(zip(offsets(framed.shape, near_steps(axes)), opposite_bits(axes)))
    waiting, waits, events, marked = list(range(len(order))), [True] * len(order), [], 0
    while waiting:
        k = heappop(waiting)
        waits[k], place = False, order[k]
        if not is_simple(axes, held[place]):
            continue
        del turn[place]
        if is_marked(rule, held[place].bit_count(), marked):
            marked += 1
            events.append(("tip", place))
            continue
        events.append(("del", place))
        for away, bit in around:
            held[place + away] &= ~bit
            k = turn.get(place + away)
            if k is not None and not waits[k]:
                waits[k] = True
                heappush(waiting, k)
    return events


def neighbours(framed):
    """Of each place of the flattened picture the set of its object neighbours."""
    flat = np.pad(framed.ravel(), int(np.prod(framed.shape[1:])) * 2)
    begin = (len(flat) - framed.size) // 2
    held = np.zeros(framed.size, np.int64)
    for k, away in enumerate(offsets(framed.shape, near_steps(framed.ndim))):
        held |= flat[begin + away : begin + away + framed.size].astype(np.int64) << k
    return held.tolist()


def opposite_bits(axes):
    """Of each near step the bit of the one back."""
    near = near_steps(axes)
    return [1 << near.index(tuple(-c for c in step)) for step in near]
