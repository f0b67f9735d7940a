"""Components of sets of points, where those a step apart are adjacent."""
import numpy as np


def components(chosen, steps):
    """Of each point of a set, in raster order, the number of its component: the place of the component's first point in this order.

    The set is told by an array of truth values. Points are joined step by step: of two numbers that adjacent points have, the greater one becomes the less one.
    """
    held = np.pad(chosen, 1)
    places = np.flatnonzero(held)
    place_of = np.full(held.size, -1)
    place_of[places] = np.arange(len(places))
    number = np.arange(len(places))
    for away in offsets(held.shape, steps):
        beside = place_of[places + away] if away > 0 else np.array([], int)
        joined = np.flatnonzero(beside >= 0)
        join(number, joined, beside[joined])
    return number


def join(number, these, those):
    """Makes the numbers of these points and of those, pair by pair, one; each number is the place of a point that has it."""
    while True:
        one, other = number[these], number[those]
        differ = one != other
        if not differ.any():
            return
        these, those = these[differ], those[differ]
        low, high = np.minimum(one, other)[differ], np.maximum(one, other)[differ]
        order = np.argsort(-low)  # of several for one number the least comes last, and stays
        number[high[order]] = low[order]
        while (number[number] != number).any():
            number[:] = number[number]


def count(chosen, steps):
    """How many components there are."""
    return len(np.unique(components(chosen, steps)))


def offsets(shape, steps):
    """By how much the place of a point in a flattened array changes with each of some steps, x first."""
    strides = [int(np.prod(shape[k + 1 :])) for k in range(len(shape))][::-1]
    return [sum(c * stride for c, stride in zip(step, strides)) for step in steps]
