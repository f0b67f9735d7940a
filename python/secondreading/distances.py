"""Least squared distances to the background, of all points of a picture at once.

The squared distance of two points is a sum over the axes. So the least of it over all background points is found axis by axis.
"""
import numpy as np


def least_squares(framed):
    """Of each point of a framed picture the least squared distance to a background point: 0 where it is one itself.

    Nothing outside the frame is nearer than a point of it, and the frame is background.
    """
    least = np.where(framed, sum(side * side for side in framed.shape), 0).astype(np.int32)
    for axis in range(framed.ndim):
        least = np.moveaxis(least_along(np.moveaxis(least, axis, 0)), 0, axis)
    return least


def least_along(given):
    """At each place of the first axis the least of k^2 and the given number k places away, over all whole k."""
    least = given.copy()
    for k in range(1, len(given)):
        if k * k >= least.max():
            break
        np.minimum(least[k:], given[:-k] + k * k, out=least[k:])
        np.minimum(least[:-k], given[k:] + k * k, out=least[:-k])
    return least
