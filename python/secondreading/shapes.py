"""The further columns of `shape measure` by plain code: Euler number, surface, convex hull, second moments and thickness, word for word from docs/MEASURING.md.

Each is found from the points of one object; the thickness from the distances of the picture, as it needs the balls of the object.
"""
from functools import lru_cache
from itertools import permutations, product
from math import isqrt

import numpy as np

from secondreading.geometry import minus, near_steps

# Crofton's weights: 8 times the share of the sphere that is nearer to a direction than to the others, over the length of its step, in 10^-14.
WEIGHTS = {1: 36622312963809, 2: 20919402194967, 3: 16256169682097}

# 4 pi in 10^-12.
FOUR_PI = 12566370614359


def nearest(over, under):
    """The quotient of two whole numbers, rounded to nearest, and a half up."""
    return (2 * over + under) // (2 * under)


def root_of(over, under):
    """The square root of a quotient, in thousandths, rounded to nearest: the first r with over / under < (r + 1/2)^2 / 10^6."""
    r = isqrt(1000000 * over // under)
    return r + (4000000 * over >= (2 * r + 1) ** 2 * under)


# ---- cells and steps


def euler(points, axes):
    """Corners less edges plus faces less cubes of the union of the closed unit cubes around the points."""
    steps = np.array(near_steps(axes) + ((0,) * axes,))
    cells = np.unique((2 * points[:, None, :] + steps[None, :, :]).reshape(-1, axes), axis=0)
    dimensions = (cells % 2 == 0).sum(1)
    return int((1 - 2 * (dimensions % 2)).sum())


def surface(points):
    """Crofton's formula over the 13 directions of neighbours, in thousandths: how often a step leads out of the object, by its number of moved axes."""
    inside = set(map(tuple, points.tolist()))
    total = 0
    for step in near_steps(3):
        if step[::-1] < (0, 0, 0):
            out = sum((p[0] + step[0], p[1] + step[1], p[2] + step[2]) not in inside for p in inside)
            total += WEIGHTS[sum(map(abs, step))] * out
    return nearest(total, 10 ** 11)


# ---- surfaces of voxels that are not cubes

# A fan of directions: on each face of a cube a lattice of so many points, by two Fibonacci numbers next to each other, and its mirror image.
FAN, BEFORE = 10946, 6765


@lru_cache
def shares(spacing):
    """The share of the directions of the fan that is nearest to each class of steps, in 10^-12; a direction that is as near to several is divided among them."""
    steps = {used: tuple(u * a for u, a in zip(used, spacing)) for used in product((0, 1), repeat=3) if any(used)}
    squares = {used: dot(step, step) for used, step in steps.items()}
    parts = dict.fromkeys(steps, 0)
    for i in range(FAN):
        a, b = 2 * i + 1, (2 * BEFORE * i + 1) % (2 * FAN)
        reach = (2 * FAN) ** 2 + a * a + b * b
        angle = 10 ** 26 // reach // ((isqrt(4000000 * reach) + 1) // 2)
        for u in permutations((2 * FAN, a, b)):
            cosines = {used: dot(u, step) ** 2 for used, step in steps.items()}
            best = [k for k in steps if all(cosines[k] * squares[j] >= cosines[j] * squares[k] for j in steps)]
            for used in best:
                parts[used] += angle * (420 // len(best))
    return {used: 10 ** 12 * part // sum(parts.values()) for used, part in parts.items()}


def dot(u, v):
    return sum(a * b for a, b in zip(u, v))


def spaced_surface(points, spacing):
    """Crofton's formula, where a voxel has these sides: in thousandths of a square of their unit."""
    inside = set(map(tuple, points.tolist()))
    total = 0
    for used, share in shares(spacing).items():
        length = (isqrt(4000000 * 10 ** 8 * sum((u * a) ** 2 for u, a in zip(used, spacing))) + 1) // 2
        weight = 40000 * spacing[0] * spacing[1] * spacing[2] * share // 2 ** (sum(used) - 1) // length
        steps = [step for step in near_steps(3) if tuple(map(abs, step)) == used and step[::-1] < (0, 0, 0)]
        total += weight * sum((p[0] + s[0], p[1] + s[1], p[2] + s[2]) not in inside for s in steps for p in inside)
    return (total + 500000) // 1000000


# ---- the convex hull of the corners of the pixels


def turn(a, b, c):
    return (b[0] - a[0]) * (c[1] - a[1]) - (b[1] - a[1]) * (c[0] - a[0])


def chain(points):
    kept = []
    for p in points:
        while len(kept) >= 2 and turn(kept[-2], kept[-1], p) <= 0:
            kept.pop()
        kept.append(p)
    return kept


def hull(points):
    """The vertices of the convex hull of the corners of the pixels, round from the first in raster order, along the row first."""
    corners = sorted({(x + dx, y + dy) for x, y in points.tolist() for dx in (0, 1) for dy in (0, 1)}, key=lambda p: p[::-1])
    return chain(corners)[:-1] + chain(corners[::-1])[:-1]


def hull_measures(points):
    """Twice the area, the perimeter in thousandths (of sides rounded to millionths), the least width in thousandths, and the direction of the first side across which it is."""
    round_ = hull(points)
    sides = [(p, round_[(k + 1) % len(round_)]) for k, p in enumerate(round_)]
    double_area = sum(p[0] * q[1] - p[1] * q[0] for p, q in sides)
    perimeter = nearest(sum(root_of(10 ** 6 * ((q[0] - p[0]) ** 2 + (q[1] - p[1]) ** 2), 1) for p, q in sides), 1000)
    least = None
    for p, q in sides:
        across, length = max(turn(p, q, r) for r in round_), (q[0] - p[0]) ** 2 + (q[1] - p[1]) ** 2
        if least is None or across ** 2 * least[1] < least[0] ** 2 * length:
            least = across, length, minus(q, p)
    return double_area, perimeter, root_of(least[0] ** 2, least[1]), least[2]


# ---- second moments


def moments(points):
    """The sums of the coordinates, and of their products: xx, xy, yy, and in space xz, yz, zz behind."""
    axes = points.shape[1]
    pairs = [(0, 0), (0, 1), (1, 1), (0, 2), (1, 2), (2, 2)][: 3 if axes == 2 else 6]
    return [int(n) for n in points.sum(0)], [int((points[:, a] * points[:, b]).sum()) for a, b in pairs]


def ellipse(points):
    """The full axes, in thousandths, of the ellipse with the second moments of the pixels as squares, and twice the direction of the greater axis."""
    n = len(points)
    (sx, sy), (xx, xy, yy) = moments(points)
    a, b, c = 12 * (n * xx - sx * sx) + n * n, 12 * (n * xy - sx * sy), 12 * (n * yy - sy * sy) + n * n
    spread = (a - c) ** 2 + 4 * b * b

    def is_below_half(r, sign):
        k = 3 * n * n * (2 * r + 1) ** 2 - 8000000 * (a + c)
        return 0 < k and 64 * 10 ** 12 * spread < k * k if sign > 0 else 0 < k or k * k < 64 * 10 ** 12 * spread

    def axis(sign):
        low, high = 0, 4000 * (max(map(int, points.max(0) - points.min(0))) + 2)
        while low < high:
            middle = (low + high) // 2
            low, high = (low, middle) if is_below_half(middle, sign) else (middle + 1, high)
        return low

    return axis(1), axis(-1), a - c, 2 * b


# ---- thickness


def thicknesses(picture):
    """The greatest squared distance of a centre whose ball holds a point, at each point of the framed box, and 0 in the background."""
    thick = np.zeros(picture.framed.shape, int)
    places = np.argwhere(picture.framed)
    squares = picture.squares[picture.framed]
    for k in np.argsort(-squares, kind="stable"):
        near = ((places - places[k]) ** 2).sum(1) < squares[k]
        at = tuple(places[near].T)
        thick[at] = np.maximum(thick[at], squares[k])
    return thick


def thickness_measures(squares):
    """The mean of the diameters, each rounded to thousandths, their deviation, and the greatest, of squared radii."""
    diameters = [root_of(4 * int(s), 1) for s in squares]
    n, total, least = len(diameters), sum(diameters), sum(d * d for d in diameters)
    return nearest(total, n), isqrt_nearest(n * least - total * total, n * n), max(diameters)


def isqrt_nearest(over, under):
    """The square root of a quotient, rounded to nearest: the first r with over / under < (r + 1/2)^2."""
    r = isqrt(over // under)
    return r + (4 * over >= (2 * r + 1) ** 2 * under)
