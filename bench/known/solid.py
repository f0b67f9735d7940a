"""Bodies of known measure, a little off the grid of the middles of voxels; those of a group are one row of a table.

Bodies may be changed here. A true measure that has no formula is left out.
"""
import math
from dataclasses import dataclass

import numpy as np

from known import thickness
from known.flat import thick

OFF = (0.3, 0.1, 0.2)
TWELVE = range(12)


@dataclass(frozen=True)
class Body:
    group: str
    volume: np.ndarray
    true: dict


def turned(x, y, degrees):
    angle = math.radians(degrees)
    return x * math.cos(angle) + y * math.sin(angle), y * math.cos(angle) - x * math.sin(angle)


def directed(x, y, z, k):
    """Places in a body that is turned in the k-th of twelve ways, of which the first leaves it along the axes."""
    y, z = turned(y, z, 15 * k)
    x, y = turned(x, y, 10 * k)
    return x, y, z


def body(group, reach, holds, surface=None, **true):
    side = 2 * math.ceil(reach) + 8
    z, y, x = (np.arange(side).reshape([-1 if a == axis else 1 for a in range(3)]) - side // 2 - off for axis, off in enumerate(OFF[::-1]))
    volume = holds(*np.broadcast_arrays(x, y, z))
    true.setdefault("euler", 1)
    if surface is not None:
        true["surface"] = surface
    return Body(group, volume, true)


def ball(radius):
    inside, surface = 4 / 3 * math.pi * radius**3, 4 * math.pi * radius**2
    return body(f"ball of radius {radius}", radius, lambda x, y, z: x**2 + y**2 + z**2 <= radius**2, surface, voxels=inside, **thick(2 * radius))


def cylinder(group, radius, height, k):
    def holds(x, y, z):
        x, y, z = directed(x, y, z, k)
        return (x**2 + y**2 <= radius**2) & (abs(z) <= height / 2)

    reach, surface = math.hypot(radius, height / 2), 2 * math.pi * radius * (radius + height)
    return body(group, reach, holds, surface, voxels=math.pi * radius**2 * height, **thick(2 * radius, *thickness.of_cylinder(radius, height)))


def box(group, sides, k):
    def holds(x, y, z):
        return np.logical_and.reduce([abs(place) <= side / 2 for place, side in zip(directed(x, y, z, k), sides)])

    a, b, c = sides
    surface = 2 * (a * b + b * c + c * a)
    return body(group, math.hypot(*sides) / 2, holds, surface, voxels=a * b * c, **thick(min(sides), *thickness.of_box(*sides)))


def torus(ring, tube, k):
    def holds(x, y, z):
        x, y, z = directed(x, y, z, k)
        return (np.hypot(x, y) - ring) ** 2 + z**2 <= tube**2

    inside, surface = 2 * math.pi**2 * ring * tube**2, 4 * math.pi**2 * ring * tube
    return body(f"torus of radii {ring} and {tube}, in twelve directions", ring + tube, holds, surface, voxels=inside, euler=0, **thick(2 * tube))


def shell(inner, outer):
    def holds(x, y, z):
        return (x**2 + y**2 + z**2 >= inner**2) & (x**2 + y**2 + z**2 <= outer**2)

    inside, surface, wide = 4 / 3 * math.pi * (outer**3 - inner**3), 4 * math.pi * (inner**2 + outer**2), outer - inner
    return body(f"shell from radius {inner} to {outer}", outer, holds, surface, voxels=inside, euler=2, **thick(wide))


def gyroid_distance(points, period):
    """How far points lie from the surface sin x cos y + sin y cos z + sin z cos x = 0: by steps to it, and along it to the foot."""
    unit = math.tau / period
    foot = points.copy()
    for _ in range(12):
        sin, cos = np.sin(unit * foot), np.cos(unit * foot)
        value = (sin * np.roll(cos, -1, axis=0)).sum(0)
        slope = unit * (cos * np.roll(cos, -1, axis=0) - np.roll(sin, 1, axis=0) * sin)
        size = (slope**2).sum(0)
        foot -= value / size * slope
        off = points - foot
        foot += off - (off * slope).sum(0) / size * slope
    return np.sqrt(((points - foot) ** 2).sum(0))


def gyroid(wide, period, side):
    """A wall about that surface which has one thickness everywhere, in a cube that cuts it."""
    points = np.stack(np.meshgrid(*[np.arange(side) - off for off in OFF], indexing="ij")).astype(float)
    return gyroid_distance(points, period).transpose(2, 1, 0) <= wide / 2


def bodies():
    """All of them; those of a group stand together."""
    yield from map(ball, (5, 10, 15, 20, 25, 40))
    for radius in (4, 6, 10):
        yield from (cylinder(f"cylinder of radius {radius}, 60 high, in twelve directions", radius, 60, k) for k in TWELVE)
    for wide in (5, 6, 7, 10):
        yield from (box(f"plate of 60 by 50 by {wide}, in twelve directions", (60, 50, wide), k) for k in TWELVE)
    yield box("cube of 10, along the axes", (10, 10, 10), 0)
    yield box("box of 40 by 30 by 20, along the axes", (40, 30, 20), 0)
    yield from (box("box of 40 by 30 by 20, in eleven other directions", (40, 30, 20), k) for k in TWELVE[1:])
    yield from (torus(18, 6, k) for k in TWELVE)
    yield shell(10, 20)
