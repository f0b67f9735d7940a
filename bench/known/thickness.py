"""The true local thickness of bodies with edges, its mean and its standard deviation: near an edge no ball is as wide as the body.

The thickness at a point is the diameter of the greatest ball of the body that holds it.
"""
import numpy as np

STEPS = 40


def nodes(side, half):
    """Distances from the nearer end of a side, and how much of the side each stands for; all from `half` on are one."""
    inside = (np.arange(STEPS) + 0.5) * half / STEPS
    return np.append(inside, half), np.append(np.full(STEPS, 2 * half / STEPS), side - 2 * half)


def greatest_radius(distances, half):
    """The radius of the greatest ball that holds a point, given its distances to the nearest face along each axis."""
    low, high = np.zeros_like(distances[0]), np.full_like(distances[0], half)
    for _ in range(40):
        middle = (low + high) / 2
        holds = sum(np.maximum(0, middle - d) ** 2 for d in distances) <= middle**2
        low, high = np.where(holds, middle, low), np.where(holds, high, middle)
    return np.where(sum(np.maximum(0, half - d) ** 2 for d in distances) <= half**2, half, low)


def mean_and_deviation(diameters, weights):
    mean = (diameters * weights).sum() / weights.sum()
    return mean, np.sqrt((diameters**2 * weights).sum() / weights.sum() - mean**2)


def of_box(*sides):
    """Over a rectangle or a box."""
    half = min(sides) / 2
    axes = [nodes(side, half) for side in sides]
    distances = np.meshgrid(*(places for places, _ in axes), indexing="ij")
    weights = np.prod(np.meshgrid(*(weight for _, weight in axes), indexing="ij"), axis=0)
    return mean_and_deviation(2 * greatest_radius(distances, half), weights)


def of_cylinder(radius, height):
    """Over a cylinder that is at least as high as it is wide: about its axis each half plane is a rectangle's corner."""
    across, ring = nodes(2 * radius, radius)
    along, weight = nodes(height, radius)
    distances = np.meshgrid(across, along, indexing="ij")
    weights = np.outer(ring * (radius - across), weight)
    return mean_and_deviation(2 * greatest_radius(distances, radius), weights)
