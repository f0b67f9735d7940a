"""Contours that are circles: the circle of least squares, and how far the border lies from it."""
from __future__ import annotations

from dataclasses import dataclass

import numpy as np

from .fitting import fits
from .report import Contour

# A contour is a circle only from this radius on, in pixels, as a small square is within a pixel of one, too.
LEAST_RADIUS = 6.0


@dataclass(frozen=True)
class Circle:
    """A circle by its centre and radius in pixels, y downwards, and the greatest distance of the border from it."""

    x: float
    y: float
    radius: float
    distance: float


def circle_of(contour: Contour) -> Circle | None:
    """The circle that a contour is; None where there is none, or it is too small to tell.

    The border is taken where the pixels end: by half of a pixel along the axis outside of their middles, of a hole inside.
    """
    points = np.unique(contour.points, axis=0).astype(float)
    if len(points) < 4 * LEAST_RADIUS:
        return None
    x, y, radius = _fitted(points)
    away = points - (x, y)
    lengths = np.hypot(*away.T)
    if not lengths.all():
        return None
    unit = away / lengths[:, None]
    border = points + unit * np.abs(unit).max(1, keepdims=True) * (-0.5 if contour.is_hole else 0.5)
    x, y, radius = _fitted(border)
    distances = np.abs(np.hypot(*(border - (x, y)).T) - radius)
    goes_round = np.abs(_gaps(border - (x, y))).max() < np.pi / 4
    return Circle(x, y, radius, float(distances.max())) if radius >= LEAST_RADIUS and goes_round and fits(distances) else None


def _fitted(points: np.ndarray) -> tuple[float, float, float]:
    """The circle x^2 + y^2 = 2 a x + 2 b y + c of least squares, as its centre and radius."""
    middle = points.mean(0)
    own = points - middle
    (a, b, c), *_ = np.linalg.lstsq(np.column_stack([2 * own, np.ones(len(own))]), (own**2).sum(1), rcond=None)
    return float(a + middle[0]), float(b + middle[1]), float(np.sqrt(max(c + a * a + b * b, 0.0)))


def _gaps(points: np.ndarray) -> np.ndarray:
    """The angles between neighbours among directions of points, all round."""
    angles = np.sort(np.arctan2(points[:, 1], points[:, 0]))
    return np.diff(np.append(angles, angles[0] + 2 * np.pi))
