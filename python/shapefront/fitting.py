"""When a border is a line or a circle: 19 of 20 of its points lie within a pixel of it, and all within two. So noise does not break a side."""
from __future__ import annotations

import numpy as np

MOSTLY_WITHIN, WITHIN = 1.0, 2.0


def fits(distances: np.ndarray) -> bool:
    """Whether points at these distances from a line or a circle are on it."""
    return bool(distances.max() <= WITHIN and np.quantile(distances, 0.95) <= MOSTLY_WITHIN)
