"""What is the same for arrays of all formats: axes that have one place only are left out, and what is left has to be a volume of numbers."""
from __future__ import annotations

from collections.abc import Sequence
from pathlib import Path

import numpy as np

from ..faults import Fault
from ..images import Grey
from ..spacing import Spacing


def solid(path: Path, values: np.ndarray, spacing: Spacing | None, notes: Sequence[str] = ()) -> Grey:
    """The volume of an array indexed [.., z, y, x], whose further axes have one place each. A Fault where it is none."""
    shape = values.shape
    while values.ndim > 3 and 1 in values.shape:
        values = values.squeeze(values.shape.index(1))
    if values.ndim != 3:
        raise Fault(path, f"an array of {len(shape)} axes ({' by '.join(map(str, shape))})", "a volume has three: z, y, x; save one volume of it")
    is_number = values.dtype == bool or np.issubdtype(values.dtype, np.integer) or np.issubdtype(values.dtype, np.floating)
    if not is_number or not values.size:
        raise Fault(path, f"an array of {values.dtype}" if values.size else "an empty array", "save whole numbers, floating ones or booleans")
    if values.dtype.byteorder not in ("=", "|"):
        values = values.astype(values.dtype.newbyteorder("="))
    return Grey(str(path), np.ascontiguousarray(values), tuple(notes), "light" if values.dtype == bool else None, spacing=spacing)
