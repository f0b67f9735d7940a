"""The region of a volume that alone is looked at: a mask in a file of its own, of any format that holds volumes."""
from __future__ import annotations

from dataclasses import replace

import numpy as np

from ..faults import Fault
from ..images import Grey
from ..pictures import sides_of, told_sides
from .asked import Asked
from .cubes import cubes
from .reading import read


def region_of(image: Grey, asked: Asked) -> np.ndarray | None:
    """Where the values of the region's file are not 0, in cubes where these are asked for; None where no region is named.

    A Fault where it has other sides than the volume, or is empty.
    """
    if asked.region is None:
        return None
    found = read(asked.region, replace(asked, region=None, spacing=None, kind=None), labels=True)
    if found.values.shape != image.values.shape:
        told = f"{told_sides(sides_of(found.values))}, and the volume {told_sides(sides_of(image.values))}"
        raise Fault(image.name, f"the region {asked.region.name} has {told}", "give a region of the same sides")
    mask = found.values != 0
    if not mask.any():
        raise Fault(image.name, f"the region {asked.region.name} is empty", "what is not 0 is taken")
    return cubes(replace(image, values=mask), are_labels=True).values if asked.cubes else mask
