"""NIfTI by nibabel: values as the header scales them, and sizes of voxels with their unit."""
from __future__ import annotations

import zlib
from pathlib import Path

import numpy as np

from ..faults import Fault
from ..images import Grey
from ..spacing import Spacing
from .kinds import NIFTI
from .solids import solid


def read(path: Path) -> Grey:
    """The volume of a file, indexed [z, y, x]; its axes as they are stored, x fastest. A Fault where it is none."""
    nibabel = NIFTI.needed()
    try:
        image = nibabel.load(path)
        values = np.asanyarray(image.dataobj)
    except (nibabel.filebasedimages.ImageFileError, nibabel.spatialimages.HeaderDataError, OSError, EOFError, ValueError, zlib.error) as error:
        raise Fault(path, f"a NIfTI file that cannot be read ({error})", "is it a whole file? copy it again") from error
    if values.dtype.names or np.iscomplexobj(values):
        raise Fault(path, "colours or complex numbers, not grey values", "save one number a voxel")
    header = image.header
    unit = header.get_xyzt_units()[0] if hasattr(header, "get_xyzt_units") else None
    return solid(path, values.transpose(), Spacing.read(header.get_zooms()[:3], unit))
