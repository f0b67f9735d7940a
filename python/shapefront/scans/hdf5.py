"""HDF5 by h5py: one dataset of a file, named behind a colon, or the only volume that it holds."""
from __future__ import annotations

from pathlib import Path
from typing import Any

import numpy as np

from ..faults import Fault
from ..images import Grey
from ..spacing import Spacing
from .kinds import HDF5
from .solids import solid

# The attribute by which ilastik, PlantSeg and the HDF5 plugin of ImageJ tell the sizes of a voxel along z, y and x, in micrometres.
_SIZES = "element_size_um"


def read(path: Path, inside: str) -> Grey:
    """The volume at a path inside of a file, indexed [z, y, x]. A Fault where there is none, or none is named of several."""
    h5py = HDF5.needed()
    try:
        with h5py.File(path, "r") as file:
            name = inside or _only(path, file, h5py)
            if name not in file or not isinstance(file[name], h5py.Dataset):
                raise Fault(path, f"it has no array /{name}", _choice(path, _arrays(file, h5py)))
            found = file[name]
            notes = () if inside else (f"its array /{name}",)
            return solid(path, np.asarray(found[()]), _spacing(found.attrs), notes)
    except OSError as error:
        raise Fault(path, f"an HDF5 file that cannot be read ({error})", "is it a whole file? copy it again") from error


def _only(path: Path, file: Any, h5py: Any) -> str:
    """The name of the only volume in a file."""
    names = _arrays(file, h5py)
    if len(names) != 1:
        raise Fault(path, f"it holds {len(names)} volumes" if names else "it holds no volume", _choice(path, names))
    return names[0]


def _arrays(file: Any, h5py: Any) -> list[str]:
    """The names of the arrays of three axes or more in a file."""
    names: list[str] = []
    file.visititems(lambda name, item: names.append(name) if isinstance(item, h5py.Dataset) and item.ndim >= 3 else None)
    return names


def _choice(path: Path, names: list[str]) -> str:
    return "name one: " + ", ".join(f"{path.name}:/{name}" for name in names[:5]) + (", .." if len(names) > 5 else "") if names else "is it the right file?"


def _spacing(attributes: Any) -> Spacing | None:
    sizes = np.ravel(attributes[_SIZES]) if _SIZES in attributes else ()
    return Spacing.read(sizes[::-1], "um") if len(sizes) == 3 else None
