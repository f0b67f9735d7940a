"""Arrays of numpy, and raw bytes: they tell no size of a voxel, and raw bytes no sides."""
from __future__ import annotations

import zipfile
import zlib
from pathlib import Path

import numpy as np

from ..faults import Fault
from ..images import Grey, array_of
from .asked import Asked
from .solids import solid

# What a number of so many bytes is taken for where no type is named.
_BY_SIZE = {1: "uint8", 2: "uint16"}


def read_array(path: Path) -> Grey:
    """The volume in a `.npy` file."""
    return solid(path, array_of(path), None, ("its axes are taken as z, y, x",))


def read_archive(path: Path, inside: str) -> Grey:
    """The array of this name in a `.npz` file, or the only volume in it. A Fault where there is none, or none is named of several."""
    try:
        with np.load(path, allow_pickle=False) as file:
            if inside and inside not in file.files:
                raise Fault(path, f"it has no array {inside}", f"it has {', '.join(file.files) or 'none'}")
            found = {name: file[name] for name in file.files if not inside or name == inside}
    except Fault:
        raise
    except (OSError, ValueError, EOFError, zipfile.BadZipFile, zlib.error) as error:
        raise Fault(path, "not arrays of numpy", "save them by `numpy.savez`") from error
    solids = {name: values for name, values in found.items() if inside or values.ndim == 3}
    if len(solids) != 1:
        told = ", ".join(f"{path.name}:{name}" for name in solids)
        raise Fault(path, f"it holds {len(solids)} volumes" if solids else "it holds no volume", f"name one: {told}" if solids else "is it the right file?")
    (name, values), = solids.items()
    return solid(path, values, None, (f"its array {name}", "its axes are taken as z, y, x"))


def read_raw(path: Path, asked: Asked) -> Grey:
    """The volume of raw bytes with the sides that are asked for, x fastest. A Fault where its length does not fit to them."""
    sides, size = asked.sides, path.stat().st_size
    count = sides[0] * sides[1] * sides[2]
    if asked.kind is None and size not in (count, 2 * count):
        told = f"{size // count} bytes a voxel: name their type, as in --type float32" if size % count == 0 and size else "are the sides right?"
        raise Fault(path, f"{size:,} bytes, and these sides have {count:,} voxels", told)
    kind = np.dtype(asked.kind or _BY_SIZE[size // count])
    if size != count * kind.itemsize:
        raise Fault(path, f"{size:,} bytes, and these sides have {count:,} voxels of {kind.itemsize} bytes", "are the sides and the type right?")
    values = np.fromfile(path, kind).reshape(sides[::-1])
    return solid(path, values, None, (f"raw bytes taken as {kind.name}", "x runs fastest, then y, then z"))
