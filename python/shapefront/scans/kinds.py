"""Which files hold volumes, by their names, and which package reads each. It stands on nothing, so that any part can tell a user what a file is."""
from __future__ import annotations

import importlib
from dataclasses import dataclass
from pathlib import Path
from typing import Any

from ..faults import Fault, Missing


@dataclass(frozen=True)
class Kind:
    """A kind of files that hold volumes: what it is called, what their names end in, and the package that reads them, by the names by which Python,
    Debian and pip know it; None where none is needed. `has_paths` where a file holds several arrays, each at a path of its own."""

    name: str
    suffixes: tuple[str, ...]
    package: tuple[str, str, str] | None = None
    has_paths: bool = False

    def needed(self) -> Any:
        """The package that reads it. Missing where it is not installed."""
        module, debian, pip = self.package
        try:
            return importlib.import_module(module)
        except ImportError as error:
            raise Missing(module, f"this Python package is not installed, which reads {self.name}", f"`apt install {debian}`, or `pip install {pip}`") from error


NIFTI = Kind("NIfTI", (".nii", ".nii.gz"), ("nibabel", "python3-nibabel", "nibabel"))
DICOM = Kind("DICOM", (".dcm", ".dicom", ".ima"), ("pydicom", "python3-pydicom", "pydicom"))
HDF5 = Kind("HDF5", (".h5", ".hdf5", ".hdf", ".he5", ".nxs", ".ilp"), ("h5py", "python3-h5py", "h5py"), has_paths=True)
NRRD = Kind("NRRD", (".nrrd", ".nhdr"))
META = Kind("MetaImage", (".mha", ".mhd"))
NUMPY = Kind("numpy", (".npy",))
ARCHIVE = Kind("npz", (".npz",), has_paths=True)
KINDS = (NIFTI, DICOM, HDF5, NRRD, META, NUMPY, ARCHIVE)
_WITH_PATHS = tuple(suffix for kind in KINDS if kind.has_paths for suffix in kind.suffixes)


def kind_of(path: Path) -> Kind | None:
    """The kind of a file of this name; None where it is no kind that holds volumes alone."""
    name = path.name.lower()
    return next((kind for kind in KINDS if name.endswith(kind.suffixes)), None)


def parted(path: Path) -> tuple[Path, str]:
    """The file in which an array lies, and its path there, which is empty where the path names the file: `scan.h5/a/b` is `a/b` in `scan.h5`."""
    told = str(path).lower()
    for k in range(len(path.parts), 0, -1) if any(suffix in told for suffix in _WITH_PATHS) else ():
        file = Path(*path.parts[:k])
        if (kind := kind_of(file)) and kind.has_paths and not file.is_dir():
            return file, "/".join(path.parts[k:])
    return path, ""


def file_of(path: Path) -> Path:
    """The file in which an array lies, or the path itself where it names a file."""
    return parted(path)[0]


def path_of(word: str) -> Path:
    """The path that a user's word means: `scan.h5:/a/b` and `scan.h5:a/b` are `scan.h5/a/b`."""
    file, colon, inside = word.partition(":")
    if colon and (kind := kind_of(Path(file))) and kind.has_paths:
        return Path(file, inside.strip("/")) if inside.strip("/") else Path(file)
    return Path(word)


def refused(path: Path, kind: Kind) -> Fault:
    """What is said of a volume's file in the place of a flat image."""
    needs = f", with {kind.package[1]} (`apt install {kind.package[1]}`, or `pip install {kind.package[2]}`)" if kind.package else ""
    return Fault(path, f"a volume ({kind.name})", f"`shapes volume` takes it{needs}")
