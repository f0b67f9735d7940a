"""Reads a volume of any format, and decides which size its voxels have: that of the file, or that of the user's words; where they differ, none."""
from __future__ import annotations

from dataclasses import replace
from pathlib import Path

from ..faults import Fault
from ..images import Grey
from ..spacing import Spacing
from . import arrays, dicom, headers, hdf5, nifti, stacks
from .asked import Asked
from .kinds import ARCHIVE, DICOM, HDF5, META, NIFTI, NRRD, NUMPY, kind_of, parted

_READERS = {NIFTI: nifti.read, DICOM: dicom.read, NRRD: headers.read_nrrd, META: headers.read_meta, NUMPY: arrays.read_array}
_INSIDE = {HDF5: hdf5.read, ARCHIVE: arrays.read_archive}


def read(path: Path, asked: Asked, labels: bool = False, channel: str | None = None) -> Grey:
    """The grey values [z, y, x] of a volume, with the size of a voxel that is told, and in words what was done. A Fault where it is none."""
    return with_spacing(_read(path, asked, labels, channel), asked)


def _read(path: Path, asked: Asked, labels: bool, channel: str | None) -> Grey:
    file, inside = parted(path)
    if file.is_dir():
        return dicom.read(file) if dicom.is_series(file) else stacks.read_folder(file, labels, channel)
    if not file.is_file():
        raise Fault(path, "no such file or folder", "is the name right?")
    kind = kind_of(file)
    if kind in _INSIDE:
        return _INSIDE[kind](file, inside)
    if kind:
        return _READERS[kind](file)
    if asked.sides and file.suffix.lower() not in (".tif", ".tiff"):
        return arrays.read_raw(file, asked)
    if file.suffix.lower() in (".raw", ".vol", ".bin", ".dat"):
        raise Fault(path, "raw bytes, which do not tell their sides", "give --sides X Y Z, and --type where they are not of 8 or 16 bits")
    return dicom.read(file) if dicom.is_dicom(file) else stacks.read_stack(file, labels, channel)


def with_spacing(image: Grey, asked: Asked) -> Grey:
    """The volume with the size of a voxel that is told, and a note of where it comes from. Where file and words differ it has none."""
    own, given = (None if asked.is_alone else image.spacing), asked.spacing
    if own and given and not own.agrees(given):
        note = f"its voxels are {own}, as the file says, and {given} by --voxel-size or --pixel-size: nothing is told in a unit, until --no-metadata says that the words are right"
        return replace(image, spacing=None, notes=(*image.notes, note))
    return replace(image, spacing=given or own, notes=(*image.notes, *_told(own, given)))


def _told(own: Spacing | None, given: Spacing | None) -> list[str]:
    """In words the size of a voxel and where it comes from, and what cannot be told."""
    spacing = given or own
    if spacing is None:
        return []
    if spacing.unit is None:
        return [f"its voxels are {spacing}", f"nothing is told in a unit: give the sizes with one, as in `{spacing.in_mm}`"]
    return [f"its voxels are {spacing}, {'as you say' if given else 'as the file says'}"]
