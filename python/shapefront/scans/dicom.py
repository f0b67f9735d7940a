"""A series of DICOM files by pydicom: slices in the order of their places in the patient, not of their names, and the sizes of voxels in millimetres."""
from __future__ import annotations

from collections.abc import Iterable
from pathlib import Path
from typing import Any

import numpy as np

from ..faults import Fault
from ..images import Grey
from ..spacing import Spacing
from .kinds import DICOM
from .solids import solid

# How much the distances of slices that follow one another may differ, as a part of them.
_EVEN = 0.01


def is_series(folder: Path) -> bool:
    """Whether a folder has DICOM files in it."""
    return any(is_dicom(path) for path in folder.iterdir() if path.is_file())


def is_dicom(path: Path) -> bool:
    """Whether a file is one of DICOM, by the end of its name or the mark behind its first 128 bytes."""
    if path.name.lower().endswith(DICOM.suffixes):
        return True
    if path.name == "DICOMDIR":
        return False
    with open(path, "rb") as file:
        return file.read(132)[128:] == b"DICM"


def read(path: Path) -> Grey:
    """The volume of a folder of slices, or of one file with several. A Fault where they are none, of several series, or not evenly spaced."""
    DICOM.needed()
    if path.is_dir():
        files = sorted(file for file in path.iterdir() if file.is_file() and is_dicom(file))
        return _of_series(path, [_opened(file) for file in files])
    one = _opened(path)
    if int(getattr(one, "NumberOfFrames", 1)) < 2:
        raise Fault(path, "one slice, not a volume", "give the folder of its series")
    return _of_frames(path, one)


def _opened(path: Path) -> Any:
    import pydicom

    try:
        return pydicom.dcmread(path, force=path.name.lower().endswith(DICOM.suffixes))
    except (pydicom.errors.InvalidDicomError, OSError, EOFError, ValueError, AttributeError) as error:
        raise Fault(path, f"a DICOM file that cannot be read ({error})", "is it a whole file? copy it again") from error


def _of_series(path: Path, slices: list[Any]) -> Grey:
    slices = [one for one in slices if "Rows" in one]
    series = {str(getattr(one, "SeriesInstanceUID", "")) for one in slices}
    if len(series) > 1:
        raise Fault(path, f"it holds {len(series)} series", "put the files of one into a folder of its own")
    if len(slices) < 2:
        raise Fault(path, "one slice, not a volume" if slices else "no picture is in its DICOM files", "give the folder of a whole series")
    depths, notes = _depths(path, slices)
    order = np.argsort(depths, kind="stable")
    values, told = _values(path, [slices[k] for k in order])
    return solid(path, values, _spacing(slices[0], _step(path, np.sort(depths)) if not notes else None), (*notes, *told))


def _depths(path: Path, slices: list[Any]) -> tuple[np.ndarray, list[str]]:
    """How far each slice lies along the line across the slices; or, where no places are told, its number, and a note that says so."""
    if all("ImagePositionPatient" in one and "ImageOrientationPatient" in one for one in slices):
        return _across(slices[0].ImageOrientationPatient, [one.ImagePositionPatient for one in slices]), []
    if all("InstanceNumber" in one for one in slices):
        return np.array([float(one.InstanceNumber) for one in slices]), ["in the order of their instance numbers, as they tell no places"]
    raise Fault(path, "its slices tell neither their places nor their numbers", "save them as images, in the order of their names")


def _across(orientation: Iterable[float], places: Iterable[Iterable[float]]) -> np.ndarray:
    rows = np.array([float(part) for part in orientation]).reshape(2, 3)
    return np.array([[float(part) for part in place] for place in places]) @ np.cross(rows[0], rows[1])


def _step(path: Path, depths: np.ndarray) -> float:
    """The distance of slices that follow one another. A Fault where it is not the same all through, since a slice may be missing."""
    steps = np.diff(depths)
    if steps.min() <= 0 or steps.max() > steps.min() * (1 + _EVEN):
        told = f"{steps.min():.6g} to {steps.max():.6g} mm apart" if steps.min() > 0 else "two at one place"
        raise Fault(path, f"its slices are not evenly spaced: {told}", "is one missing, or are there several series? copy the series again")
    return float(np.mean(steps))


def _values(path: Path, slices: list[Any]) -> tuple[np.ndarray, list[str]]:
    """The values of all slices in this order, scaled as they say, and in words what was done to them."""
    if len({(one.Rows, one.Columns) for one in slices}) > 1:
        raise Fault(path, "slices of different sizes", "take out those that do not belong to the series")
    pages = [_scaled(path, one) for one in slices]
    values = np.stack([page for page, _ in pages])
    if getattr(slices[0], "PhotometricInterpretation", "") == "MONOCHROME1":
        return values.max() - values, ["turned from white to black, as it says that its least values are white"]
    return values, ["values scaled as its header says"] if pages[0][1] else []


def _scaled(path: Path, one: Any) -> tuple[np.ndarray, bool]:
    """The values of a slice or of all frames of a file, and whether they are others than those that are stored."""
    try:
        stored = one.pixel_array
    except (NotImplementedError, RuntimeError, AttributeError, ValueError, KeyError) as error:
        raise Fault(path, f"packed in a way that pydicom cannot unpack here ({error})", "`apt install python3-gdcm`, or save it unpacked") from error
    if int(getattr(one, "SamplesPerPixel", 1)) != 1:
        raise Fault(path, "slices in colours", "save one number a voxel")
    slope, shift = float(getattr(one, "RescaleSlope", 1) or 1), float(getattr(one, "RescaleIntercept", 0) or 0)
    if slope == 1 and shift == 0:
        return stored, False
    if slope == 1 and shift.is_integer():
        return stored.astype(np.int32) + int(shift), True
    return stored * slope + shift, True


def _spacing(one: Any, step: float | None) -> Spacing | None:
    """The sizes of a voxel: those of a pixel, of which the first is that from row to row, and the step from slice to slice."""
    pixel = getattr(one, "PixelSpacing", None) or getattr(one, "ImagerPixelSpacing", None)
    step = step or getattr(one, "SpacingBetweenSlices", None) or getattr(one, "SliceThickness", None)
    return Spacing.read([pixel[1], pixel[0], step], "mm") if pixel and step else None


def _of_frames(path: Path, one: Any) -> Grey:
    """The volume of one file with several frames, in the order of their places where they tell them."""
    values, moved = _scaled(path, one)
    shared = getattr(one, "SharedFunctionalGroupsSequence", [None])[0]
    frames = list(getattr(one, "PerFrameFunctionalGroupsSequence", []))
    notes = ["values scaled as its header says"] if moved else []
    orientation = next((group.PlaneOrientationSequence[0].ImageOrientationPatient for group in (shared, *frames[:1]) if group and "PlaneOrientationSequence" in group), None)
    step = None
    if orientation is not None and frames and all("PlanePositionSequence" in frame for frame in frames):
        depths = _across(orientation, [frame.PlanePositionSequence[0].ImagePositionPatient for frame in frames])
        values, step = values[np.argsort(depths, kind="stable")], _step(path, np.sort(depths))
    measures = next((group.PixelMeasuresSequence[0] for group in (shared, *frames[:1]) if group and "PixelMeasuresSequence" in group), one)
    return solid(path, values, _spacing(measures, step), notes)
