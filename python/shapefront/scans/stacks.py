"""Stacks of flat images: folders of slices, and TIFF files of several pages with what ImageJ and OME say of the size of a voxel."""
from __future__ import annotations

import re
from pathlib import Path
from typing import Any
from xml.etree import ElementTree

import numpy as np

from ..faults import Fault
from ..images import SUFFIXES, TIFF, Grey, load, load_stack
from ..pictures import sides_of, told_sides
from ..spacing import Spacing


def read_folder(path: Path, labels: bool, channel: str | None) -> Grey:
    """The volume of a folder of slices, in the order of the numbers in their names; what is no image by its name is passed over."""
    files = sorted((p for p in path.iterdir() if p.is_file() and not p.name.startswith(".")), key=_numbered)
    slices = [file for file in files if file.suffix.lower() in SUFFIXES]
    if not slices:
        raise Fault(path, "no slice is in this folder" if files else "an empty folder", "it has to hold the slices, one image each")
    stack = _stacked(path, [(file.name, load(file, labels, channel)) for file in slices])
    passed = len(files) - len(slices)
    notes = (f"files passed over, as their names are not those of images: {passed}",) if passed else ()
    return Grey(stack.name, stack.values, (*stack.notes, *notes), stack.objects)


def read_stack(path: Path, labels: bool, channel: str | None) -> Grey:
    """The volume of a file of several pages. A Fault where it has one alone."""
    slices = load_stack(path, labels, channel)
    if len(slices) < 2:
        raise Fault(path, "one image, not a stack", "give the folder of the slices, or `shapes measure` for a flat picture")
    stack = _stacked(path, [(f"page {k}", page) for k, page in enumerate(slices, 1)])
    return Grey(stack.name, stack.values, stack.notes, stack.objects, spacing=_spacing(path) if path.suffix.lower() in TIFF else None)


def _numbered(path: Path) -> list[tuple[int, int, str]]:
    """The order of names with numbers in them: slice2 comes before slice10."""
    parts = re.split(r"(\d+)", path.name)
    return [(0, int(part), "") if part.isdigit() else (1, 0, part) for part in parts if part]


def _stacked(path: Path, slices: list[tuple[str, Grey]]) -> Grey:
    (first, one), notes = slices[0], {}
    for name, grey in slices:
        if grey.values.shape != one.values.shape:
            told = f"{name} has {told_sides(sides_of(grey.values))}, {first} has {told_sides(sides_of(one.values))}"
            raise Fault(path, f"slices of different sizes: {told}", "take out those that do not belong to the stack")
        notes.update(dict.fromkeys(grey.notes))
    return Grey(str(path), np.stack([grey.values for _, grey in slices]), tuple(notes), one.objects)


def _spacing(path: Path) -> Spacing | None:
    """What ImageJ or OME wrote into a TIFF of the sizes of a voxel; None where tifffile is not installed, or nobody wrote it."""
    try:
        import tifffile
    except ImportError:
        return None
    try:
        with tifffile.TiffFile(path) as file:
            return _of_ome(file.ome_metadata) if file.ome_metadata else _of_imagej(file) if file.imagej_metadata else None
    except Fault:
        raise
    except (tifffile.TiffFileError, OSError, ValueError, KeyError, ElementTree.ParseError, ZeroDivisionError):
        return None


def _of_ome(text: str) -> Spacing | None:
    """What OME says: a size and a unit along each axis, micrometres where it names none."""
    pixels = next((one for one in ElementTree.fromstring(text).iter() if one.tag.endswith("}Pixels") or one.tag == "Pixels"), None)
    if pixels is None or any(f"PhysicalSize{axis}" not in pixels.attrib for axis in "XYZ"):
        return None
    found = [Spacing.read([pixels.attrib[f"PhysicalSize{axis}"]] * 3, pixels.attrib.get(f"PhysicalSize{axis}Unit", "um")) for axis in "XYZ"]
    if None in found or found[0].unit is None:
        return None
    sizes = [one.within(found[0].unit) for one in found]
    return Spacing.of([one.sizes[0] for one in sizes if one], found[0].unit)


def _of_imagej(file: Any) -> Spacing | None:
    """What ImageJ says: the step from slice to slice and the unit in words, and pixels a unit in two tags. Nothing where the unit is pixels."""
    told, tags = file.imagej_metadata, file.pages[0].tags
    if "spacing" not in told or "XResolution" not in tags or "YResolution" not in tags:
        return None
    flat = [tags[name].value[1] / tags[name].value[0] for name in ("XResolution", "YResolution")]
    spacing = Spacing.read([*flat, abs(float(told["spacing"]))], told.get("unit"))
    return spacing if spacing and spacing.unit else None
