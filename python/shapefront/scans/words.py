"""The words of `shapes volume` alone. It stands on nothing that takes long to load."""
from __future__ import annotations

import argparse
import re

from .kinds import path_of

_TYPES = re.compile(r"[<>]?(u?int(8|16|32|64)|float(32|64)|[iu][1248]|f[48])")


def _type(word: str) -> str:
    if not _TYPES.fullmatch(word):
        raise ValueError(word)
    return word


def _side(word: str) -> int:
    if int(word) < 1:
        raise ValueError(word)
    return int(word)


def volume_words(volume: argparse.ArgumentParser) -> None:
    """The words of `shapes volume` alone."""
    volume.add_argument(
        "images", nargs="+", type=path_of, metavar="VOLUME",
        help="a folder of slices or of a DICOM series, a TIFF of several pages, NIfTI, NRRD, MetaImage, .npy, .npz, scan.h5:/path, or raw bytes with --sides",
    )  # fmt: skip
    volume.add_argument("--sides", dest="raw_sides", nargs=3, type=_side, metavar=("X", "Y", "Z"), help="the sides of raw bytes; x runs fastest, then y, then z")
    volume.add_argument("--type", dest="raw_type", type=_type, metavar="TYPE", help="the type of raw bytes, as uint8, uint16, >u2 or float32 (else by the size of the file)")
    volume.add_argument("--no-metadata", action="store_true", help="pass over the size of a voxel that a file tells")
    volume.add_argument("--cubes", action="store_true", help="make voxels that are no cubes cubes, before the threshold: by whole factors or linear interpolation")
    volume.add_argument("--region", type=path_of, metavar="MASK", help="look only at what lies where this volume of the same sides is not 0")
    volume.add_argument("--separation", action="store_true", help="also measure the background, as a volume turned over: how far the parts of the object are from each other")
    volume.add_argument("--mesh", action="store_true", help="also write the surface as a mesh of triangles (PLY), which is not proved")


def size_words(sizes: argparse._MutuallyExclusiveGroup) -> None:
    """The word for the size of a voxel, among those for the size of a pixel."""
    sizes.add_argument("--voxel-size", nargs=4, metavar=("X", "Y", "Z", "UNIT"), help="how wide a voxel is along x, y and z, where the three may differ")
