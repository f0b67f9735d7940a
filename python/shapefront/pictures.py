"""Pictures and volumes of two values, as the proved program reads them: a raw PBM, or a file of one byte a voxel."""
from __future__ import annotations

import glob
import re
from collections.abc import Sequence
from dataclasses import dataclass
from pathlib import Path

import numpy as np
import numpy.typing as npt

from secondreading.limits import MOST_FLAT, MOST_SOLID

from .faults import Fault

_PBM = re.compile(rb"P4\s(\d+)\s(\d+)\s")
_SIDES_IN_NAME = re.compile(r"\.(\d+)x(\d+)x(\d+)\.raw$")


def sides_of(mask: np.ndarray) -> tuple[int, ...]:
    """The sides of an image, x first: of an array indexed [y, x] or [z, y, x]."""
    return tuple(reversed(mask.shape))


def told_sides(sides: tuple[int, ...]) -> str:
    """The sides as a user is shown them: `x 512, y 512, z 96`."""
    return ", ".join(f"{axis} {side}" for axis, side in zip("xyz", sides))


def suffix_of(mask: np.ndarray) -> str:
    """What a file of this picture ends in: `.pbm`, or `.16x16x16.raw` with the sides of a volume."""
    return told_suffix(sides_of(mask))


def told_suffix(sides: Sequence[int]) -> str:
    """What a file of a picture with these sides ends in."""
    return ".pbm" if len(sides) == 2 else ".%dx%dx%d.raw" % tuple(sides)


def suffix_beside(stem: Path) -> str | None:
    """What the name of the picture ends in whose files' names begin with `stem`; None where none lies there, or several volumes do."""
    if stem.with_name(stem.name + ".pbm").is_file():
        return ".pbm"
    found = [path.name.removeprefix(stem.name) for path in stem.parent.glob(glob.escape(stem.name) + ".*x*x*.raw")]
    found = [suffix for suffix in found if _SIDES_IN_NAME.fullmatch(suffix)]
    return found[0] if len(found) == 1 else None


def solid_sides(suffix: str) -> tuple[int, int, int] | None:
    """The sides of a volume whose name ends so; None of a flat picture."""
    told = _SIDES_IN_NAME.fullmatch(suffix)
    if told is None:
        return None
    x, y, z = map(int, told.groups())
    return x, y, z


def solid_mask(path: Path, sides: Sequence[int]) -> np.ndarray:
    """The volume with these sides in a file, indexed [z, y, x]."""
    return np.frombuffer(path.read_bytes(), np.uint8).reshape(tuple(sides)[::-1]) > 0


def spelled(mask: np.ndarray) -> bytes:
    """The bytes of the picture's file: 1 where the mask is true."""
    if mask.ndim == 2:
        return b"P4\n%d %d\n" % sides_of(mask) + np.packbits(mask, axis=1).tobytes()
    return mask.astype(np.uint8).tobytes()


def pbm_mask(data: bytes) -> np.ndarray:
    """The picture in the bytes of a raw PBM without comments, as `spelled` and the program write it."""
    head = _PBM.match(data)
    if head is None:
        raise Fault("a mask", "no raw PBM", "was it changed?")
    width, height = map(int, head.groups())
    rows = np.frombuffer(data, np.uint8, offset=head.end()).reshape(height, -1)
    return np.unpackbits(rows, axis=1, count=width).astype(bool)


def checked_mask(given: npt.ArrayLike, name: str = "the array") -> np.ndarray:
    """The array as booleans: as it is, or of whole numbers of which one beside 0 occurs. A Fault where it is none of two or three axes with sides that
    the program takes."""
    mask: np.ndarray = np.asarray(given)
    if np.issubdtype(mask.dtype, np.integer):
        if mask.size and not ((mask == 0) | (mask == mask.flat[np.argmax(mask != 0)])).all():
            raise Fault(name, f"an array of {mask.dtype} with several values beside 0", "compare it with a threshold: `image > t`; of labels: `labels == k`")
        mask = mask != 0
    if mask.dtype != bool:
        raise Fault(name, f"an array of {mask.dtype}, not of booleans", "compare it with a threshold: `image > t`")
    if mask.ndim not in (2, 3):
        raise Fault(name, f"an array of {mask.ndim} axes", "give one of two (y, x) or three (z, y, x)")
    limit = MOST_FLAT if mask.ndim == 2 else MOST_SOLID
    if min(mask.shape) < 1 or max(mask.shape) > limit:
        raise Fault(name, f"sides of {told_sides(sides_of(mask))}", f"each has to be from 1 to {limit}")
    return mask


@dataclass(frozen=True)
class Source:
    """A picture's file with the words that name it to the proved program: `pbm FILE`, or `raw X Y Z FILE`."""

    path: Path
    sides: tuple[int, ...] = ()

    @property
    def words(self) -> list[str]:
        return ["raw", *map(str, self.sides), str(self.path)] if self.sides else ["pbm", str(self.path)]

    @classmethod
    def of(cls, path: Path, sides: tuple[int, ...] = ()) -> Source:
        """The source of a file: a volume where its name ends in `.XxYxZ.raw`, or has the sides that are given."""
        told = _SIDES_IN_NAME.search(path.name)
        if told:
            return cls(path, tuple(map(int, told.groups())))
        return cls(path, sides if path.suffix == ".raw" else ())
