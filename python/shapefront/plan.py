"""What is wanted of each picture of a run, and where it goes."""
from __future__ import annotations

from dataclasses import asdict, dataclass
from decimal import Decimal
from pathlib import Path
from typing import Any

from .hands import Hand
from .layout import key_of
from .spacing import Spacing
from .units import Pixel

# How wide the classes of widths are at least that nobody names, in pixels.
_CLASS = 2
# The members of a record that are lists.
_LISTS = ("classes", "spacing")


@dataclass(frozen=True)
class Wanted:
    """What is wanted of a picture beside its report and its table, with lengths in its pixels: its network, without branches shorter than `prune`
    and with widths in classes between these edges or, without edges, so wide; its sides of at least so many steps, with corners and circles; of a
    volume the row of the whole, its background measured as an object, its surface as a mesh; the thickness in its table; whether its voxels are cubes,
    and else their sides as whole numbers."""

    network: bool = False
    prune: float | None = None
    classes: tuple[float, ...] | None = None
    class_width: float = _CLASS
    sides: int | None = None
    whole: bool = False
    separation: bool = False
    mesh: bool = False
    thickness: bool = False
    is_cubic: bool = True
    spacing: tuple[int, int, int] | None = None

    @classmethod
    def told(cls, options: dict[str, Any], fit: int, spacing: Spacing | None = None) -> Wanted:
        """What the options of a run tell, where a pixel of the picture is `fit` of the image's wide, which has voxels of this size if it is a volume.
        Lengths are told in the unit, if there is one."""
        size = _width(options, spacing)
        scale = float(size * fit) if size else 1.0
        prune, classes = options["prune"], options["classes"]
        return cls(
            options["network"], None if prune is None else prune / scale, None if classes is None else tuple(edge / scale for edge in classes),
            float(_round(size * fit * _CLASS)) / scale if size else _CLASS, options["long"] if options["sides"] else None,
            *_of_whole(options), options["thickness"], spacing is None or spacing.is_cubic, spacing.in_whole.sides if spacing and spacing.in_whole else None,
        )  # fmt: skip

    @classmethod
    def of(cls, record: dict[str, Any]) -> Wanted:
        """What the record of a picture says that was wanted."""
        told = record["wanted"]
        return cls(**{**told, **{name: None if told[name] is None else tuple(told[name]) for name in _LISTS}})

    @property
    def record(self) -> dict[str, Any]:
        """What a record says of it."""
        return {name: list(value) if name in _LISTS and value is not None else value for name, value in asdict(self).items()}


@dataclass(frozen=True)
class Plan:
    """Where the files go, the rule of the thinning, whether reports stay plain text, the masks that are wanted, the options that tell
    what else, the hand that has the folder, where files are written, whether drawings are made, and reports are kept, and whether pictures lie in subfolders."""

    folder: Path
    rule: str
    plain: bool
    masks: tuple[str, ...]
    options: dict[str, Any]
    hand: Hand | None = None
    draws: bool = True
    keeps: bool = True
    subfolders: bool = False

    @classmethod
    def told(cls, folder: Path, options: dict[str, Any], hand: Hand | None = None, subfolders: bool = False) -> Plan:
        """The plan of a run with these options, into this folder, in which pictures lie in subfolders or not."""
        return cls(folder, options["rule"], options["plain"], masks_of(options), options, hand, not options["no_draw"], not options["no_report"], subfolders)

    def key(self, image: str) -> str:
        """What the names of the files of this image's picture begin with."""
        return key_of(image, self.subfolders)

    def pixel(self, fit: int, spacing: Spacing | None = None) -> Pixel | None:
        """How wide a pixel of a picture is, where it is told, or a voxel that is a cube: `fit` of the image's."""
        if self.options["command"] == "volume":
            return Pixel(spacing.sizes[0] * fit, spacing.unit) if spacing and spacing.unit and spacing.is_cubic else None
        pixel = Pixel.told(self.options)
        return Pixel(pixel.size * fit, pixel.unit) if pixel else None

    def wanted(self, fit: int, spacing: Spacing | None = None) -> Wanted:
        """What is wanted of a picture of which a pixel is `fit` of the image's wide, which has voxels of this size if it is a volume."""
        return Wanted.told(self.options, fit, spacing)


def masks_of(options: dict[str, Any]) -> tuple[str, ...]:
    """The masks that the options of a run want, each once."""
    return tuple(dict.fromkeys([*options["masks"], *(["thickness"] if options["thickness"] else [])]))


def _of_whole(options: dict[str, Any]) -> tuple[bool, bool, bool]:
    """Whether the row of a whole volume is wanted, as it is where its labels are not taken one by one, its background, and its mesh."""
    is_whole = options["command"] == "volume" and options["labels"] != "each"
    return is_whole, is_whole and options["separation"], is_whole and options["mesh"]


def _width(options: dict[str, Any], spacing: Spacing | None) -> Decimal | None:
    """How wide a pixel of an image is in a unit, or a voxel that is a cube; None where lengths are told in pixels."""
    if options["command"] == "volume":
        return spacing.sizes[0] if spacing and spacing.unit and spacing.is_cubic else None
    pixel = Pixel.told(options)
    return pixel.size if pixel else None


def _round(length: Decimal) -> Decimal:
    """The least of 1, 2 and 5 times a power of ten that is no less than a length."""
    power = Decimal(10) ** length.adjusted()
    return next(step * power for step in (1, 2, 5, 10) if step * power >= length)
