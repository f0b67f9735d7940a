"""How wide a voxel is along x, y and z, as a file or a user tells it, and what can be said in its unit: of voxels that are no cubes volumes, places, and what the
program measures by whole numbers as long as their sides. A number that would be wrong is never given: its cell stays empty.
"""
from __future__ import annotations

from collections.abc import Iterable, Sequence
from dataclasses import dataclass
from decimal import Context, Decimal, InvalidOperation
from fractions import Fraction
from functools import cached_property
from math import gcd, lcm
from typing import Any

from .faults import Fault
from .units import POWERS, Pixel, in_unit

# The units of length that are known, with the power of ten of a metre that each is; and by what other names files call them.
_POWERS_OF_TEN = {"nm": -9, "um": -6, "mm": -3, "cm": -2, "m": 0}
_NAMES = {
    **{name: "nm" for name in ("nanometer", "nanometers", "nanometre", "nanometres")},
    **{name: "um" for name in ("\u00b5m", "\u03bcm", "\\u00b5m", "micron", "microns", "micrometer", "micrometers", "micrometre", "micrometres")},
    **{name: "mm" for name in ("millimeter", "millimeters", "millimetre", "millimetres")},
    **{name: "cm" for name in ("centimeter", "centimeters", "centimetre", "centimetres")},
    **{name: "m" for name in ("meter", "meters", "metre", "metres")},
}
# Sizes that differ by no more than these parts of each other make a cube, and are the same told twice.
_CUBE, _SAME = Decimal("0.0001"), Decimal("0.001")
_DIGITS = Context(prec=9)
# The greatest whole number that the program takes for the side of a voxel; and by what part of itself a side may be off where it is rounded to such.
_MOST_WHOLE, _OFF = 1000, Fraction(1, 1000)
# The columns that are told in the unit by these whole numbers; what else is told of voxels that are no cubes is told by their sizes.
BY_SIDES = ("surface", "feret", "BS", "i.S", "BS/BV")


@dataclass(frozen=True)
class InWhole:
    """The sides of a voxel as whole numbers of one length, and by what part of itself one of them is off at most."""

    sides: tuple[int, int, int]
    length: Decimal
    off: Fraction

    def times(self, number: str, power: int, fit: int = 1) -> str:
        """A number that was measured with these sides in the unit of the length, where a voxel is `fit` of these wide; empty where there is none."""
        return spelled(Decimal(number) * (self.length * fit) ** power) if number else ""

    def __str__(self) -> str:
        told = " by ".join(map(str, self.sides))
        return told + (f", rounded by at most {float(100 * self.off):.2g} percent" if self.off else "")


def unit_of(word: str | None) -> str | None:
    """The unit that a file calls so, as a name that fits into columns; None where it is no unit of length that is known."""
    told = (word or "").strip().strip('"').lower()
    told = _NAMES.get(told, told)
    return told if told in _POWERS_OF_TEN else None


@dataclass(frozen=True)
class Spacing:
    """How wide a voxel is along x, y and z; `unit` is None where the file does not tell it."""

    sizes: tuple[Decimal, Decimal, Decimal]
    unit: str | None

    @classmethod
    def read(cls, sizes: Iterable[Any], unit: str | None) -> Spacing | None:
        """The spacing that a file tells, by seven digits, which is as much as the numbers of files hold; None where it is none."""
        try:
            return cls.of([f"{float(size):.7g}" for size in sizes], unit)
        except Fault:
            raise
        except (TypeError, ValueError):
            return None

    @classmethod
    def of(cls, sizes: Iterable[object], unit: str | None) -> Spacing | None:
        """The spacing of these sizes, whose unit may go by any name; None where they are not three lengths above 0."""
        try:
            found = tuple(Decimal(str(size)) for size in sizes)
        except InvalidOperation:
            return None
        if len(found) != 3 or not all(size.is_finite() and size > 0 for size in found):
            return None
        return cls(found, unit_of(unit))

    @classmethod
    def given(cls, option: str, words: Sequence[str]) -> Spacing:
        """The spacing by the words of an option, one size or three and a unit. A Fault where they are no lengths."""
        *sizes, unit = words
        found = cls.of(sizes * 3 if len(sizes) == 1 else sizes, None)
        if found is None or not unit.isidentifier():
            example = "--pixel-size 0.65 um" if len(sizes) == 1 else "--voxel-size 0.5 0.5 2 um"
            raise Fault(option, f"`{' '.join(words)}` is no {'length' if len(sizes) == 1 else 'size of a voxel'}", f"give numbers above 0 and a unit, as in `{example}`")
        return cls(found.sizes, unit_of(unit) or unit)

    @classmethod
    def told(cls, options: dict[str, Any]) -> Spacing | None:
        """The spacing by the options `voxel_size`, `pixel_size` and `dpi`; None where none of them was given. A Fault where it is none."""
        if options.get("voxel_size"):
            return cls.given("--voxel-size", options["voxel_size"])
        if options["pixel_size"]:
            return cls.given("--pixel-size", options["pixel_size"])
        if options["dpi"]:
            dots = cls.given("--dpi", [options["dpi"], "mm"]).sizes[0]
            return cls((Decimal("25.4") / dots,) * 3, "mm")
        return None

    @classmethod
    def recorded(cls, record: dict[str, Any] | None) -> Spacing | None:
        """The spacing that a record tells."""
        return None if record is None else cls(tuple(map(Decimal, record["sizes"])), record["unit"])

    @property
    def record(self) -> dict[str, Any]:
        return {"sizes": [str(size) for size in self.sizes], "unit": self.unit}

    @property
    def in_mm(self) -> str:
        """The words that give these sizes in millimetres."""
        sizes = [spelled(size) for size in self.sizes]
        return f"--pixel-size {sizes[0]} mm" if len(set(sizes)) == 1 else f"--voxel-size {' '.join(sizes)} mm"

    @property
    def is_cubic(self) -> bool:
        return max(self.sizes) <= min(self.sizes) * (1 + _CUBE)

    @property
    def volume(self) -> Decimal:
        return self.sizes[0] * self.sizes[1] * self.sizes[2]

    @cached_property
    def in_whole(self) -> InWhole | None:
        """The sides as whole numbers that the program takes: exactly where that goes, and else those that are off least. None of cubes, and where a side is off by too much."""
        if self.is_cubic:
            return None
        sizes = [Fraction(size) for size in self.sizes]
        common = lcm(*(size.denominator for size in sizes))
        numbers = [int(size * common) for size in sizes]
        shared = gcd(*numbers)
        exact = max(numbers) // shared
        found = min((_in_whole(sizes, most) for most in ([exact] if exact <= _MOST_WHOLE else range(1, _MOST_WHOLE + 1))), key=lambda own: own.off)
        return found if found.off <= _OFF else None

    def by(self, factor: int) -> Spacing:
        """That of blocks of so many voxels along each side."""
        return Spacing(tuple(size * factor for size in self.sizes), self.unit)

    def within(self, unit: str) -> Spacing | None:
        """The same in another unit; None where it cannot be told in it."""
        if self.unit == unit:
            return self
        if self.unit not in _POWERS_OF_TEN or unit not in _POWERS_OF_TEN:
            return None
        power = _POWERS_OF_TEN[self.unit] - _POWERS_OF_TEN[unit]
        return Spacing(tuple(size.scaleb(power) for size in self.sizes), unit)

    def agrees(self, other: Spacing) -> bool:
        """Whether the two tell the same sizes, where both tell a unit; else whether they tell the same proportions."""
        if self.unit is None or other.unit is None:
            ratios = [one / two for one, two in zip(self.sizes, other.sizes)]
            return max(ratios) <= min(ratios) * (1 + _SAME)
        own = self.within(other.unit)
        return own is not None and all(abs(one - two) <= _SAME * two for one, two in zip(own.sizes, other.sizes))

    def times(self, number: str, power: int, fit: int = 1) -> str:
        """A number of widths, faces or voxels in the unit, with nine digits, where a voxel is `fit` of these wide; empty where the voxels are no
        cubes, unless it is a volume."""
        if not number or power % 3 and not self.is_cubic:
            return ""
        size = self.volume ** (power // 3) if power % 3 == 0 else self.sizes[0] ** power
        return spelled(Decimal(number) * size * Decimal(fit) ** power)

    def column(self, name: str) -> str | None:
        """The name of a column in the unit; None where a column has no unit, or none is told."""
        return in_unit(name, self.unit) if self.unit and name in POWERS else None

    def along(self, axis: int, place: str) -> str:
        """A place along an axis, counted in voxels, in the unit."""
        return spelled(Decimal(place) * self.sizes[axis]) if place else ""

    def __str__(self) -> str:
        sizes = [spelled(size) for size in self.sizes]
        told = sizes[0] if len(set(sizes)) == 1 else f"{sizes[0]} by {sizes[1]} by {sizes[2]}"
        return f"{told} {self.unit}" if self.unit else f"{told}, in a unit that the file does not tell"


@dataclass(frozen=True)
class InUnit:
    """The unit of the tables of a run of volumes, each of which has its own spacing; those that tell none have empty cells."""

    unit: str

    @classmethod
    def of(cls, records: Iterable[dict[str, Any]]) -> InUnit | None:
        """The unit of the first volume that tells one."""
        return next((cls(told["unit"]) for record in records if (told := record.get("spacing")) and told["unit"]), None)

    def size_of(self, record: dict[str, Any]) -> Spacing | None:
        """The size of a volume's voxels in this unit; None where it tells none that can be told in it."""
        found = Spacing.recorded(record.get("spacing"))
        return found.within(self.unit) if found else None

    def column(self, name: str) -> str | None:
        """The name of a column in the unit; None where a column has no unit."""
        return in_unit(name, self.unit) if name in POWERS else None

    def times(self, number: str, power: int, fit: int = 1) -> str:
        return ""

    def along(self, axis: int, place: str) -> str:
        return ""

    @property
    def in_words(self) -> str:
        return f"lengths in voxels, and in {self.unit} where the size of a voxel is told"

    @property
    def record(self) -> dict[str, str]:
        return {"unit": self.unit}


def _in_whole(sizes: Sequence[Fraction], most: int) -> InWhole:
    """The whole numbers next to these sizes, where the greatest of them is `most`."""
    length = max(sizes) / most
    sides = tuple(max(1, round(size / length)) for size in sizes)
    return InWhole(sides, Decimal(length.numerator) / Decimal(length.denominator), max(abs(side * length / size - 1) for side, size in zip(sides, sizes)))


def spelled(value: Decimal) -> str:
    """A number with nine digits, as tables have it."""
    return f"{_DIGITS.plus(value).normalize():f}"


def measure_of(options: dict[str, Any], records: Iterable[dict[str, Any]]) -> Pixel | InUnit | None:
    """In what a run with these options, which has these records, tells lengths: the size of a pixel of all images, or of volumes a unit alone."""
    return InUnit.of(records) if options["command"] == "volume" else Pixel.told(options)
