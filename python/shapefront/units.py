"""The size of a pixel, and the columns of a table in its unit."""
from __future__ import annotations

from dataclasses import dataclass
from decimal import Context, Decimal, InvalidOperation
from typing import Any, Protocol

from .faults import Fault

# The power of the pixel's size that a column of a table is in. A column that is not here has no unit, or is a place.
POWERS = {
    **{"area": 2, "border": 1, "hole_border": 1, "feret": 1, "radius": 1, "voxels": 3},
    **{"length": 1, "width": 1, "mean_width": 1, "width_from": 1, "width_to": 1, "volume": 3, "surface": 2},
    **{"convex_area": 2, "convex_perimeter": 1, "equivalent_diameter": 1, "min_feret": 1, "diameter": 1, "distance": 1, "thickness": 1, "thickness_sd": 1, "thickness_max": 1},
    **{"major": 1, "minor": 1},
    **{"BV": 3, "TV": 3, "BS": 2, "i.S": 2, "BS/BV": -1, "Conn.D": -3},
    **{f"Tb.{name}{kind}": 1 for name in ("Th", "Sp") for kind in ("", "_sd", "_max")},
}
_DIGITS = Context(prec=9)


class Size(Protocol):
    """The size of a pixel or of a voxel in a unit, as tables tell lengths by it; a cell is empty where a number would be wrong."""

    @property
    def unit(self) -> str | None: ...

    def column(self, name: str) -> str | None: ...

    def times(self, number: str, power: int, fit: int = 1) -> str: ...

    def along(self, axis: int, place: str) -> str: ...


def in_unit(name: str, unit: str) -> str:
    """The name of the column in a unit for one in pixels: `area_mm2` for `area`."""
    power = POWERS[name]
    return f"{name}_{unit}" + ("" if power == 1 else str(power))


@dataclass(frozen=True)
class Pixel:
    """How wide a pixel is, in a unit of length."""

    size: Decimal
    unit: str

    @classmethod
    def given(cls, size: str, unit: str) -> Pixel:
        """The size that a user gave. A Fault where it is no length."""
        try:
            value = Decimal(size)
        except InvalidOperation:
            value = Decimal(0)
        if not value.is_finite() or value <= 0 or not unit.isidentifier():
            raise Fault("--pixel-size", f"`{size} {unit}` is no length", "give a number above 0 and a unit, as in `--pixel-size 0.65 um`")
        return cls(value, unit)

    @classmethod
    def of_dpi(cls, dpi: str) -> Pixel:
        """The size of a pixel of a scan, in millimetres, by its dots per inch. A Fault where that is no number."""
        return cls(Decimal("25.4") / cls.given(dpi, "dpi").size, "mm")

    @classmethod
    def told(cls, options: dict[str, Any]) -> Pixel | None:
        """The pixel's size by the options `pixel_size` and `dpi`; None where none of the two was given. A Fault where it is no length."""
        if options["pixel_size"]:
            return cls.given(*options["pixel_size"])
        return cls.of_dpi(options["dpi"]) if options["dpi"] else None

    @property
    def record(self) -> dict[str, str]:
        """What the record of a run says of it."""
        return {"size": str(self.size), "unit": self.unit}

    def times(self, number: str, power: int, fit: int = 1) -> str:
        """A number of pixels in the unit, with nine digits; a pixel is `fit` of the image's wide."""
        value = Decimal(number) * (self.size * fit) ** power
        return f"{_DIGITS.plus(value).normalize():f}"

    def column(self, name: str) -> str | None:
        """The name of the column in the unit: `area_mm2` for `area`. None where a column has no unit."""
        return in_unit(name, self.unit) if name in POWERS else None

    def along(self, axis: int, place: str) -> str:
        """A place along an axis, counted in pixels, in the unit."""
        return self.times(place, 1)

    @property
    def in_words(self) -> str:
        """What a summary says of it."""
        return f"a pixel is {self} wide"

    def __str__(self) -> str:
        return f"{_DIGITS.plus(self.size).normalize():f} {self.unit}"
