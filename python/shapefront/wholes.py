"""What a page shows of whole volumes: a line for each quantity of `volumes.csv`, in the unit where it is told, and a column for each volume."""
from __future__ import annotations

from dataclasses import dataclass
from decimal import Decimal

from .morphometry import COLUMNS
from .tables import Row
from .units import POWERS, Size

ABOUT = {
    "TV": "total volume: all that is looked at",
    "BV": "volume of the object (bone volume)",
    "BV/TV": "volume fraction of the object",
    "porosity": "volume fraction of all else",
    "BS": "surface of the object, by Crofton's formula",
    "i.S": "of that what the box cuts (intersection surface): sides of voxels at its border",
    "BS/BV": "specific surface",
    "Tb.Th": "mean thickness of the object (trabecular thickness): at each voxel the diameter of the greatest ball that holds it and fits in",
    "Tb.Th_sd": "standard deviation of the thickness",
    "Tb.Th_max": "greatest thickness",
    "Tb.Sp": "mean separation: the same of what is no object, without what lies near to the border",
    "Tb.Sp_sd": "standard deviation of the separation",
    "Tb.Sp_max": "greatest separation",
    "euler": "Euler number of the object",
    "Conn.D": "connectivity density, of one piece: 1 less the Euler number, over the total volume",
    "pieces": "connected pieces of the object",
    "closed_pores": "pores without a way out",
    "tunnels": "tunnels through the object",
}


@dataclass(frozen=True)
class Quantity:
    """A line of the table: what it is called, its unit, what it is, and its value of each volume."""

    name: str
    unit: str
    about: str
    values: list[str]


def whole_of(rows: list[Row], size: Size | None) -> tuple[list[str], list[Quantity]] | None:
    """The names of the volumes, and the lines of their table, by the rows of `volumes.csv`; those that are empty all through are left out. None where there are no volumes."""
    if len(rows) < 2:
        return None
    header, *own = rows
    found = []
    for name in COLUMNS:
        scaled = size.column(name) if size else None
        at = scaled if scaled in header and any(row[header.index(scaled)] for row in own) else name
        values = [_brief(row[header.index(at)]) for row in own]
        if name in ABOUT and any(values):
            found.append(Quantity(name.replace("_", " "), _unit(name, size if at != name else None), ABOUT[name], values))
    return [row[0] for row in own], found


def _unit(name: str, size: Size | None) -> str:
    """The unit of a quantity, as people write it."""
    power = POWERS.get(name)
    if power is None:
        return ""
    unit = size.unit.replace("um", "µm") if size and size.unit else "voxels"
    return unit + {1: "", 2: "²", 3: "³", -1: "⁻¹", -3: "⁻³"}[power] if size else {3: "voxels", 2: "sides", 1: "voxels", -1: "a voxel", -3: "a voxel"}[power]


def _brief(value: str) -> str:
    """A number with five digits, or a whole one as it is."""
    if not value or "." not in value and "E" not in value.upper():
        return value
    return f"{Decimal(value):.5g}" if abs(Decimal(value)) < 100000 else f"{Decimal(value):.0f}"
