"""The rows of a volume in `volumes.csv`: what the fields of bone, soil and foams publish of a whole volume, arranged from the proved numbers of its whole object, from
the proved table of its objects and, where its background was measured, from that. A cell is empty where it would be wrong, or was not asked for."""
from __future__ import annotations

from collections.abc import Iterable
from dataclasses import dataclass
from decimal import Decimal
from math import prod
from pathlib import Path

import numpy as np

from .layout import OBJECTS, REGION, SPACED, WHOLE, part
from .pictures import solid_mask, told_suffix
from .separation import Spread
from .spacing import spelled
from .tables import Row, dicts_of

# The name of the part that is the background, measured as an object.
SEPARATION = "separation"

_THICKNESS = ("", "_sd", "_max")
_WIDTHS = [f"Tb.{name}{kind}" for name in ("Th", "Sp") for kind in _THICKNESS]
COLUMNS = ["TV", "BV", "background", "BV/TV", "porosity", "BS", "i.S", "BS/BV", *_WIDTHS, "euler", "Conn.D", "pieces", "closed_pores", "tunnels"]
# Those that are wrong in voxels which are no cubes.
_OF_CUBES = ("BS", "i.S", "BS/BV", *_WIDTHS)


@dataclass(frozen=True)
class Morphometry:
    """A whole volume: how many voxels are looked at, and how many sides of object voxels across each axis lie at the border of these; the numbers of its whole object by
    their names, the rows of its objects, and its separation where it was measured; of voxels that are no cubes their sides as whole numbers, and the rows of its objects by
    these, where the program knows them."""

    total: int
    cut: tuple[int, int, int]
    whole: dict[str, str]
    objects: list[dict[str, str]]
    separation: Spread | None = None
    is_cubic: bool = True
    sides: tuple[int, int, int] | None = None
    spaced: list[dict[str, str]] | None = None

    @classmethod
    def of(cls, stem: Path, total: int, cut: tuple[int, int, int], separation: Spread | None, is_cubic: bool, sides: tuple[int, int, int] | None = None) -> Morphometry:
        """That of the volume whose files' names begin with `stem`."""
        whole, objects, spaced = (dicts_of(path.read_text()) if (path := stem.with_name(stem.name + suffix)).is_file() else None for suffix in (WHOLE, ".csv", SPACED[OBJECTS]))
        return cls(total, cut, (whole or [{}])[0], objects or [], separation, is_cubic, sides, spaced)

    @property
    def rows(self) -> list[Row]:
        """The table of the whole volume in voxels: its header and its row."""
        voxels, euler, surface = int(self.whole["voxels"]), int(self.whole["euler"]), self.whole["surface"]
        own = {
            "TV": self.total, "BV": voxels, "background": self.total - voxels, "BV/TV": _ratio(voxels, self.total), "porosity": _ratio(self.total - voxels, self.total),
            "BS": surface, "i.S": sum(self.cut), "BS/BV": _ratio(Decimal(surface), voxels), **_thickness(self.objects), **_separation(self.separation),
            "euler": euler, "Conn.D": _ratio(1 - euler, self.total), "pieces": self.whole["pieces"], "closed_pores": self.whole["pores"], "tunnels": self.whole["tunnels"],
        }  # fmt: skip
        return _table({name: value for name, value in own.items() if self.is_cubic or name not in _OF_CUBES})

    @property
    def spaced_rows(self) -> list[Row] | None:
        """The same in the unit of the sides of its voxels, as far as that is told of voxels that are no cubes; None where it is not."""
        if self.spaced is None or self.sides is None:
            return None
        surface, volume = (_sum(self.spaced, name) for name in ("surface", "volume"))
        cut = sum(count * prod(self.sides) // side for count, side in zip(self.cut, self.sides))
        return _table({"BS": surface, "i.S": cut, "BS/BV": None if surface is None or volume is None else _ratio(surface, volume)})


def _table(own: dict[str, object]) -> list[Row]:
    return [COLUMNS, ["" if own.get(name) is None else str(own[name]) for name in COLUMNS]]


def region_beside(stem: Path, sides: tuple[int, int, int]) -> np.ndarray | None:
    """The region of a volume with these sides, indexed [z, y, x], where one lies beside it."""
    path = part(stem, REGION, told_suffix(sides))
    return solid_mask(path, sides) if path.is_file() else None


def sides_at_border(mask: np.ndarray, region: np.ndarray | None) -> tuple[int, int, int]:
    """How many sides of object voxels across x, y and z lie at the border of a volume [z, y, x], or of its region where there is one."""
    if region is None:
        return tuple(int(mask.take((0, -1), axis).sum()) for axis in (2, 1, 0))
    framed = np.pad(region, 1)
    found = []
    for axis in (2, 1, 0):
        beside = [np.roll(framed, step, axis)[1:-1, 1:-1, 1:-1] for step in (1, -1)]
        found.append(sum(int((mask & ~own).sum()) for own in beside))
    return tuple(found)


def _sum(rows: Iterable[dict[str, str]], name: str) -> Decimal | None:
    """The sum of a column; None where the table has none."""
    found = [row.get(name) for row in rows]
    return sum(map(Decimal, found), Decimal(0)) if found and all(found) else Decimal(0) if not found else None


def _ratio(part_: Decimal | int, whole: Decimal | int) -> str | None:
    """How much a part is of a whole, with nine digits; None of nothing."""
    return spelled(Decimal(part_) / Decimal(whole)) if whole else None


def _thickness(rows: list[dict[str, str]]) -> dict[str, str | None]:
    """The mean thickness over all voxels of some objects, its standard deviation over them, and the greatest; nothing where it was not measured."""
    if not rows or not all(row.get("thickness") for row in rows):
        return {}
    voxels, mean, deviation = (np.array([float(row[column]) for row in rows]) for column in ("voxels", "thickness", "thickness_sd"))
    whole = float((voxels * mean).sum() / voxels.sum())
    square = float((voxels * (deviation**2 + mean**2)).sum() / voxels.sum())
    numbers = whole, max(square - whole**2, 0) ** 0.5, max(float(row["thickness_max"]) for row in rows)
    return {"Tb.Th" + kind: f"{number:.3f}" for kind, number in zip(_THICKNESS, numbers)}


def _separation(found: Spread | None) -> dict[str, str | None]:
    numbers = () if found is None else (found.mean, found.deviation, found.greatest)
    return {"Tb.Sp" + kind: f"{number:.2f}" for kind, number in zip(_THICKNESS, numbers)}
