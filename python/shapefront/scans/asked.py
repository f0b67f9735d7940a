"""What a user asks for where a volume is read: the sides and the type of raw bytes, the size of a voxel, cubes, and the region that is looked at."""
from __future__ import annotations

from dataclasses import asdict, dataclass
from pathlib import Path
from typing import Any

from ..spacing import Spacing


@dataclass(frozen=True)
class Asked:
    """The sides (x, y, z) and the type of raw bytes, where they are given; the size of a voxel in words, and whether that which a file tells is passed
    over; whether voxels are made cubes; and the file of the region that alone is looked at."""

    sides: tuple[int, int, int] | None = None
    kind: str | None = None
    spacing: Spacing | None = None
    is_alone: bool = False
    cubes: bool = False
    region: Path | None = None

    @classmethod
    def told(cls, options: dict[str, Any]) -> Asked:
        """What the options of a command or of a run tell. A Fault where the size of a voxel is none."""
        if options.get("command") != "volume":
            return cls()
        sides, region = options.get("raw_sides"), options.get("region")
        return cls(
            tuple(sides) if sides else None, options.get("raw_type"), Spacing.told(options), options.get("no_metadata", False), options.get("cubes", False), Path(region) if region else None,
        )  # fmt: skip

    @property
    def record(self) -> dict[str, Any]:
        """What a record says of it."""
        told = asdict(self)
        return {**told, "sides": list(self.sides) if self.sides else None, "spacing": self.spacing.record if self.spacing else None, "region": str(self.region) if self.region else None}

    @classmethod
    def recorded(cls, record: dict[str, Any] | None) -> Asked:
        """The same, as a record tells it."""
        if not record:
            return cls()
        sides, region = record["sides"], record["region"]
        return cls(**{**record, "sides": tuple(sides) if sides else None, "spacing": Spacing.recorded(record["spacing"]), "region": Path(region) if region else None})
