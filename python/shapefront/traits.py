"""What the records of a run have in common, as far as its tables and its summary have to know it before their first row.

Those of several runs are put together without their records, so a join need not have all of these at once.
"""
from __future__ import annotations

from collections.abc import Callable, Iterable, Iterator, Sequence
from dataclasses import asdict, dataclass, field
from typing import Any

from .layout import FURTHER, JOINED, evidence
from .spacing import InUnit, measure_of
from .tables import Joint, Row, rows_of
from .units import Pixel

Record = dict[str, Any]
# The text of a record's own table, by what its name ends in.
Table = Callable[[Record, str], str]


@dataclass(frozen=True)
class Traits:
    """Whether an image was made smaller, whether one has labels, how many axes they have, in how many images the objects were found to be dark and light,
    the thresholds that were chosen (two at most: more change nothing), the unit of volumes that tell the size of their voxels,
    and for each table of all the columns of a picture's own, and of the further one."""

    fits: bool = False
    labelled: bool = False
    axes: int = 2
    dark: int = 0
    light: int = 0
    thresholds: tuple[float, ...] = ()
    unit: str | None = None
    tables: dict[str, tuple[Row, Row]] = field(default_factory=dict)

    @classmethod
    def of(cls, records: Sequence[Record], table: Table) -> Traits:
        """Those of records, where `table` gives the tables of each: without the columns of tables where it gives nothing."""
        cuts = [record["cut"] for record in records if record["cut"]]
        sides = [cut["objects"] for cut in cuts if cut["side"].startswith("the frame")]
        return cls(
            any(record["fit"] > 1 for record in records), any(record["labels"] is not None for record in records),
            max([len(record["sides"]) for record in records], default=2), sides.count("dark"), sides.count("light"),
            _few(cut["threshold"] for cut in cuts if cut["how"].startswith("chosen")), unit.unit if (unit := InUnit.of(records)) else None, dict(_tables(records, table)),
        )  # fmt: skip

    @classmethod
    def joined(cls, traits: Iterable[Traits]) -> Traits:
        """Those of the records of several runs together."""
        own = list(traits)
        tables: dict[str, tuple[Row, Row]] = {}
        for one in own:
            for name, (header, more) in one.tables.items():
                tables[name] = (header, tables[name][1] or more) if name in tables else (header, more)
        return cls(
            any(one.fits for one in own), any(one.labelled for one in own), max([one.axes for one in own], default=2),
            sum(one.dark for one in own), sum(one.light for one in own), _few(value for one in own for value in one.thresholds), next((one.unit for one in own if one.unit), None), tables,
        )  # fmt: skip

    @classmethod
    def told(cls, record: dict[str, Any]) -> Traits:
        """Those that the record of a run tells."""
        tables = {name: (header, more) for name, (header, more) in record["tables"].items()}
        own: dict[str, Any] = {**record, "thresholds": tuple(record["thresholds"]), "tables": tables}
        return cls(**own)

    @property
    def record(self) -> dict[str, Any]:
        """What the record of a run says of them."""
        tables = {name: [header, more] for name, (header, more) in self.tables.items()}
        return {**asdict(self), "thresholds": list(self.thresholds), "tables": tables}

    def measure(self, options: dict[str, Any]) -> Pixel | InUnit | None:
        """In what a run with these options tells lengths."""
        return measure_of(options, [{"spacing": {"unit": self.unit}}])

    def joint(self, name: str, pixel: Pixel | InUnit | None) -> Joint:
        """How the table of all of this name is put together."""
        return Joint(*self.tables[name], self.fits, pixel)

    def warnings(self) -> Iterator[str]:
        """What a user should look at before the numbers."""
        if self.dark and self.light:
            yield f"the objects were taken to be dark in {self.dark} images and light in {self.light}: give --dark or --light where all are alike"
        if len(self.thresholds) > 1:
            yield "each image has a threshold of its own, told below: give --threshold where their areas are to be compared"


def _few(values: Iterable[float]) -> tuple[float, ...]:
    """The least and the greatest of some values, which are one where all are equal."""
    own = set(values)
    return tuple(sorted({min(own), max(own)})) if own else ()


def _tables(records: Iterable[Record], table: Table) -> Iterator[tuple[str, tuple[Row, Row]]]:
    """The columns of each table that a picture has, and of the further table with the rest of its rows."""
    for name, suffix in JOINED.items():
        own = [record for record in records if has(record, suffix)]
        further = FURTHER.get(name)
        more = next((record for record in own if further and has(record, further)), None)
        if own:
            yield name, (_names(table(own[0], suffix)), _names(table(more, further)) if more and further else [])


def _names(table: str) -> Row:
    return next(iter(rows_of(table)), [])


def has(record: Record, suffix: str) -> bool:
    """Whether a picture has a file of evidence whose name ends so."""
    return evidence(record["key"], suffix) in record["files"]
