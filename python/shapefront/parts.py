"""What is made of a picture beside its own report and table: pictures of its parts, which the program analyses and measures as any other, and
tables arranged from these. The same is made again to check what lies in a folder."""
from __future__ import annotations

import re
from collections import defaultdict
from collections.abc import Callable, Iterable, Iterator
from dataclasses import dataclass
from functools import cached_property
from pathlib import Path
from typing import Protocol

import numpy as np

from .faults import Fault
from .files import shown
from .holes import Holes
from .layout import HOLES, SPACED, VOLUME, WHOLE, part, report_beside
from .morphometry import SEPARATION, Morphometry, region_beside, sides_at_border
from .network import Network
from .outlines import arranged, outlines_of
from .pictures import pbm_mask, solid_mask, solid_sides, spelled, suffix_beside, told_suffix
from .plan import Wanted
from .report import contours_in
from .separation import separation
from .solidnets import SolidNetwork
from .tables import spelled_rows

# The names of parts: those of a network, pictures of holes, and the background of a volume.
_NAMES = re.compile(r"network-[a-z]+|holes-\d+|separation")
_UNFIT = "the reports and tables of its parts do not fit together; measure again into an empty folder"


class Made(Protocol):
    """What one kind of work gives of a picture: pictures of parts by their names, the rule by which these are thinned, and tables by what their
    names end in."""

    rule: str
    suffixes: tuple[str, ...]

    @property
    def pictures(self) -> dict[str, bytes]: ...

    def tables(self, measured: dict[str, str]) -> dict[str, bytes]: ...


@dataclass(frozen=True)
class _OfHoles:
    """The holes of a flat picture."""

    holes: Holes

    rule, suffixes = "none", (HOLES,)

    @cached_property
    def pictures(self) -> dict[str, bytes]:
        return {f"holes-{k}": spelled(picture) for k, picture in enumerate(self.holes.pictures(), 1)}

    def tables(self, measured: dict[str, str]) -> dict[str, bytes]:
        rows = self.holes.rows([measured[name] for name in self.pictures])
        return {HOLES: spelled_rows(rows)} if len(rows) > 1 else {}


@dataclass(frozen=True)
class _OfOutlines:
    """The sides, corners and circles of a flat picture, of which no pictures are made."""

    stem: Path
    mask: np.ndarray
    steps: int

    rule, suffixes = "none", (".sides.csv", ".corners.csv", ".circles.csv")

    @property
    def pictures(self) -> dict[str, bytes]:
        return {}

    def tables(self, measured: dict[str, str]) -> dict[str, bytes]:
        _, contours = contours_in(report_beside(self.stem))
        return arranged(outlines_of(contours, self.steps, self.mask))


@dataclass(frozen=True)
class _OfWhole:
    """A whole volume, with these sides, and its background where it is wanted: what is no object, within the region where there is one."""

    stem: Path
    sides: tuple[int, int, int]
    wanted: Wanted

    rule, suffixes = "none", (VOLUME,)

    @property
    def pictures(self) -> dict[str, bytes]:
        if not self.wanted.separation:
            return {}
        region = region_beside(self.stem, self.sides)
        return {SEPARATION: spelled(~self._mask if region is None else region & ~self._mask)}

    @property
    def _mask(self) -> np.ndarray:
        return solid_mask(self.stem.with_name(self.stem.name + told_suffix(self.sides)), self.sides)

    def tables(self, measured: dict[str, str]) -> dict[str, bytes]:
        region, x, y, z = region_beside(self.stem, self.sides), *self.sides
        total, is_cubic = x * y * z if region is None else int(region.sum()), self.wanted.is_cubic
        between = separation(report_beside(part(self.stem, SEPARATION, "")), self.sides, region) if self.wanted.separation and is_cubic else None
        whole = Morphometry.of(self.stem, total, sides_at_border(self._mask, region), between, is_cubic, self.wanted.spacing)
        spaced = whole.spaced_rows
        return {VOLUME: spelled_rows(whole.rows), **({SPACED["volumes.csv"]: spelled_rows(spaced)} if spaced else {})}


def works(stem: Path, wanted: Wanted, lying: bool = False) -> Iterator[Made]:
    """What is made of the picture whose files' names begin with `stem`: of a flat one its holes, its network and its outlines, as they are wanted.

    Where `lying` says so only that of which a table lies there.
    """
    suffix = suffix_beside(stem)
    kinds = _kinds(stem, suffix, wanted) if suffix else []
    for suffixes, make in kinds:
        if not lying or any(stem.with_name(stem.name + suffix).is_file() for suffix in suffixes):
            yield make()


def _kinds(stem: Path, suffix: str, wanted: Wanted) -> list[tuple[tuple[str, ...], Callable[[], Made]]]:
    """The kinds of work on a picture whose name ends so, each with what the names of its tables end in."""
    if sides := solid_sides(suffix):
        whole = [(_OfWhole.suffixes, lambda: _OfWhole(stem, sides, wanted))] if wanted.whole else []
        return whole + ([(SolidNetwork.suffixes, lambda: SolidNetwork.of(stem, wanted))] if wanted.network else [])
    picture = stem.with_name(stem.name + suffix)
    kinds: list[tuple[tuple[str, ...], Callable[[], Made]]] = [(_OfHoles.suffixes, lambda: _OfHoles(Holes.of(pbm_mask(picture.read_bytes()))))]
    if wanted.network:
        kinds.append((Network.suffixes, lambda: Network.of(stem, wanted)))
    if wanted.sides is not None:
        kinds.append((_OfOutlines.suffixes, lambda: _OfOutlines(stem, pbm_mask(picture.read_bytes()), wanted.sides)))
    return kinds


def tables_of(wanted: Wanted, is_flat: bool) -> set[str]:
    """What the names of a picture's tables end in, its own and those that are made of it; one that has holes has a table of these, too."""
    if not is_flat:
        return {".csv", *((WHOLE, *_OfWhole.suffixes) if wanted.whole else ()), *(SolidNetwork.suffixes if wanted.network else ())}
    network = Network.suffixes if wanted.network else ()
    outlines = _OfOutlines.suffixes if wanted.sides is not None else ()
    return {".csv", *network, *outlines}


def names_in(names: Iterable[str]) -> dict[str, list[str]]:
    """The names of the parts of pictures, by what the names of the pictures' files begin with, where these are the names of all files: each part has a
    report among them."""
    report, found = re.compile(r"(.+)\.(" + _NAMES.pattern + r")\.report(\.gz)?", re.S), defaultdict(list)
    for name in names:
        if match := report.fullmatch(name):
            found[match[1]].append(match[2])
    return {stem: sorted(own) for stem, own in found.items()}


def suffixes_of(names: Iterable[str], packed: str, picture: str = ".pbm") -> set[str]:
    """What the names of the files of these parts end in, whose pictures end so, and whose reports end in `.report` and what is given."""
    return {f".{name}{suffix}" for name in names for suffix in (picture, ".report" + packed, ".csv")}


@dataclass(frozen=True)
class Again:
    """What is made of a picture, made again: the pictures of its parts by their names, and its tables by what their names end in."""

    pictures: dict[str, bytes]
    tables: dict[str, bytes]

    @classmethod
    def of(cls, stem: Path, wanted: Wanted, measured: dict[str, str] | None = None) -> Again:
        """The same of the picture whose files' names begin with `stem`, with these tables of its parts; or where these are not given with those
        that lie there, and of that alone of which a table lies there.

        A Fault where something that it needs cannot be read, or does not fit together.
        """
        pictures, tables = {}, {}
        try:
            for work in works(stem, wanted, lying=measured is None):
                own = work.pictures
                given = {name: part(stem, name, ".csv").read_text() if measured is None else measured[name] for name in own}
                pictures, tables = pictures | own, tables | work.tables(given)
        except OSError as error:
            raise Fault(error.filename, f"{shown(error.filename)} cannot be read ({error.strerror})") from error
        except Fault:
            raise
        except (KeyError, ValueError, ArithmeticError, AttributeError, IndexError, StopIteration) as error:
            raise Fault(stem, _UNFIT) from error
        return cls(pictures, tables)
