"""Arrays in, columns and reports out: what one's own programs call. Every number comes out of the proved program.

Masks are arrays [y, x] or [z, y, x], of booleans, or of whole numbers of which 0 is background; lengths are in pixels, areas in pixels, volumes in voxels.
"""
from __future__ import annotations

import csv
import io
import tempfile
from collections.abc import Iterable, Sequence
from dataclasses import dataclass
from pathlib import Path
from typing import cast

import numpy as np
import numpy.typing as npt

from .arrays import as_file, table
from .faults import Fault
from .further import BallReport, EdgeReport, PieceReport
from .pictures import checked_mask
from .plan import Plan, Wanted
from .products import evidence_of
from .programs import call, explained
from .report import read

Columns = dict[str, npt.NDArray[np.generic]]


def measure(mask: npt.ArrayLike, rule: str = "curve") -> Columns:
    """The table of the objects of a picture or a volume, by the names of its columns: a row for each object, in the order of their first pixels.

    Parameters: `mask`, [y, x] or [z, y, x], of booleans or whole numbers (0 is background); `rule`, one of `RULES`, by which the skeleton is thinned.
    Counts, areas and places of pixels are arrays of int64, lengths and centroids of float64, in pixels; NaN where the program tells nothing.
    `pandas.DataFrame(measure(mask))` and `polars.DataFrame(measure(mask))` are frames. A Fault, which is a ValueError, where the array is none.
    """
    return columns_of(table(mask, rule))


def columns_of(text: str) -> Columns:
    """The columns of a table in CSV: int64 where all cells are whole numbers, float64 where they are numbers or empty, else texts."""
    header, *rows = csv.reader(io.StringIO(text))
    return {name: _column(cells) for name, cells in zip(header, zip(*rows) if rows else [()] * len(header))}


def _column(cells: Sequence[str]) -> npt.NDArray[np.generic]:
    for kind, values in ((np.int64, cells), (np.float64, [cell or "nan" for cell in cells])):
        try:
            return np.array(values, dtype=object).astype(kind) if len(cells) else np.zeros(0, kind)
        except ValueError:
            continue
    return np.array(cells)


def edges(mask: npt.ArrayLike) -> EdgeReport:
    """The standard digital segments of the edges of a picture [y, x]: of each closed path of cracks the maximal ones. A Fault as for `measure`."""
    return cast(EdgeReport, _further(mask, "edges"))


def pieces(mask: npt.ArrayLike) -> PieceReport:
    """Each contour of a picture [y, x] split into as few straight pieces as there can be. A Fault as for `measure`."""
    return cast(PieceReport, _further(mask, "pieces"))


def balls(mask: npt.ArrayLike) -> BallReport:
    """Balls whose union is the object of a picture [y, x] or a volume [z, y, x], none of them needless. A Fault as for `measure`."""
    return cast(BallReport, _further(mask, "balls"))


def _further(mask: npt.ArrayLike, command: str) -> object:
    """A further report of a mask, by the program's word for it."""
    with as_file(mask) as source, tempfile.TemporaryFile() as out:
        answer = call(command, *source.words, out=out)
        if answer.status:
            raise explained("the array", answer)
        out.seek(0)
        return read(out.read())


@dataclass(frozen=True)
class Networks:
    """The skeletons of a picture's objects as one network: a row of `whole`, a row of `branches` for each branch, and one of `widths` for each class of
    width. The columns are those of `networks.csv`, `branches.csv` and `widths.csv`; lengths are in pixels."""

    whole: Columns
    branches: Columns
    widths: Columns


def networks(mask: npt.ArrayLike, prune: float | None = None, classes: Iterable[float] | None = None) -> Networks:
    """The network of a picture [y, x], without branches shorter than `prune` pixels; `classes` are the widths between classes, in pixels (else some 2 pixels each).

    A Fault as for `measure`.
    """
    own, edges_of = checked_mask(mask), None if classes is None else tuple(classes)
    if own.ndim != 2:
        raise Fault("the array", f"an array of {own.ndim} axes", "a network is made of a picture of two (y, x)")
    with tempfile.TemporaryDirectory(prefix="shapes-") as folder:
        stem = Path(folder, "picture")
        evidence_of(own, stem, Plan(stem.parent, "curve", True, (), {}), Wanted(True, prune, edges_of), "the array")
        read_csv = [columns_of(stem.with_name(f"picture.{kind}.csv").read_text()) for kind in ("network", "branches", "widths")]
    return Networks(*read_csv)
