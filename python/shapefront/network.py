"""Networks: the skeleton of a picture, its branches and its junctions as pictures of their own, measured by the proved program.

A junction is a connected set of points of the skeleton with three neighbours or more, and a branch one of its other points. Each
is a picture's object, so all lengths, points and places of `networks.csv` and `branches.csv` come out of reports and tables.
"""
from __future__ import annotations

from dataclasses import dataclass
from decimal import Decimal
from pathlib import Path

import numpy as np

from .arrays import table
from .layout import part
from .pictures import pbm_mask, spelled
from .plan import Wanted
from .report import Analysis, read
from .tables import Row, dicts_of, spelled_rows
from .thin import Pruned, neighbours, pruned, split
from .widths import WIDTHS, Widths

BRANCHES = ["branch", "length", "width", "ends", "junctions", "points", "from_x", "from_y", "to_x", "to_y"]
NETWORKS = ["pieces", "holes", "area", "length", "mean_width", "volume", "surface", "branches", "ends", "junctions"]

# The names of its parts.
SKELETON, PRUNED, BRANCHES_OF, JUNCTIONS_OF = "network-skeleton", "network-pruned", "network-branches", "network-junctions"

_THOUSANDTH = Decimal("0.001")
# How much longer the edge of an object is than the line through the middles of its outermost pixels, all round.
_EDGE = Decimal(8).sqrt()


@dataclass(frozen=True)
class Branch:
    """A branch of a network: how many of its two ends are free and how many at a junction, and where its last points are.

    There are two of these places, one of a branch of a single point, and none of a ring, which has no ends.
    """

    number: str
    length: Decimal
    width: Decimal
    ends: int
    junctions: int
    points: str
    places: list[tuple[int, int]]

    @property
    def row(self) -> Row:
        """Its row under the columns of `BRANCHES`."""
        places = [*self.places[0], *self.places[-1]] if self.places else [""] * 4
        return list(map(str, (self.number, self.length, self.width, self.ends, self.junctions, self.points, *places)))


@dataclass(frozen=True)
class Network:
    """The network of a picture: where its files' names begin, what is wanted, its skeleton, as the program gives it, and what was made of that."""

    stem: Path
    wanted: Wanted
    whole: np.ndarray
    own: Pruned

    rule, suffixes = "curve", (".network.csv", ".branches.csv", ".widths.csv")

    @classmethod
    def of(cls, stem: Path, wanted: Wanted) -> Network:
        """The network of the picture whose files' names begin with `stem`, where the picture of its skeleton lies already."""
        skeleton = pbm_mask(part(stem, SKELETON, ".pbm").read_bytes())
        own = Pruned(skeleton, *split(skeleton), 0) if wanted.prune is None else pruned(skeleton, wanted.prune, _lengths)
        return cls(stem, wanted, skeleton, own)

    @property
    def pictures(self) -> dict[str, bytes]:
        """The pictures of its parts, by their names: the skeleton, that without short branches where these are left out, branches and junctions."""
        shorter = {} if self.wanted.prune is None else {PRUNED: spelled(self.own.skeleton)}
        return {SKELETON: spelled(self.whole), **shorter, BRANCHES_OF: spelled(self.own.branches), JUNCTIONS_OF: spelled(self.own.junctions)}

    def tables(self, measured: dict[str, str]) -> dict[str, bytes]:
        """Its tables by what their names end in, by the program's tables of its parts."""
        whole = _report(self.stem.with_name(self.stem.name + ".report"))
        branches = self._branches(whole, measured)
        pieces = dicts_of(measured[SKELETON if self.wanted.prune is None else PRUNED])
        widths = Widths.of(self.own.skeleton, [float(length(row)) for row in pieces], whole.square_image, whole.parts.points)
        total = self._total(whole, pieces, branches, len(dicts_of(measured[JUNCTIONS_OF])), widths)
        rows = {
            ".network.csv": total, ".branches.csv": [BRANCHES, *(branch.row for branch in branches)],
            ".widths.csv": [WIDTHS, *widths.rows(self.wanted.classes, self.wanted.class_width)],
        }  # fmt: skip
        return {suffix: spelled_rows(own) for suffix, own in rows.items()}

    def _branches(self, whole: Analysis, measured: dict[str, str]) -> list[Branch]:
        """Its branches, in the order of their first points."""
        report, squares, at_junctions = _report(part(self.stem, BRANCHES_OF, ".report")), whole.square_image, neighbours(self.own.junctions)
        free, last = self._free(whole), _as_set(report.tips)
        found = []
        outer = [contour for contour in report.contours if not contour.is_hole]
        for row, contour in zip(dicts_of(measured[BRANCHES_OF]), outer, strict=True):
            x, y = points = _in_raster_order(contour.points).T
            own = list(zip(*points.tolist()))
            places = [point for point in own if point in last] if len(own) > 1 else own
            ends = sum(point in free for point in own), int(at_junctions[y, x].sum())
            found.append(Branch(row["object"], length(row), _width(squares[y, x]), *ends, row["area"], places))
        return found

    def _free(self, whole: Analysis) -> set[tuple[int, ...]]:
        """The free ends: those that the thinning kept, or where short branches are left out the points with one neighbour at most."""
        if self.wanted.prune is None:
            return _as_set(whole.tips)
        return _as_set(np.argwhere(self.own.skeleton & (neighbours(self.own.skeleton) <= 1))[:, ::-1])

    def _total(self, whole: Analysis, pieces: list[dict[str, str]], branches: list[Branch], junctions: int, widths: Widths) -> list[Row]:
        """The row of the whole network, below its header."""
        total, area = sum(map(length, pieces), Decimal(0)), whole.parts.points
        mean = (area / total).quantize(_THOUSANDTH) if total else ""
        tubes = f"{widths.volume:.3f}", f"{widths.surface:.3f}"
        counts = len(branches), sum(branch.ends for branch in branches), junctions
        row = list(map(str, (len(pieces), whole.parts.holes, area, total, mean, *tubes, *counts)))
        return [NETWORKS, row] if self.wanted.prune is None else [[*NETWORKS, "left_out"], [*row, str(self.own.left_out)]]


def _lengths(mask: np.ndarray) -> list[float]:
    """The lengths of thin lines, the objects of a picture, by the program."""
    return [float(length(row)) for row in dicts_of(table(mask, Network.rule))]


def length(row: dict[str, str]) -> Decimal:
    """The length of a line one pixel thin, by its row in a table of `shape measure`: half of the borders that go along it.

    A border goes through the middles of the line's own pixels, by its segments; the table has it as the edge of an object, which
    is longer by twice the root of 2 outside, and shorter by that in a hole.
    """
    borders = Decimal(row["border"]) + Decimal(row["hole_border"])
    twice = max(borders - _EDGE * (1 - int(row["holes"])), Decimal(0))
    return (twice / 2).quantize(_THOUSANDTH)


def _width(squares: np.ndarray) -> Decimal:
    """Twice the distance that is the median of those with these squares."""
    median = int(np.sort(squares)[(len(squares) - 1) // 2])
    return (2 * Decimal(median).sqrt()).quantize(_THOUSANDTH)


def _in_raster_order(points: np.ndarray) -> np.ndarray:
    """The points, each once, by their y and then by their x."""
    points = np.unique(points, axis=0)
    return points[np.lexsort(points.T)]


def _as_set(points: np.ndarray) -> set[tuple[int, ...]]:
    return set(map(tuple, points.tolist()))


def _report(path: Path) -> Analysis:
    return read(path if path.exists() else path.with_name(path.name + ".gz"))
