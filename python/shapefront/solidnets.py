"""Networks in space: vessels, roots, foams. The skeleton is the proved one of the report; lengths, widths and counts are computed here from its points.

A branch goes from node to node: through its own points, on to the middles of the junctions at its ends, with the steps from voxel to voxel smoothed out.
"""
from __future__ import annotations

from collections.abc import Iterator
from dataclasses import dataclass
from functools import cached_property
from pathlib import Path

import numpy as np

from .graphs import Branch, Graph, Pruned, numbers_of, pruned
from .layout import report_beside
from .plan import Wanted
from .report import Analysis, read
from .tables import Row, spelled_rows
from .widths import WIDTHS, Widths

BRANCHES = [
    "branch", "length", "width", "mean_width", "tortuosity", "ends", "junctions", "points", "from_x", "from_y", "from_z", "to_x", "to_y", "to_z",
]  # fmt: skip
NODES = ["node", "kind", "x", "y", "z", "points", "branches"]
NETWORKS = ["pieces", "loops", "voxels", "length", "mean_width", "volume", "surface", "branches", "ends", "junctions"]


@dataclass(frozen=True)
class Line:
    """A branch with its line, and for each of its points its share of the length and twice its distance to the background."""

    branch: Branch
    line: np.ndarray
    shares: np.ndarray
    widths: np.ndarray

    @property
    def length(self) -> float:
        return float(self.shares.sum())

    @property
    def tortuosity(self) -> str:
        """Its length over the distance of its ends; empty of a ring, and where the ends are one point."""
        apart = float(np.linalg.norm(self.line[-1] - self.line[0]))
        return f"{self.length / apart:.3f}" if apart > 0 and not self.branch.is_ring else ""

    def row(self, number: int) -> Row:
        """Its row under the columns of `BRANCHES`."""
        points, mean = self.branch.points, float((self.shares * self.widths).sum() / self.length) if self.length else float(self.widths.mean())
        places = [""] * 6 if self.branch.is_ring else [*map(str, points[0].tolist()), *map(str, points[-1].tolist())]
        median = float(np.sort(self.widths)[(len(self.widths) - 1) // 2])
        own = f"{self.length:.3f}", f"{median:.3f}", f"{mean:.3f}", self.tortuosity
        return [str(number), *own, str(self.branch.ends), str(self.branch.junctions), str(len(points)), *places]


@dataclass(frozen=True)
class SolidNetwork:
    """The network of a volume: its report, what is wanted, and the graph of its skeleton."""

    whole: Analysis
    wanted: Wanted
    own: Pruned

    rule, suffixes = "curve", (".network.csv", ".branches.csv", ".nodes.csv", ".widths.csv")

    @classmethod
    def of(cls, stem: Path, wanted: Wanted) -> SolidNetwork:
        """The network of the volume whose files' names begin with `stem`."""
        whole = read(report_beside(stem))
        points = whole.skeleton
        return cls(whole, wanted, Pruned(Graph.of(points), 0) if wanted.prune is None else pruned(points, wanted.prune))

    @property
    def pictures(self) -> dict[str, bytes]:
        """It has no pictures of parts: all of it comes out of the report."""
        return {}

    @cached_property
    def lines(self) -> list[Line]:
        """Its branches with their lines, in the order of their first points."""
        return [self._line(branch) for branch in self.own.graph.branches]

    def tables(self, measured: dict[str, str]) -> dict[str, bytes]:
        """Its tables by what their names end in."""
        lines, widths = self.lines, self._widths
        rows = {
            ".network.csv": self._total(lines, widths), ".branches.csv": [BRANCHES, *(line.row(k) for k, line in enumerate(lines, 1))],
            ".nodes.csv": [NODES, *self._nodes()], ".widths.csv": [WIDTHS, *widths.rows(self.wanted.classes, self.wanted.class_width)],
        }  # fmt: skip
        return {suffix: spelled_rows(own) for suffix, own in rows.items()}

    def _line(self, branch: Branch) -> Line:
        line = self.own.graph.line(branch)
        steps = np.linalg.norm(np.diff(line, axis=0), axis=1)
        shares = np.zeros(len(line))
        shares[:-1] += steps / 2
        shares[1:] += steps / 2
        begin, count = int(branch.at[0] is not None and not branch.is_ring), len(branch.points)
        own = shares[begin : begin + count].copy()
        own[0] += shares[:begin].sum()
        own[-1] += shares[begin + count :].sum()
        return Line(branch, line, own, 2 * np.sqrt(self.whole.square_image[tuple(branch.points.T[::-1])]))

    @cached_property
    def _widths(self) -> Widths:
        """The shares and the widths of all points of branches: less a part of a pixel, from 0 to 1, as much as makes the volume of tubes that of the object."""
        lengths = np.concatenate([np.zeros(0), *(line.shares for line in self.lines)])
        widths = np.concatenate([np.zeros(0), *(line.widths for line in self.lines)])
        none, first, second = (float((lengths * widths**power).sum()) for power in range(3))
        root = first**2 - none * (second - 4 * self.whole.parts.points / np.pi)
        excess = float(np.clip((first - np.sqrt(max(root, 0))) / none, 0, 1)) if none else 0.0
        return Widths(lengths, widths - excess)

    def _nodes(self) -> Iterator[Row]:
        """The rows of all nodes: junctions in the order of their first points, and then free ends in that of their branches."""
        graph, branches = self.own.graph, self.own.graph.branches
        counts = np.bincount(graph.junction_of[graph.are_junctions], minlength=len(graph.middles))
        at = np.bincount([k for branch in branches for k in branch.at if k is not None], minlength=len(counts)).astype(int)
        for k, (middle, count, many) in enumerate(zip(graph.middles, counts, at), 1):
            yield [str(k), "junction", *(f"{place:.3f}" for place in middle), str(count), str(many)]
        free = [branch.points[place] for branch in branches for place, junction in zip((0, -1), branch.at) if junction is None and not branch.is_ring]
        for k, point in enumerate(free, len(counts) + 1):
            yield [str(k), "end", *(f"{place:.3f}" for place in point), "1", "1"]

    def _total(self, lines: list[Line], widths: Widths) -> list[Row]:
        """The row of the whole network, below its header."""
        graph, voxels, total = self.own.graph, self.whole.parts.points, sum(line.length for line in lines)
        ends, junctions, rings = sum(line.branch.ends for line in lines), len(graph.middles), sum(line.branch.is_ring for line in lines)
        pieces = self.whole.kept.pieces if self.wanted.prune is None else _pieces(graph)
        loops = len(lines) - junctions - ends - rings + pieces
        mean = f"{2 * np.sqrt(voxels / (np.pi * total)):.3f}" if total else ""
        own = f"{total:.3f}", mean, f"{widths.volume:.3f}", f"{widths.surface:.3f}"
        row = [*map(str, (pieces, loops, voxels)), *own, *map(str, (len(lines), ends, junctions))]
        return [NETWORKS, row] if self.wanted.prune is None else [[*NETWORKS, "left_out"], [*row, str(self.own.left_out)]]


def _pieces(graph: Graph) -> int:
    """How many connected pieces a skeleton has."""
    return int(numbers_of(graph).max(initial=-1)) + 1
