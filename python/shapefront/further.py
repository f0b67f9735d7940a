"""The further kinds of reports as arrays: edges, pieces and balls. As in `report`, no claim is judged here."""
from __future__ import annotations

from dataclasses import dataclass

import numpy as np

from .equal import Alike
from .faults import Fault
from .lines import REMEDY, Lines
from .runs import Runs, offsets


@dataclass(frozen=True, eq=False)
class EdgeReport(Alike):
    """The maximal straight runs of the cycles of cracks.

    `heads` has a row (x, y, side, cracks, arcs) for each cycle; `arcs` a row (begin, end, h, v, a, c, mu) for each arc, and
    `arcs_of(k)` gives those of cycle k.
    """

    name: str
    sides: tuple[int, ...]
    heads: np.ndarray
    arcs: np.ndarray

    @classmethod
    def of(cls, lines: Lines, heading: list[str]) -> EdgeReport:
        lines.only(("cycle", "arc", "bend", "fold", "end"))
        heads, arcs = lines.numbers("cycle", 5), lines.numbers("arc", 7)
        _fits(lines, heads[:, 4], arcs)
        return cls(lines.name, tuple(map(int, heading[2:])), heads, arcs)

    def arcs_of(self, k: int) -> np.ndarray:
        begin, end = offsets(self.heads[:, 4])[[k, k + 1]]
        return self.arcs[begin:end]


@dataclass(frozen=True, eq=False)
class PieceReport(Alike):
    """Each contour split into the fewest straight pieces.

    `heads` has a row (x, y, side, points, pieces) for each contour, and `pieces_of(k)` gives the pieces of contour k.
    """

    name: str
    sides: tuple[int, ...]
    heads: np.ndarray
    pieces: Runs

    @classmethod
    def of(cls, lines: Lines, heading: list[str]) -> PieceReport:
        lines.only(("chain", "piece", "turn", "cut", "end"))
        heads, pieces = lines.numbers("chain", 5), lines.numbers("piece", 6)
        _fits(lines, heads[:, 4], pieces)
        return cls(lines.name, tuple(map(int, heading[2:])), heads, Runs(pieces))

    def pieces_of(self, k: int) -> Runs:
        begin, end = offsets(self.heads[:, 4])[[k, k + 1]]
        return self.pieces[begin:end]


@dataclass(frozen=True, eq=False)
class BallReport(Alike):
    """Balls whose union is the object: `centres`, the nearest background point of each, its square, and a point of its own.

    A ball is the set of all points whose squared distance from its centre is less than its square.
    """

    name: str
    sides: tuple[int, ...]
    centres: np.ndarray
    nearest: np.ndarray
    squares: np.ndarray
    own: np.ndarray

    @classmethod
    def of(cls, lines: Lines, heading: list[str]) -> BallReport:
        lines.only(("ball", "end"))
        sides = tuple(map(int, heading[3:-1]))
        axes = len(sides)
        rows = lines.numbers("ball", 3 * axes + 1)
        _fits(lines, np.array([int(heading[-1])]), rows)
        return cls(lines.name, sides, rows[:, :axes], rows[:, axes : 2 * axes], rows[:, 2 * axes], rows[:, 2 * axes + 1 :])


def _fits(lines: Lines, told: np.ndarray, rows: np.ndarray) -> None:
    if lines.words(len(lines) - 1) != ["end"]:
        raise Fault(lines.name, "not a whole report: its last line is not `end`", "was it cut on the way?")
    if told.sum() != len(rows):
        raise Fault(lines.name, f"not a report: {len(rows)} lines where {told.sum()} are told", REMEDY)
