"""Reads a report of `shape` into arrays of numpy. It judges no claim: `shape check` does.

Points are rows (x, y) or (x, y, z) as reports write them; pictures of them, such as `Analysis.mask`, are indexed [y, x] or
[z, y, x] as images are. Lengths are in pixels, and `squares` are squared distances, whole numbers and exact.
"""
from __future__ import annotations

import gzip
import zlib
from collections.abc import Callable, Iterator, Sequence
from dataclasses import dataclass
from functools import cached_property
from pathlib import Path
from typing import overload

import numpy as np

from .equal import Alike
from .faults import Fault
from .further import BallReport, EdgeReport, PieceReport
from .lines import REMEDY, Lines
from .runs import Runs, offsets


# How the further reports are read, by their first words.
_FURTHER: dict[str, Callable[[Lines, list[str]], EdgeReport | PieceReport | BallReport]] = {"edges": EdgeReport.of, "pieces": PieceReport.of, "balls": BallReport.of}

_FLAT = ("parts", "near", "contour", "at", "seg", "least", "turn", "cut", "del", "tip", "kept", "end")
_SOLID = ("parts", "near", "face", "patch", "on", "off", "del", "tip", "kept", "end")


@dataclass(frozen=True)
class Counts:
    """The numbers of a `parts` or a `kept` line: points, their connected pieces, and pieces of the background with the outside."""

    points: int
    pieces: int
    background: int

    @property
    def holes(self) -> int:
        """The pieces of the background but the outside: holes, or in a volume closed pores."""
        return self.background - 1


@dataclass(frozen=True, eq=False)
class Contour(Alike):
    """A border: its points in order, with the object on the right hand, and its maximal segments."""

    points: np.ndarray
    side: int
    segments: Runs

    @property
    def is_hole(self) -> bool:
        """Whether it is the border of a hole, not an outer one."""
        return self.side == 2


class Contours(Sequence[Contour]):
    """The contours of a flat picture, in the report's order; each is made when it is asked for."""

    def __init__(self, heads: np.ndarray, points: np.ndarray, segments: Runs) -> None:
        self.heads, self.points, self.segments = heads, points, segments
        self._points, self._segments = offsets(heads[:, 3]), offsets(heads[:, 4])

    def __len__(self) -> int:
        return len(self.heads)

    @overload
    def __getitem__(self, k: int) -> Contour: ...

    @overload
    def __getitem__(self, k: slice) -> list[Contour]: ...

    def __getitem__(self, k: int | slice) -> Contour | list[Contour]:
        if isinstance(k, slice):
            return [self[one] for one in range(len(self))[k]]
        k = range(len(self))[k]
        points = self.points[self._points[k] : self._points[k + 1]]
        return Contour(points, int(self.heads[k, 2]), self.segments[self._segments[k] : self._segments[k + 1]])


@dataclass(frozen=True, eq=False)
class Patch(Alike):
    """A facet of a volume's surface, seen along an axis (0, 1, 2) against or with it (sense -1 or 1).

    Its voxels (x, y, z) lie on the plane (a, b, c, mu): `mu <= a x + b y + c z < mu + main`, with the coefficient of the axis.
    """

    axis: int
    sense: int
    plane: tuple[int, int, int, int]
    points: np.ndarray


class Patches(Sequence[Patch]):
    """The patches of a volume, in the report's order; each is made when it is asked for."""

    def __init__(self, axes: np.ndarray, senses: np.ndarray, heads: np.ndarray, points: np.ndarray) -> None:
        self.axes, self.senses, self.planes, self.points = axes, senses, heads[:, 1:], points
        self._points = offsets(heads[:, 0])

    def __len__(self) -> int:
        return len(self.planes)

    @overload
    def __getitem__(self, k: int) -> Patch: ...

    @overload
    def __getitem__(self, k: slice) -> list[Patch]: ...

    def __getitem__(self, k: int | slice) -> Patch | list[Patch]:
        if isinstance(k, slice):
            return [self[one] for one in range(len(self))[k]]
        k = range(len(self))[k]
        a, b, c, mu = map(int, self.planes[k])
        return Patch(int(self.axes[k]), int(self.senses[k]), (a, b, c, mu), self.points[self._points[k] : self._points[k + 1]])


@dataclass(frozen=True, eq=False, repr=False)
class Analysis:
    """A report of `shape analyse`: of a flat picture (two sides) or of a volume (three). Two are equal where their texts are.

    `sides` are those of the picture, x first. Of arrays of int64 there is a row (x, y) or (x, y, z) for each object point in `points`, its nearest point of
    the background in `nearest` and their squared distance in `squares`; for each step of the thinning its point in `events`, and in `marked` (of
    booleans) whether the rule marked it as an end. `parts` and `kept` count the picture's points and those of the skeleton. Lengths are in pixels.
    """

    name: str
    text: bytes
    version: int
    sides: tuple[int, ...]
    rule: str
    parts: Counts
    kept: Counts
    points: np.ndarray
    nearest: np.ndarray
    squares: np.ndarray
    contours: Contours
    patches: Patches
    events: np.ndarray
    marked: np.ndarray

    def __repr__(self) -> str:
        sides, (points, pieces) = " by ".join(map(str, self.sides)), (self.parts.points, self.parts.pieces)
        return f"<Analysis of {sides} {'pixels' if len(self.sides) == 2 else 'voxels'}, rule {self.rule}: {points} points, {pieces} pieces, {self.parts.holes} holes>"

    def __eq__(self, other: object) -> bool:
        return isinstance(other, Analysis) and self.text == other.text

    def __hash__(self) -> int:
        return hash(self.text)

    def __reduce__(self) -> tuple[object, ...]:
        return _read_again, (self.text, self.name)

    @cached_property
    def distances(self) -> np.ndarray:
        """For each of `points` the distance to its nearest background point in pixels: the roots of `squares`."""
        roots: np.ndarray = np.sqrt(self.squares)
        return roots

    @cached_property
    def mask(self) -> np.ndarray:
        """The object as an image of booleans."""
        return self._image(self.points, np.ones(len(self.points), bool))

    @cached_property
    def distance_image(self) -> np.ndarray:
        """The distances as an image, with 0 at background points."""
        return self._image(self.points, self.distances)

    @cached_property
    def square_image(self) -> np.ndarray:
        """The squared distances as an image, with 0 at background points."""
        return self._image(self.points, self.squares)

    @cached_property
    def skeleton_mask(self) -> np.ndarray:
        """The skeleton as an image of booleans: the object points that no `del` line takes away."""
        left: np.ndarray = self.mask.copy()
        left[self._index(self.events[~self.marked])] = False
        return left

    @cached_property
    def skeleton(self) -> np.ndarray:
        """The points of the skeleton, in raster order."""
        left: np.ndarray = self.points[self.skeleton_mask[self._index(self.points)]]
        return left

    @property
    def tips(self) -> np.ndarray:
        """The points that the rule marked as ends, in the order of the thinning."""
        marked: np.ndarray = self.events[self.marked]
        return marked

    def _index(self, points: np.ndarray) -> tuple[np.ndarray, ...]:
        return tuple(points[:, k] for k in reversed(range(len(self.sides))))

    def _image(self, points: np.ndarray, values: np.ndarray) -> np.ndarray:
        image: np.ndarray = np.zeros(self.sides[::-1], values.dtype)
        image[self._index(points)] = values
        return image


def text_of(report: str | Path | bytes) -> tuple[bytes, str]:
    """The text of a report and its name: of a file, gzipped or not, or of the bytes themselves. A Fault where it cannot be read."""
    if isinstance(report, bytes):
        return report, "the report"
    try:
        data = Path(report).read_bytes()
        return (gzip.decompress(data) if data[:2] == b"\x1f\x8b" else data), str(report)
    except (OSError, EOFError, zlib.error) as error:
        reason = getattr(error, "strerror", None) or str(error)
        raise Fault(report, f"cannot be read ({reason})", "is the name right?") from error


def counts_of(path: Path) -> tuple[list[int], list[int]]:
    """The numbers of a report's lines `parts` and `kept`, as it prints them, without reading all of it where it is not gzipped."""
    if path.suffix == ".gz":
        head = tail = text_of(path)[0]
    else:
        with open(path, "rb") as file:
            head = file.read(400)
            file.seek(max(0, path.stat().st_size - 400))
            tail = file.read()
    return [int(word) for word in head.split(b"\n", 2)[1].split()[1:]], [int(word) for word in tail.rsplit(b"\n", 3)[1].split()[1:]]


def heading_of(path: Path) -> list[str]:
    """The words of a report's first line, without reading all of it where it is not gzipped."""
    if path.suffix == ".gz":
        head = text_of(path)[0]
    else:
        with open(path, "rb") as file:
            head = file.read(400)
    return head.split(b"\n", 1)[0].decode("ascii", "replace").split(" ")


def read(report: str | Path | bytes) -> Analysis | EdgeReport | PieceReport | BallReport:
    """Reads a report, given by the name of its file (gzipped or not) or as its text.

    An `Analysis`, or an `EdgeReport`, a `PieceReport` or a `BallReport` by its first word. A Fault where it is no report.
    """
    text, name = text_of(report)
    lines = Lines.of(text, name)
    heading = lines.words(0)
    further = _FURTHER.get(heading[0])
    if heading[0] != "shape" and further is None:
        raise Fault(
            name, "not a report: its first line begins with none of `shape`, `edges`, `pieces` and `balls`", "is it the right file?"
        )
    try:
        return further(lines, heading) if further else _analysis(lines, text, heading)
    except Fault:
        raise
    except (ValueError, IndexError, OverflowError) as error:
        raise Fault(name, "not a report: its lines do not fit together", REMEDY) from error


def _read_again(text: bytes, name: str) -> Analysis:
    """The analysis that was pickled as the text of its report."""
    lines = Lines.of(text, name)
    return _analysis(lines, text, lines.words(0))


def _analysis(lines: Lines, text: bytes, heading: list[str]) -> Analysis:
    axes = {"pbm": 2, "raw": 3}[heading[2]] if len(heading) > 2 and heading[2] in ("pbm", "raw") else 0
    if not axes or len(heading) != axes + 4:
        raise Fault(lines.name, "not a report: its first line names no picture and no volume", REMEDY)
    lines.only(_FLAT if axes == 2 else _SOLID)
    if lines.words(len(lines) - 1) != ["end"]:
        raise Fault(lines.name, "not a whole report: its last line is not `end`", "was it cut on the way?")
    sides = tuple(map(int, heading[3:-1]))
    near = lines.numbers("near", 2 * axes + 1)
    points, nearest, squares = near[:, :axes], near[:, axes:-1], near[:, -1]
    happened = lines.where_any("del", "tip")
    events = lines.numbers_at(happened, axes)
    for where in (points, events):
        if where.size and (where.min() < 0 or (where.max(0) >= sides).any()):
            raise Fault(lines.name, "not a report: a point lies outside the picture", REMEDY)
    return Analysis(
        lines.name, text, int(heading[1]), sides, heading[-1], _counts(lines, "parts"), _counts(lines, "kept"),
        points, nearest, squares, _contours(lines), _patches(lines), events, lines.begin(happened, "tip"),
    )  # fmt: skip


def _counts(lines: Lines, word: str) -> Counts:
    rows = lines.numbers(word, 3)
    if len(rows) != 1:
        raise Fault(lines.name, f"not a report: it has {len(rows)} lines `{word}`, not one", REMEDY)
    return Counts(*map(int, rows[0]))


def _contours(lines: Lines) -> Contours:
    heads = lines.numbers("contour", 5)
    for word, told in (("at", heads[:, 3]), ("seg", heads[:, 4])):
        lines_follow(lines, "contour", word, told)
    segments, least = lines.numbers("seg", 6), lines.numbers("least", 4)
    return Contours(heads, lines.numbers("at", 2), Runs(segments, least if len(least) else None))


def _patches(lines: Lines) -> Patches:
    heads = lines.numbers("patch", 5)
    lines_follow(lines, "patch", "on", heads[:, 0])
    faces = lines.numbers("face", 3)
    of = np.searchsorted(lines.where("face"), lines.where("patch")) - 1
    return Patches(faces[of, 0], faces[of, 1], heads, lines.numbers("on", 3))


def lines_follow(lines: Lines, head: str, word: str, told: np.ndarray) -> None:
    """A Fault where behind a line `head` there are not as many lines `word` as it tells, before the next of its kind."""
    starts = np.append(lines.where(head), len(lines))
    wrong = np.diff(np.searchsorted(lines.where(word), starts)) != told
    if wrong.any():
        line = int(starts[int(np.argmax(wrong))]) + 1
        raise Fault(lines.name, f"not a report: line {line} tells another number of lines `{word}` than follow", REMEDY)


def contours_of(report: Analysis) -> Iterator[np.ndarray]:
    """The contours as closed arrays of points (x, y), the first one again at the end, as drawing programs take them."""
    for contour in report.contours:
        yield np.vstack([contour.points, contour.points[:1]])


def contours_in(report: str | Path | bytes) -> tuple[tuple[int, ...], Contours]:
    """The sides and the contours of a flat picture's report, given as for `read`, by its lines of contours alone: of a long one far faster.

    A Fault where it is none, or these lines do not fit together.
    """
    text, name = text_of(report)
    heading = text[:200].split(b"\n", 1)[0].decode("ascii", "replace").split(" ")
    if heading[0] != "shape" or heading[2:3] != ["pbm"] or len(heading) != 6:
        raise Fault(name, "not the report of `shape analyse` of a flat picture", "is it the right file?")
    try:
        return (int(heading[3]), int(heading[4])), _contours(_lines_of_contours(text, name))
    except Fault:
        raise
    except (ValueError, IndexError) as error:
        raise Fault(name, "not a report: its lines do not fit together", REMEDY) from error


def borders_of(text: bytes) -> tuple[np.ndarray, np.ndarray]:
    """The same without segments, of the text of a report: a row (x, y, side, points, segments) for each contour, and all points (x, y)."""
    lines = _lines_of_contours(text, "the report")
    heads = lines.numbers("contour", 5)
    lines_follow(lines, "contour", "at", heads[:, 3])
    return heads, lines.numbers("at", 2)


def _lines_of_contours(text: bytes, name: str) -> Lines:
    """Of a flat picture's report the lines of contours, behind an empty one in the place of the heading."""
    begin = text.find(b"\ncontour ") + 1
    end = len(text)
    for word in (b"\ndel ", b"\ntip ", b"\nkept "):
        found = text.find(word, begin, end) + 1
        end = found or end
    return Lines.of(b"\n" + (text[begin:end] if begin else b""), name)
