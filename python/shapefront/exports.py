"""What a report says in the formats of other programs: sides and circles as DXF, and a volume's surface with its normals as PLY.

Coordinates are those of the report times the size of a pixel or voxel. A line or plane is one of the report's own, or fitted to its points.
"""
from __future__ import annotations

from collections.abc import Iterator

import numpy as np

from .circles import Circle
from .faults import Fault
from .outlines import Outline
from .report import Analysis
from .sides import Point


def dxf(name: str, height: int, outlines: list[Outline], size: float) -> bytes:
    """The outlines of a flat picture so many pixels high as circles and lines, in millimetres for a pixel of so many. The lower left corner of the
    picture is the origin, and y goes upwards; before each the greatest distance of the border from it stands as a comment.

    A Fault about the report of this name where there is nothing to draw.
    """
    words = [word for outline in outlines for word in _outline(outline, height, size)]
    if not words:
        raise Fault(name, "no straight side that is so long, and no circle", "give a smaller --long")
    head = ["0", "SECTION", "2", "HEADER", "9", "$INSUNITS", "70", "4", "0", "ENDSEC", "0", "SECTION", "2", "ENTITIES"]
    return "".join(word + "\n" for word in [*head, *words, "0", "ENDSEC", "0", "EOF"]).encode()


def _outline(outline: Outline, height: int, size: float) -> Iterator[str]:
    for one in [outline.circle] if outline.circle else outline.sides:
        yield from ("999", f"greatest distance {one.distance * size:.6f}")
        if isinstance(one, Circle):
            middle = _place(("10", "20", "30"), (one.x, one.y), height, size)
            yield from ("0", "CIRCLE", "8", "circles", *middle, "40", f"{one.radius * size:.6f}")
        else:
            begin, end = _place(("10", "20", "30"), one.begin, height, size), _place(("11", "21", "31"), one.end, height, size)
            yield from ("0", "LINE", "8", "sides", *begin, *end)


def _place(codes: tuple[str, str, str], point: Point, height: int, size: float) -> Iterator[str]:
    """A point (x, y) of the picture, where the middle of the first pixel is (0, 0), in the drawing."""
    x, y = point
    for code, value in zip(codes, ((x + 0.5) * size, (height - 0.5 - y) * size, 0.0)):
        yield from (code, f"{value:.6f}")


def ply(report: Analysis, size: float) -> bytes:
    """The middles of all exposed sides of voxels, each with the normal of its patch, outwards, and the patch's number.

    Lengths in the unit of `size`, the width of a voxel. A Fault where it is no volume.
    """
    if len(report.sides) != 3:
        raise Fault(report.name, "a report of a flat picture", "PLY is for volumes: take DXF")
    patches, sizes = report.patches, np.array([len(patch.points) for patch in report.patches], int)
    normals = patches.planes[:, :3] / np.linalg.norm(patches.planes[:, :3], axis=1, keepdims=True) * patches.senses[:, None]
    out = np.zeros((len(sizes), 3))
    out[np.arange(len(sizes)), patches.axes] = 0.5 * patches.senses
    rows = np.zeros(len(patches.points), [("where", "<f8", 3), ("normal", "<f8", 3), ("patch", "<i4")])
    rows["where"] = (patches.points + np.repeat(out, sizes, 0)) * size
    rows["normal"], rows["patch"] = np.repeat(normals, sizes, 0), np.repeat(np.arange(len(sizes)), sizes)
    head = ["ply", "format binary_little_endian 1.0", f"element vertex {len(rows)}"]
    head += [f"property double {name}" for name in ("x", "y", "z", "nx", "ny", "nz")] + ["property int patch", "end_header"]
    return "".join(line + "\n" for line in head).encode() + rows.tobytes()
