"""Makes all that a label image gives: the evidence of each label in one archive, the tables of all labels, and one drawing."""
from __future__ import annotations

import tempfile
from collections.abc import Sequence
from pathlib import Path
from typing import Any

import numpy as np

from .archives import SUFFIX as ARCHIVE
from .archives import pack
from .convert import Picture
from .labels import Box, boxes, tables
from .layout import THICKNESS
from .overlay import Border, Overlay, borders, coloured, numbers
from .parts import tables_of
from .pictures import sides_of
from .plan import Plan
from .products import evidence_of, mask_suffix, write_shown, write_solid_shown
from .report import counts_of
from .solidviews import Solid
from .tables import dicts_of
from .thickness import can_draw, drawing, widths_in


def make_labels(picture: Picture, plan: Plan, stem: Path) -> dict[str, Any]:
    """Writes the files of a label image, whose names begin with `stem`; what the record says of them."""
    own, sides, wanted = boxes(picture.labels), sides_of(picture.labels), plan.wanted(picture.fit, picture.spacing)
    with tempfile.TemporaryDirectory(dir=stem.parent) as place:
        folder = Path(place)
        reports = [evidence_of(box.mask, folder / str(box.label), plan, wanted, f"{picture.image}, label {box.label}") for box in own]
        made = tables(own, sides, lambda box, suffix: _text(folder / f"{box.label}{suffix}"), tables_of(wanted, picture.labels.ndim == 2), wanted.spacing)
        if plan.draws and "thickness" in plan.masks and can_draw():
            widths = _widths(own, sides, folder)
            stem.with_name(stem.name + THICKNESS).write_bytes(drawing(widths, plan.pixel(picture.fit, picture.spacing)))
        if plan.keeps:
            pack(folder, stem.with_name(stem.name + ARCHIVE))
        for suffix, table in made.items():
            stem.with_name(stem.name + suffix).write_bytes(table)
        if not plan.draws:
            pass
        elif picture.labels.ndim == 2:
            lines = [border for row, (box, report) in enumerate(zip(own, reports), 1) for border in _moved(report.read_bytes(), box, row)]
            backdrop = coloured(picture.original) if picture.valued is None else picture.backdrop
            write_shown(Overlay(backdrop, lines, numbers(dicts_of(made[".csv"].decode()), "label"), picture.fit, _rows_in(picture.labels)), stem)
        else:
            write_solid_shown(Solid(picture.mask, picture.original, picture.fit, picture.spacing), None, stem)
        counts = [counts_of(report) for report in reports]
    return {"parts": total([parts for parts, _ in counts]), "kept": total([kept for _, kept in counts])}


def _widths(own: Sequence[Box], sides: Sequence[int], folder: Path) -> np.ndarray:
    """The thickness of all labels in one mask as large as the image, which has these sides."""
    whole = np.zeros([side + 2 for side in reversed(sides)], np.uint16)
    for box in own:
        path = folder / f"{box.label}{mask_suffix('thickness', sides_of(box.mask))}"
        place = tuple(slice(at + 1, at + 1 + side) for at, side in zip(reversed(box.place), box.mask.shape))
        whole[place] = np.maximum(whole[place], widths_in(path, sides_of(box.mask)))
    return whole[(slice(1, -1),) * whole.ndim]


def _rows_in(labels: np.ndarray) -> np.ndarray:
    """For each point of a label image the number of the row of its label, from 1 on; 0 where it has none."""
    found, where = np.unique(labels, return_inverse=True)
    return np.where(found == 0, 0, np.cumsum(found != 0))[where].reshape(labels.shape)


def _text(path: Path) -> str:
    """The text of a file; none where it is not there."""
    return path.read_text() if path.is_file() else ""


def total(counts: Sequence[Sequence[int]]) -> list[int]:
    """The counts of a `parts` or a `kept` line of all labels together: points, pieces, and the holes with the one outside."""
    points, pieces, background = np.array(counts).sum(0).tolist()
    return [points, pieces, background - len(counts) + 1]


def _moved(report: bytes, box: Box, row: int) -> list[Border]:
    """The borders of a label, at its place in the image, with the number of its row."""
    return [Border(border.points + box.place, 0 if border.is_hole else row, border.is_hole) for border in borders(report)]
