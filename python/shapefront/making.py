"""Makes all that one picture gives: its file, its report, checked, its table and its drawings; and a record of how.

Everything is made in a folder aside and then renamed, the record last. So what has a record is whole, and a second run with the
same picture, rule and program leaves it as it is.
"""
from __future__ import annotations

import os
import shutil
from collections.abc import Iterator
from contextlib import contextmanager
from dataclasses import asdict
from pathlib import Path
from typing import Any

import numpy as np

from .components import numbered
from .convert import Picture
from .faults import Fault
from .files import ASIDE, TOKEN, shown, sum_of, sum_of_bytes, unwritten
from .intensities import intensities
from .labelled import make_labels
from .labels import boxes
from .layout import EVIDENCE, FURTHER, MESH, REGION, THICKNESS, is_own, named, part, record_of_key
from .meshes import mesh
from .network import BRANCHES_OF
from .overlay import Overlay, borders, branches, numbers
from .packing import gzipped
from .pictures import sides_of, spelled, suffix_of
from .plan import Plan
from .products import clear_evidence, draw, evidence_of, mask_suffix, write_network_shown, write_shown, write_solid_shown
from .programs import sums
from .report import Analysis, counts_of, read
from .seals import opened, sealed, spelled_sealed
from .solidviews import Solid
from .tables import dicts_of, spelled_rows
from .thickness import can_draw, drawing, widths_in

Record = dict[str, Any]

# The members of a record, in their order; the sum of its own comes behind them.
MEMBERS = (
    "image", "key", "labels", "sides", "fit", "original", "channel", "filters", "spacing", "scan", "region", "cut", "notes", "rule", "plain", "drawn", "kept_reports",
    "masks", "wanted", "grey", "intensities", "picture", "programs", "parts", "kept", "files",
)  # fmt: skip

# What a user may ask for that is told of cubes alone.
_OF_CUBES = {"network": "lengths of a network", "thickness": "thickness", "separation": "separation"}

# What the record of a run is called, without its ending: an image cannot be called so.
OF_ALL = "made"


def make(picture: Picture, plan: Plan) -> Record:
    """Makes what a picture gives, but where its record says that it is there already. The record; a Fault where it fails."""
    if picture.image == OF_ALL:
        raise Fault(picture.image, f"its record would have the name of that of all, {OF_ALL}.json", "rename it")
    if picture.spacing and not picture.spacing.is_cubic and (asked := [told for name, told in _OF_CUBES.items() if plan.options[name]]):
        raise Fault(picture.image, f"its voxels are no cubes, and {asked[0]} in them would be wrong", "give --cubes")
    head, key = head_of(picture, plan), plan.key(picture.image)
    told = plan.folder / record_of_key(key)
    before = opened(_bytes(told))
    if before is not None and _is_made(before, head, plan.folder):
        return before
    with _folder_aside(plan.folder) as work:
        counts = _products(picture, plan, work)
        files = dict(sorted((named(key, name), sum_of(f"{work}/{name}")) for name in os.listdir(work)))
        record, data = spelled_sealed(_ordered({**head, **counts, "files": files}))
        (work / told.name).write_bytes(data)
        if plan.hand:
            plan.hand.keep()
        for name in (*files, record_of_key(key)):
            _put(f"{work}/{name.rpartition('/')[2]}", f"{plan.folder}/{name}")
        for name in (before or {}).get("files", {}):
            if name not in files and is_own(key, name):
                (plan.folder / name).unlink(missing_ok=True)
    return record


def _put(made: str, path: str) -> None:
    """Gives a file its name, in a folder that is made where it is not there."""
    try:
        os.replace(made, path)
    except FileNotFoundError:
        Path(path).parent.mkdir(parents=True, exist_ok=True)
        os.replace(made, path)


def _bytes(path: Path) -> bytes:
    """What a file holds; nothing where it is not there."""
    try:
        return path.read_bytes()
    except OSError:
        return b""


def record_of(members: Record) -> Record:
    """The record with these members, as it is written."""
    return sealed(_ordered(members))


def _ordered(members: Record) -> Record:
    """These members in their order."""
    return {name: members[name] for name in MEMBERS}


def head_of(picture: Picture, plan: Plan) -> Record:
    """What says how a picture's files are made: equal heads, equal files."""
    labels = None if picture.labels is None else [[box.label, *box.place] for box in boxes(picture.labels)]
    told = spelled(picture.mask) if picture.labels is None else np.ascontiguousarray(picture.labels).data
    return {
        "image": picture.image, "key": plan.key(picture.image), "labels": labels, "sides": list(sides_of(picture.mask)), "fit": picture.fit, "original": list(picture.original_sides),
        "channel": picture.settings.channel, "filters": asdict(picture.settings.filters),
        "spacing": picture.spacing.record if picture.spacing else None, "scan": picture.settings.scan.record,
        "region": sum_of_bytes(spelled(picture.region)) if picture.region is not None and picture.labels is None else None,
        "cut": asdict(picture.cut) if picture.cut else None, "notes": list(picture.notes), "rule": plan.rule, "plain": plan.plain, "drawn": plan.draws, "kept_reports": plan.keeps,
        "masks": list(plan.masks), "wanted": plan.wanted(picture.fit, picture.spacing).record,
        "grey": None if picture.grey is None else sum_of_bytes(picture.grey.tobytes()), "intensities": picture.valued and picture.valued.record, "picture": sum_of_bytes(told), "programs": sums(),
    }  # fmt: skip


def _is_made(record: Record, head: Record, folder: Path) -> bool:
    """Whether a record has this head, and its files are there as they were written."""
    if any(record.get(key) != value for key, value in head.items()) or not record.get("files"):
        return False
    return all(sum_of(folder / name) == told for name, told in record["files"].items())


@contextmanager
def _folder_aside(folder: Path) -> Iterator[Path]:
    """A folder of this process to work in, which is empty; what stays in it is taken away."""
    work = folder / EVIDENCE / f"{ASIDE}{TOKEN}" / str(os.getpid())
    try:
        work.mkdir(parents=True, exist_ok=True)
        try:
            yield work
        finally:
            for left in list(os.scandir(work)):
                shutil.rmtree(left) if left.is_dir() else os.unlink(left)
    except OSError as error:
        raise unwritten(shown(folder), error, "may you write there?") from error


def _draw_solid(picture: Picture, skeleton: np.ndarray, has_mesh: bool, stem: Path) -> None:
    """Writes the drawings of a volume, and its mesh where it is wanted."""
    solid = Solid(picture.mask, picture.original, picture.fit, picture.spacing)
    write_solid_shown(solid, skeleton, stem)
    if has_mesh:
        stem.with_name(stem.name + MESH).write_bytes(mesh(solid.mask, picture.spacing.by(picture.fit) if picture.spacing else None))


def _draw_thickness(picture: Picture, plan: Plan, stem: Path) -> None:
    """Draws the thickness of a picture where its mask is wanted; nothing where matplotlib is not installed."""
    if "thickness" in plan.masks and can_draw():
        sides = sides_of(picture.mask)
        widths = widths_in(stem.with_name(stem.name + mask_suffix("thickness", sides)), sides)
        stem.with_name(stem.name + THICKNESS).write_bytes(drawing(widths, plan.pixel(picture.fit, picture.spacing)))


def _products(picture: Picture, plan: Plan, work: Path) -> Record:
    """Writes the files of a picture into the folder `work`; what the record says of them."""
    stem = work / Path(picture.image).name
    if picture.grey is not None:
        stem.with_name(stem.name + FURTHER["objects.csv"]).write_bytes(spelled_rows(intensities(picture)))
    if picture.labels is not None:
        return make_labels(picture, plan, stem)
    made = _of_picture(picture, plan, stem)
    for path in sorted(work.glob("*.report")) if not plan.plain and plan.keeps else ():
        path.with_name(path.name + ".gz").write_bytes(gzipped(path.read_bytes()))
        path.unlink()
    if not plan.keeps:
        clear_evidence(stem, suffix_of(picture.mask))
    return made


def _of_picture(picture: Picture, plan: Plan, stem: Path) -> Record:
    """Writes the files of a picture, whose names begin with `stem`, and its reports as text; what the record says of them."""
    if picture.region is not None:
        part(stem, REGION, suffix_of(picture.mask)).write_bytes(spelled(picture.region))
    report, is_flat = evidence_of(picture.mask, stem, plan, plan.wanted(picture.fit, picture.spacing), picture.image), picture.mask.ndim == 2
    if plan.draws:
        draw(report, stem, picture.image, is_flat)
        _draw_thickness(picture, plan, stem)
    if is_flat and plan.draws:
        rows = dicts_of(stem.with_name(stem.name + ".csv").read_text())
        write_shown(Overlay(picture.backdrop, borders(report.read_bytes()), numbers(rows), picture.fit, numbered(picture.mask, by_corners=True)), stem)
        if plan.wanted(picture.fit, picture.spacing).network:
            own = Overlay(picture.backdrop, *branches(part(stem, BRANCHES_OF, ".report").read_bytes()), picture.fit)
            write_network_shown(own, stem)
    elif plan.draws:
        analysis = read(report)
        assert isinstance(analysis, Analysis)
        _draw_solid(picture, analysis.skeleton, plan.wanted(picture.fit, picture.spacing).mesh, stem)
    return dict(zip(("parts", "kept"), counts_of(report)))
