"""What is made of a picture: its file and, by the proved program, the report, the table, the drawing, the masks and the parts; and the names of all that."""
from __future__ import annotations

from collections.abc import Sequence
from pathlib import Path
from typing import IO, Any

import numpy as np

from .archives import SUFFIX as ARCHIVE
from .arrays import verdict
from .faults import Fault
from .images import pillow_version
from .layout import FACES, FURTHER, HOLES, MESH, OBJECTS, PLACES, REGION, SHEET, SKELETON_VIEWS, SLICES, SPACED, THICKNESS, THUMBNAIL, WHOLE, drawing, evidence, part
from .network import SKELETON
from .overlay import Overlay
from .parts import names_in, tables_of, works
from .parts import suffixes_of as part_suffixes
from .pictures import Source, sides_of, spelled, suffix_beside, suffix_of, told_suffix
from .plan import Plan, Wanted
from .programs import Answer, call, explained, made
from .solidviews import Solid

# The words for a drawing, the best one first: with the numbers of the objects, where the program knows this word; and of the contours alone, where any other is too large.
DRAWINGS = (("draw", "labels"), ("draw",), ("draw", "contours"))

# The masks that have two bytes for each point.
GREY = ("distances", "thickness")


def tables_words(thickness: bool) -> tuple[tuple[str, ...], ...]:
    """The words for the table of a report, the best ones first: with the thickness where it is wanted and the program knows it."""
    return (("measure", "thickness"), ("measure",)) if thickness else (("measure",),)


def spaced_words(sides: Sequence[int]) -> tuple[str, ...]:
    """The words for the table of a report in the unit of voxels with these sides."""
    return ("measure", "spacing", *map(str, sides))


def measured(image: Path, stem: Path, rule: str, about: str, thickness: bool = False) -> Path:
    """Analyses a picture's file, checks the report, and writes its table, with the thickness where it is wanted. The report's file.

    The names of the files that it writes begin with `stem`. A Fault about the image `about` where the program refuses.
    """
    report, source = stem.with_name(stem.name + ".report"), Source.of(image)
    with open(report, "wb") as out:
        made("analyse", *source.words, rule, out=out, about=about)
    answer = verdict(source, report)
    if not answer:
        raise Fault(about, f"its fresh report does not hold ({answer})", "this must never be: is the disk or the memory broken?")
    with open(stem.with_name(stem.name + ".csv"), "wb") as out:
        write_table(report, thickness, out, about)
    return report


def write_table(report: Path, thickness: bool, out: IO[bytes], about: str) -> None:
    """Writes the table of a report by the first of the words for it that the program knows. A Fault about the image `about` where it refuses."""
    for words in tables_words(thickness):
        answer = call(*words, report, out=out)
        if not answer.status:
            return
        out.seek(0)
        out.truncate()
    raise explained(about, answer)


def evidence_of(mask: np.ndarray, stem: Path, plan: Plan, wanted: Wanted, about: str) -> Path:
    """Writes a picture's file and its evidence: the report, checked, the table, the masks that are wanted, and what is made of its parts. The report's file.

    The names of the files begin with `stem`. A Fault about the image `about` where the program refuses.
    """
    image = stem.with_name(stem.name + suffix_of(mask))
    image.write_bytes(spelled(mask))
    report = measured(image, stem, plan.rule, about, wanted.thickness or mask.ndim == 3)
    for kind in plan.masks:
        with open(stem.with_name(stem.name + mask_suffix(kind, sides_of(mask))), "wb") as out:
            made("mask", kind, report, out=out, about=about)
    if wanted.whole:
        with open(stem.with_name(stem.name + WHOLE), "wb") as out:
            made("measure", "whole", report, out=out, about=about)
    if wanted.spacing and mask.ndim == 3:
        _write_spaced(stem, report, wanted.spacing)
    write_parts(stem, report, wanted, about)
    return report


def _write_spaced(stem: Path, report: Path, sides: Sequence[int]) -> None:
    """Writes the table of a report in the unit of voxels with these sides; nothing where the program does not know the words for it."""
    path = stem.with_name(stem.name + SPACED[OBJECTS])
    with open(path, "wb") as out:
        answer = call(*spaced_words(sides), report, out=out)
    if answer.status:
        path.unlink()


def draw(report: Path, stem: Path, about: str, is_flat: bool) -> None:
    """Draws a report. A volume that the program refuses has no drawing; a Fault about the image `about` of a flat picture."""
    drawing = stem.with_name(stem.name + ".svg")
    answer = _drawn(report, drawing)
    if answer.status:
        drawing.unlink()
        if is_flat:
            raise explained(about, answer)


def _drawn(report: Path, drawing: Path) -> Answer:
    """Draws a report by the first words that the program takes; how it ended by these, or by the last ones."""
    for words in DRAWINGS:
        with open(drawing, "wb") as out:
            answer = call(*words, report, out=out)
        if not answer.status:
            break
    return answer


def write_solid_shown(solid: Solid, skeleton: np.ndarray | None, stem: Path) -> None:
    """Writes drawings of a volume, and what the page shows of it; of its skeleton where its points are given. Nothing where Pillow is not installed."""
    if pillow_version() is not None:
        data = {FACES: solid.faces(), SLICES: solid.slices(), SHEET: solid.sheet(), THUMBNAIL: solid.thumbnail()}
        if skeleton is not None:
            data[SKELETON_VIEWS] = solid.skeleton(skeleton)
        for suffix, own in data.items():
            stem.with_name(stem.name + suffix).write_bytes(own)


def write_shown(overlay: Overlay, stem: Path) -> None:
    """Writes the original image with what was found in it, for people and for the page; nothing where Pillow is not installed."""
    if pillow_version() is not None:
        for suffix, data in ((".png", overlay.drawing), (THUMBNAIL, overlay.thumbnail), (PLACES, overlay.places)):
            stem.with_name(stem.name + suffix).write_bytes(data())


def write_network_shown(overlay: Overlay, stem: Path) -> None:
    """Writes the original image with the branches of its network and their numbers; nothing where Pillow is not installed."""
    if pillow_version() is not None:
        stem.with_name(stem.name + ".network.png").write_bytes(overlay.drawing(thick=3))


def mask_suffix(kind: str, sides: Sequence[int]) -> str:
    """What the name of a mask of a picture with these sides ends in: a PBM or a PGM, or of a volume and of squares raw bytes, whose sides it tells."""
    if kind == "squares":
        return f".{kind}.{'x'.join(map(str, sides))}.32bit.raw"
    if len(sides) == 2:
        return f".{kind}" + (".pgm" if kind in GREY else ".pbm")
    return f".{kind}" + (told_suffix(sides).removesuffix("raw") + "16bit.raw" if kind in GREY else told_suffix(sides))


def clear_evidence(stem: Path, suffix: str) -> None:
    """Takes away what a picture's numbers are checked by, where its file ends in this: its file and its report, and all files of its parts."""
    names = [name for path in stem.parent.glob("*.report") if (name := path.name.removesuffix(".report"))]
    for name in names:
        for own in (suffix, ".report", *([".csv"] if name != stem.name else [])):
            stem.with_name(name + own).unlink(missing_ok=True)


def suffixes_of(record: dict[str, Any], sides: Sequence[int], packed: str) -> set[str]:
    """What the names of the evidence end in of a picture, or of that of a label, with such a record and these sides, whose reports end in `.report` and what
    is given; without its parts."""
    suffixes = {told_suffix(sides), ".report" + packed, *(mask_suffix(kind, sides) for kind in record["masks"])}
    if record["grey"] and record["labels"] is None:
        suffixes.add(FURTHER["objects.csv"])
    if record["region"]:
        suffixes.add(f".{REGION}{told_suffix(sides)}")
    return suffixes | tables_of(Wanted.of(record), len(sides) == 2)


def names_of(key: str, record: dict[str, Any]) -> set[str]:
    """The names, in the folder of the run, of the files that a picture with such a record has.

    Those that show the original image, the drawing of a volume, and what is about holes and other parts are there where the record names them.
    """
    shown = {drawing(key, ".png"), drawing(key, ".network.png"), evidence(key, THUMBNAIL), evidence(key, PLACES), evidence(key, HOLES), drawing(key, ".svg")}
    shown |= {evidence(key, suffix) for suffix in (SHEET, *SPACED.values())} | {drawing(key, suffix) for suffix in (FACES, SKELETON_VIEWS, SLICES, MESH, THICKNESS)}
    shown &= record["files"].keys()
    if record["labels"] is not None:
        further = {FURTHER["objects.csv"]} if record["grey"] else set()
        return shown | {evidence(key, suffix) for suffix in {ARCHIVE, *further, *tables_of(Wanted.of(record), len(record["sides"]) == 2)}}
    drawn, packed = {drawing(key, ".svg")} if len(record["sides"]) == 2 and record["drawn"] else set(), "" if record["plain"] else ".gz"
    suffixes = suffixes_of(record, record["sides"], packed) | part_suffixes(names_in(record["files"]).get(evidence(key, ""), []), packed, told_suffix(record["sides"]))
    return shown | drawn | {evidence(key, suffix) for suffix in suffixes}


def write_parts(stem: Path, report: Path, wanted: Wanted, about: str) -> None:
    """Writes the pictures of a picture's parts, their reports and their tables, and the tables arranged from these.

    A Fault about the image `about` where the program refuses.
    """
    picture = suffix_beside(stem)
    if wanted.network and picture == ".pbm":
        with open(part(stem, SKELETON, ".pbm"), "wb") as out:
            made("mask", "skeleton", report, out=out, about=about)
    for work in works(stem, wanted):
        tables = {}
        for name, data in work.pictures.items():
            image = part(stem, name, picture)
            image.write_bytes(data)
            measured(image, part(stem, name, ""), work.rule, about)
            tables[name] = part(stem, name, ".csv").read_text()
        for suffix, table in work.tables(tables).items():
            stem.with_name(stem.name + suffix).write_bytes(table)
