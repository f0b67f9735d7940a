"""Checks a report against its picture, and the table, the drawing, the masks and the parts beside it against the report."""
from __future__ import annotations

import tempfile
from collections.abc import Iterator
from dataclasses import dataclass
from pathlib import Path, PurePosixPath
from typing import Any

from .arrays import verdict
from .checking import Finding, Judge, check_report, picture_of, plain
from .comparing import of_tables
from .faults import Fault
from .files import shown
from .layout import OBJECTS, SPACED, WHOLE, part
from .network import SKELETON
from .parts import Again
from .pictures import suffix_beside
from .products import DRAWINGS, spaced_words, tables_words
from .programs import NAME, call, sums
from .report import text_of

SUFFIXES = (".report", ".report.gz")


@dataclass(frozen=True)
class Asked:
    """How a folder is to be checked: how many reports at once, what may lie there though nothing made it, who judges reports, where
    the original images lie, if they are to be looked at, and those whose intensities were measured, if they are others; and whether only the tables of
    joined shares are looked at, without the shares."""

    jobs: int = 1
    allowed: tuple[str, ...] = ()
    judge: Judge = verdict
    originals: Path | None = None
    intensities: str | None = None
    tables: bool = False


@dataclass(frozen=True)
class Covered:
    """In words what the findings on a folder cover, and what they do not. It is no finding, so it takes nothing back."""

    text: str
    holds: bool = True

    def __str__(self) -> str:
        return self.text


@dataclass(frozen=True)
class Beside:
    """What was found of a report: the findings on it and on what lies beside it, by the file that each is about, and the table
    that the program makes of it, where it holds."""

    report: Path
    findings: list[tuple[Path, Finding]]
    table: bytes | None = None

    @property
    def holds(self) -> bool:
        """Whether the report itself holds of its picture."""
        return self.table is not None


def stem_of(report: Path) -> Path:
    """What the names of the files beside a report begin with."""
    return report.with_name(report.name.removesuffix(".gz").removesuffix(".report"))


def check_beside(report: Path, record: dict[str, Any], judge: Judge, drawing: Path | None = None) -> Beside:
    """What is found of a report and of what was made of it; where no check can be made, that is why.

    The record tells which masks were made, and by which program; it may be empty. The drawing lies beside the report, or has the name that is given.
    """
    stem = stem_of(report)
    drawing = drawing or stem.with_name(stem.name + ".svg")
    name = shown(stem)
    try:
        source = picture_of(stem.name, report)
        with plain(text_of(report)[0], report) as file:
            found = check_report(name, source, file, judge)
            if not found.holds:
                return Beside(report, [(report, found)])
            thickness = bool(source.sides) or record.get("wanted", {}).get("thickness", False)
            table = _table(file, thickness, stem.with_name(stem.name + ".csv"))
            wrong = [(path, Finding(name, False, why)) for path, why in _wrong(stem, drawing, file, table, record)]
    except Fault as fault:
        return Beside(report, [(report, refused(name, fault))])
    return Beside(report, wrong or [(report, found)], table or b"")


def _table(report: Path, thickness: bool, own: Path) -> bytes | None:
    """The table that the program makes of a report: that which lies there, where some of the words for it make it, else that of the words that come first."""
    lying, tables = own.read_bytes() if own.is_file() else b"", []
    has_thickness = b"thickness" in lying.partition(b"\n")[0]
    for words in sorted(tables_words(thickness), key=lambda words: ("thickness" in words) != has_thickness):
        tables.append(_made(words, report))
        if tables[-1] == lying:
            return lying
    return next((table for table in tables if table is not None), None)


def refused(name: str, fault: Fault) -> Finding:
    """The finding where a check could not be made."""
    return Finding(name, False, fault.reason + (f"; {fault.remedy}" if fault.remedy else ""))


def _wrong(stem: Path, drawing: Path, report: Path, table: bytes | None, record: dict[str, Any]) -> Iterator[tuple[Path, str]]:
    """The files of a report that are not what the program makes of it, each with the reason."""
    for words, path in _products(stem, drawing, record):
        if not path.is_file():
            continue
        data = path.read_bytes()
        if words[0] == ("measure",) and data != table:
            yield path, _not_made(words, path, record) + (f": {of_tables(data, table)}" if table is not None else "")
        elif words[0] != ("measure",) and not any(_made(choice, report) == data for choice in words):
            yield path, _not_made(words, path, record)


def _not_made(words: tuple[tuple[str, ...], ...], path: Path, record: dict[str, Any]) -> str:
    own = sums()[NAME]
    other = "" if record.get("programs", {}).get(NAME, own) == own else ", and was made by another version of it"
    return f"the report holds, but {shown(path)} is not what `{NAME} {words[0][0]}` makes of it{other}"


def _products(stem: Path, drawing: Path, record: dict[str, Any]) -> Iterator[tuple[tuple[tuple[str, ...], ...], Path]]:
    """The files that are made of a report, there or not, each with the words of which any may have made it."""
    yield (("measure",),), stem.with_name(stem.name + ".csv")
    yield (("measure", "whole"),), stem.with_name(stem.name + WHOLE)
    yield DRAWINGS, drawing
    yield (("mask", "skeleton"),), part(stem, SKELETON, ".pbm")
    if sides := record.get("wanted", {}).get("spacing"):
        yield (spaced_words(sides),), stem.with_name(stem.name + SPACED[OBJECTS])
    for kind in record.get("masks", []):
        for name in {PurePosixPath(name).name for name in record.get("files", {})}:
            if name.startswith(f"{stem.name}.{kind}."):
                yield (("mask", kind),), stem.with_name(name)


def _made(words: tuple[str, ...], report: Path) -> bytes | None:
    """What the program makes of a report by these words; None where it refuses."""
    with tempfile.TemporaryFile() as out:
        if call(*words, report, out=out).status:
            return None
        out.seek(0)
        return out.read()


def wrong_in_parts(stem: Path, again: Again) -> Iterator[tuple[Path, Finding]]:
    """The pictures and the tables of a picture's parts that are there and are others than what is made again."""
    picture = suffix_beside(stem) or ".pbm"
    files = {part(stem, name, picture): data for name, data in again.pictures.items()}
    for path, data in {**files, **{stem.with_name(stem.name + suffix): data for suffix, data in again.tables.items()}}.items():
        if path.is_file() and (own := path.read_bytes()) != data:
            row = f": {of_tables(own, data)}" if path.suffix == ".csv" else ""
            why = f"the report holds, but {shown(path)} is not what the reports and tables of its parts say{row}"
            yield path, Finding(shown(stem), False, why)
