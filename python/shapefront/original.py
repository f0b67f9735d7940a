"""Checks a report against the image that it was made of."""
from __future__ import annotations

import sys
from dataclasses import replace
from itertools import zip_longest
from pathlib import Path

from .archives import SUFFIX as ARCHIVE
from .archives import unpacked
from .arrays import as_file, verdict
from .checking import Finding, Judge, check_report
from .convert import Picture, picture_of, volume_of
from .faults import Fault
from .files import read_json, shown
from .filters import Filters
from .labelcheck import Labels
from .labels import boxes
from .making import Record
from .pictures import Source, spelled, suffix_of
from .report import text_of
from .scans.asked import Asked
from .thresholds import Settings


def check_original(image: Path, report: Path, settings: Settings, judge: Judge = verdict) -> Finding:
    """The finding on a report of an image: a PBM or a raw volume as it is, and any other made black and white.

    That is done by the settings, or where these say nothing as the record beside the report says. A Fault where it cannot be.
    """
    name = shown(report)
    if report.name.endswith(ARCHIVE):
        return _check_labels(image, report, settings, judge)
    heading = text_of(report)[0][:200].split(b"\n", 1)[0].decode("ascii", "replace").split(" ")
    if image.suffix in (".pbm", ".raw"):
        sides = tuple(int(word) for word in heading[3:6] if word.isdigit())
        return check_report(name, Source.of(image, sides if len(sides) == 3 else ()), report, judge)
    picture = _picture_of(image, report, settings, "raw" in heading)
    with as_file(picture.mask) as source:
        return check_report(name, source, report, judge)


def _check_labels(image: Path, archive: Path, settings: Settings, judge: Judge) -> Finding:
    """The finding on an archive of the labels of an image: its reports hold, and its pictures and their places are those that the image gives."""
    name, record = shown(archive), _record_of(archive)
    if record.get("labels") is None:
        raise Fault(name, "no record of labels lies beside it", "was it moved? it belongs into its folder `evidence`")
    picture = _picture_of(image, archive, settings, len(record["sides"]) == 3)
    if picture.labels is None:
        raise Fault(shown(image), "its values were not taken as labels", "give --labels")
    with unpacked(archive) as folder:
        wrong = Labels.of(folder, record, judge).wrong
        for box, told in zip_longest(boxes(picture.labels), record["labels"]):
            own = folder / f"{told[0]}{suffix_of(box.mask)}" if box and told else folder
            if not box or not told or [box.label, *box.place] != told or not own.is_file() or own.read_bytes() != spelled(box.mask):
                wrong.append(f"label {box.label if box else told[0]}: the image gives another picture of it")
    return Finding(name, not wrong, wrong[0] if wrong else "")


def _record_of(report: Path) -> Record:
    """The record that lies beside a report or an archive; without members where there is none."""
    stem = report.name.removesuffix(ARCHIVE).removesuffix(".gz").removesuffix(".report")
    record = read_json(report.with_name(stem + ".json"))
    return record if isinstance(record, dict) else {}


def _picture_of(image: Path, report: Path, settings: Settings, is_volume: bool) -> Picture:
    """The picture that an image gives."""
    record = _record_of(report)
    if settings == Settings() and record:
        print(f"{shown(image)}: {'; '.join(record['notes'])}, as {record['image'].rpartition('/')[2]}.json says", file=sys.stderr)
        settings = _recorded(record)
    elif settings.fit is None:
        settings = replace(settings, fit=record.get("fit"))
    return (volume_of if is_volume else picture_of)(image, image.name, settings)


def _recorded(record: dict) -> Settings:
    """The settings that a record tells: with them the same image gives the same picture."""
    cut, same = record["cut"], {"fit": record["fit"], "channel": record["channel"], "filters": Filters(**record["filters"]), "scan": Asked.recorded(record.get("scan"))}
    same["intensities"] = "" if record["intensities"] else None
    if cut is None:
        return Settings(labels="all" if record["labels"] is None else "each", **same)
    return Settings(repr(cut["threshold"]), cut["objects"], **same)
