"""What a run has to have written, as its reports, its records and its options give it again: for a comparison with what lies there.

Only the original image tells its own name and sum, the label, the threshold and what was done to it before: that is taken over.
"""
from __future__ import annotations

from collections.abc import Sequence
from dataclasses import asdict
from pathlib import Path
from typing import Any

from .batch import Image
from .filters import Filters
from .folder import Run
from .labelled import total
from .layout import REGION, evidence, key_of
from .making import Record, record_of
from .pictures import told_suffix
from .plan import Wanted, masks_of
from .products import names_of
from .report import counts_of, heading_of
from .spacing import Spacing, measure_of
from .thresholds import Cut

_VERSIONS = ("shapefront", "versions", "programs")


def run_again(made: dict[str, Any], records: dict[str, Record]) -> Run:
    """The run of which `made.json` tells, with these records by the names of their files."""
    images = []
    for told in made["images"]:
        images.append(Image(Path(told["image"]), told["image"], records.get(told["record"]), told["failure"], told["sum"]))
    measure = measure_of(made["options"], (image.record for image in images if image.record))
    return Run(made["options"], measure, images, {name: made[name] for name in _VERSIONS}, made["subfolders"], made.get("share"))


def record_again(record: Record, made: dict[str, Any], report: Path) -> Record:
    """The record of a picture as its report, which holds, and the run's options give it."""
    heading = heading_of(report)
    parts, kept = counts_of(report)
    again = _again(record, made, {"sides": [int(side) for side in heading[3:-1]], "rule": heading[-1], "parts": parts, "kept": kept})
    suffix = told_suffix(again["sides"])
    again["picture"] = again["files"][evidence(record["key"], suffix)]
    again["region"] = again["files"].get(evidence(record["key"], f".{REGION}{suffix}"))
    return record_of(again)


def record_of_labels_again(record: Record, made: dict[str, Any], reports: Sequence[Path]) -> Record:
    """The record of a label image as the reports of its labels, which hold, and the run's options give it."""
    counts = [counts_of(report) for report in reports]
    told = {"rule": heading_of(reports[0])[-1], "parts": total([parts for parts, _ in counts]), "kept": total([kept for _, kept in counts])}
    return record_of(_again(record, made, told))


def _again(record: Record, made: dict[str, Any], told: dict[str, Any]) -> Record:
    """The members of a record, with what is told of it, and what the run's options and its own members give."""
    options = made["options"]
    again = {
        **record, **told, "key": key_of(record["image"], made["subfolders"]), "channel": options["channel"], "filters": asdict(Filters.told(options)), "plain": options["plain"], "drawn": not options["no_draw"], "kept_reports": not options["no_report"],
        "masks": list(masks_of(options)), "wanted": Wanted.told(options, record["fit"], Spacing.recorded(record["spacing"])).record, "programs": made["programs"],
    }  # fmt: skip
    if record["cut"]:
        again["notes"] = [str(Cut(**record["cut"])), *record["notes"][1:]]
    again["files"] = {name: record["files"].get(name, "its sum") for name in sorted(names_of(again["key"], again))}
    return again
