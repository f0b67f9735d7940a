"""Checks the evidence of a label image: each label's report, with what lies beside it in the archive; and makes the tables of all labels again."""
from __future__ import annotations

from collections.abc import Sequence
from dataclasses import dataclass
from pathlib import Path
from typing import Any

import numpy as np

from .beside import Beside, check_beside, wrong_in_parts
from .checking import Judge, picture_of
from .faults import Fault
from .labels import Box, tables
from .layout import OBJECTS, SPACED, part
from .parts import Again, names_in, tables_of
from .parts import suffixes_of as part_suffixes
from .pictures import pbm_mask
from .plan import Wanted
from .products import suffixes_of


@dataclass(frozen=True)
class Labels:
    """What was found of the labels in an unpacked archive: why some are wrong, their reports, and where all hold the tables of them all."""

    wrong: list[str]
    reports: list[Path]
    tables: dict[str, bytes]

    @classmethod
    def of(cls, folder: Path, record: dict[str, Any], judge: Judge) -> Labels:
        """What is found of the labels that a record names. A Fault where a picture cannot be read."""
        wrong, own, made, names = [], [], {}, set()
        for label, *place in record["labels"]:
            stem = folder / str(label)
            whys, again = _label(stem, record, judge)
            wrong += [f"label {label}: {why}".replace(f"{folder}/", "") for why in whys]
            if again:
                own.append(Box(label, tuple(place), _mask(stem)))
                made |= {(label, suffix): table for suffix, table in again.tables.items()}
                names |= {f"{label}{suffix}" for suffix in suffixes_of(record, own[-1].mask.shape[::-1], "") | part_suffixes(again.pictures, "") | set(again.tables)}
        lying = {path.name for path in folder.iterdir()}
        if not wrong:
            wrong = [f"it holds {name}, which nothing made" for name in sorted(lying - names)] + [f"{name} is missing in it" for name in sorted(names - lying)]
            wrong += [f"label {box.label} lies outside of the image" for box in own if not _is_inside(box, record["sides"])]
        reports = [folder / f"{label}.report" for label, *_ in record["labels"]]
        if wrong:
            return cls(wrong, reports, {})
        return cls(wrong, reports, tables(own, record["sides"], lambda box, suffix: made.get((box.label, suffix), b"").decode(), tables_of(Wanted.of(record), len(record["sides"]) == 2), Wanted.of(record).spacing))


def _label(stem: Path, record: dict[str, Any], judge: Judge) -> tuple[list[str], Again | None]:
    """Why what lies there of a label is wrong; and where its reports hold, the pictures of its parts and its tables."""
    names = names_in(path.name for path in stem.parent.iterdir()).get(stem.name, [])
    besides = [_beside(one.with_name(one.name + ".report"), record, judge) for one in (stem, *(part(stem, name, "") for name in names))]
    whys = [finding.why for beside in besides for _, finding in beside.findings if not finding.holds]
    if whys:
        return whys, None
    try:
        again = Again.of(stem, Wanted.of(record), {name: beside.table.decode() for name, beside in zip(names, besides[1:])})
    except Fault as fault:
        return [fault.reason], None
    spaced = stem.with_name(stem.name + SPACED[OBJECTS])
    own = {SPACED[OBJECTS]: spaced.read_bytes()} if spaced.is_file() else {}
    return [finding.why for _, finding in wrong_in_parts(stem, again)], Again(again.pictures, {".csv": besides[0].table, **own, **again.tables})


def _beside(report: Path, record: dict[str, Any], judge: Judge) -> Beside:
    files = {path.name: "" for path in report.parent.glob(report.name.partition(".")[0] + ".*")}
    return check_beside(report, {**record, "files": files}, judge)


def _mask(stem: Path) -> np.ndarray:
    source = picture_of(stem.name, stem.with_name(stem.name + ".report"))
    data = source.path.read_bytes()
    return np.frombuffer(data, np.uint8).reshape(source.sides[::-1]) > 0 if source.sides else pbm_mask(data)


def _is_inside(box: Box, sides: Sequence[int]) -> bool:
    return all(-1 <= at and at + own <= side + 1 for at, own, side in zip(box.place, reversed(box.mask.shape), sides, strict=True))
