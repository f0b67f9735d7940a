"""Checks a folder: each run of `shapes` in it by its `made.json`, and reports that somebody laid beside their pictures by hand.

What stands at the end, `Covered`, tells what the findings cover and what they do not.
"""
from __future__ import annotations

import glob
from collections.abc import Iterable, Iterator
from dataclasses import replace
from functools import partial
from pathlib import Path, PurePosixPath
from typing import Any

from .beside import SUFFIXES, Asked, Covered, check_beside, refused, stem_of, wrong_in_parts
from .checking import Finding, Judge
from .crew import Crew
from .faults import Fault
from .files import read_json, shown
from .inventory import is_below, lying
from .joincheck import findings_of_joined
from .layout import JOINED, MADE, PICTURES, part, root_of
from .network import PRUNED, SKELETON
from .parts import Again, tables_of
from .plan import Wanted
from .report import counts_of
from .runcheck import findings_of_run
from .seals import opened, why_not

# Where earlier versions kept the record of a run.
MADE_BEFORE = "made.json"


def check_folder(folder: Path, asked: Asked) -> Iterator[Finding | Covered]:
    """The findings on a folder: on each run in it, and on reports that lie there by hand. A Fault where there is nothing to check."""
    if (made := _joined(folder)) is not None:
        yield from findings_of_joined(folder, made, asked)
        return
    if asked.tables:
        raise Fault(shown(folder), "no shares were joined here", "shapes join FOLDER")
    names = [name for name in lying(folder) if not is_below(name, asked.allowed)]
    runs = _runs(names)
    if asked.originals and not runs:
        raise Fault(shown(folder), "no run of shapes is in this folder, so nothing tells of which images it was made", "leave out --originals")
    for run in runs:
        own = replace(asked, allowed=tuple(_below(run, asked.allowed)))
        yield from _of_run(folder / run, [name for name in lying(folder / run) if not is_below(name, own.allowed)], own)
    rest = [name for name in names if not is_below(name, runs)]
    if "." not in runs and any(name.endswith(SUFFIXES) or _is_trace(folder, name) for name in rest):
        yield from _by_hand(folder, rest, asked)
    elif not runs:
        raise Fault(shown(folder), "no report is in this folder", "reports are files whose names end in .report or .report.gz")


def _joined(folder: Path) -> dict[str, Any] | None:
    """What the record of a folder of joined shares says; None where it is no such folder."""
    made = opened((folder / MADE).read_bytes()) if (folder / MADE).is_file() else None
    return made if made is not None and "shares" in made else None


def _runs(names: list[str]) -> list[str]:
    """The folders of runs among these names, without those that lie in the folder of another."""
    runs: list[str] = []
    for place in sorted((root_of(name) for name in names if name == MADE or name.endswith("/" + MADE)), key=lambda place: len(place.parts)):
        if not is_below(str(place), runs):
            runs.append(str(place))
    return sorted(runs)


def _below(run: str, names: Iterable[str]) -> Iterator[str]:
    """Of these names those that lie in the folder of a run, as they are called there."""
    return (str(PurePosixPath(name).relative_to(run)) for name in names if is_below(name, [run]))


def _of_run(folder: Path, names: list[str], asked: Asked) -> Iterator[Finding | Covered]:
    """The findings on the folder of a run; by its reports alone where its `made.json` cannot be relied on."""
    try:
        data = (folder / MADE).read_bytes() if (folder / MADE).is_file() else b""
    except OSError as error:
        raise Fault(shown(folder / MADE), f"cannot be read ({error.strerror})", "may you read it?") from error
    made = opened(data)
    if made is not None:
        yield from findings_of_run(folder, made, asked)
        return
    yield Finding(shown(folder / MADE), False, why_not(data))
    yield from _reports(folder, names, asked)


def _by_hand(folder: Path, names: list[str], asked: Asked) -> Iterator[Finding | Covered]:
    """The findings on a folder without a `made.json`."""
    traces = [name for name in names if _is_trace(folder, name)]
    if MADE_BEFORE in names:
        yield Finding(shown(folder / MADE_BEFORE), False, "an earlier version of `shapes` wrote this folder; measure again into an empty one")
    elif traces:
        why = f"it is missing, and without it nobody can tell whether {_listed(traces)} and all else of the run are as they were made"
        yield Finding(shown(folder / MADE), False, why)
    yield from _reports(folder, names, asked)


def _is_trace(folder: Path, name: str) -> bool:
    """Whether a file is one that a run writes and nobody by hand: a table of all, or the record of a picture, or of a run by an earlier version."""
    if Path(name).name in (PICTURES, *JOINED):
        return True
    record = read_json(folder / name) if name.endswith(".json") and (folder / name).is_file() else None
    return isinstance(record, dict) and "files" in record and ("picture" in record or "images" in record)


def _listed(names: list[str]) -> str:
    return ", ".join(names[:3]) + (", .." if len(names) > 3 else "")


def _reports(folder: Path, names: list[str], asked: Asked) -> Iterator[Finding | Covered]:
    """The findings on all reports among these names and on what lies beside them, without a list of what has to be there."""
    reports = sorted((folder / name for name in names if name.endswith(SUFFIXES)), key=lambda report: (report.parent, stem_of(report).name))
    good, beside = 0, set()
    for report, findings in zip(reports, Crew(partial(_of_report, judge=asked.judge), asked.jobs).in_order(reports)):
        good += all(finding.holds for finding in findings)
        beside |= {str(path.relative_to(folder)) for path in _beside(report)}
        yield from findings
    others = [name for name in names if name not in beside]
    more = f", and {len(others)} other file{'s' if len(others) > 1 else ''} ({_listed(others)})" if others else ""
    yield Covered(
        f"checked {good} of {len(reports)} reports with what lies beside them, as in a folder that was made by hand; "
        f"not checked: whether a file is missing or was exchanged{more}"
    )


def _of_report(report: Path, judge: Judge) -> list[Finding]:
    """The findings on a report and what lies beside it, with the record that may lie there."""
    stem = stem_of(report)
    record = read_json(stem.with_name(stem.name + ".json"))
    record = record if isinstance(record, dict) else {}
    beside = check_beside(report, record, judge)
    findings = [finding for _, finding in beside.findings]
    if not beside.holds:
        return findings
    if "parts" in record and (record["parts"], record.get("kept")) != counts_of(report):
        return [Finding(shown(stem), False, f"the report holds, but its record {stem.name}.json says other counts")]
    try:
        findings = [finding for _, finding in wrong_in_parts(stem, Again.of(stem, _wanted(stem, record)))] or findings
    except Fault as fault:
        findings = [refused(shown(stem), fault)]
    return findings


def _wanted(stem: Path, record: dict[str, Any]) -> Wanted:
    """What was wanted of a picture, by its record; without one what lies there tells whether its network was."""
    if "wanted" in record:
        return Wanted.of(record)
    return Wanted(network=part(stem, SKELETON, ".pbm").exists() and not part(stem, PRUNED, ".pbm").exists())


def _beside(report: Path) -> Iterator[Path]:
    """The report, and the files beside it that it is compared with."""
    stem = stem_of(report)
    yield report
    yield from report.parent.glob(glob.escape(stem.name) + ".pbm")
    yield from report.parent.glob(glob.escape(stem.name) + ".*x*x*.raw")
    made = tables_of(Wanted(network=part(stem, SKELETON, ".pbm").exists(), sides=0), is_flat=True)
    yield from (stem.with_name(stem.name + suffix) for suffix in (".svg", *made))
