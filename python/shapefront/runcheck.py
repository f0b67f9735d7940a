"""Checks the folder of a run by its `made.json` and its records: nothing may be missing, nothing may be there that the run did not
make, and all of it has to be what the same program makes again.

The proved program gives each verdict on a report, a table, a drawing or a mask; here bytes, rows and sums are compared.
"""
from __future__ import annotations

from collections.abc import Callable, Iterable, Iterator
from dataclasses import dataclass, field
from functools import cached_property
from pathlib import Path
from typing import Any

from .again import record_again, record_of_labels_again, run_again
from .archives import SUFFIX as ARCHIVE
from .archives import unpacked
from .beside import Asked, Beside, Covered, check_beside, refused, stem_of, wrong_in_parts
from .checking import Finding
from .comparing import of_members, of_tables, of_texts
from .crew import Crew
from .faults import Fault
from .files import read_json, shown, sum_of, sum_of_bytes
from .folder import originals
from .imagecheck import ImageCheck
from .inventory import Inventory
from .labelcheck import Labels
from .layout import EVIDENCE, HOLES, MADE, PAGE, SUMMARY, WORKBOOK, drawing, evidence, part, record_of_key
from .making import Record
from .page import jinja_version, page_version, tell, without_verdict
from .parts import Again, names_in
from .pictures import suffix_beside
from .plan import Wanted
from .programs import sums
from .report import heading_of
from .seals import SEAL
from .tables import rows_of, text_of
from .workbook import is_same, workbook_version

_BY_ORIGINALS = "what only the original images tell (names, labels, thresholds, intensities, what was done to them), and "
_BY_VALUED = "the intensities, as --intensities was not given, and "
_UNTOLD = "the pixel's size"
_FOREIGN = "it, or a record that it names, is none that `shapes` wrote"
_NOT_RECORDS = (KeyError, TypeError, ValueError, AttributeError, IndexError)

Told = tuple[Path, Finding]


def sum_of_file(path: Path) -> str | None:
    """The sum of a file; that of a page without what an earlier check said in it."""
    return sum_of_bytes(without_verdict(path.read_bytes())) if path.name == PAGE and path.is_file() else sum_of(path)


def findings_of_run(folder: Path, made: dict[str, Any], asked: Asked) -> Iterator[Finding | Covered]:
    """The findings on the folder of a run, whose `made.json` says this, and what they cover."""
    try:
        yield from RunCheck.of(folder, made, asked).findings()
    except Fault as fault:
        yield refused(shown(fault.about), fault)
    except _NOT_RECORDS:
        yield Finding(shown(folder / MADE), False, _FOREIGN)


@dataclass(frozen=True)
class Checked:
    """What was found of a picture of a run: the findings by the file that each is about, its record as its report gives it (None
    where its own is not as it was written), and its tables by what their names end in."""

    findings: list[Told]
    record: Record | None
    tables: dict[str, bytes]


@dataclass
class RunCheck:
    """The check of a run's folder; `wrong` are the files of which something was found, `said` what of them, and `rows` how many rows are right in tables of all."""

    folder: Path
    made: dict[str, Any]
    asked: Asked
    inventory: Inventory
    wrong: set[Path] = field(default_factory=set)
    said: list[str] = field(default_factory=list)
    rows: int = 0

    @classmethod
    def of(cls, folder: Path, made: dict[str, Any], asked: Asked) -> RunCheck:
        allowed = [*asked.allowed, MADE, *originals(folder, made)]
        return cls(folder, made, asked, Inventory.of(folder, made["files"], allowed, sum_of_file))

    def findings(self) -> Iterator[Finding | Covered]:
        """All findings: on pictures, on files of all, and on what is missing, changed or added; and what they cover."""
        if self.made["options"]["no_report"]:
            unchecked = Finding(shown(self.folder / MADE), False, "it was measured with --no-report, so there is nothing to check its numbers by; measure again without it")
            yield from self._said([(self.folder / MADE, unchecked)])
            yield from self._said(self._of_inventory())
            return
        names = sorted((image["record"] for image in self.made["images"] if image["record"]), key=lambda name: Path(name).with_suffix(""))
        checked = {}
        for name, one in zip(names, Crew(self._picture, self.asked.jobs).in_order(names)):
            checked[name] = one
            yield from self._said(one.findings)
        if self.asked.originals:
            yield from self._said(self._of_originals(self.asked.originals, checked))
        yield from self._said(self._of_all(checked))
        yield from self._said(self._of_inventory())
        covers = self._covered(checked)
        if self.inventory.is_whole(PAGE) and self.folder / PAGE not in self.wrong:
            tell(self.folder / PAGE, not self.said, covers, self.said)
        yield Covered(covers)

    def _said(self, findings: Iterable[Told]) -> Iterator[Finding]:
        for path, finding in findings:
            if not finding.holds:
                self.wrong.add(path)
                self.said.append(str(finding))
            yield finding

    def _of_inventory(self) -> Iterator[Told]:
        """What is missing, changed or added, but for files of which something else was told by their names already."""
        reports = {path for path in self.wrong if stem_of(path) != path}
        for name, why in self.inventory.wrong():
            path = self.folder / name
            if path not in self.wrong - reports:
                yield path, Finding(shown(path), False, why)

    def _picture(self, name: str) -> Checked:
        """What is found of the picture whose record has this name."""
        path = self.folder / name
        stem = path.with_name(path.name.removesuffix(".json"))
        record = read_json(path) if path.is_file() else None
        record = record if isinstance(record, dict) else {}
        if str((archive := stem.with_name(stem.name + ARCHIVE)).relative_to(self.folder)) in self.made["files"]:
            return self._labels(archive, record)
        besides = [self._report(report, record) for report in self._reports(stem)]
        findings = [told for beside in besides for told in beside.findings if beside is besides[0] or not told[1].holds]
        if not besides:
            return Checked([(stem, Finding(shown(stem), False, "made.json names no report of it"))], None, {})
        again, why = self._record(record, besides[0])
        if why:
            findings.append((path, Finding(shown(path), False, why)))
        tables = {".csv": besides[0].table} if besides[0].holds else {}
        if again is not None and all(beside.holds for beside in besides):
            found, own = self._parts(stem, Wanted.of(again), besides[1:])
            findings, tables = findings + found, tables | own
        return Checked(findings, again if self.inventory.is_whole(name) else None, tables)

    def _labels(self, archive: Path, record: Record) -> Checked:
        """What is found of a label image, whose record is this, by the archive of its labels."""
        stem, path = archive.with_name(archive.name.removesuffix(ARCHIVE)), archive.with_name(archive.name.removesuffix(ARCHIVE) + ".json")
        if not record or not archive.is_file():
            gone = path if not record else archive
            why = self.inventory.spoilt.get(str(gone.relative_to(self.folder)), "it names no labels")
            return Checked([(gone, Finding(shown(gone), False, why))], None, {})
        try:
            with unpacked(archive) as folder:
                labels = Labels.of(folder, record, self.asked.judge)
                again = record if labels.wrong else record_of_labels_again(record, self.made, labels.reports)
        except Fault as fault:
            return Checked([(archive, refused(shown(archive), fault))], None, {})
        findings = [(archive, Finding(shown(archive), False, why)) for why in labels.wrong] or [(stem, Finding(shown(stem), True))]
        if why := of_members({**record, SEAL: again[SEAL]}, again):
            findings.append((path, Finding(shown(path), False, why)))
        for suffix, table in labels.tables.items():
            own = stem.with_name(stem.name + suffix)
            if own.is_file() and (data := own.read_bytes()) != table:
                findings.append((own, Finding(shown(own), False, of_tables(data, table))))
        return Checked(findings, again if self.inventory.is_whole(str(path.relative_to(self.folder))) else None, labels.tables)

    def _reports(self, stem: Path) -> list[Path]:
        """The reports of a picture that `made.json` names: its own, and those of its parts."""
        stems = [stem, *(part(stem, name, "") for name in self._names(stem))]
        names = [one.with_name(one.name + suffix) for one in stems for suffix in (".report", ".report.gz")]
        return [path for path in names if str(path.relative_to(self.folder)) in self.made["files"]]

    def _report(self, report: Path, record: Record) -> Beside:
        if not report.is_file():
            why = f"its report {report.name} is gone: {self.inventory.spoilt[str(report.relative_to(self.folder))]}"
            return Beside(report, [(report, Finding(shown(stem_of(report)), False, why))])
        key = str(stem_of(report).relative_to(self.folder / EVIDENCE))
        beside = check_beside(report, record, self.asked.judge, self.folder / drawing(key, ".svg"))
        if beside.holds and (kind := heading_of(report)[0]) != "shape":
            why = f"{report.name} is a report of another kind: its first word is `{kind}`"
            return Beside(report, [(report, Finding(shown(stem_of(report)), False, why))])
        return beside

    def _record(self, record: Record, beside: Beside) -> tuple[Record | None, str | None]:
        """The record of a picture as its report gives it, where that holds, else as it is; and where the two differ, in words."""
        if not record or not beside.holds:
            return record or None, None
        try:
            again = record_again(record, self.made, beside.report)
            return again, of_members({**record, SEAL: again[SEAL]}, again)
        except Fault:
            raise
        except _NOT_RECORDS:
            return None, "it is no record that `shapes` wrote of this report"

    @cached_property
    def _parts_of(self) -> dict[str, list[str]]:
        """The names of the parts of each picture that has some, by the files that `made.json` names."""
        return names_in(self.made["files"])

    def _names(self, stem: Path) -> list[str]:
        """The names of the parts of a picture."""
        return self._parts_of.get(str(stem.relative_to(self.folder)), [])

    def _parts(self, stem: Path, wanted: Wanted, parts: list[Beside]) -> tuple[list[Told], dict[str, bytes]]:
        """What is wrong in a picture's parts, whose reports all hold; and the tables that these give."""
        names = self._names(stem)
        try:
            again = Again.of(stem, wanted, {name: beside.table.decode() for name, beside in zip(names, parts)})
        except Fault as fault:
            return [(stem, refused(shown(stem), fault))], {}
        wrong = list(wrong_in_parts(stem, again))
        told = {stem.with_name(stem.name + suffix): suffix in again.tables for suffix in (HOLES,)}
        told |= {part(stem, name, suffix_beside(stem) or ".pbm"): name in again.pictures for name in again.pictures.keys() | set(names)}
        for path, is_made in told.items():
            if is_made != (str(path.relative_to(self.folder)) in self.made["files"]):
                wrong.append((path, Finding(shown(path), False, "made.json does not name it" if is_made else "nothing made it")))
        return wrong, again.tables

    def _of_originals(self, originals: Path, checked: dict[str, Checked]) -> Iterator[Told]:
        """The findings on the images that were measured, each by the record of its first picture, or by `made.json` where it has none."""
        records = {name: one.record for name, one in checked.items() if one.record is not None}
        for told, finding in ImageCheck(originals, self.folder, self.made, records, self.asked.intensities).findings(self.asked.jobs):
            yield self.folder / (told["record"] or MADE), finding

    def _of_all(self, checked: dict[str, Checked]) -> Iterator[Told]:
        """The findings on the tables of all, on the summary and on `made.json`; none where a record is not as it was written."""
        records = {name: one.record for name, one in checked.items() if one.record is not None}
        if len(records) < len(checked):
            return

        def table(record: Record, suffix: str) -> str:
            return self._table(checked[record_of_key(record["key"])], record, suffix)

        try:
            run = run_again(self.made, records)
            files, kept = run.of_all(table), {name: sum_ for name, sum_ in self.made["files"].items() if name == WORKBOOK or name in self._untold()}
            made = None if files else run.made(files, table, kept)
        except Fault as fault:
            yield Path(fault.about), refused(shown(fault.about), fault)
            return
        for name, data in files.items():
            path = self.folder / name
            if path.is_file():
                yield path, self._compared(path, data)
        if WORKBOOK in kept and WORKBOOK not in self._untold():
            book = run.workbook(files)
            yield from self._same(WORKBOOK, lambda own: book is not None and is_same(own, book), "its cells are not those of the tables")
        if PAGE in self.made["files"] and PAGE not in kept:
            files[PAGE] = page = run.page([*files, *kept], files, self._shown)
            yield from self._same(PAGE, lambda own: without_verdict(own) == page, "it is not the page that the tables and the records give")
        why = of_members(self.made, made or run.made(files, table, kept))
        yield self.folder / MADE, Finding(shown(self.folder / MADE), why is None, why or "")

    def _untold(self) -> list[str]:
        """The files of all that are compared by their sums alone, as another version made them, or what makes them is not installed."""
        versions = self.made["versions"]
        is_there = {PAGE: bool(jinja_version()) and page_version() == versions.get("page"), WORKBOOK: workbook_version() == versions.get("workbook")}
        return [name for name, here in is_there.items() if name in self.made["files"] and not here]

    def _shown(self, record: Record, suffix: str) -> bytes | None:
        """What the page shows of an image, as it lies there."""
        name = evidence(record["key"], suffix)
        return (self.folder / name).read_bytes() if name in self.made["files"] and self.inventory.is_whole(name) else None

    def _same(self, name: str, is_right: Callable[[bytes], bool], why: str) -> Iterator[Told]:
        """The finding on a file of all, where it is there: whether it is right, and else why not."""
        path = self.folder / name
        if path.is_file():
            holds = is_right(path.read_bytes())
            yield path, Finding(shown(path), holds, "" if holds else why)

    def _table(self, one: Checked, record: Record, suffix: str) -> str:
        """A picture's own table as its report gives it; where that does not hold, as it was written. A Fault where it is spoilt, too."""
        name = evidence(record["key"], suffix)
        if suffix in one.tables:
            return one.tables[suffix].decode()
        if name not in self.made["files"] or not self.inventory.is_whole(name):
            raise Fault(self.folder / name, self.inventory.spoilt.get(name, "made.json does not name it"), "and its report does not give it")
        return (self.folder / name).read_text()

    def _compared(self, path: Path, data: bytes) -> Finding:
        own = path.read_bytes()
        if own != data:
            return Finding(shown(path), False, of_texts(own, data) if path.name == SUMMARY else of_tables(own, data))
        if path.name != SUMMARY:
            self.rows += len(rows_of(text_of(data))) - 1
        return Finding(shown(path), True)

    def _covered(self, checked: dict[str, Checked]) -> str:
        """What was checked and what was not, in words."""
        files = len(self.made["files"]) - len(self.inventory.spoilt)
        images = [image for image in self.made["images"] if image["record"]]
        good = sum(self._is_good(checked[image["record"]]) for image in images)
        failed = sum(image["failure"] is not None for image in self.made["images"])
        told = f" ({failed} failed when {'they were' if failed > 1 else 'it was'} measured)" if failed else ""
        untold = (_BY_VALUED if self._lacks_values() else "") + _UNTOLD if self.asked.originals else _BY_ORIGINALS + _UNTOLD
        by_sums = f"; by sums alone, as another version made them, or what makes them is not installed: {', '.join(names)}" if (names := self._untold()) else ""
        other = "" if self.made["programs"] == sums() else "; another build of the program made it, by the sum in made.json"
        return f"checked {good} of {len(images)} images{told}, {self.rows:,} rows, {files:,} files; not checked: {untold}{by_sums}{other}"

    def _lacks_values(self) -> bool:
        """Whether the intensities are those of other images that nobody gave."""
        return bool(self.made["options"].get("intensities")) and self.asked.intensities is None

    def _is_good(self, one: Checked) -> bool:
        if one.record is None or not all(finding.holds for _, finding in one.findings):
            return False
        return not self.wrong & {self.folder / own for own in (*one.record["files"], record_of_key(one.record["key"]))}
