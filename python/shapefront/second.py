"""`shapes check --second`: reports, and the tables and masks beside them, by the second reading of the definitions alone, which is Python and numpy.

No verdict here comes from the proved program. Where that is found, a fresh report of it says in words why a line is bad.
"""
from __future__ import annotations

from collections import Counter
from collections.abc import Iterator
from pathlib import Path

from secondreading import NoPicture, picture_in
from secondreading.kinds import read
from secondreading.masks import MASKS, mask
from secondreading.tables import groups_of, table

from .arrays import Verdict
from .checking import Finding, check_report, picture_of
from .faults import Fault
from .files import shown
from .pictures import Source

_SUFFIXES = (".report", ".report.gz")


def reports_of(paths: list[Path]) -> list[Path]:
    """The reports that are named, and those in the folders that are. A Fault where there are none."""
    if any(path.suffix in (".pbm", ".raw") for path in paths):
        raise Fault("--second", "it takes a folder or reports, no pictures", "name the reports alone: their pictures lie beside them")
    found = [report for path in paths for report in (_reports_in(path) if path.is_dir() else [path])]
    if not found:
        raise Fault(shown(paths[0]), "no report is in this folder", "reports are files whose names end in .report or .report.gz")
    return found


def _reports_in(folder: Path) -> list[Path]:
    files = (path for path in folder.rglob("*") if path.name.endswith(_SUFFIXES))
    return sorted(path for path in files if not any(part.startswith(".") for part in path.relative_to(folder).parts))


class Second:
    """The second reading of one report after another: what it read of the last one, and how many files it looked at."""

    def __init__(self) -> None:
        self.looked_at: Counter[str] = Counter()

    def check(self, reports: list[Path]) -> Iterator[Finding]:
        """The finding on each report, of the picture beside it, with its table and its masks; where no check can be made, that is why."""
        for report in reports:
            stem = report.name.removesuffix(".gz").rpartition(".")[0]
            name = shown(report.with_name(stem)) if report.name.endswith(_SUFFIXES) else shown(report)
            try:
                found = check_report(name, picture_of(stem, report), report, self.judge)
                yield self._beside(name, report.with_name(stem)) if found.holds else found
            except Fault as fault:
                yield Finding(name, False, f"{fault.reason}" + (f"; {fault.remedy}" if fault.remedy else ""))

    def judge(self, source: Source, report: Path, _command: str) -> Verdict:
        """What the second reading says of a report's file; its first word says of which kind it is."""
        try:
            self.picture = picture_in(source.path.read_bytes(), source.sides)
            bad, self.told = read(self.picture, report.read_bytes())
        except NoPicture as fault:
            raise Fault(source.path, str(fault)) from fault
        except OSError as error:
            raise Fault(source.path, f"cannot be read ({error.strerror})") from error
        self.looked_at["reports"] += 1
        return Verdict(bad)

    def _beside(self, name: str, stem: Path) -> Finding:
        """Whether the table and the masks of an analysis that holds, which lie beside it, are those of the picture."""
        if not hasattr(self.told, "rule"):
            return Finding(name, True)
        for kind, path in [("tables", stem.with_name(stem.name + ".csv"))] + [("masks", path) for path in self._masks(stem)]:
            if path.exists():
                self.looked_at[kind] += 1
                given = path.read_bytes()
                if given != (self._table(given) if kind == "tables" else self._mask(stem, path)):
                    return Finding(name, False, f"the report holds, but {shown(path)} is not what the second reading makes of it")
        return Finding(name, True)

    def _table(self, given: bytes) -> bytes:
        return table(self.picture, self.told.rule, self.told.contours, groups_of(given))

    def _masks(self, stem: Path) -> list[Path]:
        """The pictures that are named as masks of the picture."""
        suffixes = (".pbm", ".pgm", ".raw") if self.picture.axes == 2 else (".raw",)
        beside = (path for path in stem.parent.iterdir() if path.name.startswith(f"{stem.name}.") and path.suffix in suffixes)
        return sorted(path for path in beside if path.name.removeprefix(f"{stem.name}.").split(".")[0] in MASKS)

    def _mask(self, stem: Path, path: Path) -> bytes:
        return mask(self.picture, self.told.rule, path.name.removeprefix(f"{stem.name}.").split(".")[0])

    def summary(self) -> str:
        """What was looked at, and what never is."""
        counts = ", ".join(f"{kind} {self.looked_at[kind]}" for kind in ("reports", "tables", "masks"))
        return f"by the second reading: {counts}; drawings, records and the tables of all images are not looked at"
