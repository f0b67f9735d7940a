"""Checks a report against its picture, by the proved program, and says in words why where it does not hold."""
from __future__ import annotations

import re
import tempfile
from collections.abc import Callable, Iterator
from contextlib import contextmanager
from dataclasses import dataclass
from pathlib import Path

from .arrays import Verdict, report_of, verdict
from .faults import Fault
from .files import shown
from .pictures import Source
from .programs import call, explained
from .report import text_of
from .why import reason as reason_of

# The words of `shape` that make and check each kind of report, by the report's first word.
_COMMANDS = {
    "shape": ("analyse", "check"),
    "edges": ("edges", "checkedges"),
    "pieces": ("pieces", "checkpieces"),
    "balls": ("balls", "checkballs"),
}

# Who gives the verdict on a report's file, not gzipped, of a picture, by the program's word for a check of its kind. The proved
# program does, `verdict`; another checker that answers the same may stand in its place.
Judge = Callable[[Source, Path, str], Verdict]


@dataclass(frozen=True)
class Finding:
    """What a check of one file found: its name as it is shown, whether it is right, and in words why not."""

    name: str
    holds: bool
    why: str = ""

    def __str__(self) -> str:
        return f"{self.name}: yes" if self.holds else f"{self.name}: no, {self.why}"


def check_report(name: str, source: Source, report: Path, judge: Judge = verdict) -> Finding:
    """Whether a report, gzipped or not, holds of a picture's file. A Fault where there is no report or no picture."""
    text, _ = text_of(report)
    kind, *rest = text[:200].split(b"\n", 1)[0].decode("ascii", "replace").split(" ")
    make, command = _COMMANDS.get(kind, _COMMANDS["shape"])
    with plain(text, report) as file:
        answer = judge(source, file, command)
    if answer:
        return Finding(name, True)
    rule = rest[-1].strip() if make == "analyse" and rest else "none"
    try:
        fresh = _fresh(source, make, rule)
    except Fault as fault:
        return Finding(name, False, f"line {answer.line}: no fresh report to compare with ({fault.reason})")
    return Finding(name, False, f"line {answer.line}: {reason_of(text, fresh, answer.line or 1)}")


def _fresh(source: Source, make: str, rule: str) -> bytes:
    """A fresh report of the kind in question."""
    if make == "analyse":
        return report_of(source, rule if rule in ("none", "curve", "few") else "none", source.path)
    with tempfile.TemporaryFile() as out:
        answer = call(make, *source.words, out=out)
        if answer.status:
            raise explained(source.path, answer)
        out.seek(0)
        return out.read()


@contextmanager
def plain(text: bytes, report: Path) -> Iterator[Path]:
    """The report's file, or a file of its text where it is gzipped."""
    if report.suffix != ".gz":
        yield report
        return
    with tempfile.NamedTemporaryFile(prefix="shapes-", suffix=".report") as file:
        file.write(text)
        file.flush()
        yield Path(file.name)


def picture_of(stem: str, report: Path) -> Source:
    """The picture beside a report: its name with .pbm, or with .XxYxZ.raw. A Fault where there is none, or more than one volume."""
    if (flat := report.with_name(stem + ".pbm")).is_file():
        return Source.of(flat)
    name = re.compile(re.escape(stem) + r"\.\d+x\d+x\d+\.raw")
    found = [path for path in report.parent.iterdir() if name.fullmatch(path.name)]
    if len(found) != 1:
        reason = f"{'several pictures lie' if found else 'no picture lies'} beside its report"
        raise Fault(shown(report), reason, f"put {stem}.pbm or {stem}.XxYxZ.raw there, with the sides for X, Y and Z")
    return Source.of(found[0])
