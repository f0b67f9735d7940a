"""Analyses and checks arrays of booleans, by the proved program: for one's own programs."""
from __future__ import annotations

import tempfile
from collections.abc import Iterator
from contextlib import contextmanager
from dataclasses import dataclass
from pathlib import Path
from typing import cast

import numpy.typing as npt

from .choices import RULES
from .faults import Fault
from .pictures import Source, checked_mask, spelled, suffix_of
from .programs import call, explained
from .report import Analysis, read, text_of


@dataclass(frozen=True)
class Verdict:
    """What `shape check` answers: whether the report holds, and its first bad line where not. True where it holds."""

    line: int | None = None

    def __bool__(self) -> bool:
        return self.line is None

    def __str__(self) -> str:
        return "yes" if self else f"no {self.line}"


@contextmanager
def as_file(mask: npt.ArrayLike) -> Iterator[Source]:
    """The picture in a file of its own, for as long as it is needed."""
    own = checked_mask(mask)
    with tempfile.TemporaryDirectory(prefix="shapes-") as folder:
        path = Path(folder) / ("picture" + suffix_of(own))
        path.write_bytes(spelled(own))
        yield Source.of(path)


def analyse(mask: npt.ArrayLike, rule: str = "none") -> Analysis:
    """The analysis of a picture [y, x] or a volume [z, y, x], True where it is object, thinned by a rule of `RULES`.

    A Fault where the array is none, a side is too large, or a program is missing. Lengths are in pixels.
    """
    if rule not in RULES:
        raise Fault(rule, "no rule of the thinning", f"the rules are {', '.join(RULES)}")
    with as_file(mask) as source:
        return cast(Analysis, read(report_of(source, rule)))


def table(mask: npt.ArrayLike, rule: str = "none") -> str:
    """The table of the objects of a picture or a volume, as `shape measure` writes it: CSV. A Fault as for `analyse`."""
    with as_file(mask) as source:
        report = source.path.with_name("report")
        report.write_bytes(report_of(source, rule))
        answer = call("measure", report)
        if answer.status:
            raise explained("the array", answer)
        return answer.text


def report_of(source: Source, rule: str, about: object = "the array") -> bytes:
    """The text of a fresh report. A Fault about `about` where it is refused."""
    with tempfile.TemporaryFile() as out:
        answer = call("analyse", *source.words, rule, out=out)
        if answer.status:
            raise explained(about, answer)
        out.seek(0)
        return out.read()


def check(mask: npt.ArrayLike, report: str | Path | bytes | Analysis) -> Verdict:
    """Whether a report, given by its file's name, its text or as an `Analysis`, holds of a picture or a volume.

    A Fault where there is no report or the array is none.
    """
    text, _ = text_of(report.text if isinstance(report, Analysis) else report)
    with as_file(mask) as source:
        path = source.path.with_name("report")
        path.write_bytes(text)
        return verdict(source, path)


def verdict(source: Source, report: Path, command: str = "check") -> Verdict:
    """What the proved program answers of a picture's file and a report's file, both as they are."""
    answer = call(command, *source.words, report)
    if answer.status == 0 and answer.text == "yes\n":
        return Verdict()
    if answer.status == 1:
        return Verdict(int(answer.text.removeprefix("no ")))
    raise explained(source.path, answer)
