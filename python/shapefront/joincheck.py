"""Checks a folder of joined shares: each share as any run, and what the join wrote by going the same way over their pictures again."""
from __future__ import annotations

from collections.abc import Iterator
from contextlib import ExitStack
from dataclasses import dataclass, field, replace
from pathlib import Path, PurePosixPath
from typing import Any

from .beside import Asked, Covered, refused
from .checking import Finding
from .comparing import of_members, of_texts
from .faults import Fault
from .files import shown, sum_of
from .inventory import Inventory, is_below
from .joining import Shares, book_of
from .layout import MADE, OBJECTS, PAGE, SUMMARY, WORKBOOK
from .page import jinja_version, page_version, tell, without_verdict
from .runcheck import findings_of_run, sum_of_file
from .seals import opened, why_not
from .shares import SHARES, Share
from .streams import Compared
from .workbook import is_same, workbook_version


def findings_of_joined(folder: Path, made: dict[str, Any], asked: Asked) -> Iterator[Finding | Covered]:
    """The findings on a folder of joined shares, whose `made.json` says this, and what they cover; by its words on the tables of all alone."""
    check = JoinCheck(folder, made, asked)
    try:
        if not asked.tables:
            yield from check.said(check.of_shares())
        yield from check.said(check.of_all())
    except Fault as fault:
        yield from check.said([refused(shown(fault.about), fault)])
    except (KeyError, TypeError, ValueError, AttributeError, IndexError):
        yield from check.said([Finding(shown(folder / MADE), False, "it is none that `shapes join` wrote")])
    covers = check.covered()
    if PAGE in made["files"] and (folder / PAGE).is_file() and PAGE not in check.spoilt and not asked.tables:
        tell(folder / PAGE, not check.wrong, covers, check.wrong)
    yield Covered(covers)


def findings_of_share(folder: Path, share: Share, asked: Asked) -> Iterator[Finding | Covered]:
    """The findings on one share of a folder. A Fault where it is not there."""
    place, own = share.folder(folder), replace(asked, allowed=tuple(_below(str(share.folder(Path("."))), asked.allowed)))
    data = (place / MADE).read_bytes() if (place / MADE).is_file() else None
    if data is None:
        raise Fault(shown(place), "this share is missing, or not at its end", f"shapes measure --share {share} IMAGES -o {shown(folder)}")
    made = opened(data)
    if made is None:
        yield Finding(shown(place / MADE), False, why_not(data))
    elif (told := made.get("share")) is None or (told["number"], told["of"]) != (share.number, share.of):
        yield Finding(shown(place / MADE), False, f"it is the record of share {told and told['number']} of {told and told['of']}")
    else:
        yield from findings_of_run(place, made, own)


def _below(place: str, names: tuple[str, ...]) -> Iterator[str]:
    return (str(PurePosixPath(name).relative_to(place)) for name in names if is_below(name, [place]))


@dataclass
class JoinCheck:
    """The check of a folder of joined shares; `wrong` are the lines of what is not right, `spoilt` the files of all of which something was told, `rows` how
    many rows of tables are right, and `images` how many images are in shares that are."""

    folder: Path
    made: dict[str, Any]
    asked: Asked
    wrong: list[str] = field(default_factory=list)
    spoilt: set[str] = field(default_factory=set)
    rows: int = 0
    shares: int = 0

    def said(self, findings: Iterator[Finding | Covered] | list[Finding | Covered]) -> Iterator[Finding | Covered]:
        """The findings, with those kept that are not right."""
        for finding in findings:
            if not finding.holds:
                self.wrong.append(str(finding))
            yield finding

    def of_shares(self) -> Iterator[Finding | Covered]:
        """The findings on each share that was joined, and on what lies among them."""
        for told in self.made["shares"]:
            before, share = len(self.wrong), Share(told["number"], told["of"])
            if sum_of(share.folder(self.folder) / MADE) != told["sum"]:
                yield Finding(shown(share.folder(self.folder)), False, "it is missing, or is another than was joined; measure it again, or join again")
                continue
            for finding in findings_of_share(self.folder, share, self.asked):
                if isinstance(finding, Covered):
                    yield Covered(f"{shown(share.folder(self.folder))}: {finding}")
                else:
                    yield finding
            self.shares += len(self.wrong) == before
        own = {str(told["number"]) for told in self.made["shares"]}
        for path in sorted((self.folder / SHARES).iterdir()):
            if path.name not in own and not path.name.startswith(".") and not is_below(f"{SHARES}/{path.name}", self.asked.allowed):
                yield Finding(shown(path), False, "nothing joined it; take it away, join again, or name it by --allow")

    def of_all(self) -> Iterator[Finding | Covered]:
        """The findings on what the join wrote."""
        shares, files = Shares.of_folder(self.folder), self.made["files"]
        yield from self._of_tables(shares)
        if WORKBOOK in files and WORKBOOK not in self._untold() and all((self.folder / name).is_file() for name in files):
            book = book_of(self.folder, files)
            yield self._finding(WORKBOOK, None if book and is_same((self.folder / WORKBOOK).read_bytes(), book) else "its cells are not those of the tables")
        if PAGE in files and (self.folder / PAGE).is_file() and PAGE not in self._untold():
            page = shares.page([name for name in files if name != PAGE], shares.rows(), self._count(OBJECTS))
            is_right = without_verdict((self.folder / PAGE).read_bytes()) == page
            yield self._finding(PAGE, None if is_right else "it is not the page that the tables and the records give")
        again = shares.made(files)
        why = of_members({**self.made, "versions": again["versions"], "own_sum": again["own_sum"]}, again)
        yield self._finding(MADE, why)
        for missing in shares.lacks():
            yield Finding(shown(self.folder), False, missing)
        inventory = Inventory.of(self.folder, files, [*self.asked.allowed, MADE], sum_of_file, SHARES)
        for name, reason in inventory.wrong():
            if name not in self.spoilt:
                yield self._finding(name, reason)

    def _of_tables(self, shares: Shares) -> Iterator[Finding]:
        """The findings on the tables and the summary, which are compared as they are spelled again."""
        there = [name for name in shares.names() if (self.folder / name).is_file()]
        with ExitStack() as stack:
            sinks = {name: Compared(stack.enter_context(open(self.folder / name, "rb")), name != SUMMARY) for name in there}
            counts = shares.spell({name: sinks.get(name, _Nothing()) for name in shares.names()})
            for name, sink in sinks.items():
                sink.end()
        for name, sink in sinks.items():
            self.rows += counts.get(name, 1) - 1 if sink.wrong is None else 0
            yield self._finding(name, _differs(name, *sink.wrong) if sink.wrong else None)

    def _finding(self, name: str, why: str | None) -> Finding:
        if why:
            self.spoilt.add(name)
        return Finding(shown(self.folder / name), why is None, why or "")

    def _count(self, name: str) -> int:
        """How many rows a table has, without its header."""
        if not (self.folder / name).is_file():
            return 0
        with open(self.folder / name, "rb") as file:
            return max(sum(block.count(b"\n") for block in iter(lambda: file.read(1 << 20), b"")) - 1, 0)

    def _untold(self) -> list[str]:
        """The files of all that are compared by their sums alone, as another version made them, or what makes them is not installed."""
        versions = self.made["versions"]
        is_there = {PAGE: bool(jinja_version()) and page_version() == versions.get("page"), WORKBOOK: workbook_version() == versions.get("workbook")}
        return [name for name, here in is_there.items() if name in self.made["files"] and not here]

    def covered(self) -> str:
        """What was checked and what was not, in words."""
        images = sum(share["images"] for share in self.made["shares"])
        failed = sum(share["failed"] for share in self.made["shares"])
        told = f" ({failed} failed when they were measured)" if failed else ""
        if self.asked.tables:
            count = len(self.made["shares"])
            return f"checked {self.rows:,} rows of the tables of {images} images{told}; not checked: the shares themselves, by --share 1/{count} to {count}/{count}"
        by_sums = f"; by sums alone, as another version made them, or what makes them is not installed: {', '.join(names)}" if (names := self._untold()) else ""
        return f"checked {self.shares} of {len(self.made['shares'])} shares of {images} images{told}, {self.rows:,} rows{by_sums}"


class _Nothing:
    """A sink for what is not looked at."""

    def add(self, data: bytes) -> None:
        """Takes it."""


def _differs(name: str, own: bytes, due: bytes) -> str:
    """Where a file differs from what it has to be, by the stretches in which it first does."""
    if name == SUMMARY:
        return of_texts(own, due)
    k = next((k for k, (one, other) in enumerate(zip(own.splitlines(), due.splitlines())) if one != other), 0)
    told = [data.splitlines()[k : k + 1] or [b"nothing"] for data in (own, due)]
    return "it says `{}`; the shares give `{}`".format(*(line[0].decode("utf-8", "replace")[:200] for line in told))
