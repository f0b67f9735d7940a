"""Joins the shares of a run: the tables, the summary, the page and the record of all, in one pass over its images in the order of their names.

In memory are these names and the files of one picture at a time. A check goes the same way, and compares where a join writes.
"""
from __future__ import annotations

from collections.abc import Iterable, Iterator, Mapping
from contextlib import ExitStack
from dataclasses import dataclass
from pathlib import Path
from typing import Any

from .faults import Fault
from .files import encoded, make_folder, shown, sum_of_bytes, write, write_json
from .folder import heading, part_of, pictures, read_table, told_failures, told_picture, versions
from .hands import MARK
from .layout import JOINED, MADE, OBJECTS, PAGE, PICTURES, SUMMARY, WORKBOOK, evidence, key_of, record_of_key
from .page import MOST_PICTURES, MOST_ROWS, Page, jinja_version
from .seals import opened, sealed
from .shares import SHARES, shares_in
from .spacing import InUnit
from .streams import Sink, Table, written
from .tables import Row
from .traits import Record, Traits
from .units import Pixel
from .workbook import MOST_CELLS, workbook


@dataclass(frozen=True)
class Shares:
    """The shares of a run that lie in a folder: what all of them say alike, what the record of all says of each, the images that were measured with the
    numbers of their shares, in order, the failures of the others, and what all records have in common. `of` is how many shares there are, `given`
    of how many images the greatest number of them was told, and `subfolders` tells of each share whether its pictures lie in such."""

    folder: Path
    like: dict[str, Any]
    told: list[dict[str, Any]]
    images: list[tuple[str, int]]
    failures: list[str]
    traits: Traits
    of: int
    given: int
    subfolders: dict[int, bool]

    @classmethod
    def of_folder(cls, folder: Path) -> Shares:
        """The shares in a folder. A Fault where there is none, or they are not of one run."""
        like: dict[str, Any] = {}
        told: list[dict[str, Any]] = []
        images: list[tuple[str, int]] = []
        failures: list[str] = []
        traits: list[Traits] = []
        of = given = 0
        subfolders: dict[int, bool] = {}
        for number, place in shares_in(folder):
            data = _bytes(place / MADE)
            if data is None or (place / MARK).exists():
                continue
            made = opened(data)
            if made is None or "share" not in made:
                raise Fault(shown(place / MADE), "it is not the record of a share as `shapes` wrote it", f"measure it again: shapes measure --share {number}/N")
            like = _alike(place, like, made, number)
            failed = [image["failure"] for image in made["images"] if image["failure"]]
            told.append({**made["share"], "sum": sum_of_bytes(data), "images": len(made["images"]), "failed": len(failed)})
            images += [(image["image"], number) for image in made["images"] if image["record"]]
            failures += failed
            traits.append(Traits.told(made["traits"]))
            subfolders[number] = made["subfolders"]
            of, given = made["share"]["of"], max(given, made["share"]["given"])
        if not told:
            raise Fault(shown(folder), "no share is in this folder", "shapes measure --share K/N IMAGES -o FOLDER makes them")
        images.sort(key=_order)
        return cls(folder, like, told, images, failures, Traits.joined(traits), of, given, subfolders)

    @property
    def missing(self) -> list[int]:
        """The numbers of the shares that are not there, or not whole."""
        return sorted(set(range(1, self.of + 1)) - {share["number"] for share in self.told})

    @property
    def count(self) -> int:
        """How many images the shares have, with those that failed."""
        return len(self.images) + len(self.failures)

    @property
    def pixel(self) -> Pixel | InUnit | None:
        return self.traits.measure(self.like["options"])

    def lacks(self) -> Iterator[str]:
        """What is missing, in words."""
        if self.missing:
            named = ", ".join(f"{number}/{self.of}" for number in self.missing[:10]) + (", .." if len(self.missing) > 10 else "")
            yield f"{len(self.missing)} of {self.of} shares are missing, or not at their end: {named}"
        if self.count < self.given:
            yield f"{self.given - self.count} of {self.given} images are missing" + ("" if self.missing else ": they came later than some shares; measure all shares again")

    def place(self, number: int) -> Path:
        return self.folder / SHARES / str(number)

    def record(self, name: str, number: int) -> Record:
        """The record of a picture. A Fault where it is not as it was written."""
        path = self.place(number) / record_of_key(key_of(name, self.subfolders[number]))
        record = opened(_bytes(path) or b"")
        if record is None:
            raise Fault(shown(path), "it is missing, or not as it was written", f"measure its share again: --share {number}/{self.of}")
        return record

    def table(self, number: int, record: Record, suffix: str) -> str:
        return read_table(self.place(number) / evidence(record["key"], suffix))

    def names(self) -> list[str]:
        """The names of the tables that are joined, and of the summary."""
        return [PICTURES, *self.traits.tables, SUMMARY]

    def spell(self, sinks: Mapping[str, Sink]) -> dict[str, int]:
        """Sends all tables and the summary into the sinks of their names; how many rows each table has, with its header."""
        tables = {name: Table(sink) for name, sink in sinks.items() if name != SUMMARY}
        joints = {name: self.traits.joint(name, self.pixel) for name in self.traits.tables}
        _say(sinks[SUMMARY], heading(self.count, self.failures, self.like["options"], self.pixel, self.traits))
        _say(sinks[SUMMARY], self.lacks())
        tables[PICTURES].add(pictures([], self.traits))
        for name, number in self.images:
            record = self.record(name, number)
            tables[PICTURES].add(list(pictures([record], self.traits))[1:])
            _say(sinks[SUMMARY], told_picture(record, self.pixel))
            for kind, joint in joints.items():
                if part := part_of(record, lambda record, suffix: self.table(number, record, suffix), kind, self.pixel):
                    tables[kind].add([*([] if tables[kind].rows else [joint.names(part)]), *joint.rows(part)])
        _say(sinks[SUMMARY], told_failures(self.failures))
        return {name: table.rows for name, table in tables.items()}

    def page(self, files: Iterable[str], rows: list[Row], all_rows: int) -> bytes:
        """The page, of the first images where there are many; these are the names of the files of all, and the first rows of all objects. Missing without Jinja2."""
        first = self.images[:MOST_PICTURES]
        places = {name: self.place(number) for name, number in first}
        images: list[tuple[str, Record | None, str | None]] = [(name, self.record(name, number), None) for name, number in first]
        return Page(
            images, self.like["options"], self.pixel, {**versions(), "programs": self.like["programs"]}, [*self.lacks(), *self.traits.warnings()], list(files), rows,
            lambda record, suffix: _bytes(places[record["image"]] / evidence(record["key"], suffix)),
            self.rows("volumes.csv"), {name: f"{SHARES}/{number}/" for name, number in first}, self.count, all_rows,
        ).spelled()  # fmt: skip

    def rows(self, kind: str = OBJECTS) -> list[Row]:
        """The rows of a table that the page shows, the header first: those of its images, as long as it has room."""
        joint, found = self.traits.joint(kind, self.pixel) if kind in self.traits.tables else None, list[Row]()
        for name, number in self.images[:MOST_PICTURES] if joint else ():
            part = part_of(self.record(name, number), lambda record, suffix: self.table(number, record, suffix), kind, self.pixel)
            if part and joint:
                found += [*([] if found else [joint.names(part)]), *joint.rows(part)]
            if len(found) > MOST_ROWS:
                break
        return found[: MOST_ROWS + 1]

    def made(self, files: dict[str, str]) -> dict[str, Any]:
        """What `made.json` of all says, where these are the files of all with their sums."""
        own = {**versions(), "programs": self.like["programs"], "options": self.like["options"], "pixel": self.pixel.record if self.pixel else None}
        return sealed({**own, "shares": self.told, "lacks": list(self.lacks()), "files": dict(sorted(files.items()))})


def join(folder: Path) -> Shares:
    """Writes the files of all of the shares in a folder; the shares. A Fault where they are not of one run, or a file cannot be written."""
    shares, sinks = Shares.of_folder(folder), {}
    make_folder((folder / MADE).parent)
    with ExitStack() as stack:
        for name in shares.names():
            sinks[name] = stack.enter_context(written(folder / name, is_marked=name != SUMMARY))
        counts = shares.spell(sinks)
    files = {name: sink.sum for name, sink in sinks.items() if name in (PICTURES, OBJECTS, SUMMARY) or counts[name] > 1}
    for name, data in _further(shares, files, counts):
        write(folder / name, data)
        files[name] = sum_of_bytes(data)
    for name in {*JOINED, PAGE, WORKBOOK} - files.keys():
        (folder / name).unlink(missing_ok=True)
    write_json(folder / MADE, shares.made(files))
    return shares


def _further(shares: Shares, files: Mapping[str, str], counts: dict[str, int]) -> Iterator[tuple[str, bytes]]:
    """The workbook and the page, where they are made."""
    if book := book_of(shares.folder, files):
        yield WORKBOOK, book
    if jinja_version():
        yield PAGE, shares.page([*files, *([WORKBOOK] if book else [])], shares.rows(), max(counts.get(OBJECTS, 0) - 1, 0))


def book_of(folder: Path, files: Iterable[str]) -> bytes | None:
    """The workbook of the tables of all in a folder; None where there are too many cells for one."""
    own = [folder / name for name in files if name.endswith(".csv")]
    if sum(path.stat().st_size for path in own) > 20 * MOST_CELLS:
        return None
    tables = {path.name: path.read_bytes() for path in own}
    if sum(data.count(b",") for data in tables.values()) > MOST_CELLS:
        return None
    return workbook(tables)


def absent(shares: Shares, names: Iterable[str]) -> list[str]:
    """Which of these images no share has."""
    own = {name for name, _ in shares.images}
    for number, place in shares_in(shares.folder):
        made = opened(_bytes(place / MADE) or b"")
        own |= {image["image"] for image in made["images"]} if made else set()
    return [name for name in names if name not in own]


def _order(image: tuple[str, int]) -> list[str]:
    """The order of images: that of their names, folder by folder."""
    return image[0].split("/")


def _alike(place: Path, like: dict[str, Any], made: dict[str, Any], number: int) -> dict[str, Any]:
    """What a share says that all of them have to say alike. A Fault where it says something else than those before it, or is another share."""
    own = {**{name: made[name] for name in ("shapefront", "programs", "options")}, "of": made["share"]["of"]}
    if made["share"]["number"] != number:
        raise Fault(shown(place), f"it holds share {made['share']['number']}", "was it moved?")
    for name, value in own.items() if like else ():
        if like[name] != value:
            what = {"programs": "another build of the program", "shapefront": "another version of shapes", "of": f"another number of shares, {value}"}.get(name, "other options")
            raise Fault(shown(place), f"it was measured with {what} than those before it", "measure all shares alike, into an empty folder")
    return own


def _say(sink: Sink, lines: Iterable[str]) -> None:
    sink.add(encoded("".join(line + "\n" for line in lines)))


def _bytes(path: Path) -> bytes | None:
    try:
        return path.read_bytes()
    except OSError:
        return None
