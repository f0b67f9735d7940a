"""What a run writes for all its images together: `index.html`, `objects.csv`, `objects.xlsx`, `pictures.csv`, `summary.txt` and `evidence/made.json`.

All of it follows from the records and the tables of its pictures, and from what the run itself was told; so it can be made again.
"""
from __future__ import annotations

import platform
from collections.abc import Iterable, Iterator, Sequence
from dataclasses import dataclass, replace
from pathlib import Path
from typing import Any

import numpy as np

from . import __version__
from .batch import Image, source_sum
from .faults import Fault
from .files import encoded, make_folder, spelled_json, sum_of_bytes, write, write_json
from .images import pillow_version
from .layout import FURTHER, JOINED, MADE, OBJECTS, PAGE, PICTURES, SPACED, SUMMARY, WORKBOOK, evidence, record_of_key
from .making import Record
from .page import Page, Shown, jinja_version, page_version
from .pictures import told_sides
from .plan import Plan
from .programs import sums
from .scans.kinds import file_of
from .seals import sealed
from .spacing import InUnit, Spacing, measure_of
from .tables import Joint, Part, Row, marked, rows_of, spelled_rows, text_of
from .traits import Table, Traits, has
from .units import Pixel
from .workbook import MOST_CELLS, workbook, workbook_version


@dataclass(frozen=True)
class Run:
    """A run: its options, the pixel's size, what became of its images, the versions of what made it, whether its pictures lie in subfolders, and which share
    of how many it is, if it is one."""

    options: dict[str, Any]
    pixel: Pixel | InUnit | None
    images: list[Image]
    versions: dict[str, Any]
    subfolders: bool = False
    share: dict[str, int] | None = None

    @property
    def records(self) -> list[Record]:
        return [image.record for image in self.images if image.record is not None]

    def of_all(self, table: Table) -> dict[str, bytes]:
        """The tables and the summary of all, by the names of their files. A Fault where the tables do not fit together."""
        if self.share:
            return {}
        traits = Traits.of(self.records, table)
        files = {PICTURES: marked(spelled_rows(pictures(self.records, traits)))}
        for name in traits.tables:
            own = (part for record in self.records if (part := part_of(record, table, name, self.pixel)))
            data = spelled_rows(joined(own, traits.joint(name, self.pixel)))
            files |= {name: marked(data)} if name == OBJECTS or data.count(b"\n") > 1 else {}
        return {**files, SUMMARY: encoded("".join(line + "\n" for line in summary(self, traits)))}

    def workbook(self, of_all: dict[str, bytes]) -> bytes | None:
        """The workbook of these tables of all; None where they are too long."""
        if sum(data.count(b",") for name, data in of_all.items() if name.endswith(".csv")) > MOST_CELLS:
            return None
        return workbook({name: data for name, data in of_all.items() if name.endswith(".csv")})

    def page(self, of_all: Iterable[str], tables: dict[str, bytes], shown: Shown) -> bytes:
        """The page, where these are the names of the files of all, these are the tables of all, and `shown` gives what the page shows of an image.

        Missing where Jinja2 is not installed.
        """
        images = [(image.name, image.record, image.failure) for image in self.images]
        rows, volumes = (rows_of(text_of(tables.get(name, b""))) for name in (OBJECTS, "volumes.csv"))
        warnings = list(Traits.of(self.records, lambda record, suffix: "").warnings())
        return Page(images, self.options, self.pixel, self.versions, warnings, list(of_all), rows, shown, volumes).spelled()

    def made(self, of_all: dict[str, bytes], table: Table, kept: dict[str, str] | None = None) -> dict[str, Any]:
        """What `made.json` says, where these are the files of all, and these the sums of such as are not made again.

        That of a share tells which share it is, and what a join has to know of its pictures.
        """
        files = {name: sum_of_bytes(data) for name, data in of_all.items()} | (kept or {})
        for record in self.records:
            files |= _files(record)
        return sealed({
            **self.versions, "options": self.options, "pixel": self.pixel.record if self.pixel else None, "subfolders": self.subfolders,
            **({"share": self.share, "traits": Traits.of(self.records, table).record} if self.share else {}),
            "images": [_told(image) for image in self.images], "files": dict(sorted(files.items())),
        })  # fmt: skip


def finish(plan: Plan, images: list[Image], share: dict[str, int] | None = None) -> dict[str, Any]:
    """Writes the tables, the summary and the record of a run by this plan, of a share the record alone; the record. A Fault where the folder cannot be written."""
    folder, options = plan.folder, plan.options
    run = Run(options, measure_of(options, (image.record for image in images if image.record)), images, versions(), plan.subfolders, share)

    def table(record: Record, suffix: str) -> str:
        return read_table(folder / evidence(record["key"], suffix))

    files = run.of_all(table)
    if files and (book := run.workbook(files)):
        files[WORKBOOK] = book
    if files and jinja_version():
        files[PAGE] = run.page(files, files, lambda record, suffix: _bytes(folder / evidence(record["key"], suffix)))
    for name, data in files.items():
        write(folder / name, data)
    for name in {*JOINED, PAGE, WORKBOOK} - files.keys():
        (folder / name).unlink(missing_ok=True)
    made = run.made(files, table)
    make_folder((folder / MADE).parent)
    write_json(folder / MADE, made)
    return made


def originals(folder: Path, made: dict[str, Any]) -> Iterator[str]:
    """The names of the images of a run that lie in its own folder as they were measured."""
    for image in made["images"]:
        path = folder / image["image"]
        if file_of(path).exists() and image["sum"] and source_sum(path) == image["sum"]:
            yield image["image"]


def versions() -> dict[str, Any]:
    """What made a run: the versions of this package, of those that it stands on and of the page, and the sum of the program."""
    packages = {"Python": platform.python_version(), "numpy": np.__version__, "Pillow": pillow_version(), "Jinja2": jinja_version(), "page": page_version(), "workbook": workbook_version()}
    return {"shapefront": __version__, "versions": packages, "programs": sums()}


def _told(image: Image) -> dict[str, Any]:
    record = image.record
    threshold = record["cut"]["threshold"] if record and record["cut"] else None
    return {"image": image.name, "sum": image.source, "threshold": threshold, "record": record and record_of_key(record["key"]), "failure": image.failure}


def _files(record: Record) -> dict[str, str]:
    """The sums of a picture's files and of its record, by their names in the folder of the run."""
    return {**record["files"], record_of_key(record["key"]): sum_of_bytes(spelled_json(record))}


def part_of(record: Record, table: Table, name: str, pixel: Pixel | InUnit | None) -> Part | None:
    """What a picture has in the table of all of this name; None where it has nothing there."""
    if not has(record, JOINED[name]):
        return None
    further = FURTHER.get(name)
    rest = table(record, further) if further and has(record, further) else None
    size = pixel.size_of(record) if isinstance(pixel, InUnit) else None
    spaced = SPACED.get(name)
    told = table(record, spaced) if spaced and has(record, spaced) else None
    return Part(record["image"], record["fit"], record["original"], table(record, JOINED[name]), rest, size, told)


def joined(parts: Iterable[Part], joint: Joint) -> Iterator[Row]:
    """The rows of all pictures' tables, the header first."""
    for k, part in enumerate(parts):
        if not k:
            yield joint.names(part)
        yield from joint.rows(part)


def read_table(path: Path) -> str:
    """The text of a picture's own table. A Fault where it cannot be read."""
    try:
        return path.read_text()
    except (OSError, UnicodeDecodeError) as error:
        raise Fault(path, "cannot be read", "measure again into an empty folder") from error


def _bytes(path: Path) -> bytes | None:
    return path.read_bytes() if path.is_file() else None


def pictures(records: Iterable[Record], traits: Traits) -> Iterator[Row]:
    """The rows of `pictures.csv`: for each picture what the lines `parts` and `kept` of its report say, holes with the outside."""
    counts = ["points", "pieces", "background", "skeleton"]
    yield ["image", *(["labels"] if traits.labelled else []), *"xyz"[: traits.axes], "fit", "threshold", *counts]
    for record in records:
        cut = record["cut"]
        own = [*record["sides"], record["fit"], f"{cut['threshold']:.12g}" if cut else ""]
        label = [len(record["labels"])] if traits.labelled else []
        yield [str(word) for word in (record["image"], *label, *own, *record["parts"], record["kept"][0])]


def summary(run: Run, traits: Traits) -> Iterator[str]:
    """The lines of `summary.txt`: what was made of each image, how, and what failed."""
    failures = [image.failure for image in run.images if image.failure]
    yield from heading(len(run.images), failures, run.options, run.pixel, traits)
    for record in run.records:
        yield from told_picture(record, run.pixel)
    yield from told_failures(failures)


def heading(images: int, failures: Sequence[str], options: dict[str, Any], pixel: Pixel | InUnit | None, traits: Traits) -> Iterator[str]:
    """The first lines of a summary: how many images, how all were made, and what to look at."""
    yield f"{images} image{'s' if images != 1 else ''}: {images - len(failures)} measured, {len(failures)} failed"
    yield f"thinned by the rule {options['rule']}; " + (pixel.in_words if pixel else "lengths in pixels" if options["command"] != "volume" else "lengths in voxels")
    if options["no_report"]:
        yield "no reports were kept: nothing here can be checked, and all of it has to be measured again where that is wanted"
    yield from traits.warnings()


def told_picture(record: Record, pixel: Pixel | InUnit | None) -> Iterator[str]:
    """The lines of a summary on one picture."""
    points, pieces, background = record["parts"]
    yield ""
    yield f"{record['image']}: {told_sides(tuple(record['sides']))}"
    yield f"  object points {points}, pieces {pieces}, pieces of the background {background}, points of the skeleton {record['kept'][0]}"
    yield from (f"  {note}" for note in (*record["notes"], *_size(record, pixel)))


def _size(record: Record, pixel: Pixel | InUnit | None) -> Iterator[str]:
    """How wide a pixel of the picture is, where it is not one of the image's; and what is not told of voxels that are no cubes."""
    if isinstance(pixel, Pixel) and record["fit"] > 1:
        yield f"a pixel of this picture is {replace(pixel, size=pixel.size * record['fit'])} wide"
    spacing = Spacing.recorded(record["spacing"])
    if spacing and not spacing.is_cubic:
        yield f"its voxels are no cubes: {_in_unit(record, spacing)}, and those in voxels take them for cubes; --cubes makes cubes"
    if spacing and record["fit"] > 1:
        yield f"a voxel of this picture is {spacing.by(record['fit'])}"


def _in_unit(record: Record, spacing: Spacing) -> str:
    """What is told in the unit of a volume whose voxels are no cubes, in words."""
    if spacing.unit is None:
        return "lengths and areas are told where a unit is given"
    if spacing.in_whole and has(record, SPACED[OBJECTS]):
        return f"volumes, places, surfaces and Feret diameters are told in the unit (by sides of {spacing.in_whole}), radii and thickness are not"
    return "volumes and places are told in the unit, lengths and areas are not"


def told_failures(failures: Sequence[str]) -> Iterator[str]:
    """The last lines of a summary: what failed."""
    if failures:
        yield ""
        yield from (f"failed: {failure}" for failure in failures)
