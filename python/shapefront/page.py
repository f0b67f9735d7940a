"""The page of a run, `index.html`: all images, the table of all objects and histograms, in one file without any address outside of it.

It is made by Jinja2 of the templates in `web`. Its element `verdict` has what `shapes check` said last; all else follows from the records,
the tables and the small pictures of the run, so it can be made again.
"""
from __future__ import annotations

import base64
import json
import re
from collections.abc import Callable, Iterator
from contextlib import suppress
from dataclasses import asdict, dataclass, field
from datetime import UTC, datetime
from functools import lru_cache
from pathlib import Path
from typing import Any

from .badges import Badge, badges_of, chosen_sides
from .columns import columns_of
from .faults import Fault
from .files import parsed, sum_of_bytes, write
from .layout import FACES, JOINED, MADE, MESH, PICTURES, PLACES, SHEET, SKELETON_VIEWS, SLICES, SUMMARY, THICKNESS, THUMBNAIL, WORKBOOK, drawing
from .overlay import THUMBNAIL as LONGEST
from .solidviews import Tiles
from .spacing import InUnit
from .tables import Row
from .units import Pixel
from .wholes import whole_of

WEB = Path(__file__).parent / "web"
# A page has at most so many rows, and small pictures of so many images: with more no browser is quick.
MOST_ROWS, MOST_PICTURES = 100_000, 500

# A picture of a record that lies in the folder, by what its name ends in; None where there is none.
Shown = Callable[[dict[str, Any], str], bytes | None]

_VERDICT = re.compile(rb'(?<=<script type="application/json" id="verdict">).*?(?=</script>)')
_LIMITS = (
    "The original images are not in the folder. Nobody can tell from it whether a picture was made of the image of this name, by this threshold.",
    "Nor does it tell how wide a pixel is, or why an image failed. shapes check --originals compares the images themselves.",
    "Sums are no signature: who makes a whole folder anew has a consistent folder of another measurement, and may write a verdict, too. Run the check yourself.",
    "Thumbnails, drawings over the image and intensities come from the original image; the proved program does not see it.",
)


def jinja_version() -> str | None:
    """The version of Jinja2; None where it is not installed."""
    try:
        import jinja2
    except ImportError:
        return None
    return jinja2.__version__


@lru_cache
def page_version() -> str:
    """The sum of all that shapes a page: its templates, and the modules that say what stands in it."""
    sources = [*sorted(WEB.iterdir()), *(WEB.parent / name for name in ("page.py", "columns.py", "badges.py", "solidviews.py", "wholes.py"))]
    return sum_of_bytes(b"".join(path.read_bytes() for path in sources if path.is_file()))


@dataclass(frozen=True)
class Card:
    """An image on the page: its name, its thumbnail as an address of data or why there is none, counts, sides, badges, notes and links."""

    name: str
    thumbnail: str | None
    why: str
    counts: str
    sides: str
    badges: list[Badge]
    notes: list[str]
    links: list[tuple[str, str]]


@dataclass(frozen=True)
class Page:
    """What a page is made of: the run's records and failures by the names of its images, its options, its unit, and the table of all objects.

    `below` tells in which folder an image's drawings lie, where that is not the page's. Of many images it has the first ones, and then it is told
    how many images and rows there are in all.
    """

    images: list[tuple[str, dict[str, Any] | None, str | None]]
    options: dict[str, Any]
    pixel: Pixel | InUnit | None
    versions: dict[str, Any]
    warnings: list[str]
    files: list[str]
    rows: list[Row]
    shown: Shown
    volumes: list[Row] = field(default_factory=list)
    below: dict[str, str] = field(default_factory=dict)
    all_images: int | None = None
    all_rows: int | None = None

    @property
    def _is_solid(self) -> bool:
        return self.options.get("command") == "volume"

    def spelled(self) -> bytes:
        """The page's bytes, without a verdict. Missing where Jinja2 is not installed; see `jinja_version`."""
        thing = "label" if self.rows and "label" in self.rows[0] else "object"
        what = "volume" if self._is_solid else "image"
        told = f"{_count(self.all_images or len(self.images), what)}, {_count(self.all_rows or max(len(self.rows) - 1, 0), thing)}"
        text = _template().render(
            title=told, told=self._told(), things=thing + "s", warnings=[*self.warnings, *self._left_out()], limits=_LIMITS, said=self._said(), foot=list(self._foot()),
            what=what, whole=whole_of(self.volumes, self.pixel), images=list(self._cards()), files=[(name, about) for name, about in _FILES if name in self.files],
            data=_safe(self._data()), style=_safe_text("page.css"), script=_safe_text("page.js") + _safe_text("slices.js"),
        )  # fmt: skip
        return text.encode("utf-8", "surrogateescape")

    def _told(self) -> str:
        return f"thinned by the rule {self.options['rule']}; " + (self.pixel.in_words if self.pixel else "lengths in voxels" if self._is_solid else "lengths in pixels")

    def _said(self) -> str:
        count = sum(record is not None for _, record, _ in self.images)
        which = f"Each of the {count:,} reports" if count > 1 else "The report"
        return f"{which} was checked by the proved program when it was made."

    def _left_out(self) -> Iterator[str]:
        if self.all_images and self.all_images > len(self.images):
            yield f"the page has the first {len(self.images):,} images; pictures.csv has all {self.all_images:,}"
        if (count := self.all_rows or len(self.rows) - 1) > min(len(self.rows) - 1, MOST_ROWS):
            yield f"the page has the first {min(len(self.rows) - 1, MOST_ROWS):,} rows; objects.csv has all {count:,}"
        if len(self.images) > MOST_PICTURES:
            yield f"the page has small pictures of the first {MOST_PICTURES} images; drawings has those of all"

    def _foot(self) -> Iterator[str]:
        if self.rows and any(name.startswith("intensity_") for name in self.rows[0]):
            yield "† computed by shapes from the values of the image, not by the proved program; shapes check --originals computes them again."
        sums = ", ".join(f"{name} {(told or '')[:12]}" for name, told in self.versions["programs"].items())
        yield f"made by shapes {self.versions['shapefront']} and the proved program {sums}; {MADE} has all options, sums and versions"

    def _cards(self) -> Iterator[Card]:
        sides, areas = chosen_sides(record for _, record, _ in self.images if record), self._areas()
        for k, (name, record, failure) in enumerate(self.images):
            if record is None:
                yield Card(name, None, "not measured", "", "", [Badge("failed", failure or "")], [failure or ""], [])
                continue
            why = "no small picture: the drawings show it" if k >= MOST_PICTURES else "it has no small picture"
            badges = badges_of(record, sides, areas.get(name, []))
            yield Card(name, self._picture(k, record, THUMBNAIL, "jpeg"), why, _counts(record), _sides(record), badges, record["notes"], _links(record, self.below.get(name, "")))

    def _areas(self) -> dict[str, list[int]]:
        """The areas of the objects of each image."""
        found: dict[str, list[int]] = {}
        if self.rows and "area" in self.rows[0]:
            at = self.rows[0].index("area")
            for row in self.rows[1:]:
                found.setdefault(row[0], []).append(int(row[at]))
        return found

    def _picture(self, k: int, record: dict[str, Any], suffix: str, kind: str) -> str | None:
        data = self.shown(record, suffix) if k < MOST_PICTURES else None
        return None if data is None else f"data:image/{kind};base64," + base64.b64encode(data).decode()

    def _data(self) -> dict[str, Any]:
        """What the script reads: the images with the maps of their objects, and the columns with their cells."""
        header, *rows = self.rows or [["image"]]
        rows = rows[:MOST_ROWS]
        numbers = {name: k for k, (name, _, _) in enumerate(self.images)}
        first: dict[str, int] = {}
        for k, row in enumerate(rows):
            first.setdefault(row[0], k)
        columns = [column.told([row[at] if at else numbers[row[0]] for row in rows]) for at, column in columns_of(header, self.pixel)]
        return {"columns": columns, "images": [self._image(k, name, record, first.get(name, 0)) for k, (name, record, _) in enumerate(self.images)]}

    def _image(self, k: int, name: str, record: dict[str, Any] | None, first: int) -> dict[str, Any]:
        if record is None:
            return {"name": name, "first": first, "places": None, "scale": 1, "fit": 1}
        scale = LONGEST / max(record["original"])
        told = {"name": name, "first": first, "places": self._picture(k, record, PLACES, "png"), "scale": round(scale, 6), "fit": record["fit"]}
        return told | ({"slices": slices} if (slices := self._slices(k, record)) else {})

    def _slices(self, k: int, record: dict[str, Any]) -> dict[str, Any] | None:
        """The slices of a volume, for those who slide through them; None of a flat image, and where they were not drawn."""
        sheet = self._picture(k, record, SHEET, "jpeg") if len(record["original"]) == 3 else None
        return {"sheet": sheet, **asdict(Tiles.of(record["sides"], record["original"])), "depth": record["sides"][2]} if sheet else None


@lru_cache
def _template() -> Any:
    """The template of the page. Missing where Jinja2 is not installed; see `jinja_version`."""
    from jinja2 import Environment, FileSystemLoader, StrictUndefined

    return Environment(loader=FileSystemLoader(WEB), autoescape=True, undefined=StrictUndefined, trim_blocks=True, keep_trailing_newline=True).get_template("page.html")


_DRAWINGS = (
    ("over the image", ".png"), ("its branches", ".network.png"), ("faces", FACES), ("skeleton", SKELETON_VIEWS), ("slices", SLICES), ("mesh", MESH), ("thickness", THICKNESS), ("lines and skeleton", ".svg"),
)  # fmt: skip
_ROWS = {
    "holes.csv": "a row for each hole", "networks.csv": "a row for each network", "branches.csv": "a row for each branch", "widths.csv": "a row for each class of width",
    "nodes.csv": "a row for each end and junction of a network", "volumes.csv": "a row for each volume: volume fraction, thickness, connectivity",
    "sides.csv": "a row for each straight side", "corners.csv": "a row for each corner", "circles.csv": "a row for each circle",
}  # fmt: skip
_FILES = [
    ("objects.csv", "a row for each object"), (PICTURES, "a row for each image"), (SUMMARY, "what was made of each image, and how"),
    *((name, _ROWS[name]) for name in JOINED if name != "objects.csv"), (WORKBOOK, "all tables for Excel"),
]  # fmt: skip


def _links(record: dict[str, Any], below: str) -> list[tuple[str, str]]:
    """The drawings of an image, which lie below this folder, each with what it is called on the page."""
    return [(told, below + target) for told, suffix in _DRAWINGS if (target := drawing(record["key"], suffix)) in record["files"]]


def _counts(record: dict[str, Any]) -> str:
    """How many objects, or labels, and holes an image has."""
    _, pieces, background = record["parts"]
    things = _count(pieces, "object") if record["labels"] is None else _count(len(record["labels"]), "label")
    return f"{things} · {_count(background - 1, 'hole' if len(record['original']) == 2 else 'closed pore')}"


def _sides(record: dict[str, Any]) -> str:
    return " × ".join(map(str, record["original"])) + (" pixels" if len(record["original"]) == 2 else " voxels")


def _count(count: int, thing: str) -> str:
    return f"{count:,} {thing}{'' if count == 1 else 's'}"


def _safe(value: Any) -> Any:
    """A value as JSON that stands in a script: without a mark that could end it."""
    from markupsafe import Markup

    text = json.dumps(value, ensure_ascii=False, separators=(",", ":"))
    return Markup(text.replace("&", "\\u0026").replace("<", "\\u003c").replace(">", "\\u003e"))


def _safe_text(name: str) -> Any:
    from markupsafe import Markup

    return Markup((WEB / name).read_text(encoding="utf-8"))


def without_verdict(page: bytes) -> bytes:
    """The page as it was made: without what `shapes check` said later. Something else that stands in its place stays."""
    found = _VERDICT.search(page)
    value = parsed(found[0]) if found else None
    if not found or not isinstance(value, dict) or _spelled_verdict(value) != found[0]:
        return page
    return page[: found.start()] + b"null" + page[found.end() :]


def with_verdict(page: bytes, when: str, holds: bool, covers: str, lines: list[str]) -> bytes:
    """The page with what `shapes check` said: when, whether all holds, what it looked at, and what is wrong."""
    told = _spelled_verdict({"when": when, "holds": holds, "covers": covers, "lines": lines})
    return _VERDICT.sub(lambda _: told, without_verdict(page), count=1)


def tell(path: Path, holds: bool, covers: str, lines: list[str]) -> None:
    """Writes into a page what `shapes check` says now; nothing where the page is not there, or may not be written."""
    if path.is_file():
        when = datetime.now(UTC).strftime("%Y-%m-%d %H:%M UTC")
        with suppress(Fault):
            write(path, with_verdict(path.read_bytes(), when, holds, covers, lines))


def _spelled_verdict(value: dict[str, Any]) -> bytes:
    return str(_safe({name: value.get(name) for name in ("when", "holds", "covers", "lines")})).encode("utf-8", "surrogateescape")
