"""Where the files of a run lie, by their names below its folder: what people open on top, drawings in `drawings/`, all else in `evidence/`.

The names of a picture's files begin with its key, which is the name of its image; where there are many, it lies in a folder by a sum of that name.
"""
from __future__ import annotations

from pathlib import Path

from .files import encoded, sum_of_bytes

# From so many images on the files of each lie in a folder by the first letters of a sum, so that no folder gets large.
MANY, _LETTERS = 10_000, 2
EVIDENCE, DRAWINGS = "evidence", "drawings"
MADE = f"{EVIDENCE}/made.json"
PAGE, SUMMARY, PICTURES, WORKBOOK = "index.html", "summary.txt", "pictures.csv", "objects.xlsx"
# What the name of a table ends in that a picture has which has holes.
HOLES = ".holes.csv"
OBJECTS = "objects.csv"
# What the name of the table of a whole volume ends in, of the numbers of its whole object as the program prints them, and the part of the name of the region
# that alone was looked at.
VOLUME, WHOLE, REGION = ".volume.csv", ".whole.csv", "region"
# The tables of all pictures together, and what the names of a picture's own end in.
JOINED = {
    "objects.csv": ".csv", "holes.csv": HOLES, "networks.csv": ".network.csv", "branches.csv": ".branches.csv", "widths.csv": ".widths.csv",
    "nodes.csv": ".nodes.csv", "volumes.csv": VOLUME, "sides.csv": ".sides.csv", "corners.csv": ".corners.csv", "circles.csv": ".circles.csv",
}  # fmt: skip
# What the names of tables end in that have the rest of the rows of another: the grey values of objects.
FURTHER = {"objects.csv": ".intensities.csv"}
# What the names of tables end in that have the same rows in the unit of voxels that are no cubes.
SPACED = {"objects.csv": ".spacing.csv", "volumes.csv": ".volume-spacing.csv"}

# What the names of a picture's drawings end in: the program's of its report, the original image with the borders over it, and with the branches of its
# network, of a volume its faces, its skeleton and slices, and its mesh, and its thickness; and of what the page shows.
FACES, SKELETON_VIEWS, SLICES, MESH, THICKNESS = ".faces.png", ".skeleton.png", ".slices.png", ".ply", ".thickness.png"
DRAWN = (".svg", ".png", ".network.png", FACES, SKELETON_VIEWS, SLICES, MESH, THICKNESS)
THUMBNAIL, PLACES, SHEET = ".thumbnail.jpg", ".places.png", ".sheet.jpg"


def are_many(count: int) -> bool:
    """Whether so many images have subfolders."""
    return count >= MANY


def key_of(image: str, in_subfolder: bool) -> str:
    """The key of an image's picture: its name, or that in a subfolder by the first letters of the name's SHA-256 sum."""
    return f"{sum_of_bytes(encoded(image))[:_LETTERS]}/{image}" if in_subfolder else image


def evidence(key: str, suffix: str) -> str:
    """The name of a file of a picture's evidence: `evidence/coins.png.pbm`."""
    return f"{EVIDENCE}/{key}{suffix}"


def drawing(key: str, suffix: str) -> str:
    """The name of a drawing of a picture: `drawings/coins.png.svg`."""
    return f"{DRAWINGS}/{key}{suffix}"


def part(stem: Path, name: str, suffix: str) -> Path:
    """A file of a part of the picture whose files' names begin with `stem`: `x.png.network-branches.pbm`."""
    return stem.with_name(f"{stem.name}.{name}{suffix}")


def report_beside(stem: Path) -> Path:
    """The report of the picture whose files' names begin with `stem`: as text, or packed."""
    report = stem.with_name(stem.name + ".report")
    return report if report.exists() else report.with_name(report.name + ".gz")


def record_of_key(key: str) -> str:
    """The name of the record of how a picture was made."""
    return evidence(key, ".json")


def named(key: str, name: str) -> str:
    """The name of a picture's file, whose own name, without folders, is this, in the folder of the run."""
    place, slash, stem = key.rpartition("/")
    return f"{DRAWINGS if name.removeprefix(stem) in DRAWN else EVIDENCE}/{place}{slash}{name}"


def is_own(key: str, name: str) -> bool:
    """Whether a name is one that a file of this picture may have."""
    own = name.rpartition("/")[2]
    return name == named(key, own) and own.startswith(key.rpartition("/")[2] + ".")


def root_of(made: str) -> Path:
    """The folder of a run whose record has this name: `.` for `evidence/made.json`."""
    return Path(made).parent.parent
