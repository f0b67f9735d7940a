"""The words of the command `shapes`."""
from __future__ import annotations

import argparse
import re
import sys
from collections.abc import Iterator, Sequence
from pathlib import Path
from typing import TYPE_CHECKING, Any, NoReturn

from secondreading.limits import MOST_FLAT, MOST_SOLID

from . import __version__
from .choices import CHANNELS, MASKS, RULES
from .hands import PATIENCE
from .scans.asked import Asked
from .scans.words import size_words, volume_words
from .shares import Share

if TYPE_CHECKING:
    from .thresholds import Settings

_STATUS = """
status: 0 all is well; 1 an image failed, or something in a folder is not as it has to be; 2 the words are no command; 3 nothing could be done;
130 stopped: the same command goes on where it was.
"""
# How an error begins, and what is said behind it.
_HINTS = {
    "argument --pixel-size: expected 2": ", as in `--pixel-size 0.65 um`",
    "argument --voxel-size: expected 4": ", as in `--voxel-size 0.5 0.5 2 um`; of cubes give `--pixel-size 0.5 um`",
    "argument COMMAND: invalid choice": "; to measure an image: shapes measure IMAGE",
}
# The options that end in a unit, with the number of words up to it.
_SIZES = {"--pixel-size": 2, "--voxel-size": 4}
_IN_ONE_WORD = re.compile(r"([0-9.]*[0-9])([^\W\d_]+)")


class Parser(argparse.ArgumentParser):
    """One whose errors about a size show how it is given."""

    def error(self, message: str) -> NoReturn:
        super().error(message + next((hint for start, hint in _HINTS.items() if message.startswith(start)), ""))


def words_of(given: Sequence[str] | None) -> list[str]:
    """The words of a command as they are read: `help measure` asks for the help of `measure`, and `0.1mm` is a length and its unit."""
    words = list(sys.argv[1:] if given is None else given)
    return [*words[1:2], "--help"] if words[:1] == ["help"] else list(_apart(words))


def _apart(words: list[str]) -> Iterator[str]:
    """The words, where a unit that hangs on the last number of a size is a word of its own."""
    for place, word in enumerate(words):
        joined = _IN_ONE_WORD.fullmatch(word)
        ends = any(place + 1 >= count and words[place + 1 - count] == option for option, count in _SIZES.items())
        yield from joined.groups() if joined and ends else (word,)


def _threshold(word: str) -> str:
    number = float(word.removesuffix("%"))
    if number != number or word.endswith("%") and not 0 <= number <= 100:
        raise ValueError(word)
    return word


def _size(word: str) -> float:
    if not 0 < float(word) < float("inf"):
        raise ValueError(word)
    return float(word)


def _classes(word: str) -> list[float]:
    edges = [_size(part) for part in word.split(",")]
    if edges != sorted(set(edges)):
        raise ValueError(word)
    return edges


def _count(word: str) -> int:
    if int(word) < 1:
        raise ValueError(word)
    return int(word)


def _share(word: str) -> Share:
    return Share.told(word)


def _channel(word: str) -> str:
    if word not in CHANNELS and _count(word) < 1:
        raise ValueError(word)
    return word


def _conversion(parser: argparse.ArgumentParser) -> None:
    """The words that say how an image is made black and white."""
    cut = parser.add_mutually_exclusive_group()
    cut.add_argument(
        "--threshold", type=_threshold, metavar="T", help="values below T are dark: a value of the image, or a percentage such as 50%%"
    )
    cut.add_argument("--auto", action="store_true", help="choose a threshold for each image, by Otsu (where none is given)")
    side = parser.add_mutually_exclusive_group()
    side.add_argument("--dark", dest="objects", action="store_const", const="dark", help="the objects are dark")
    side.add_argument(
        "--light",
        dest="objects",
        action="store_const",
        const="light",
        help="the objects are light (else the side is chosen that the outermost pixels are not on)",
    )
    labels = parser.add_mutually_exclusive_group()
    labels.add_argument(
        "--labels", action="store_const", const="each", help="values are labels, 0 is background: each label is a picture of its own"
    )
    labels.add_argument(
        "--labels-together",
        dest="labels",
        action="store_const",
        const="all",
        help="the same, all labels as one picture: those that touch are one object",
    )
    parser.add_argument(
        "--channel",
        type=_channel,
        metavar="C",
        help="which channel of an image: red, green, blue or alpha, or its number from 1 on; of a TIFF whose pages are channels its page",
    )
    parser.add_argument(
        "--background",
        type=_size,
        metavar="N",
        help="take the background off before the threshold: the Gaussian mean of N pixels (standard deviation)",
    )
    parser.add_argument("--smooth", type=_size, metavar="N", help="smooth before the threshold, by a Gaussian of N pixels (standard deviation)")
    parser.add_argument("--fill-holes", action="store_true", help="fill the holes of objects")
    parser.add_argument("--exclude-border", action="store_true", help="leave out objects that touch the border of the image")
    parser.add_argument("--min-size", type=_count, metavar="N", help="leave out objects of fewer than N pixels")
    parser.add_argument("--fit", action="store_true", help=f"make images that are too large smaller, by whole numbers of pixels: sides go up to {MOST_FLAT} pixels, or {MOST_SOLID} voxels")


def _making(parser: argparse.ArgumentParser) -> argparse._MutuallyExclusiveGroup:
    """The words that say what is made of the pictures; those about the size of a pixel are given back."""
    size = parser.add_mutually_exclusive_group()
    size.add_argument(
        "--pixel-size", nargs=2, metavar=("L", "UNIT"), help="how wide a pixel is: lengths and areas are told in this unit, too"
    )
    size.add_argument("--dpi", metavar="N", help="the dots per inch of a scan: lengths and areas are told in mm, too")
    parser.add_argument(
        "--rule", choices=RULES, default="curve", help="what the thinning keeps: ends of curves (curve), the first two (few), or none"
    )
    packing = parser.add_mutually_exclusive_group()
    packing.add_argument("--plain", action="store_true", help="keep the reports as text: else they are packed, to a fourth of their size")
    packing.add_argument("--gzip", dest="plain", action="store_false", default=False, help=argparse.SUPPRESS)
    parser.add_argument("--no-draw", action="store_true", help="make no drawings and no small pictures, which take most of the time")
    parser.add_argument("--no-report", action="store_true", help="keep the tables alone, without reports and pictures: then nothing can be checked later")
    parser.add_argument(
        "--thickness", action="store_true", help="also measure the local thickness of each object, write it as a mask, and draw it with a colour bar where matplotlib is installed"
    )
    parser.add_argument(
        "--masks", action="append", choices=MASKS, default=[], help="also write a picture of this; may be given again for another"
    )
    parser.add_argument(
        "--share", type=_share, metavar="K/N", help="measure share K of N alone, into FOLDER/shares/K: which images are its follows from their names; shapes join makes the tables of all"
    )
    parser.add_argument("--base", type=Path, metavar="BASE", help="names of images are those below this folder (else below the deepest one that holds all)")
    parser.add_argument(
        "--patience", type=_size, default=PATIENCE, metavar="SECONDS", help="how long another run that has the folder in hand may give no sign of life before it is taken over (60)"
    )
    parser.add_argument("-o", dest="folder", type=Path, default=Path("measured"), metavar="FOLDER", help="where all is written (measured)")
    return size


def _further(measure: argparse.ArgumentParser) -> None:
    """The words of `shapes measure` alone: what is made of a picture beside its table."""
    network_words(measure)
    measure.add_argument(
        "--sides", action="store_true", help="also find straight sides, corners and circles: sides.csv, corners.csv, circles.csv"
    )
    measure.add_argument("--long", type=_count, default=20, metavar="STEPS", help="a straight side has at least so many steps (20)")


def network_words(parser: argparse.ArgumentParser) -> None:
    """The words about networks, of images and of volumes."""
    parser.add_argument(
        "--network",
        action="store_true",
        help="also measure each skeleton as a network: networks.csv, branches.csv with a row for each branch, and widths.csv",
    )
    parser.add_argument(
        "--prune",
        type=_size,
        metavar="L",
        help="with --network, leave out branches shorter than L: in the unit of the pixel's size if that is given, else in pixels",
    )
    parser.add_argument(
        "--classes",
        type=_classes,
        metavar="W,W,..",
        help="with --network, the widths between the classes of widths.csv, in the same unit (else some 2 pixels each)",
    )


def _valued(parser: argparse.ArgumentParser) -> None:
    """The word that says whose grey values are measured."""
    parser.add_argument(
        "--intensities",
        metavar="IMAGES",
        help="measure the intensities of other images, as those of labels or masks: the folder that has one of the same name, with any ending, for each; "
        "or such an image. --channel is then one of theirs",
    )


def _checking(words: argparse._SubParsersAction) -> argparse.ArgumentParser:
    """The words of `shapes check` alone."""
    check = words.add_parser("check", help="whether all of a folder, or a report of an image, is right, and why not", epilog=_STATUS)
    check.add_argument("image", type=Path, metavar="FOLDER|IMAGE", help="a folder that `shapes measure` wrote; or the image of a report")
    check.add_argument("report", nargs="*", type=Path, metavar="REPORT")
    check.add_argument(
        "--second",
        action="store_true",
        help="check FOLDER, or reports that lie beside their pictures, by a second reading in Python, without the proved program",
    )
    part = check.add_mutually_exclusive_group()
    part.add_argument("--share", type=_share, metavar="K/N", help="check share K of N of FOLDER alone")
    part.add_argument("--tables", action="store_true", help="check what shapes join wrote in FOLDER, without its shares")
    check.add_argument(
        "--originals",
        type=Path,
        metavar="IMAGES",
        help="the folder of the images that FOLDER was made of: each is made black and white again and compared",
    )
    check.add_argument(
        "--allow",
        action="append",
        default=[],
        metavar="NAME",
        help="a file in FOLDER, or a folder in it, that may be there though nothing made it; may be given again for another",
    )
    return check


def _joining(words: argparse._SubParsersAction) -> None:
    join = words.add_parser("join", help="the tables, the page and the record of all shares of a folder", epilog=_STATUS)
    join.add_argument("folder", type=Path, metavar="FOLDER", help="the folder that the shares were measured into")
    join.add_argument("images", nargs="*", type=Path, metavar="IMAGE", help="the images that have to be there: those that are missing are named")
    join.add_argument("--base", type=Path, metavar="BASE", help="names of images are those below this folder (else below the deepest one that holds all)")
    join.add_argument("--patience", type=_size, default=PATIENCE, metavar="SECONDS", help="as for shapes measure (60)")


def parser() -> argparse.ArgumentParser:
    """The words of the command."""
    top = Parser(
        prog="shapes", description="Images in; tables, drawings and reports that can be checked out.", epilog=_STATUS
    )
    top.add_argument("--version", action="version", version=f"shapes {__version__}")
    words = top.add_subparsers(dest="command", required=True, metavar="COMMAND")
    measure = words.add_parser("measure", help="images to tables, drawings and reports", epilog=_STATUS)
    measure.add_argument("images", nargs="+", type=Path, metavar="IMAGE", help="an image, or a folder of images")
    _valued(measure)
    _further(measure)
    volume = words.add_parser("volume", help="the same for volumes", epilog=_STATUS)
    volume_words(volume)
    network_words(volume)
    volume.set_defaults(sides=False, long=20)
    for part in (measure, volume):
        sizes = _making(part)
        if part is volume:
            size_words(sizes)
    _joining(words)
    check = _checking(words)
    _valued(check)
    for part in (measure, volume, check):
        _conversion(part)
        part.add_argument("--jobs", type=_count, default=1, metavar="N", help="how many images at once")
    export = words.add_parser(
        "export", help="straight sides and corners as DXF, or a volume's surface with its normals as PLY", epilog=_STATUS
    )
    export.add_argument("format", choices=("dxf", "ply"))
    export.add_argument("report", type=Path, metavar="REPORT")
    size = export.add_mutually_exclusive_group()
    size.add_argument(
        "--pixel-size", type=_size, default=1.0, metavar="L", help="how wide a pixel or voxel is, in the unit of the file: mm for DXF (1)"
    )
    size.add_argument("--dpi", type=_size, metavar="N", help="the dots per inch of a scan, in place of it")
    export.add_argument("--long", type=_count, default=20, metavar="STEPS", help="a straight side has at least so many steps (20)")
    export.add_argument("-o", dest="out", type=Path, required=True, metavar="FILE", help="the file to write")
    return top


def settings_of(words: argparse.Namespace) -> Settings:
    return settings_told(vars(words))


def settings_told(options: dict[str, Any]) -> Settings:
    """How images are made black and white, by the options of a command or of a run."""
    from .filters import Filters
    from .thresholds import Settings

    fit = None if options["fit"] else 1
    told = (options["threshold"], options["objects"], options["labels"], fit, options["channel"])
    return Settings(*told, Filters.told(options), Asked.told(options), options.get("intensities"))


def options_of(words: argparse.Namespace) -> dict[str, object]:
    """The options for the record of a run, but those that change no number."""
    left_out = ("command", "images", "jobs", "folder", "patience", "share", "base")
    told = {name: str(value) if isinstance(value, Path) else value for name, value in vars(words).items() if name not in left_out}
    return {"command": words.command, **told}
