"""The command `shapes`: measure, volume and check, for people who do not live in a shell.

What only a check or an export needs is imported in these: it takes as long to load as a small image to measure.
"""
from __future__ import annotations

import argparse
import io
import sys
from collections.abc import Iterable, Iterator
from contextlib import contextmanager
from functools import partial
from pathlib import Path
from typing import TYPE_CHECKING, Any

from .batch import Image, images_of, run
from .convert import picture_of, volume_of
from .faults import Fault
from .files import clear_aside, is_full, make_folder, shown, unwritten, write
from .folder import finish, originals
from .hands import Hand
from .inventory import others
from .layout import EVIDENCE, MADE, PAGE, are_many
from .plan import Plan, masks_of
from .programs import find
from .seals import opened
from .shares import SHARES
from .stopping import SAID, STOPPED, cleared, stoppable
from .thickness import can_draw
from .units import Pixel
from .words import options_of, parser, settings_of, words_of

if TYPE_CHECKING:
    from .beside import Covered
    from .checking import Finding

DONE, FAILED, USAGE, NOTHING = 0, 1, 2, 3


def measure(words: argparse.Namespace) -> int:
    """`shapes measure` and `shapes volume`: all that the images give, in one folder."""
    images, made = measured(words)
    folder = words.share.folder(words.folder) if words.share else words.folder
    _tell_of_others(folder, made)
    failed = sum(image.failure is not None for image in images)
    if words.share:
        print(f"share {words.share}: {len(images) - failed} of {len(images)} measured, in {folder}; shapes join makes the tables of all shares")
        return FAILED if failed else DONE
    if PAGE not in made["files"]:
        print(f"no {PAGE}, as Jinja2 is not installed: `apt install python3-jinja2`, or `pip install jinja2`", file=sys.stderr)
    if "thickness" in masks_of(vars(words)) and not words.no_draw and not can_draw():
        print("no drawings of the thickness, as matplotlib is not installed: `apt install python3-matplotlib`", file=sys.stderr)
    print(f"{len(images) - failed} of {len(images)} measured, in {_where(words.folder)}")
    return FAILED if failed else DONE


def _where(folder: Path) -> str:
    """Where all is that was made, and what to look at first."""
    return f"{folder}; open {folder / PAGE}" if (folder / PAGE).is_file() else f"{folder}: summary.txt tells how"


def measured(words: argparse.Namespace) -> tuple[list[Image], dict[str, Any]]:
    """Measures the images that the words name, or a share of them; what became of each, and the record of the run."""
    is_volume, settings = words.command == "volume", settings_of(words)
    if not is_volume:
        Pixel.told(vars(words))
    find()
    if words.network and words.rule != "curve":
        raise Fault("--network", f"the rule {words.rule} does not keep the ends of branches", "leave out --rule")
    if words.network and is_volume and words.labels == "each":
        raise Fault("--network", "not of labels one by one", "give --labels-together")
    if not words.network and (words.prune is not None or words.classes is not None):
        raise Fault("--prune, --classes", "they are about a network", "give --network, too")
    images, share = _images(words, is_volume), words.share
    if any(path.is_dir() and path.resolve() == words.folder.resolve() for path in words.images):
        raise Fault("-o", "the folder of the images themselves", "choose another one for what is written")
    convert, folder, told = partial(volume_of if is_volume else picture_of, settings=settings), words.folder, None
    if share:
        told, folder = {"number": share.number, "of": share.of, "given": len(images)}, share.folder(words.folder)
        images = [image for image in images if share.takes(image.name)]
    with _in_hand(folder, words.patience) as hand:
        plan = Plan.told(folder, options_of(words), hand, _in_subfolders(folder, images))
        run(images, plan, convert, words.jobs)
        hand.keep()
        return images, finish(plan, images, told)


def _in_subfolders(folder: Path, images: list[Image]) -> bool:
    """Whether the pictures of a run lie in subfolders: as those of the run before it in this folder, and else where there are many."""
    before = opened((folder / MADE).read_bytes()) if (folder / MADE).is_file() else None
    return bool(before["subfolders"]) if before and "subfolders" in before else are_many(len(images))


def _images(words: argparse.Namespace, is_volume: bool) -> list[Image]:
    """The images that the words name, and on standard error how many files were passed over. A Fault where there is none."""
    images, passed = images_of(words.images, is_volume, words.base)
    if passed:
        print(f"passed over, as their names are not those of images: {passed} of the files", file=sys.stderr)
    if not images:
        raise Fault(shown(words.images[0]), "no image is in this folder", "name the files themselves")
    return images


def join_shares(words: argparse.Namespace) -> int:
    """`shapes join`: the tables, the page and the record of all shares."""
    from .joining import absent, join

    if not (words.folder / SHARES).is_dir():
        raise Fault(shown(words.folder), "no share is in this folder", "shapes measure --share K/N IMAGES -o FOLDER makes them")
    with _in_hand(words.folder, words.patience):
        shares = join(words.folder)
    if words.images:
        names = [image.name for image in images_of(words.images, shares.like["options"]["command"] == "volume", words.base)[0]]
        for name in absent(shares, names):
            print(f"missing: {name}", file=sys.stderr)
    for line in (*shares.lacks(), *(f"failed: {failure}" for failure in shares.failures)):
        print(line, file=sys.stderr)
    lacks = bool(list(shares.lacks()) or shares.failures)
    print(f"{len(shares.images)} of {max(shares.given, shares.count)} measured, in {_where(words.folder)}")
    return FAILED if lacks else DONE


@contextmanager
def _in_hand(folder: Path, patience: float) -> Iterator[Hand]:
    """A folder that is made where there is none, in the hand of this run: what others left there unfinished is taken away, and at the end what this one did."""
    make_folder(folder)
    places = (folder, folder / EVIDENCE)

    def clear(own: bool) -> None:
        for place in places:
            clear_aside(place, own)

    with Hand(folder, patience) as hand, cleared(hand.give_back), cleared(partial(clear, True)):
        clear(False)
        yield hand


def _tell_of_others(folder: Path, made: dict[str, Any]) -> None:
    """Says on standard error what lies in the folder and is not of this run, as files of an earlier run may."""
    if names := others(folder, made["files"], [MADE, *originals(folder, made)]):
        told = ", ".join(names[:3]) + (", .." if len(names) > 3 else "")
        print(f"{shown(folder)}: not of this run, and `shapes check` will not pass over it: {told}", file=sys.stderr)


def check(words: argparse.Namespace) -> int:
    """`shapes check`: one line a file, and one status."""
    from .beside import Asked
    from .foldercheck import check_folder
    from .joincheck import findings_of_share
    from .original import check_original

    if words.second:
        return check_second([words.image, *words.report])
    find()
    if len(words.report) > 1:
        raise Fault("--second", "only it takes more than one report", "give an image and one report, or a folder")
    if words.originals and (words.report or not words.originals.is_dir()):
        raise Fault("--originals", "it takes the folder of the images of a measured folder", "shapes check MEASURED --originals IMAGES")
    if words.share:
        findings = list(_printed(findings_of_share(words.image, words.share, Asked(words.jobs, tuple(words.allow), originals=words.originals, intensities=words.intensities))))
    elif not words.report:
        if not words.image.is_dir():
            raise Fault(shown(words.image), "not a folder", "give a folder, or an image and its report")
        asked = Asked(words.jobs, tuple(words.allow), originals=words.originals, intensities=words.intensities, tables=words.tables)
        findings = list(_printed(check_folder(words.image, asked)))
    else:
        findings = list(_printed([check_original(words.image, words.report[0], settings_of(words))]))
    return DONE if all(finding.holds for finding in findings) else FAILED


def check_second(paths: list[Path]) -> int:
    """`shapes check --second`: the same by the second reading, and at last what it looked at."""
    from .second import Second, reports_of

    second = Second()
    findings = list(_printed(second.check(reports_of(paths))))
    print(second.summary())
    return DONE if all(finding.holds for finding in findings) else FAILED


def _printed(findings: Iterable[Finding | Covered]) -> Iterator[Finding | Covered]:
    for finding in findings:
        print(finding, flush=True)
        yield finding


def export(words: argparse.Namespace) -> int:
    """`shapes export`: what a report says, for another program."""
    from .exports import dxf, ply
    from .outlines import outlines_of, summary
    from .report import Analysis, contours_in, read

    size = 25.4 / words.dpi if words.dpi else words.pixel_size
    if words.format == "dxf":
        sides, contours = contours_in(words.report)
        outlines = outlines_of(contours, words.long)
        write(words.out, dxf(shown(words.report), sides[1], outlines, size))
        print(f"{shown(words.out)}: {summary(outlines)}")
        return DONE
    report = read(words.report)
    if not isinstance(report, Analysis):
        raise Fault(shown(words.report), "a report of another kind", "take one of `shape analyse`")
    write(words.out, ply(report, size))
    return DONE


def main(words: list[str] | None = None) -> int:
    """Runs the command; its status."""
    for stream in (sys.stdout, sys.stderr):
        if isinstance(stream, io.TextIOWrapper):
            stream.reconfigure(errors="surrogateescape")
    given = parser().parse_args(words_of(words))
    try:
        with stoppable():
            return {"check": check, "export": export, "join": join_shares}.get(given.command, measure)(given)
    except Fault as fault:
        print(f"shapes: {fault}", file=sys.stderr)
        return USAGE if fault.about.startswith("-") else NOTHING
    except KeyboardInterrupt:
        print(SAID, file=sys.stderr)
        return STOPPED
    except BrokenPipeError:
        sys.stderr.close()
        return FAILED
    except OSError as error:
        if not is_full(error):
            raise
        print(f"shapes: {unwritten(error.filename or 'a temporary file', error, '')}", file=sys.stderr)
        return NOTHING
