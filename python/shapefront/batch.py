"""Many images: each made in turn or several at once, its failures told in one line, and the tables and sums of all at the end."""
from __future__ import annotations

import os
import sys
from collections.abc import Callable, Iterable, Iterator
from dataclasses import dataclass
from functools import partial
from pathlib import Path
from typing import TypeVar

from .convert import Picture
from .crew import Crew
from .faults import Busy, Fault, Full, Missing
from .files import shown, sum_of, sum_of_bytes
from .images import SUFFIXES
from .making import Record, make
from .plan import Plan
from .scans.kinds import file_of

T = TypeVar("T")
Convert = Callable[[Path, str], Picture]
# An image's file and its name; and the sum of the file, the record of its picture, and why it failed.
Thing = tuple[Path, str]
Found = tuple[str | None, Record | None, str | None]


@dataclass
class Image:
    """An image of a run: its file, the name it has in tables, and what became of it: the record of its picture, or a failure."""

    path: Path
    name: str
    record: Record | None = None
    failure: str | None = None
    source: str | None = None


def images_of(paths: Iterable[Path], is_volume: bool, base: Path | None = None) -> tuple[list[Image], int]:
    """The images of a run, by their order on the command line, and how many files of folders were passed over as no images.

    For flat pictures a folder stands for the images in it. Names are those below the folder `base`, or where that is not given below the deepest
    folder that holds all. A Fault where an image does not lie there.
    """
    files: list[Path] = []
    passed = 0
    for path in paths:
        if path.is_dir() and not is_volume:
            inside = sorted(p for p in path.iterdir() if p.is_file() and not p.name.startswith("."))
            taken = [p for p in inside if p.suffix.lower() in SUFFIXES]
            files, passed = files + taken, passed + len(inside) - len(taken)
        else:
            files.append(path)
    absolute = {os.path.abspath(path): path for path in files}
    if not absolute:
        return [], passed
    below = os.path.abspath(base) if base else os.path.commonpath({os.path.dirname(file_of(Path(path))) for path in absolute})
    first = os.path.join(below, "")
    if outside := next((path for place, path in absolute.items() if not place.startswith(first)), None):
        raise Fault("--base", f"{shown(outside)} does not lie below {shown(below)}", "name a folder that holds all images")
    return [Image(path, place.removeprefix(first)) for place, path in absolute.items()], passed


def run(images: list[Image], plan: Plan, convert: Convert, jobs: int) -> None:
    """Makes all that the images give, `jobs` of them at once. What became of each is told in it, and a failure on standard error.

    What is wrong with every image ends it: a Fault that is Missing, Full or Busy.
    """
    crew = Crew(partial(_one, plan=plan, convert=convert), jobs)
    named = {image.name: image for image in images}
    for (path, name), found in _progress(crew.results((image.path, image.name) for image in images), len(images)):
        image = named[name]
        if isinstance(found, (Missing, Full, Busy)):
            raise found
        if isinstance(found, Fault):
            image.failure = _line(path, found)
        else:
            image.source, image.record, image.failure = found
        if image.failure:
            say(image.failure)


def _one(thing: Thing, plan: Plan, convert: Convert) -> Found:
    """What is found of an image: the sum of its file, the record of its picture, and why it failed."""
    path, name = thing
    source, record, failure = source_sum(path), None, None
    try:
        record = make(convert(path, name), plan)
    except (Missing, Full, Busy):
        raise
    except Fault as fault:
        failure = _line(path, fault)
    except MemoryError:
        failure = f"{shown(path)}: not enough memory; give fewer --jobs"
    return source, record, failure


def _line(path: Path, fault: Fault) -> str:
    return f"{shown(path)}: {fault.reason}" + (f"; {fault.remedy}" if fault.remedy else "")


def source_sum(path: Path) -> str | None:
    """The SHA-256 sum of an image's file, or of the names and sums of a folder's files."""
    path = file_of(path)
    if path.is_dir():
        told = "".join(f"{sum_of(p)}  {p.name}\n" for p in sorted(path.iterdir()) if p.is_file())
        return sum_of_bytes(told.encode())
    return sum_of(path)


def say(line: str) -> None:
    """Tells one line on standard error, above a progress bar where there is one."""
    if "tqdm" in sys.modules and sys.stderr.isatty():
        sys.modules["tqdm"].tqdm.write(line, file=sys.stderr)
    else:
        print(line, file=sys.stderr, flush=True)


def _progress(done: Iterable[T], count: int) -> Iterable[T]:
    """The same, with a bar on a terminal where tqdm is installed, or a count where not."""
    if not sys.stderr.isatty() or count < 2:
        return done
    try:
        from tqdm import tqdm
    except ImportError:
        return _counted(done, count)
    return tqdm(done, total=count, unit="image", file=sys.stderr)


def _counted(done: Iterable[T], count: int) -> Iterator[T]:
    for k, one in enumerate(done, 1):
        print(f"\r{k} of {count}", end="\n" if k == count else "", file=sys.stderr, flush=True)
        yield one
