"""Finds the proved program `shape` and calls it. All measuring is done there.

It is looked for in the folder that SHAPE_BIN names, then in the clone of the repository that this package lies in, then
where `./install` put it beside this package, then in the environment of this Python, and at last on the PATH.
"""
from __future__ import annotations

import os
import shutil
import signal
import sys
import tempfile
from contextlib import suppress
from dataclasses import dataclass
from functools import lru_cache
from pathlib import Path
from typing import IO

from secondreading.limits import MOST_FLAT, MOST_SOLID

from .faults import Fault, Full, Missing
from .files import sum_of
from .stopping import cleared

NAME = "shape"

# Signals that Python passes over, and the program does not.
_USUAL = [signal.SIGPIPE, signal.SIGXFSZ]

# What the program's words mean for one who gave images, by their beginnings: the reason, and what to do.
_WORDS = (
    ("not a PBM", "not a PBM", "its first two bytes are not P1 or P4"),
    ("a side is too large", f"a side is above {MOST_FLAT} pixels, or {MOST_SOLID} voxels", "give --fit, which makes it smaller"),
    ("bytes after the volume", "the volume has more bytes than its sides say", "are the sides right?"),
    ("picture ends early", "the file ends before its last pixel", "was it cut on the way, or are the sides others?"),
    ("read failed", "a file could not be read", "is it there, and may you read it?"),
    ("no memory", "not enough memory", "give fewer --jobs"),
    ("usage: ", "the program shape that is found is of another version", "build it anew, or name the folder of the new one in SHAPE_BIN"),
)  # fmt: skip


def _places() -> list[Path]:
    given = os.environ.get("SHAPE_BIN")
    above = Path(__file__).resolve().parents
    clone, installed, environment = above[2] / "crates" / NAME / "out" / NAME, above[min(3, len(above) - 1)] / "bin" / NAME, Path(sys.prefix) / "bin" / NAME
    return ([Path(given) / NAME] if given else []) + [clone, installed, environment]


def find() -> Path:
    """Where the program is. Missing, a Fault, where it is nowhere."""
    return _found(os.environ.get("SHAPE_BIN"), os.environ.get("PATH"))


@lru_cache
def _found(_given: str | None, _path: str | None) -> Path:
    for place in _places():
        if place.is_file() and os.access(place, os.X_OK):
            return place
    on_path = shutil.which(NAME)
    if on_path is None:
        raise Missing(NAME, "this program is not found", f"build it by `rt run` in crates/{NAME}, or name its folder in SHAPE_BIN")
    return Path(on_path)


def has() -> bool:
    """Whether the program is found."""
    try:
        return bool(find())
    except Missing:
        return False


@lru_cache
def _sum_at(path: Path, _changed: int) -> str | None:
    return sum_of(path)


def sums() -> dict[str, str | None]:
    """The SHA-256 sum of the program, by its name. Missing, a Fault, where it is not found."""
    path = find()
    return {NAME: _sum_at(path, path.stat().st_mtime_ns)}


@dataclass(frozen=True)
class Answer:
    """How the program ended: its status, what it wrote (where that was not sent to a file), and its line on standard error."""

    status: int
    text: str
    message: str


def call(*words: object, out: IO[bytes] | None = None) -> Answer:
    """Calls the program; what it writes goes to `out` where that is given. A Fault where it is not found or ends by a signal."""
    path = str(find())
    message = _paper()
    told = out.fileno() if out else _paper()
    try:
        status = _run([path, *map(str, words)], told, message)
        if status < 0:
            raise Fault(path, f"was ended by signal {-status}", "give fewer --jobs, if memory is short")
        text, line = (b"" if out else _written(told)), _written(message)
    finally:
        os.close(message)
        if not out:
            os.close(told)
    return Answer(status, text.decode(errors="replace"), line.decode(errors="replace").strip().removeprefix(NAME + ": "))


def _paper() -> int:
    """The number of a file without a name to write into, in memory where the system has such."""
    if hasattr(os, "memfd_create"):
        return os.memfd_create(NAME)
    with tempfile.TemporaryFile() as file:
        return os.dup(file.fileno())


def _written(number: int) -> bytes:
    """All that was written into a file by another process."""
    if not (size := os.fstat(number).st_size):
        return b""
    os.lseek(number, 0, os.SEEK_SET)
    parts = []
    while size > 0 and (part := os.read(number, size)):
        parts.append(part)
        size -= len(part)
    return b"".join(parts)


@lru_cache
def _nothing() -> int:
    """The number of an empty file to read from."""
    return os.open(os.devnull, os.O_RDONLY)


@lru_cache
def _environment() -> dict[bytes, bytes]:
    """The environment of programs, as it was at the first call."""
    return dict(os.environb)


def _run(words: list[str], out: int, message: int) -> int:
    """Calls a program that writes into files of these numbers, and waits for its end: its status, below 0 where a signal ended it. It is ended where this is.

    It is begun by `posix_spawn`, which takes half the time of `subprocess`. A Fault where it cannot be run.
    """
    running = _Running()
    with cleared(running.end):
        running.begin(words, (_nothing(), out, message))
        return running.wait()


@dataclass
class _Running:
    """A program that is not begun, runs, or is at its end: its process while it runs."""

    process: int | None = None

    def begin(self, words: list[str], files: tuple[int, int, int]) -> None:
        """Begins the program with its input and its two outputs in files of these numbers. A Fault where it cannot be run."""
        places = [(os.POSIX_SPAWN_DUP2, number, place) for place, number in enumerate(files)]
        try:
            self.process = os.posix_spawn(words[0], words, _environment(), file_actions=places, setsigdef=_USUAL)
        except OSError as error:
            raise Fault(words[0], f"cannot be run ({error.strerror})", "is it built for this machine?") from error

    def wait(self) -> int:
        """Waits for the program's end: its status, below 0 where a signal ended it."""
        _, status = os.waitpid(self.process or 0, 0)
        self.process = None
        return os.waitstatus_to_exitcode(status)

    def end(self) -> None:
        """Ends the program where it runs."""
        if (process := self.process) is not None:
            with suppress(ProcessLookupError):
                os.kill(process, signal.SIGKILL)
            with suppress(ChildProcessError):
                os.waitpid(process, 0)


def explained(about: object, answer: Answer) -> Fault:
    """What a refusal of the program means, about the file that it was given."""
    for words, reason, remedy in _WORDS:
        if answer.message.startswith(words):
            return Fault(about, f"{reason} ({answer.message})" if answer.message != reason else reason, remedy)
    if answer.message.startswith("write failed"):
        return Full(about, f"the output could not be written ({answer.message})", "make room: the same command goes on where it was")
    return Fault(about, answer.message or f"refused with status {answer.status}")


def made(*words: object, out: IO[bytes], about: object) -> None:
    """Calls the program for a file that it writes. A Fault about the file `about` where it refuses."""
    answer = call(*words, out=out)
    if answer.status:
        raise explained(about, answer)
