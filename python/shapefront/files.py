"""Files written aside and renamed, their sums, and their names in messages."""
from __future__ import annotations

import errno
import hashlib
import json
import json.encoder
import os
import re
import secrets
import shutil
import socket
import tempfile
from collections.abc import Callable, Iterator
from contextlib import contextmanager
from pathlib import Path
from typing import IO, Any

from .faults import Fault, Full

# So many bytes of a file are read at once to sum them.
_PIECE = 1 << 16
# A text as JSON spells it.
_quoted: Callable[[str], str] = getattr(json.encoder, "encode_basestring")
_WORDS = {None: "null", True: "true", False: "false"}
# How what is not finished is called, with the word of its run behind.
ASIDE = ".making-"
# The word of this run: that of no other, on whatever host.
TOKEN = f"{re.sub('[^A-Za-z0-9.]', '_', socket.gethostname())}-{os.getpid()}-{secrets.token_hex(4)}"


@contextmanager
def aside(path: Path) -> Iterator[IO[bytes]]:
    """A file beside `path` to write into; it takes the name of `path` when all went well, and is gone when not.

    A Fault where the system refuses it.
    """
    try:
        handle, name = tempfile.mkstemp(prefix=f"{ASIDE}{TOKEN}-", dir=path.parent)
    except OSError as error:
        raise unwritten(path, error, "choose another folder with -o") from error
    try:
        with os.fdopen(handle, "wb") as out:
            yield out
        os.chmod(name, 0o666 & ~_umask())
        os.replace(name, path)
    except OSError as error:
        raise unwritten(path, error, "may you write there?") from error
    finally:
        if os.path.exists(name):
            os.unlink(name)


def is_full(error: OSError) -> bool:
    """Whether an error says that there is no room on a disk."""
    return error.errno in (errno.ENOSPC, errno.EDQUOT)


def unwritten(path: object, error: OSError, remedy: str) -> Fault:
    """What it means that the system refuses to write a file: `Full` where there is no room."""
    if is_full(error):
        return Full(path, f"cannot be written ({error.strerror})", "make room: the same command goes on where it was")
    return Fault(path, f"cannot be written ({error.strerror})", remedy)


def clear_aside(folder: Path, own: bool = False) -> None:
    """Takes away what other runs left unfinished in a folder, or this one, if that is wanted."""
    for work in folder.glob(ASIDE + "*") if folder.is_dir() else ():
        if work.name.startswith(ASIDE + TOKEN) != own:
            continue
        if work.is_dir():
            shutil.rmtree(work, ignore_errors=True)
        else:
            work.unlink(missing_ok=True)


def _umask() -> int:
    mask = os.umask(0o022)
    os.umask(mask)
    return mask


def make_folder(path: Path) -> None:
    """Makes a folder where there is none. A Fault where that cannot be."""
    try:
        path.mkdir(parents=True, exist_ok=True)
    except OSError as error:
        raise Fault(path, f"cannot be made ({error.strerror})", "choose another folder with -o") from error


def write(path: Path, data: bytes) -> None:
    """Writes a file as a whole, or not at all."""
    with aside(path) as out:
        out.write(data)


def encoded(text: str) -> bytes:
    """The bytes of a text; of file names in it those that the system has, though they be no UTF-8."""
    return text.encode("utf-8", "surrogateescape")


def spelled_json(value: Any) -> bytes:
    """The one spelling of a value that `shapes` writes: that of `json.dumps` with an indent of 1, in a fifth of its time."""
    return encoded(_spelled(value, "\n") + "\n")


def _spelled(value: Any, line: str) -> str:
    """The spelling of a value that stands behind a line's beginning."""
    if isinstance(value, str):
        return _quoted(value)
    if value is None or type(value) is bool:
        return _WORDS[value]
    if type(value) is int:
        return str(value)
    inner = line + " "
    if isinstance(value, dict) and value:
        return "{" + inner + ("," + inner).join([f"{_quoted(str(name))}: {_spelled(member, inner)}" for name, member in value.items()]) + line + "}"
    if isinstance(value, (list, tuple)) and value:
        return "[" + inner + ("," + inner).join([_spelled(member, inner) for member in value]) + line + "]"
    return json.dumps(value)


def write_json(path: Path, value: Any) -> None:
    write(path, spelled_json(value))


def read_json(path: Path) -> Any:
    """The value in a file, and None where there is no such file or something else in it."""
    try:
        return parsed(path.read_bytes())
    except OSError:
        return None


def parsed(data: bytes) -> Any:
    """The value that some bytes spell, and None where they spell none."""
    try:
        return json.loads(data.decode("utf-8", "surrogateescape"))
    except (ValueError, RecursionError):
        return None


def sum_of(path: Path | str) -> str | None:
    """The SHA-256 sum of a file, and None where it cannot be read."""
    try:
        number = os.open(path, os.O_RDONLY | os.O_CLOEXEC)
        try:
            own, piece = hashlib.sha256(), min(os.fstat(number).st_size + 1, _PIECE)
            while data := os.read(number, piece):
                own.update(data)
            return own.hexdigest()
        finally:
            os.close(number)
    except OSError:
        return None


def sum_of_bytes(data: bytes) -> str:
    """The SHA-256 sum of some bytes."""
    return hashlib.sha256(data).hexdigest()


def shown(path: Path | str) -> str:
    """A file's name as a user sees it: below the current folder where it is there."""
    try:
        return str(Path(path).resolve().relative_to(Path.cwd()))
    except ValueError:
        return str(path)
