"""Files that are written bit by bit, aside and with their sums: tables of any length, in the memory of one row."""
from __future__ import annotations

import csv
import hashlib
import io
import shutil
import tempfile
from collections.abc import Iterable, Iterator
from contextlib import contextmanager
from pathlib import Path
from typing import IO, Protocol

from .files import aside, encoded, unwritten
from .tables import MARK, Row


class Sink(Protocol):
    """What takes the bytes of a file one after the other."""

    def add(self, data: bytes) -> None: ...


class Table:
    """Rows on their way into a sink, spelled as `spelled_rows` spells them; `rows` is how many came, the header among them."""

    def __init__(self, sink: Sink) -> None:
        self.sink, self.rows = sink, 0

    def add(self, rows: Iterable[Row]) -> None:
        """Some rows more."""
        own = list(rows)
        out = io.StringIO()
        csv.writer(out, lineterminator="\n").writerows(own)
        self.rows += len(own)
        self.sink.add(encoded(out.getvalue()))


class Written:
    """A file that is being written, with its sum and whether all of it is ASCII so far."""

    def __init__(self, file: IO[bytes]) -> None:
        self.file, self.is_ascii, self._sum = file, True, hashlib.sha256()

    def add(self, data: bytes) -> None:
        self.file.write(data)
        self._sum.update(data)
        self.is_ascii = self.is_ascii and data.isascii()

    @property
    def sum(self) -> str:
        return self._sum.hexdigest()


@contextmanager
def written(path: Path, is_marked: bool = True) -> Iterator[Written]:
    """A file that takes its name at the end of the block; a table with other letters than those of ASCII gets the mark of UTF-8 before it then."""
    try:
        with tempfile.TemporaryFile(dir=path.parent) as file:
            own = Written(file)
            yield own
            file.seek(0)
            with aside(path) as out:
                final = Written(out)
                if is_marked and not own.is_ascii:
                    final.add(MARK)
                shutil.copyfileobj(file, _Into(final), 1 << 20)
            own._sum = final._sum
    except OSError as error:
        raise unwritten(path, error, "may you write there?") from error


class _Into:
    """What `copyfileobj` writes into."""

    def __init__(self, sink: Sink) -> None:
        self.write = sink.add


class Compared:
    """A file that is compared with what it has to be, bit by bit; `wrong` has what it says where it first differs, and what it has to say there.

    A table begins with the mark of UTF-8 where it has other letters than those of ASCII.
    """

    def __init__(self, file: IO[bytes], is_marked: bool = True) -> None:
        self.wrong: tuple[bytes, bytes] | None = None
        self.file, self._is_ascii, self._is_marked = file, True, is_marked and file.read(len(MARK)) == MARK
        if not self._is_marked:
            file.seek(0)
        self._may_be_marked = is_marked

    def add(self, data: bytes) -> None:
        """What comes next in it."""
        self._is_ascii = self._is_ascii and data.isascii()
        if self.wrong is None and (own := self.file.read(len(data))) != data:
            self.wrong = own, data

    def end(self) -> None:
        """Now it has to be at its end, and to have the mark where that is due."""
        if self.wrong is None and (rest := self.file.read(200)):
            self.wrong = rest, b""
        if self.wrong is None and self._may_be_marked and self._is_marked == self._is_ascii:
            self.wrong = (MARK, b"") if self._is_marked else (b"", MARK)
