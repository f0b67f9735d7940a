"""One file for the evidence of all labels of an image: a ZIP of the files that any picture has, with the label's number for a name."""
from __future__ import annotations

import re
import tempfile
import zipfile
from collections.abc import Iterator
from contextlib import contextmanager
from pathlib import Path

from .faults import Fault
from .files import shown

SUFFIX = ".labels.zip"
_MEMBER = re.compile(r"\d+\.[A-Za-z0-9.-]+")


def pack(folder: Path, path: Path) -> None:
    """Packs the files of a folder, by their names in order and without their times: the same bytes for the same files."""
    with zipfile.ZipFile(path, "w", zipfile.ZIP_DEFLATED, compresslevel=1) as archive:
        for file in sorted(folder.iterdir(), key=lambda file: (int(file.name.partition(".")[0]), file.name)):
            archive.writestr(zipfile.ZipInfo(file.name), file.read_bytes(), zipfile.ZIP_DEFLATED, 1)


@contextmanager
def unpacked(path: Path) -> Iterator[Path]:
    """A folder with the files of an archive, for as long as it is needed. A Fault where it is none that `pack` made."""
    with tempfile.TemporaryDirectory(prefix="shapes-") as folder:
        try:
            with zipfile.ZipFile(path) as archive:
                for name in archive.namelist():
                    if not _MEMBER.fullmatch(name):
                        raise Fault(shown(path), f"it holds `{name}`, which nothing made")
                    Path(folder, name).write_bytes(archive.read(name))
        except Fault:
            raise
        except Exception as error:  # noqa: BLE001  zipfile raises errors of many kinds on files that were changed
            raise Fault(shown(path), f"cannot be unpacked ({error})", "is it a whole file?") from error
        yield Path(folder)
