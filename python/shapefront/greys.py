"""Which image's grey values are measured where another image tells the objects: the one of the same name in the folder that a user names.

A label image that another program wrote often has more behind that name, as `a_cp_masks.png` of `a.tif`; so the longest name that it begins with is taken.
"""
from __future__ import annotations

from pathlib import Path

from .faults import Fault
from .files import shown
from .images import SUFFIXES

# What may follow the name of an image in that of its label image.
_BREAKS = "_-. "


def partner(image: Path, name: str, place: Path) -> Path:
    """The image whose values belong to another one, which has this name in its run: `place` itself, or the one of that name in the folder `place`.

    A Fault where there is none, or more than one.
    """
    if not place.is_dir():
        return place
    own = place / Path(name).parent
    folder = own if own.is_dir() else place
    others = [path for path in sorted(folder.iterdir()) if path.suffix.lower() in SUFFIXES and path.is_file() and not _is_same(path, image)]
    found = [path for path in others if path.stem == image.stem] or _longest([path for path in others if _begins(image.stem, path.stem)])
    found = [path for path in found if path.suffix == image.suffix] or found
    if len(found) != 1:
        reason = f"several images of its name are in {shown(folder)}: {', '.join(path.name for path in found)}" if found else f"no image of its name is in {shown(folder)}"
        raise Fault(shown(image), reason, "one has to be called as this one is, with any ending")
    return found[0]


def _begins(stem: str, other: str) -> bool:
    return stem.startswith(other) and stem[len(other) : len(other) + 1] in _BREAKS and stem != other


def _longest(paths: list[Path]) -> list[Path]:
    most = max((len(path.stem) for path in paths), default=0)
    return [path for path in paths if len(path.stem) == most]


def _is_same(path: Path, other: Path) -> bool:
    return other.exists() and path.samefile(other)
