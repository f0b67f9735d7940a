"""What lies in a folder, against the names and sums of what a run wrote there: what is missing, what was changed, and what nothing made."""
from __future__ import annotations

import os
from collections.abc import Callable, Iterable, Iterator
from dataclasses import dataclass
from pathlib import Path, PurePosixPath

from .faults import Fault
from .files import sum_of


def lying(folder: Path, passed: str = "") -> list[str]:
    """The names, below the folder, of all that lies in it but folders with something in them; not of what begins with a point, nor of the folder `passed`."""
    names, top = [], str(folder)
    for place, folders, files in os.walk(top, onerror=_refused):
        below = "" if place == top else os.path.relpath(place, top) + "/"
        folders[:] = [name for name in folders if not name.startswith(".") and (name != passed or below)]
        links = [name for name in folders if os.path.islink(os.path.join(place, name))]
        own = [name for name in files if not name.startswith(".")] + links
        if not own and not folders and below:
            names.append(below[:-1])
        names += [below + name for name in own]
    return sorted(names)


def _refused(error: OSError) -> None:
    raise Fault(error.filename, f"cannot be read ({error.strerror})", "may you read it?")


def is_below(name: str, allowed: Iterable[str]) -> bool:
    """Whether a name is one of these, or that of a file in one of these folders."""
    path = PurePosixPath(name)
    return any(path.is_relative_to(PurePosixPath(one)) for one in allowed)


def others(folder: Path, told: Iterable[str], allowed: Iterable[str], passed: str = "") -> list[str]:
    """The names of what lies in a folder and is none of these files, nor may be there; the folder `passed` is passed over."""
    return [name for name in lying(folder, passed) if name not in told and not is_below(name, allowed)]


@dataclass(frozen=True)
class Inventory:
    """The files that a run wrote, with what became of each, in words; and the names of what lies there and is none of them."""

    folder: Path
    spoilt: dict[str, str]
    added: list[str]

    @classmethod
    def of(cls, folder: Path, told: dict[str, str], allowed: Iterable[str], sum_of: Callable[[Path], str | None] = sum_of, passed: str = "") -> Inventory:
        """What lies in a folder, where the run's record tells these sums, and these names may be there though nothing made them; but not in the folder `passed`."""
        for name in told:
            if PurePosixPath(name).is_absolute() or ".." in PurePosixPath(name).parts:
                raise ValueError(name)
        spoilt = {name: why for name, sum_ in told.items() if (why := _spoilt(folder / name, sum_, sum_of))}
        return cls(folder, spoilt, others(folder, told, allowed, passed))

    def is_whole(self, name: str) -> bool:
        return name not in self.spoilt

    def wrong(self) -> Iterator[tuple[str, str]]:
        """What is not as it should be: the name of each such file, and why."""
        yield from sorted(self.spoilt.items())
        for name in self.added:
            yield name, "nothing made it; take it away, or name it by --allow"


def _spoilt(path: Path, told: str, sum_of: Callable[[Path], str | None]) -> str | None:
    """What became of a file that was written with this sum; None where it is as it was."""
    if not path.is_file():
        return "it is missing" if not os.path.lexists(path) else "it is no file any more"
    own = sum_of(path)
    if own is None:
        return "it cannot be read"
    return None if own == told else "it was changed or exchanged since it was made: its sum is not the one in made.json"
