"""A share of many images: which of them are its, and where it lies. It follows from an image's name alone, so new images move none of the others."""
from __future__ import annotations

import hashlib
from collections.abc import Iterator
from dataclasses import dataclass
from pathlib import Path

SHARES = "shares"


@dataclass(frozen=True)
class Share:
    """One of `of` shares, counted from 1."""

    number: int
    of: int

    @classmethod
    def told(cls, word: str) -> Share:
        """The share that a word such as `3/10` tells. A ValueError where it is none."""
        number, of = map(int, word.split("/"))
        if not 1 <= number <= of:
            raise ValueError(word)
        return cls(number, of)

    def takes(self, name: str) -> bool:
        """Whether the image of this name is of this share: by the SHA-256 sum of the name."""
        told = hashlib.sha256(name.encode("utf-8", "surrogateescape")).digest()[:8]
        return int.from_bytes(told) % self.of == self.number - 1

    def folder(self, out: Path) -> Path:
        """The folder of this share's run, below that of all."""
        return out / SHARES / str(self.number)

    def __str__(self) -> str:
        return f"{self.number}/{self.of}"


def shares_in(out: Path) -> Iterator[tuple[int, Path]]:
    """The numbers and the folders of the shares that lie below a folder, in their order."""
    place = out / SHARES
    numbers = sorted(int(path.name) for path in place.iterdir() if path.name.isdecimal()) if place.is_dir() else []
    yield from ((number, place / str(number)) for number in numbers)
