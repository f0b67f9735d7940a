"""For dask.distributed: a bag of the shares of many images, or of arrays that are in memory already.

    from dask.distributed import Client
    import shapefront.dask
    client = Client("scheduler:8786")
    shapefront.dask.shares(["images"], "measured", 100, "--dark").compute(retries=2)
    shapefront.dask.join("measured")
    shapefront.dask.arrays(masks).compute()               # the columns of each mask's objects

The folder of the images and that of the results have to lie under these names on each worker. A share that a lost worker had in hand is taken over
where it was; so is one whose worker is of another host, once its time has run out.
"""
from __future__ import annotations

from collections.abc import Iterable, Sequence
from dataclasses import dataclass
from functools import partial
from importlib import import_module
from os import PathLike
from pathlib import Path
from typing import Any

import numpy.typing as npt

from .faults import Fault
from .joining import join as _join
from .library import measure
from .main import measured
from .words import parser

bags: Any = import_module("dask.bag")

Name = str | PathLike[str]


@dataclass(frozen=True)
class Done:
    """What became of a share: its number, how many images it has, and the failures of those that failed."""

    share: int
    images: int
    failures: tuple[str, ...]


def shares(images: Sequence[Name], out: Name, of: int, *words: str) -> Any:
    """A bag of the shares 1 to `of` of these images or folders, measured into the folder `out` by the words of `shapes measure`; computed it gives `Done` of each.

    A Fault, which ends the computation, where a share cannot be measured at all.
    """
    return bags.from_sequence(range(1, of + 1), npartitions=of).map(partial(_share, list(map(str, images)), str(out), of, words))


def _share(images: list[str], out: str, of: int, words: Sequence[str], share: int) -> Done:
    done, _ = measured(parser().parse_args(["measure", *images, "-o", out, *words, "--share", f"{share}/{of}"]))
    return Done(share, len(done), tuple(image.failure for image in done if image.failure))


def join(out: Name) -> list[str]:
    """Makes the tables of all shares in the folder, as `shapes join` does; what is missing or failed, in words. A Fault where nothing can be joined."""
    found = _join(Path(out))
    return [*found.lacks(), *found.failures]


def arrays(masks: Iterable[npt.ArrayLike] | Any, rule: str = "curve", npartitions: int | None = None) -> Any:
    """A bag of the columns of the objects of each mask, as `shapefront.measure` gives them; of a Fault where a mask is none.

    `masks` are arrays [y, x] or [z, y, x] of booleans or whole numbers, or a bag of such, as `dask.bag.from_delayed(image.to_delayed().ravel())` gives it.
    """
    bag = masks if isinstance(masks, bags.Bag) else bags.from_sequence(masks, npartitions=npartitions)
    return bag.map(partial(_measured, rule))


def _measured(rule: str, mask: npt.ArrayLike) -> Any:
    try:
        return measure(mask, rule)
    except Fault as fault:
        return fault
