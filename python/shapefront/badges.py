"""What looks wrong in a run: a badge for each image that somebody should look at before the numbers."""
from __future__ import annotations

from collections import Counter
from collections.abc import Iterable, Sequence
from dataclasses import dataclass
from typing import Any

# An object of at most so many pixels is a speck; an image has specks where they are at least so many, and so great a part of its objects.
SPECK, SPECKS, PART = 9, 5, 0.2


@dataclass(frozen=True)
class Badge:
    """What looks wrong in one or two words, and in a sentence."""

    name: str
    about: str


def badges_of(record: dict[str, Any], sides: Counter[str], areas: Sequence[int]) -> list[Badge]:
    """The badges of an image, whose objects have these areas, in a run in which so many images have their objects on each side."""
    notes = record["notes"]
    found = [Badge("labels?", note) for note in notes if "if these are labels" in note]
    found += [Badge("uneven background", note) for note in notes if note.startswith("the background is uneven")]
    found += [Badge("not all used", note) for note in notes if "not used" in note]
    if other := _other_side(record, sides):
        found.insert(0, other)
    specks = sum(area <= SPECK for area in areas)
    if specks >= max(SPECKS, PART * len(areas)):
        found.append(Badge("specks", f"{specks:,} of {len(areas):,} objects have at most {SPECK} pixels; --min-size leaves them out"))
    return found


def chosen_sides(records: Iterable[dict[str, Any]]) -> Counter[str]:
    """In how many images the objects were found to be dark, and light."""
    return Counter(one["cut"]["objects"] for one in records if _is_chosen(one))


def _other_side(record: dict[str, Any], sides: Counter[str]) -> Badge | None:
    """A badge where the side of the objects was chosen, and is another one than in most images."""
    if not _is_chosen(record) or len(sides) < 2 or sides[record["cut"]["objects"]] > sum(sides.values()) / 2:
        return None
    own = record["cut"]["objects"]
    others = sides.total() - sides[own]
    return Badge(f"objects {own}", f"its objects were taken to be {own}, in {others} other images they are not; give --dark or --light where all are alike")


def _is_chosen(record: dict[str, Any]) -> bool:
    return bool(record["cut"]) and record["cut"]["side"].startswith("the frame")
