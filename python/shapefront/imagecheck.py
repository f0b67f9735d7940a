"""Checks a run by its original images: each is made black and white again, as the run's options say, and compared with its records.

This covers what no report can tell: names, labels, thresholds, what was done to an image, and the grey values of its objects.
"""
from __future__ import annotations

from collections.abc import Iterator
from dataclasses import dataclass, replace
from pathlib import Path
from typing import Any

import numpy as np

from .batch import source_sum
from .checking import Finding
from .comparing import of_members, of_tables
from .convert import Picture, picture_of, volume_of
from .crew import Crew
from .faults import Fault, Missing
from .files import shown
from .intensities import intensities
from .layout import FURTHER, evidence
from .making import Record, head_of
from .pictures import pbm_mask, suffix_of
from .plan import Plan
from .scans.kinds import file_of
from .tables import spelled_rows
from .thresholds import Settings
from .words import settings_told


@dataclass(frozen=True)
class ImageCheck:
    """The originals of a run: where they lie, the folder of the run, what its `made.json` says, its records by the names of their files, and where
    the images of its intensities lie where these are others."""

    originals: Path
    folder: Path
    made: dict[str, Any]
    records: dict[str, Record]
    intensities: str | None = None

    def findings(self, jobs: int) -> Iterator[tuple[dict[str, Any], Finding]]:
        """For each image of the run what was found of its original; so many are looked at at once."""
        yield from zip(self.made["images"], Crew(self._image, jobs).in_order(self.made["images"]))

    def _image(self, told: dict[str, Any]) -> Finding:
        path = self.originals / told["image"]
        if not file_of(path).exists():
            return Finding(shown(path), False, "it is missing")
        own = source_sum(path)
        is_same = own == told["sum"] and own is not None
        why = self._of_own_picture(path, told)
        if not is_same:
            other = "it is another file than was measured: its sum is not the one in made.json"
            return Finding(shown(path), False, f"{other}; {why or 'but it gives the same'}")
        return Finding(shown(path), why is None, why or "")

    @property
    def _settings(self) -> Settings:
        """How the run made its images black and white, with the intensities of other images where it took them from such, if they are there."""
        settings = settings_told(self.made["options"])
        return settings if settings.intensities is None else replace(settings, intensities=self.intensities or "")

    @property
    def _lacks_values(self) -> bool:
        """Whether the intensities are those of other images that nobody gave."""
        return self._settings.intensities == ""

    def _of_own_picture(self, path: Path, told: dict[str, Any]) -> str | None:
        """Where what an image gives is not what its records say, in words; None where it is."""
        settings, is_volume = self._settings, self.made["options"]["command"] == "volume"
        try:
            picture = (volume_of if is_volume else picture_of)(path, told["image"], settings)
        except Missing:
            raise
        except Fault as fault:
            return None if told["failure"] else f"it gives no picture any more: {fault.reason}"
        if told["failure"]:
            return f"it gives a picture, while made.json says that it failed ({told['failure']})"
        record = self.records.get(told["record"])
        return self._of_picture(picture, record) if record else "it gives a picture of which there is no record"

    def _of_picture(self, picture: Picture, record: Record) -> str | None:
        """Where a picture of the image is not the one of the record, in words."""
        head = head_of(picture, Plan.told(self.folder, self.made["options"], subfolders=self.made["subfolders"]))
        unknown = ("intensities",) if self._lacks_values else ()
        made = {name: value for name, value in head.items() if name not in ("programs", "picture", "grey", *unknown)}
        made["notes"] = [*made["notes"], *(record["notes"][-1:] if self._lacks_values else [])]
        if why := of_members({name: record.get(name) for name in made}, made, "its record"):
            return why.replace("the reports and tables give", "the image gives")
        if head["picture"] != record["picture"]:
            return self._of_pixels(picture, record)
        if self._lacks_values:
            return None
        if head["grey"] != record["grey"]:
            return self._of_intensities(picture, record) or "its values outside of the objects are others than those that were measured"
        return self._of_intensities(picture, record)

    def _of_pixels(self, picture: Picture, record: Record) -> str:
        """How a picture of the image is not the one in the folder."""
        if picture.labels is not None:
            return "its labels are others than those that were measured"
        path = self.folder / evidence(record["key"], suffix_of(picture.mask))
        try:
            data = path.read_bytes()
            own = pbm_mask(data) if picture.mask.ndim == 2 else np.frombuffer(data, np.uint8).reshape(picture.mask.shape) > 0
            return f"pixels of {path.name} that the image does not give: {int((own != picture.mask).sum()):,}"
        except (OSError, Fault, ValueError):
            return f"{path.name} is not the picture that the image gives"

    def _of_intensities(self, picture: Picture, record: Record) -> str | None:
        """Where the grey values of the objects, as they lie in the folder, are not those of the image."""
        path = self.folder / evidence(record["key"], FURTHER["objects.csv"])
        if picture.grey is None or not path.is_file():
            return None
        again, own = spelled_rows(intensities(picture)), path.read_bytes()
        return None if own == again else f"{path.name}, {of_tables(own, again).replace('the table of intensities gives', 'the image gives')}"
