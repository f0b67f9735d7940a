"""From images to pictures of two values: what `shapes measure` and `shapes volume` hand to the proved program."""
from __future__ import annotations

from dataclasses import dataclass, replace
from pathlib import Path

import numpy as np

from secondreading.limits import MOST_FLAT, MOST_SOLID

from .blocks import bias, has_two_values, mean_of, most_of, smaller
from .evenness import unevenness
from .faults import Fault
from .files import shown, sum_of
from .greys import partner
from .images import Grey, load
from .pictures import sides_of, told_sides
from .scans.asked import Asked
from .scans.cubes import cubes
from .scans.reading import read
from .scans.region import region_of
from .spacing import Spacing
from .thresholds import Cut, Settings, cut_of, looks_like_labels


@dataclass(frozen=True)
class Valued:
    """Another image whose grey values are measured: its name, the sum of its file, and the image as it is shown."""

    name: str
    sum: str | None
    image: np.ndarray

    @property
    def record(self) -> dict[str, str | None]:
        """What the record of a picture says of it."""
        return {"image": self.name, "sum": self.sum}


@dataclass(frozen=True)
class Picture:
    """A picture or volume of two values: the name of its image, and how it was made, in words.

    `fit` is how many of the image's pixels one of its pixels is wide: 1 where the image was not made smaller. `cut` is None where
    the image's values were taken as labels; `labels` has the label of each pixel where each is a picture of its own.
    `original` is the image as it was before it was made smaller, [y, x] or in colours [y, x, 3]. `grey` are the grey values that the image
    has where the picture is, before any filter; None where it has no more than two values. `settings` are those that a user asked for.
    `spacing` is the size of one of the image's voxels where it is told, and `region` what alone is looked at, where that is not all.
    `valued` is the other image that these values are of, where a user named one: its name, its file's sum, and how it is shown.
    """

    image: str
    mask: np.ndarray
    fit: int
    cut: Cut | None
    notes: tuple[str, ...]
    original: np.ndarray
    labels: np.ndarray | None = None
    grey: np.ndarray | None = None
    settings: Settings = Settings()
    spacing: Spacing | None = None
    region: np.ndarray | None = None
    valued: Valued | None = None

    @property
    def backdrop(self) -> np.ndarray:
        """The image that is shown behind what was found: that of the grey values where a user named one."""
        return self.original if self.valued is None else self.valued.image

    @property
    def original_sides(self) -> tuple[int, ...]:
        """The sides of the image as it was before it was made smaller, x first."""
        return tuple(reversed(self.original.shape[: self.mask.ndim]))


def picture_of(path: Path, name: str, settings: Settings) -> Picture:
    """The picture that an image's file gives. A Fault where it gives none."""
    channel = settings.channel if settings.intensities is None else None
    picture = _made(load(path, bool(settings.labels), channel), name, settings, MOST_FLAT)
    return _with_values(picture, path, Path(settings.intensities)) if settings.intensities else picture


def _with_values(picture: Picture, path: Path, place: Path) -> Picture:
    """The picture with the grey values of another image, of the channel that a user named. A Fault where there is none that fits."""
    own = partner(path, picture.image, place)
    grey = load(own, channel=picture.settings.channel)
    if sides_of(grey.values) != picture.original_sides:
        told = f"it has {told_sides(picture.original_sides)}, and {shown(own)} has {told_sides(sides_of(grey.values))}"
        raise Fault(shown(path), told, "an image and that of its intensities have to show the same")
    name = str(own.relative_to(place)) if place.is_dir() else own.name
    notes = (*picture.notes, "; ".join([f"intensities of {name}", *grey.notes]))
    values = mean_of(grey.values, picture.fit) if picture.fit > 1 else grey.values
    valued = Valued(name, sum_of(own), grey.values if grey.colours is None else grey.colours)
    return replace(picture, notes=notes, grey=values, valued=valued)


def volume_of(path: Path, name: str, settings: Settings) -> Picture:
    """The volume that a file or a folder of slices gives, within its region, in cubes where they are asked for. A Fault where it gives none."""
    image = read(path, settings.scan, bool(settings.labels), settings.channel)
    region = region_of(image, settings.scan)
    return _made(cubes(image, bool(settings.labels)) if settings.scan.cubes else image, name, settings, MOST_SOLID, region)


def volume(path: Path, labels: bool = False, channel: str | None = None) -> Grey:
    """The grey values [z, y, x] of a volume's file or of a folder of slices, as they are. A Fault where it is none."""
    return read(path, Asked(), labels, channel)


def _made(image: Grey, name: str, settings: Settings, limit: int, region: np.ndarray | None = None) -> Picture:
    original, sides, most = image.values if image.colours is None else image.colours, sides_of(image.values), max(image.values.shape)
    least = -(-most // limit)
    fit = least if settings.fit is None else settings.fit
    if fit < least:
        raise Fault(
            image.name,
            f"too large: {told_sides(sides)}, and a side goes up to {limit}",
            f"cut it into parts, or give --fit: {smaller(least, len(sides))}",
        )
    region = most_of(region, fit) if region is not None and fit > 1 else region
    if settings.labels:
        return replace(_labelled(image, name, settings, fit, region), spacing=image.spacing, region=region)
    cut, mask, grey, notes = _cut(image, settings, fit)
    if region is not None:
        notes.append(f"within the region {settings.scan.region.name}: {int(region.sum()):,} of {region.size:,} voxels")
        mask = mask & region
    if looks_like_labels(image.values):
        notes.append(f"its values are 0 to {image.values.max()}: if these are labels, give --labels")
    return Picture(name, mask, fit, cut, (str(cut), *notes), original, None, grey, settings, spacing=image.spacing, region=region)


def _cut(image: Grey, settings: Settings, fit: int) -> tuple[Cut, np.ndarray, np.ndarray | None, list[str]]:
    """Where an image is cut, the picture that this gives, its grey values where it has some, and in words what was done."""
    two, filters = has_two_values(image.values), settings.filters
    if fit > 1 and two and filters.background is None and filters.smooth is None:
        cut = cut_of(image, settings)
        mask = cut.mask(image.values)
        own = most_of(mask, fit)
        told = bias(mask.mean(), own.mean())
        mask, after = filters.after(own)
        return cut, mask, None, [*image.notes, f"made smaller: {smaller(fit, mask.ndim)}, object where half and more of them are", told, *after]
    notes, small = list(image.notes), image.values
    if fit > 1:
        small = mean_of(image.values, fit)
        notes.append(f"made smaller: {smaller(fit, small.ndim)}, of their mean value")
    values, before = filters.before(small)
    cut = cut_of(replace(image, values=values), settings, image.values.dtype)
    own = cut.mask(values)
    if settings.threshold is not None and (own.all() or not own.any()):
        notes.append(f"{'every' if own.all() else 'no'} pixel is object: its values are {values.min():g} to {values.max():g}")
    mask, after = filters.after(own)
    if filters.background is None and (ends := unevenness(values, own)):
        notes.append("the background is uneven: in parts of the image its median goes from %g to %g, see --background" % ends)
    if fit > 1 and not before:
        notes.append(bias(cut.mask(image.values).mean(), own.mean()))
    return cut, mask, None if has_two_values(small) else small, [*notes, *before, *after]


def _labelled(image: Grey, name: str, settings: Settings, fit: int, region: np.ndarray | None) -> Picture:
    values = image.values
    if not (values.dtype == bool or np.issubdtype(values.dtype, np.integer)):
        raise Fault(image.name, "its values are no whole numbers, so no labels", "leave out --labels")
    if "colours made grey" in image.notes:
        raise Fault(image.name, "labels in colours", "save them as numbers: a grey image of 8 or 16 bits, 0 for the background")
    notes = list(image.notes)
    if fit > 1:
        notes.append(f"made smaller: {smaller(fit, values.ndim)}, each the label of its middle")
        values = values[(slice(fit // 2, None, fit),) * values.ndim]
    if settings.filters.background is not None or settings.filters.smooth is not None:
        raise Fault(image.name, "labels have no background and cannot be smoothed", "leave out --background and --smooth, or --labels")
    values, told = settings.filters.on_labels(values if region is None else np.where(region, values, 0))
    if region is not None:
        notes.append(f"within the region {settings.scan.region.name}: {int(region.sum()):,} of {region.size:,} voxels")
    count = np.unique(values[values != 0]).size
    if not count:
        raise Fault(image.name, "no labels: all its values are 0", "is it the right image?")
    if settings.labels == "all":
        how = f"the {count} labels as one picture: those that touch are one object"
        return Picture(name, values != 0, fit, None, (how, *notes, *told), image.values, None, None, settings)
    how = f"{count} labels, each as a picture of its own"
    return Picture(name, values != 0, fit, None, (how, *notes, *told), image.values, values, None, settings)
