"""Black and white of grey values: a threshold, given or chosen, and which side of it is the object. All of it is told."""
from __future__ import annotations

from dataclasses import dataclass

import numpy as np

from .faults import Fault
from .filters import Filters
from .images import Grey
from .scans.asked import Asked


@dataclass(frozen=True)
class Settings:
    """What a user asked for: a threshold (`107`, `50%` or None: chosen), the object's side of it (`dark`, `light` or None: chosen),
    how labels are taken (`each`, `all`, or None: no labels), how many pixels of an image one pixel of its picture is wide (or
    None: as few as the greatest side lets), which channel is taken (None: the only one with values, or colours made grey), what is
    done before and after the threshold, how a volume is read, and where the images lie whose intensities are measured (None: those of the image itself; empty:
    others, that are not there)."""

    threshold: str | None = None
    objects: str | None = None
    labels: str | None = None
    fit: int | None = 1
    channel: str | None = None
    filters: Filters = Filters()
    scan: Asked = Asked()
    intensities: str | None = None


@dataclass(frozen=True)
class Cut:
    """A threshold, with whether it was given, chosen or needless, and the object's side of it: below it is dark, from it on light."""

    threshold: float
    how: str
    objects: str
    side: str

    def mask(self, values: np.ndarray) -> np.ndarray:
        return values < self.threshold if self.objects == "dark" else values >= self.threshold

    def __str__(self) -> str:
        return f"threshold {self.threshold:g} ({self.how}), objects {self.objects} ({self.side})"


def cut_of(image: Grey, settings: Settings, kind: np.dtype | None = None) -> Cut:
    """Where an image is cut; `kind` is that of its values in the file, where they are others now.

    A Fault where no threshold can be chosen, or the one that was given is none for its values.
    """
    values = image.values.astype(np.uint8) if image.values.dtype == bool else image.values
    if np.issubdtype(values.dtype, np.floating) and not np.isfinite(values).all():
        raise Fault(image.name, "some of its values are no numbers", "set them to the background's value")
    least, most = values.min(), values.max()
    if settings.threshold is not None:
        if settings.filters.background is not None and settings.threshold.endswith("%"):
            raise Fault(image.name, "a percentage is no threshold for differences to a background", "give such a difference")
        threshold, how = _given(image.name, kind or values.dtype, settings.threshold), "given"
    elif least == most and image.objects:
        threshold, how = 1.0, "it has two values"
    elif least == most:
        raise Fault(image.name, f"all its pixels have the value {least}", "if that is right, give --threshold")
    elif ((values == least) | (values == most)).all():
        threshold, how = float(most), "it has two values"
    else:
        threshold, how = otsu(values), "chosen by Otsu"
    if settings.objects or image.objects:
        return Cut(threshold, how, settings.objects or image.objects, "given" if settings.objects else "by the file's format")
    objects, frame = ("light", "dark") if _frame_is_dark(values < threshold) else ("dark", "light")
    return Cut(threshold, how, objects, f"the frame is {frame}")


def _given(name: str, kind: np.dtype, threshold: str) -> float:
    """The threshold that a user gave, as a value of the image."""
    if not threshold.endswith("%"):
        return float(threshold)
    if not np.issubdtype(kind, np.integer):
        raise Fault(name, "a percentage is no threshold for floating values", "give a value of the image")
    most = 65535 if kind.itemsize > 1 else 255
    return float(threshold[:-1]) / 100 * most


def _frame_is_dark(dark: np.ndarray) -> bool:
    """Whether more than half of the image's outermost pixels are dark: they are taken for background."""
    ends = [dark.take(place, axis) for axis in range(dark.ndim) for place in (0, -1)]
    return 2 * sum(int(end.sum()) for end in ends) > sum(end.size for end in ends)


def otsu(values: np.ndarray) -> float:
    """Otsu's threshold: that by which the two classes' values vary least. Values from it on are light."""
    if np.issubdtype(values.dtype, np.integer) and int(values.max()) - int(values.min()) < 1 << 16:
        low = int(values.min())
        counts = np.bincount((values.ravel().astype(np.int64) - low))
        levels = np.arange(counts.size, dtype=float) + low
        step = 1.0
    else:
        counts, edges = np.histogram(values, 1024)
        levels = (edges[:-1] + edges[1:]) / 2
        step = (levels[1] - levels[0]) / 2
    below = np.cumsum(counts)[:-1].astype(float)
    above = counts.sum() - below
    total = np.cumsum(counts * levels)
    with np.errstate(divide="ignore", invalid="ignore"):
        between = below * above * (total[:-1] / below - (total[-1] - total[:-1]) / above) ** 2
    return float(levels[int(np.nanargmax(between))] + step)


def looks_like_labels(values: np.ndarray) -> bool:
    """Whether the values are 0 to n without a gap, n at least 2, and mostly those of their neighbours, as labels are."""
    if not np.issubdtype(values.dtype, np.integer) or values.min() != 0 or not 2 <= values.max() < 1 << 20:
        return False
    if values.dtype == np.uint8 and values.max() == 255:  # rather an image that uses all its values
        return False
    present = np.bincount(values.ravel().astype(np.int64)) > 0
    return bool(present.all()) and bool((values[..., 1:] == values[..., :-1]).mean() > 0.8)
