"""Images as arrays of grey values: whatever Pillow and tifffile read, with what was done to it in words."""
from __future__ import annotations

from collections.abc import Iterator
from dataclasses import dataclass
from pathlib import Path

import numpy as np

from .channels import GREYED, grey_of
from .deep import deep_values, is_deep, on_white
from .faults import Fault, Missing
from .scans.kinds import NUMPY, kind_of, refused
from .spacing import Spacing
from .tiffs import TURNED, Pages, better_read, pages, turned

TIFF = (".tif", ".tiff")
CLEARED = "transparent paper made white"
_ORIENTATION = 0x0112
SUFFIXES = {".png", ".tif", ".tiff", ".jpg", ".jpeg", ".bmp", ".gif", ".pbm", ".pgm", ".ppm", ".pnm", ".webp", ".npy"}


@dataclass(frozen=True)
class Grey:
    """An image of one value a pixel, indexed [y, x], dark where the value is small, and what was done to make it, in words.

    `objects` is `dark` or `light` where the file's format itself says which side is the object, as a PBM does. `colours` is the image
    in colours of eight bits, [y, x, 3], where it has some; `spacing` the size of a voxel, where a volume's file tells it.
    """

    name: str
    values: np.ndarray
    notes: tuple[str, ...] = ()
    objects: str | None = None
    colours: np.ndarray | None = None
    spacing: Spacing | None = None


def pillow():
    """The modules Image and ImageOps of Pillow. Missing where it is not installed."""
    try:
        from PIL import Image, ImageOps
    except ImportError as error:
        raise Missing("Pillow", "this Python package is not installed", "`apt install python3-pil`, or `pip install pillow`") from error
    Image.MAX_IMAGE_PIXELS = 1 << 29
    return Image, ImageOps


def pillow_version() -> str | None:
    """The version of Pillow; None where it is not installed."""
    try:
        import PIL
    except ImportError:
        return None
    return PIL.__version__


def load(path: Path, labels: bool = False, channel: str | None = None) -> Grey:
    """The grey values of an image's file, of one channel where that is named; of a palette the numbers of its colours where labels are wanted.

    `channel` is one of `channels.NAMES` or a number from 1 on; where the channels are pages it is the page. A Fault where it is no image,
    a stack, or one of a kind that is not known.
    """
    if not path.is_file():
        raise Fault(path, "no such file" if not path.exists() else "not a file", "is the name right?")
    if kind := kind_of(path):
        if kind is not NUMPY:
            raise refused(path, kind)
        return _array(path)
    frames = list(_frames(path, 2, labels, channel))
    if len(frames) > 1:
        remedy = "`shapes volume` takes a stack; of a TIFF --channel 1 takes the first page; else save the one page as a PNG"
        raise Fault(path, "it has several pages or frames", remedy)
    return frames[0]


def load_stack(path: Path, labels: bool = False, channel: str | None = None) -> list[Grey]:
    """All pages of an image's file, from the first on. A Fault as for `load`."""
    return list(_frames(path, None, labels, channel))


def array_of(path: Path) -> np.ndarray:
    """The array of numbers in a `.npy` file. A Fault where there is none."""
    try:
        values = np.load(path, allow_pickle=False)
    except (OSError, ValueError) as error:
        raise Fault(path, "not an array of numpy", "save it by `numpy.save`") from error
    if not (values.dtype == bool or np.issubdtype(values.dtype, np.integer) or np.issubdtype(values.dtype, np.floating)):
        raise Fault(path, f"an array of {values.dtype}", "save whole numbers, floating ones or booleans")
    return values


def _array(path: Path) -> Grey:
    values = array_of(path)
    if values.ndim != 2:
        raise Fault(path, f"an array of {values.ndim} axes", "`shapes volume` takes three (z, y, x), `shapes measure` two (y, x)")
    return Grey(str(path), values, (), "light" if values.dtype == bool else None)


def _frames(path: Path, most: int | None, labels: bool, channel: str | None) -> Iterator[Grey]:
    """The pages of a file, at most so many; tifffile is asked of a TIFF that Pillow does not know, or keeps a part of."""
    image_of, _ = pillow()
    if path.suffix.lower() in TIFF:
        from PIL import TiffImagePlugin  # noqa: F401  without it Pillow loads all of its plugins to find this one
    try:
        image = image_of.open(path)
    except Exception as error:  # noqa: BLE001  Pillow raises errors of many kinds on files that are no images
        found = pages(path) if path.suffix.lower() in TIFF else None
        if found is None:
            raise Fault(path, "not an image that can be read", "open it in another program and save it as PNG or TIFF") from error
        yield from _of_tiff(path, found, most, channel)
        return
    with image:
        if image.format == "TIFF" and (found := better_read(path, image)):
            yield from _of_tiff(path, found, most, channel)
            return
        for k in range(min(getattr(image, "n_frames", 1), most or 1 << 30)):
            try:
                image.seek(k)
                page = _grey(path, image, labels, channel)
            except Fault:
                raise
            except Exception as error:  # noqa: BLE001  as above
                raise Fault(path, f"a broken image ({error})", "is it a whole file? copy it again") from error
            yield page


def _of_tiff(path: Path, found: Pages, most: int | None, channel: str | None) -> Iterator[Grey]:
    """The grey values of pages that tifffile read. Where one flat image is wanted, of pages with one channel each the channel is a page."""
    values, are_pages = found.values, bool(most and channel and len(found.values) > 1 and found.values.shape[3] == 1)
    for page in (values.transpose(3, 1, 2, 0) if are_pages else values)[:most]:
        grey, notes = grey_of(str(path), page, found.is_colour, channel)
        told = [note.replace("channel", "page") for note in notes] if are_pages else notes
        yield Grey(str(path), np.ascontiguousarray(grey), (*found.notes, *told))


def _grey(path: Path, image, labels: bool, channel: str | None) -> Grey:
    """The grey values of the page that Pillow shows."""
    _, ops = pillow()
    notes: list[str] = []
    if labels and image.mode == "P":
        return Grey(str(path), np.array(image), ("the numbers of its colours are the labels",))
    if is_deep(image):
        if (values := deep_values(path, image)) is not None:
            return _deep(path, values, (image.getexif() or {}).get(_ORIENTATION, 1), channel)
        notes.append("the lower 8 of its 16 bits are not used, as Pillow reads no more of several channels: save it as TIFF to use them")
    if (image.getexif() or {}).get(_ORIENTATION, 1) != 1:
        image = ops.exif_transpose(image)
        notes.append(TURNED)
    if image.mode in ("LA", "PA", "RGBA", "La", "RGBa") or "transparency" in image.info:
        image = image.convert("RGBA")
        if channel is None:
            image = _on_white(image, notes)
    elif image.mode in ("P", "RGB", "CMYK", "YCbCr", "LAB", "HSV"):
        image = image.convert("RGB")
    elif image.mode not in ("1", "L", "I", "F") and not image.mode.startswith("I;16"):
        raise Fault(path, f"an image of the kind {image.mode}", "save it as a grey PNG or TIFF")
    is_pbm = image.mode == "1" and path.suffix.lower() in (".pbm", ".pnm")
    bands = np.array(image)
    grey, more = grey_of(str(path), np.atleast_3d(bands), bands.ndim == 3, channel)
    colours = bands if image.mode == "RGB" and channel is None and GREYED in more else None
    return Grey(str(path), np.ascontiguousarray(grey), (*notes, *more), "dark" if is_pbm else None, colours)


def _deep(path: Path, values: np.ndarray, orientation: int, channel: str | None) -> Grey:
    """The grey values of an image of 16 bits with several channels: of grey, or red, green and blue, and alpha behind them where it has some."""
    notes: list[str] = []
    if orientation != 1:
        values, told = turned(values[None], orientation)
        values, notes = values[0], [told]
    if channel is None and values.shape[2] in (2, 4):
        values, is_clear = on_white(values)
        notes += [CLEARED] if is_clear else []
    grey, more = grey_of(str(path), values, values.shape[2] > 2, channel)
    colours = (values >> 8).astype(np.uint8) if channel is None and GREYED in more else None
    return Grey(str(path), np.ascontiguousarray(grey), (*notes, *more), None, colours)


def _on_white(image, notes: list[str]):
    """The image with white paper behind it where it is transparent."""
    image_of, _ = pillow()
    if image.getextrema()[3][0] < 255:
        notes.append(CLEARED)
    return image_of.alpha_composite(image_of.new("RGBA", image.size, "white"), image).convert("RGB")

