"""All 16 bits of a PNG or PPM file with several channels, of which Pillow keeps the upper 8 alone.

Pillow unpacks such rows as numbers of either order of bytes, and keeps the greater byte of what it takes for the number. So it reads a file twice,
once in the wrong order, which gives the lower bytes.
"""
from __future__ import annotations

import re
from pathlib import Path
from typing import Any

import numpy as np

# The way in which Pillow unpacks each kind of row in the wrong order.
_LOWER = {"RGB;16B": "RGB;16L", "RGBA;16B": "RGBA;16L"}
_PPM = re.compile(rb"P6(?:\s+|#[^\n]*\n)+(\d+)(?:\s+|#[^\n]*\n)+(\d+)(?:\s+|#[^\n]*\n)+(\d+)\s")


def is_deep(image: Any) -> bool:
    """Whether an image that Pillow opened has more than the 8 bits a channel that Pillow keeps of several."""
    if image.mode not in ("RGB", "RGBA", "LA"):
        return False
    for kind, more in map(_told, image.tile):
        if ";16" in kind or more and image.format == "PPM" and more[0] > 255:
            return True
    return False


def _told(tile: Any) -> tuple[str, list[int]]:
    """How Pillow unpacks a part of a file, and with what further numbers."""
    args = tile[3]
    kind, *more = args if isinstance(args, tuple) else (args,)
    return str(kind), more


def deep_values(path: Path, image: Any) -> np.ndarray | None:
    """The values [y, x, channel] of such an image, with all 16 bits, before it is loaded; None where Pillow does not give them.

    An alpha that stands for one transparent colour comes last, as one that the file has.
    """
    if image.format == "PPM":
        return _of_ppm(path.read_bytes())
    kinds = {kind for kind, _ in map(_told, image.tile)}
    if kinds == {"LA;16B"} and image.mode == "RGBA":
        both = _bytes(path, "RGBA")
        return np.stack([both[:, :, 0] << 8 | both[:, :, 1], both[:, :, 2] << 8 | both[:, :, 3]], 2)
    if len(kinds) != 1 or (kind := kinds.pop()) not in _LOWER:
        return None
    values = _bytes(path, kind) << 8 | _bytes(path, _LOWER[kind])
    clear = image.info.get("transparency")
    if isinstance(clear, tuple) and values.shape[2] == 3:
        alpha = np.where((values == np.array(clear, np.uint16)).all(2), 0, 65535).astype(np.uint16)
        values = np.concatenate([values, alpha[:, :, None]], 2)
    return values


def _bytes(path: Path, kind: str) -> np.ndarray:
    """The bytes that Pillow keeps of an image where it unpacks it in this way, as numbers with room for another byte."""
    from PIL import Image

    image: Any
    with Image.open(path) as image:
        image.tile = [(*tile[:3], kind) for tile in image.tile]
        return np.array(image).astype(np.uint16)


def _of_ppm(data: bytes) -> np.ndarray | None:
    """The values of a raw PPM of 16 bits; None where it is another or not whole."""
    head = _PPM.match(data)
    if head is None:
        return None
    width, height, _ = map(int, head.groups())
    if len(data) - head.end() < 6 * width * height:
        return None
    return np.frombuffer(data, ">u2", 3 * width * height, head.end()).reshape(height, width, 3).astype(np.uint16)


def on_white(values: np.ndarray) -> tuple[np.ndarray, bool]:
    """Values whose last channel is alpha without it, on white paper where they are transparent, and whether they are somewhere."""
    colours, alpha = values[:, :, :-1].astype(np.uint64), values[:, :, -1:].astype(np.uint64)
    mixed = (colours * alpha + 65535 * (65535 - alpha) + 32767) // 65535
    return mixed.astype(np.uint16), bool((alpha < 65535).any())
