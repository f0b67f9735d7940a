"""The channels of an image: the one that the user names, the only one that has values, or red, green and blue made grey. It is told which."""
from __future__ import annotations

import numpy as np

from .choices import CHANNELS as NAMES
from .faults import Fault

GREYED = "colours made grey"

# How much of red, green and blue is in grey (ITU-R 601), in parts of 65536.
_SHARES = (19595, 38470, 7471)


def grey_of(name: str, bands: np.ndarray, is_colour: bool, channel: str | None) -> tuple[np.ndarray, tuple[str, ...]]:
    """One value a pixel out of several, indexed [y, x, channel], and in words how.

    `is_colour` tells that the first three channels are red, green and blue. `channel` is one of `NAMES` or a number from 1 on; None
    takes the only channel that has values, or makes colours grey.

    A Fault where there is no such channel, or none is named of several that are no colours.
    """
    count = bands.shape[2]
    if channel is not None and count == 1 and channel in NAMES:
        return bands[:, :, 0], (f"its one channel taken, as it has no {channel} one",)
    if channel is not None:
        k = _place(name, channel, count, is_colour)
        return bands[:, :, k], (f"its {_told(k, is_colour)} of {count}: the others are not used",) if count > 1 else ()
    used = bands[:, :, :3] if is_colour else bands
    unused = (f"its {_told(3, is_colour)} is not used",) if is_colour and count > 3 else ()
    if all(np.array_equal(used[:, :, 0], used[:, :, k]) for k in range(1, used.shape[2])):
        return used[:, :, 0], unused
    filled = [k for k in range(used.shape[2]) if used[:, :, k].any()]
    if len(filled) == 1:
        return used[:, :, filled[0]], (f"its {_told(filled[0], is_colour)} alone has values: it is taken", *unused)
    if not is_colour:
        raise Fault(name, f"it has {count} channels", f"choose one: --channel 1 to --channel {count}")
    return luminance(used), (GREYED, *unused)


def _place(name: str, channel: str, count: int, is_colour: bool) -> int:
    """Which of so many channels is meant, from 0 on."""
    names = NAMES[:count] if is_colour else ()
    k = names.index(channel) if channel in names else int(channel) - 1 if channel.isdigit() else -1
    if not 0 <= k < count:
        told = f"{', '.join(names)}, or 1 to {count}" if names else f"1 to {count}" if count > 1 else "it has one alone, so leave out --channel"
        raise Fault(name, f"it has no channel {channel}", told)
    return k


def _told(k: int, is_colour: bool) -> str:
    return f"{NAMES[k]} channel" if is_colour and k < len(NAMES) else f"channel {k + 1}"


def luminance(colours: np.ndarray) -> np.ndarray:
    """The grey values of red, green and blue [y, x, 3]: whole numbers of up to 16 bits as such, rounded, and others as they come."""
    if colours.dtype not in (np.uint8, np.uint16):
        return colours.astype(np.float64) @ np.array(_SHARES) / 65536
    grey = np.full(colours.shape[:2], 1 << 15, np.uint32)
    for k, share in enumerate(_SHARES):
        grey += colours[:, :, k].astype(np.uint32) * np.uint32(share)
    return (grey >> 16).astype(colours.dtype)
