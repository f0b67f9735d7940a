"""Pictures in files: a PBM, plain or raw, or the bytes of a volume, as docs/DEFINITIONS.md says."""
import re

import numpy as np

from secondreading.limits import MOST_BYTES, MOST_FLAT, MOST_SOLID
from secondreading.picture import Picture

GAP = rb"(?:[ \t\r\n]|#[^\r\n]*[\r\n])+"
PLAIN = re.compile(rb"P1" + GAP + rb"([0-9]+)" + GAP + rb"([0-9]+)" + GAP)
RAW = re.compile(rb"P4" + GAP + rb"([0-9]+)" + GAP + rb"([0-9]+)(?:#[^\r\n]*[\r\n])*[ \t\r\n]")


class NoPicture(Exception):
    """The bytes are no picture or no volume, or one that is too large; in words why."""


def picture_in(data, sides=()):
    """The picture in the bytes of a PBM, or where three sides are given the volume in raw bytes. NoPicture where there is none."""
    return volume_in(data, sides) if sides else flat_in(data[:MOST_BYTES])


def checked(sides, most):
    """The sides, none of them 0 or too large."""
    if not all(1 <= side <= most for side in sides):
        raise NoPicture("a side is 0, or is too large: %s" % " ".join(map(str, sides)))
    return sides


def flat_in(data):
    """The picture in a PBM: what stands behind its last pixel is not looked at."""
    plain, raw = PLAIN.match(data), RAW.match(data)
    if not plain and not raw:
        raise NoPicture("not a PBM")
    head = plain or raw
    width, height = checked(tuple(map(int, head.groups())), MOST_FLAT)
    return Picture((plain_pixels if plain else raw_pixels)(data[head.end() :], width, height))


def plain_pixels(data, width, height):
    """The digits 0 and 1, row by row from the top, with white space anywhere between them."""
    digits = np.frombuffer(data.translate(None, b" \t\r\n")[: width * height], np.uint8) - ord("0")
    if len(digits) < width * height or (digits > 1).any():
        raise NoPicture("the picture ends early, or has a pixel that is neither 0 nor 1")
    return digits.reshape(height, width) == 1


def raw_pixels(data, width, height):
    """Rows from the top, each of as many bytes as hold its pixels, one bit for each from the highest on."""
    wide = (width + 7) // 8
    if len(data) < wide * height:
        raise NoPicture("the picture ends early")
    return np.unpackbits(np.frombuffer(data, np.uint8, wide * height).reshape(height, wide), axis=1, count=width) == 1


def volume_in(data, sides):
    """The volume in as many bytes as it has voxels, x fastest: 0 is background, every other byte object."""
    x, y, z = checked(sides, MOST_SOLID)
    if len(data) != x * y * z:
        raise NoPicture("the volume has %d bytes, and its sides want %d" % (len(data), x * y * z))
    return Picture(np.frombuffer(data, np.uint8).reshape(z, y, x) != 0)
