"""Analyses, line by line in their order, each by its claim.

`read` takes the lines of a report of the picture and gives what it tells: of contours or faces. What these sections claim stands in `contours` and `faces`.
"""
from collections import namedtuple

from secondreading import contours, faces
from secondreading.geometry import square
from secondreading.texts import COORDINATE, LENGTH, WEIGHT, Form, need, word
from secondreading.thinning import RULES

HEADINGS = {
    2: Form("shape", word("1", "2"), word("pbm"), LENGTH, LENGTH, word(*RULES)),
    3: Form("shape", word("1"), word("raw"), LENGTH, LENGTH, LENGTH, word(*RULES)),
}
NEAR = {axes: Form("near", *[COORDINATE] * (2 * axes), WEIGHT) for axes in (2, 3)}


class Told(namedtuple("Told", "version rule sections")):
    """What an analysis tells: its number, its rule, and its contours or patches."""

    @property
    def contours(self):
        """The contours of a flat picture with a least line of each segment; None where the report tells no such lines."""
        return self.sections if self.version == 2 else None


def read(picture, lines):
    version, _, *sides, rule = lines.line(HEADINGS[picture.axes])
    need(tuple(sides) == picture.sides)
    lines.exactly(b"parts %d %d %d" % picture.parts)
    read_nears(picture, lines)
    sections = contours.read(picture, int(version), lines) if picture.axes == 2 else faces.read(picture, lines)
    read_thinning(picture, rule, lines)
    lines.exactly(b"end")
    return Told(int(version), rule, sections)


def read_nears(picture, lines):
    """The next object point in raster order, a background point, and their squared distance, which is the least of the object point."""
    axes, form, points = picture.axes, NEAR[picture.axes], picture.points
    for p, least in picture.square.items():
        values = lines.line(form)
        near = tuple(values[axes:-1])
        need(tuple(values[:axes]) == p and near not in points and values[-1] == least == square(p, near))


def read_thinning(picture, rule, lines):
    """The events of the one thinning that there is by the rule, and the counts of what it leaves."""
    events, _, counts = picture.thinning(rule)
    spelled = b"%s" + b" %d" * picture.axes
    for event, p in events:
        lines.exactly(spelled % (event.encode(), *p))
    lines.exactly(b"kept %d %d %d" % counts)
