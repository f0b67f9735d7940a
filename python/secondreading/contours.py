"""The lines of contours in analyses: points, segments with their lines, what shows these to be least, and gaps; each by its claim."""
from collections import namedtuple

from secondreading.cracks import Path
from secondreading.digital import holds, is_proper, keeps_sense, refutes, shows_least, turns
from secondreading.texts import COORDINATE, COUNT, LONG, SIDE, Form, letter, need

Contour = namedtuple("Contour", "start path segments gaps")
Segment = namedtuple("Segment", "first last axis row is_least")
Gap = namedtuple("Gap", "axis run")

AXIS = letter("xy")
CONTOUR = Form("contour", COORDINATE, COORDINATE, SIDE, COUNT, COUNT)
SEG = Form("seg", COUNT, COUNT, AXIS, LONG, LONG, LONG)
LEAST = Form("least", COUNT, COUNT, COUNT, COUNT)
TURN = Form("turn", AXIS, COUNT, COUNT)
CUT = Form("cut", AXIS, weights_of=2)


def read(picture, version, lines):
    """For each contour its first crack and its points, the segments told, and the runs that are refused."""
    return [read_contour(start, Path(points), version, lines) for start, points in picture.contours]


def read_contour(start, path, version, lines):
    *pixel, side, n, m = lines.line(CONTOUR)
    need((tuple(pixel), side) == start and n == len(path.points) and 1 <= m <= n)
    for p in path.points:
        lines.exactly(b"at %d %d" % p)
    segments = []
    for k in range(m):
        segments.append(read_segment(path, segments, k == m - 1, version, lines))
    gaps = [read_gap(axis, gap_run(path, segments, k), lines) for k in range(m) for axis in (0, 1)]
    return Contour(start, path, segments, gaps)


def read_segment(path, before, is_last, version, lines):
    """The next segment behind those before it, with its `least` line in a report with the number 2."""
    n = len(path.points)
    b, e, t, *a, mu = lines.line(SEG)
    need(b < n and b <= e < b + n)
    if before:
        need(b > before[-1].first and e > before[-1].last)
    if before and is_last:
        need(e < before[0].last + n)
    run = path.run(b, e)
    need(is_proper(t, a) and holds(t, a, mu, run) and keeps_sense(t, run))
    if version == 2:
        read_least(t, a[t], run, lines)
    return Segment(b, e, t, tuple(a), version == 2)


def read_least(t, main, run, lines):
    """Four places of the segment, which show that no line of the axis with a smaller main coefficient holds it."""
    places = lines.line(LEAST)
    need(max(places) < len(run))
    low, high, lower, higher = (run[place] for place in places)
    need(shows_least(t, main, [(low, high), (lower, higher)]))


def gap_run(path, segments, k):
    """From the place before the next segment's first to the place after this one's last; behind the last comes the first again."""
    following = segments[k + 1].first if k + 1 < len(segments) else segments[0].first + len(path.points)
    return path.run(following - 1, segments[k].last + 1)


def read_gap(axis, run, lines):
    """A line that refuses a run for an axis, as the lines of gaps and those behind pieces do."""
    form, (t, *evidence) = lines.either(TURN, CUT)
    need(t == axis and run)
    need(turns(axis, run, *evidence) if form is TURN else refutes(axis, run, *evidence))
    return Gap(axis, run)
