"""Edge reports: arcs of corner paths on standard lines, and what bends or folds the runs of their gaps; each line by its claim."""
import itertools

from secondreading.cracks import Path
from secondreading.digital import refutes
from secondreading.geometry import minus
from secondreading.texts import COORDINATE, COUNT, LENGTH, LONG, SIDE, WEIGHT, Form, need, word

SIGNS = {"+": 1, "-": -1}
SIGN = word("+", "-")
HEADING = Form("edges", word("1"), LENGTH, LENGTH)
CYCLE = Form("cycle", COORDINATE, COORDINATE, SIDE, COUNT, COUNT)
ARC = Form("arc", COUNT, COUNT, SIGN, SIGN, WEIGHT, WEIGHT, LONG)
BEND = Form("bend", COUNT, COUNT)
FOLD = Form("fold", weights_of=2)


def read(picture, lines):
    """For each cycle its corners and the first and last places of its arcs."""
    _, *sides = lines.line(HEADING)
    need(tuple(sides) == picture.sides)
    told = [read_cycle(start, Path(corners), lines) for start, corners in picture.cycles]
    lines.exactly(b"end")
    return told


def read_cycle(start, path, lines):
    *pixel, side, n, m = lines.line(CYCLE)
    need((tuple(pixel), side) == start and n == len(path.points) and 1 <= m <= n)
    arcs = []
    for k in range(m):
        arcs.append(read_arc(path, arcs, k == m - 1, lines))
    for k in range(m):
        following = arcs[k + 1][0] if k + 1 < m else arcs[0][0] + n
        read_gap(path.run(following - 1, arcs[k][1] + 1), lines)
    return path.points, arcs


def read_arc(path, before, is_last, lines):
    """The next arc behind those before it."""
    n = len(path.points)
    b, e, h, v, a, c, mu = lines.line(ARC)
    need(b < n and b <= e < b + n)
    if before:
        need(b > before[-1][0] and e > before[-1][1])
    if before and is_last:
        need(e < before[0][1] + n)
    need(holds(path.run(b, e), SIGNS[h], SIGNS[v], a, c, mu))
    return b, e


def steps_of(run):
    return [(u - x, v - y) for (x, y), (u, v) in zip(run, run[1:])]


def holds(run, h, v, a, c, mu):
    """Whether a standard line holds a run of corners: each step is (h, 0) or (0, v), and mu <= a h x - c v y < mu + a + c."""
    values = [a * h * x - c * v * y for x, y in run]
    return a + c >= 1 and set(steps_of(run)) <= {(h, 0), (0, v)} and mu <= min(values) and max(values) < mu + a + c


def read_gap(run, lines):
    form, evidence = lines.either(BEND, FOLD)
    need(is_bent(run, *evidence) if form is BEND else is_folded(run, *evidence))


def is_bent(run, i, j):
    """Whether the steps of the run from two places on are opposite."""
    if max(i, j) + 1 >= len(run):
        return False
    one, other = (minus(run[k + 1], run[k]) for k in (i, j))
    return one == minus((0, 0), other)


def is_folded(run, why):
    """Whether the run goes by two steps, one across and one down, and weights refute its sheared points for the axis y."""
    for h, v in itertools.product((1, -1), repeat=2):
        if set(steps_of(run)) == {(h, 0), (0, v)}:
            sheared = [(h * x + v * y, v * y) for x, y in run]
            return refutes(1, [minus(p, sheared[0]) for p in sheared], why)
    return False
