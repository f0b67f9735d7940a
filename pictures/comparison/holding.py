"""Forged analyses that still hold: in the place of each choice of the analyser another one that is right as well.

Other nearest points, lines, planes, places and weights, and another order where there is a choice of it.
With the number 1 a segment has any line that holds it.
"""
import itertools
from math import isqrt

from secondreading.digital import holds, shows_least, turns
from secondreading.geometry import minus, raster, square, touches

from comparison.weakened import read_weights, spell_weights, spelled, whole

GREATEST = 2**63 - 1


def forged(draw, picture, lines, version):
    """The lines of a report with other choices throughout, and with the number 1 or 2 in a report of a flat picture."""
    lines = [line.split(" ") for line in lines]
    if picture.axes == 2:
        lines[0][1] = str(version)
        lines = [words for words in lines if version == 2 or words[0] != "least"]
    changed = [other_near(draw, picture, words) if words[0] == "near" else words for words in lines]
    changed = contours(draw, changed, version) if picture.axes == 2 else faces(draw, changed)
    return [" ".join(words) for words in changed]


def other_near(draw, picture, words):
    """Another nearest background point, as far away."""
    axes = picture.axes
    p, s = tuple(whole(words[1 : axes + 1])), int(words[-1])
    around = itertools.product(*(range(c - isqrt(s), c + isqrt(s) + 1) for c in p))
    as_near = [q for q in around if square(p, q) == s and q not in picture.points]
    return ["near"] + spelled(*p, *draw.choice(as_near), s)


# ---- contours


def contours(draw, lines, version):
    """The lines of contours: of each its points, then its segments with their `least` lines, then its gaps."""
    points, segments, gap, made = [], [], 0, []
    for k, words in enumerate(lines):
        if words[0] == "contour":
            points, segments, gap = [], [], 0
        elif words[0] == "at":
            points.append(tuple(whole(words[1:])))
        elif words[0] == "seg":
            segments.append(whole(words[1:3]))
            run = [points[i % len(points)] for i in range(segments[-1][0], segments[-1][1] + 1)]
            words = words[:3] + (any_line(draw, run, words[3:]) if version == 1 else least_line(draw, run, words[3:]))
            t, main = "xy".index(words[3]), max(int(words[4]), int(words[5]))
        elif words[0] == "least":
            words = ["least"] + other_places(draw, t, main, run, words[1:])
        elif words[0] in ("turn", "cut"):
            words = other_gap(draw, words, gap_run(points, segments, gap // 2))
            gap += 1
        made.append(words)
    return made


def gap_run(points, segments, k):
    following = segments[k + 1][0] if k + 1 < len(segments) else segments[0][0] + len(points)
    return [points[i % len(points)] for i in range(following - 1, segments[k][1] + 2)]


def axes_of(run, t):
    """The axes for which a straight run is straight: both where it goes along a diagonal, or is a point."""
    is_diagonal = all(0 not in minus(q, p) for p, q in zip(run, run[1:]))
    return (0, 1) if is_diagonal else (t,)


def bounds(t, main, run):
    """The least and the greatest other coefficient of the lines with this main one that hold a run."""
    least, most = -main, main
    for p, q in itertools.permutations(run, 2):
        step = minus(q, p)
        room = main - 1 - main * step[t]
        if step[1 - t] > 0:
            most = min(most, room // step[1 - t])
        elif step[1 - t] < 0:
            least = max(least, -(room // -step[1 - t]))
    return least, most


def line_words(draw, t, main, other, run):
    """The words of a line with these coefficients, with any bound that it may have."""
    a = (main, other) if t == 0 else (other, main)
    values = [a[0] * x + a[1] * y for x, y in run]
    return spelled("xy"[t], *a, draw.randint(max(values) - main + 1, min(values)))


def any_line(draw, run, words):
    """A line that holds a run, of which its slope and the size of its coefficients are free; the given one where a few tries find none that does."""
    t = draw.choice(axes_of(run, "xy".index(words[0])))
    for _ in range(20):
        main = draw.randint(1, draw.choice((3, 10, 100, 2**23, 2**24, 2**50)))
        least, most = bounds(t, main, run)
        if least <= most:
            return line_words(draw, t, main, draw.choice((least, most, draw.randint(least, most))), run)
    times = draw.choice((1, 2, 2**24, 2**40))
    return words[:1] + spelled(*(times * n for n in whole(words[1:])))


def least_line(draw, run, words):
    """A least line of a run: for another axis where it may be, and with another bound; of one point any of those with the main coefficient 1."""
    given = "xy".index(words[0])
    t, main = draw.choice(axes_of(run, given)), int(words[1 + given])
    least, most = bounds(t, main, run)
    return line_words(draw, t, main, draw.randint(least, most), run)


def other_places(draw, t, main, run, words):
    """Places of a `least` line in another order, or other ones that show as much."""
    for _ in range(20):
        places = [draw.randrange(len(run)) for _ in range(4)]
        low, high, lower, higher = (run[place] for place in places)
        if shows_least(t, main, [(low, high), (lower, higher)]):
            return spelled(*places)
    return words[2:] + words[:2] if main == 1 or draw.random() < 0.5 else words


def other_gap(draw, words, run):
    """Other evidence of the same kind."""
    t = "xy".index(words[1])
    if words[0] == "cut":
        return words[:2] + other_weights(draw, words[2:])
    pairs = [(i, j) for i, j in itertools.product(range(len(run) - 1), repeat=2) if turns(t, run, i, j)]
    return words[:2] + spelled(*draw.choice(pairs))


def other_weights(draw, words, places=None):
    """The weights times one number, with their entries in another order, some of them split; and each place another one where `places` says so."""
    lists = read_weights(words)
    times = draw.choice((1, 1, 2, 1000, GREATEST // max(w for entries in lists for w, _ in entries)))
    for k, entries in enumerate(lists):
        lists[k] = [(w * times, name if k == 2 or places is None else str(places[int(name)])) for w, name in entries]
        if len(entries) in (1, 2, 3) and draw.random() < 0.3:
            w, name = lists[k].pop()
            part = draw.randint(0, w)
            lists[k] += [(part, name), (w - part, name)]
        draw.shuffle(lists[k])
    return spell_weights(lists)


# ---- faces


def faces(draw, lines):
    """The lines of faces: each patch with another plane, its points in another order, and its `off` lines by the places that these have then."""
    made, k, t = [], 0, 0
    while k < len(lines):
        if lines[k][0] == "face":
            t = "xyz".index(lines[k][1])
        if lines[k][0] != "patch":
            made.append(lines[k])
            k += 1
            continue
        size = int(lines[k][1])
        points = [tuple(whole(words[1:])) for words in lines[k + 1 : k + 1 + size]]
        order = other_order(draw, points)
        made.append(["patch", lines[k][1]] + other_plane(draw, t, points, lines[k][2:]))
        made += [["on"] + spelled(*points[j]) for j in order]
        places = {j: place for place, j in enumerate(order)} | {size: size}
        k += 1 + size
        while lines[k][0] == "off":
            made.append(lines[k][:4] + other_weights(draw, lines[k][4:], places))
            k += 1
    return made


def other_order(draw, points):
    """The places of a patch's points in another order, from the first one on, each beside an earlier one."""
    order, left = [points.index(min(points, key=raster))], set(range(len(points)))
    left.discard(order[0])
    while left:
        order.append(draw.choice([j for j in sorted(left) if any(touches(points[j], points[i]) for i in order)]))
        left.discard(order[-1])
    return order


def other_plane(draw, t, points, words):
    """Another plane that holds the points: the given one turned and made greater where a few tries find one, or else made greater alone."""
    *a, _ = whole(words)
    for times in draw.sample((1, 2, 3, 5, 10, 100, 2**24), 5):
        for _ in range(5):
            b = [c * times + draw.randint(-max(1, times // 3), max(1, times // 3)) for c in a]
            if b[t] < 1 or max(map(abs, b)) > b[t]:
                continue
            values = [sum(c * x for c, x in zip(b, p)) for p in points]
            if max(values) - min(values) < b[t]:
                mu = draw.randint(max(values) - b[t] + 1, min(values))
                assert holds(t, b, mu, points)
                return spelled(*b, mu)
    return words
