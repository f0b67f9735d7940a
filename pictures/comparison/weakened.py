"""Other evidence in the place of a line's own: weaker, as weak, or right as well. Each function takes the words of a line and gives others.

What is right is not decided here: the readings of the reports do.
"""
from secondreading.geometry import square

from comparison.searches import framed_points

GREATEST = 2**63 - 1
STEPS = ("up", "up+x", "up-x", "up+y", "up-y", "up+z", "up-z")


def whole(words):
    return [int(word) for word in words]


def spelled(*values):
    return [str(value) for value in values]


# ---- weights


def read_weights(words):
    """The low, the high and the step entries of the words of weights, each a weight and a word."""
    words, lists = list(words), []
    for _ in range(3):
        count = int(words.pop(0))
        lists.append([(int(words.pop(0)), words.pop(0)) for _ in range(count)])
    return lists


def spell_weights(lists):
    return [word for entries in lists for word in spelled(len(entries), *(part for entry in entries for part in entry))]


def some_entry(draw, lists):
    """The list of an entry and its place in it."""
    return draw.choice([(k, j) for k, entries in enumerate(lists) for j in range(len(entries))])


def weight_changed(draw, lists):
    k, j = some_entry(draw, lists)
    w, name = lists[k][j]
    lists[k][j] = (w + draw.choice((-1, 1, -w, GREATEST - w)), name)


def place_changed(draw, lists):
    k, j = some_entry(draw, lists)
    w, name = lists[k][j]
    lists[k][j] = (w, draw.choice(STEPS) if k == 2 else str(int(name) + draw.choice((-1, 1))))


def entry_dropped(draw, lists):
    k, j = some_entry(draw, lists)
    del lists[k][j]


def entry_split(draw, lists):
    k, j = some_entry(draw, lists)
    w, name = lists[k][j]
    part = draw.randint(0, w)
    lists[k][j : j + 1] = [(part, name), (w - part, name)]


def entries_scaled(draw, lists):
    """All weights times the same number, up to the greatest that there are, and past it."""
    most = max(w for entries in lists for w, _ in entries)
    times = draw.choice((0, 2, 3, 10**6, GREATEST // max(most, 1), GREATEST // max(most, 1) + 1))
    lists[:] = [[(w * times, name) for w, name in entries] for entries in lists]


def entries_turned(draw, lists):
    for entries in lists:
        entries.reverse()


def sides_exchanged(draw, lists):
    lists[0], lists[1] = lists[1], lists[0]


def nothing_left(draw, lists):
    lists[:] = [[], [], []]


WEIGHT_CHANGES = (
    weight_changed, weight_changed, place_changed, place_changed, entry_dropped, entry_split, entry_split, entries_scaled, entries_scaled, entries_turned,
    sides_exchanged, nothing_left,
)


def other_weights(draw, words):
    lists = read_weights(words)
    draw.choice(WEIGHT_CHANGES)(draw, lists)
    return spell_weights(lists)


# ---- lines and planes


def other_line(draw, words, coefficients):
    """Other numbers of a line or plane: the coefficients at these places, with the bound behind them."""
    numbers = whole(words)
    way = draw.randrange(4)
    if way == 0:
        k = draw.randrange(len(numbers))
        numbers[k] += draw.choice((-1, 1))
    elif way == 1:
        most = max(1, *(abs(x) for x in numbers))
        times = draw.choice((2, 3, 10**6, GREATEST // most, GREATEST // most + 1))
        numbers = [x * times for x in numbers]
    elif way == 2:
        k = draw.randrange(coefficients)
        numbers[k] = -numbers[k]
    else:
        j, k = draw.randrange(coefficients), draw.randrange(coefficients)
        numbers[j], numbers[k] = numbers[k], numbers[j]
    return spelled(*numbers)


def line_on(draw, t, run):
    """The coefficients and the bound of a line of the axis that holds a run and may not be proper, where a few tries find one."""
    for _ in range(40):
        a = [draw.randint(-6, 6), draw.randint(-6, 6)]
        values = [a[0] * x + a[1] * y for x, y in run]
        if values and max(values) - min(values) < a[t]:
            return spelled(*a, min(values))
    return None


def other_stretch(draw, words, n):
    """A first and a last place on a path of n points, one of them moved, both a round on, or the last before the first."""
    b, e = whole(words)
    moved = ((b + 1, e), (b - 1, e), (b, e + 1), (b, e - 1), (b + 1, e + 1), (b + n, e + n), (b, e + n), (b, b - 1), (b, b))
    return spelled(*((b, e + 1) if draw.random() < 0.4 else draw.choice(moved)))


def other_count(draw, words):
    """A number of points or cracks, and how many lines come of them, one of these another."""
    n, m = whole(words)
    return spelled(*draw.choice(((n + 1, m), (n - 1, m), (n, m + 1), (n, m - 1), (n, 0), (n, n), (n, n + 1))))


def other_places(draw, words):
    """Places in another order, or one of them another."""
    places = whole(words)
    if draw.random() < 0.6:
        draw.shuffle(places)
    else:
        places[draw.randrange(len(places))] = draw.randint(0, max(places) + 1)
    return spelled(*places)


# ---- points


def other_near(draw, picture, words):
    """The point, another point beside it and a squared distance: one of the background or of the object, as near or further away."""
    axes = picture.axes
    p = tuple(whole(words[:axes]))
    as_near = [q for q in framed_points(picture) if square(p, q) == picture.square.get(p, 1)]
    q = draw.choice(as_near or framed_points(picture) if draw.random() < 0.6 else framed_points(picture))
    return spelled(*p, *q, draw.choice((square(p, q), picture.square.get(p, 1))))


def other_point(draw, words):
    """A neighbour of the point, or one far away."""
    p = whole(words)
    k = draw.randrange(len(p))
    p[k] += draw.choice((-1, 1, -1, 1, 2**31, -(2**31)))
    return spelled(*p)


def points_of_ball(picture, words):
    axes = picture.axes
    centre, s = tuple(whole(words[:axes])), int(words[2 * axes])
    return [p for p in framed_points(picture) if square(centre, p) < s]


def other_own(draw, picture, lines, words):
    """Another own point of a ball, mostly one in the ball, and in another ball too where there is one."""
    inside = points_of_ball(picture, words)
    others = [line.split(" ")[1:] for line in lines if line.startswith("ball ")]
    shared = [p for p in inside if any(p in points_of_ball(picture, other) for other in others if other != words)]
    return spelled(*draw.choice((shared or inside) if draw.random() < 0.8 else framed_points(picture)))


# ---- lines of reports


def path_of(picture, lines, place):
    """The points or corners of the contour, chain or cycle that the line at a place belongs to."""
    paths = picture.cycles if lines[0].startswith("edges") else picture.contours
    k = sum(line.split(" ")[0] in ("contour", "chain", "cycle") for line in lines[: place + 1])
    return paths[k - 1][1]


def other_segment(draw, path, words):
    """The words of a `seg` or `piece` line with another stretch, or with another line, which mostly holds it."""
    b, e = whole(words[:2])
    t = "xy".index(words[2])
    way = draw.randrange(3)
    if way == 0:
        return other_stretch(draw, words[:2], len(path)) + words[2:]
    held = line_on(draw, t, [path[k % len(path)] for k in range(b, e + 1)]) if way == 1 else None
    return words[:3] + (held or other_line(draw, words[3:], 2))


def arc_on(draw, run):
    """The signs, coefficients and bound of a line on which the corners of a run lie, but perhaps not its steps, where a few tries find one."""
    for _ in range(40):
        signs, a, c = draw.choice(("++", "+-", "-+", "--")), draw.randint(0, 4), draw.randint(0, 4)
        values = [a * int(signs[0] + "1") * x - c * int(signs[1] + "1") * y for x, y in run]
        if values and max(values) - min(values) < a + c:
            return list(signs) + spelled(a, c, min(values))
    return None


def other_arc(draw, path, words):
    """The words of an `arc` line with another stretch, with another sign, or with another line, on which its corners may lie."""
    way = draw.randrange(4)
    b, e = whole(words[:2])
    if way == 3:
        return words[:2] + (arc_on(draw, [path[k % len(path)] for k in range(b, e + 1)]) or words[2:])
    if way == 0:
        return other_stretch(draw, words[:2], len(path)) + words[2:]
    if way == 1:
        signs = draw.choice(("++", "+-", "-+", "--"))
        return words[:2] + list(signs) + words[4:]
    return words[:4] + other_line(draw, words[4:], 2)


def other_ball(draw, picture, lines, words):
    """The words of a `ball` line with another nearest point, with another own point, or of a ball round any point."""
    k, way = 2 * picture.axes + 1, draw.randrange(5)
    if way <= 1:
        return other_near(draw, picture, words[:k]) + words[k:]
    if way <= 3:
        return words[:k] + other_own(draw, picture, lines, words)
    p, q = draw.choice(framed_points(picture)), draw.choice(framed_points(picture))
    return spelled(*p, *q, square(p, q), *p)


def other_evidence(draw, picture, lines, place):
    """The line at a place with other evidence; none where it has no evidence of its own."""
    first, *words = lines[place].split(" ")
    if first in ("cut", "off", "fold"):
        k = {"cut": 1, "off": 3, "fold": 0}[first]
        words[k:] = other_weights(draw, words[k:])
    elif first in ("seg", "piece"):
        words = other_segment(draw, path_of(picture, lines, place), words)
    elif first == "arc":
        words = other_arc(draw, path_of(picture, lines, place), words)
    elif first in ("contour", "chain", "cycle"):
        words[3:] = other_count(draw, words[3:])
    elif first == "patch":
        words[1:] = other_line(draw, words[1:], 3)
    elif first == "least":
        words = other_places(draw, words)
    elif first in ("turn", "bend"):
        words[-2:] = other_places(draw, words[-2:])
    elif first == "near":
        words = other_near(draw, picture, words)
    elif first == "ball":
        words = other_ball(draw, picture, lines, words)
    elif first in ("at", "on", "del", "tip"):
        words = other_point(draw, words)
    else:
        return None
    return " ".join([first] + words)
