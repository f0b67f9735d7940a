"""Naive lines and planes: which points they hold, what shows that none holds all points of a list, and which line is least.

The axis t of a line or plane is told as 0, 1 or 2. Nothing here is read off a text.
"""
from secondreading.geometry import minus, plus, unit


def is_proper(t, a):
    """Whether the coefficient of the axis is at least 1 and no other is greater in size."""
    return a[t] >= 1 and max(map(abs, a)) <= a[t]


def holds(t, a, mu, points):
    """Whether the naive line or plane of the axis t holds all these points: mu <= a.p < mu + a_t."""
    if len(a) == 2:
        b, c = a
        values = [b * x + c * y for x, y in points]
    else:
        b, c, d = a
        values = [b * x + c * y + d * z for x, y, z in points]
    return mu <= min(values) and max(values) < mu + a[t]


# ---- runs of the plane


def changes(t, run):
    """By how much the other coordinate changes along a run, from each point to the next."""
    across = [p[1 - t] for p in run]
    return [d - c for c, d in zip(across, across[1:])]


def keeps_sense(t, run):
    """Whether the other coordinate changes by 1 each time, or by -1 each time."""
    return set(changes(t, run)) in (set(), {1}, {-1})


def turns(t, run, i, j):
    """Whether the other coordinate changes neither by 1 both times nor by -1 both times, at two places of changes of the run."""
    if max(i, j) + 1 >= len(run):
        return False
    steps = [run[k + 1][1 - t] - run[k][1 - t] for k in (i, j)]
    return steps not in ([1, 1], [-1, -1])


def shows_least(t, main, pairs):
    """Whether no proper row of the axis with a smaller main coefficient rises by less than that from the first to the second point of each pair.

    The slopes that do lie between fractions whose denominators are differences of coordinates. So where there is one, so there is with a main coefficient of
    at most twice the greatest difference, and the search ends.
    """
    steps = [minus(q, p) for p, q in pairs]
    most = 2 * max(abs(c) for step in steps for c in step) + 1
    return not any(has_row(t, smaller, steps) for smaller in range(1, min(main, most + 1)))


def has_row(t, main, steps):
    """Whether some proper row with this main coefficient rises by less than that along each step: which other coefficients do, is bounded from both sides."""
    least, most = -main, main
    for step in steps:
        across, room = step[1 - t], main - 1 - main * step[t]
        if across > 0:
            most = min(most, room // across)
        elif across < 0:
            least = max(least, -(room // -across))
        elif room < 0:
            return False
    return least <= most


# ---- weights


def step_of(t, word, axes):
    """The step along the axis t that a word names, which also goes along another axis; None where it would name t itself."""
    if word == "up":
        return unit(t, axes)
    u = "xyz".index(word[3])
    other = tuple(int(word[2] + "1") * c for c in unit(u, axes))
    return None if u == t else plus(unit(t, axes), other)


def refutes(t, points, why):
    """Whether weights refute the points for the axis t: so no naive line or plane of the axis holds all of them.

    There are as many low as high points, and one at least; and the low ones with the steps add up to the high ones, each one step back along the axis.
    """
    low, high, words = why
    if any(place >= len(points) for _, place in low) or any(place >= len(points) for _, place in high):
        return False
    axes, many = len(points[0]), sum([w for w, _ in high])
    steps = [(w, step_of(t, word, axes)) for w, word in words]
    if many < 1 or sum([w for w, _ in low]) != many or any(step is None for _, step in steps):
        return False
    lows, highs = [(w, points[i]) for w, i in low] + steps, [(w, points[i]) for w, i in high]
    return all(sum([w * p[k] for w, p in lows]) == sum([w * p[k] for w, p in highs]) - (many if k == t else 0) for k in range(axes))
