"""What the definitions say of a small picture, found again by searches that share no method with the second reading.

They go over all points, and so before each event of a thinning.
Points are tuples, and sets of them have no bounds.
"""
import itertools

from secondreading.geometry import around, edge_steps, near_steps, plus, raster, side_steps, square
from secondreading.masks import thickness
from secondreading.thinning import is_marked

SIDES = ((0, -1), (1, 0), (0, 1), (-1, 0))


def framed_points(picture):
    return list(itertools.product(*(range(-1, n + 1) for n in picture.sides)))


def components(points, steps):
    """The components of a set of points, where those a step apart are adjacent."""
    left, found = set(points), []
    while left:
        part = [left.pop()]
        for p in part:
            for q in around(p, steps):
                if q in left:
                    left.remove(q)
                    part.append(q)
        found.append(part)
    return found


def squares(picture):
    """The least squared distance of each object point to the background."""
    dark = [q for q in framed_points(picture) if q not in picture.points]
    return {p: min(square(p, q) for q in dark) for p in picture.order}


def thicknesses(picture):
    """Of each object point the greatest square of a ball that holds it: the points that are nearer to an object point than the background."""
    least = squares(picture)
    return {p: max(s for c, s in least.items() if square(c, p) < s) for p in picture.order}


def counts(picture, points):
    """How many points there are, and the components of them and of their background in the framed box."""
    dark = [q for q in framed_points(picture) if q not in points]
    return len(points), len(components(points, near_steps(picture.axes))), len(components(dark, side_steps(picture.axes)))


def is_simple(points, p):
    axes = len(p)
    light = [q for q in around(p, near_steps(axes)) if q in points]
    dark = components([q for q in around(p, edge_steps(axes)) if q not in points], side_steps(axes))
    sides = set(around(p, side_steps(axes)))
    return len(components(light, near_steps(axes))) == 1 and sum(not sides.isdisjoint(part) for part in dark) == 1


def thinning(picture, rule):
    """The events of the thinning by a rule, and the points that it leaves."""
    least, left, marked, events = squares(picture), set(picture.points), set(), []
    while candidates := [p for p in left if p not in marked and is_simple(left, p)]:
        p = min(candidates, key=lambda p: (least[p], raster(p)))
        neighbours = sum(q in left for q in around(p, near_steps(picture.axes)))
        if is_marked(rule, neighbours, len(marked)):
            marked.add(p)
            events.append(("tip", p))
        else:
            left.remove(p)
            events.append(("del", p))
    return events, left


def successor(points, crack):
    """The crack that follows along the edge, with the object on the right."""
    pixel, side = crack
    a = plus(pixel, SIDES[(side + 1) % 4])
    b = plus(a, SIDES[side])
    if b in points:
        return b, (side + 3) % 4
    return (a, side) if a in points else (pixel, (side + 1) % 4)


def contours(picture):
    """The first crack and the points of each contour of a flat picture."""
    points, found, seen = picture.points, [], set()
    for crack in itertools.product(picture.order, range(4)):
        if plus(crack[0], SIDES[crack[1]]) in points or crack in seen:
            continue
        first, path = crack, []
        while crack not in seen:
            seen.add(crack)
            following = successor(points, crack)
            path += [crack[0]] if following[0] != crack[0] else []
            crack = following
        found.append((first, path or [first[0]]))
    return found


def agrees(picture, rules):
    """Whether all that the second reading finds of a picture is what the searches find."""
    same = picture.square == squares(picture) and picture.parts == counts(picture, picture.points)
    same = same and (picture.axes == 3 or picture.contours == contours(picture))
    same = same and dict(zip(picture.order, thickness(picture.squares)[picture.framed].tolist())) == thicknesses(picture)
    for rule in rules:
        events, left = thinning(picture, rule)
        told, _, told_counts = picture.thinning(rule)
        same = same and told == events and told_counts == counts(picture, left)
    return same
