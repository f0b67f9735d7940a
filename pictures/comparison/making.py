"""Random pictures and volumes of several kinds: noise, blobs, strips along lines and planes, balls with holes, and the full and the blank one."""
import itertools

from secondreading.geometry import plus, near_steps, square
from secondreading.picture import Picture

SHARES = (0.1, 0.3, 0.5, 0.5, 0.7, 0.9)


def noise(draw, box):
    share = draw.choice(SHARES)
    return {p for p in box if draw.random() < share}


def blobs(draw, box):
    """Noise of which each point goes with most of its neighbours."""
    points, steps = noise(draw, box), near_steps(len(box[0]))
    return {p for p in box if sum(plus(p, step) in points for step in steps) + (p in points) > len(steps) // 2}


def strip(draw, box):
    """The points between two parallel lines or planes, some of them taken away."""
    a = [draw.randint(-7, 7) for _ in box[0]]
    middle, width = draw.choice(box), draw.randint(1, 14)
    share = draw.choice((0, 0, 0.05, 0.3))
    away = [sum(c * (x - y) for c, x, y in zip(a, p, middle)) for p in box]
    return {p for p, d in zip(box, away) if 0 <= d < width and draw.random() >= share}


def ball(draw, box):
    """A ball, perhaps with a hole."""
    centre, radius = draw.choice(box), draw.randint(1, 50)
    hole = draw.choice((-1, -1, radius // 4))
    return {p for p in box if hole < square(p, centre) <= radius}


def full(draw, box):
    return set(box)


def blank(draw, box):
    return set()


WAYS = (noise, noise, noise, noise, blobs, blobs, strip, strip, strip, ball, ball, full, blank)
GREATEST = {2: 14, 3: 5}


def make(draw, axes, small):
    """A random picture of so many axes; a small one has short sides."""
    most = GREATEST[axes] // 2 if small else GREATEST[axes]
    sides = [draw.randint(1, most) for _ in range(axes)]
    box = list(itertools.product(*map(range, sides)))
    return Picture.of(sides, draw.choice(WAYS)(draw, box))
