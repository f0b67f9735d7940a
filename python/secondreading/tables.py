"""The table of `shape measure` by plain code: what each column is of each object, word for word from docs/USING.md and docs/MEASURING.md.

All is found from the picture and its thinning, but the lengths of borders: these go by the least lines of segments, which `borders` takes.
"""
from functools import cached_property
from math import isqrt

import numpy as np

from secondreading import parts, shapes
from secondreading.borders import UNIT, borders
from secondreading.geometry import near_steps, side_steps

FLAT = (
    "object,area,left,top,right,bottom,x,y,radius,cx,cy,skeleton,ends,junctions,touches,holes,border,hole_border,feret,from_x,from_y,to_x,to_y"
    ",euler,convex_area,convex_perimeter,min_feret,side_x,side_y,solidity,circularity"
)
SOLID = (
    "object,voxels,x0,y0,z0,x1,y1,z1,x,y,z,radius,cx,cy,cz,skeleton,ends,junctions,touches,sides,euler,surface"
)
SOLID_FERET = ",feret,from_x,from_y,from_z,to_x,to_y,to_z"
MOMENTS = {
    2: ",sum_x,sum_y,sum_xx,sum_xy,sum_yy,major,minor,axis_x,axis_y",
    3: ",sum_x,sum_y,sum_z,sum_xx,sum_xy,sum_yy,sum_xz,sum_yz,sum_zz",
}
THICKNESS = ",thickness,thickness_sd,thickness_max"
GROUPS = ((), ("moments",), ("thickness",), ("moments", "thickness"))


def table(picture, rule, contours, groups=(), spacing=None):
    """The text of the table of a report by a rule, with some groups of columns.

    `contours` are those of a flat picture with the least lines of their segments, and None where a report does not tell these:
    then the cells of lengths of borders, and what goes by them, are empty. Of a volume a `spacing`, the sides of a voxel, may be
    asked for: then surfaces, volumes and Feret diameters go by it, and the cells of distances are empty.
    """
    header = FLAT if picture.axes == 2 else SOLID + (",volume" if spacing else "") + SOLID_FERET
    if "moments" in groups:
        header += MOMENTS[picture.axes]
    if "thickness" in groups:
        header += THICKNESS
    objects = Objects(picture, rule, contours, spacing)
    rows = [[k + 1] + row(objects, part) + further(objects, part, groups) for k, part in enumerate(objects.each())]
    return "".join(text + "\n" for text in [header] + [",".join(map(str, cells)) for cells in rows]).encode()


def groups_of(text):
    """The groups of columns that a table has."""
    header = text.split(b"\n", 1)[0]
    return tuple(word for word, last in (("moments", b"sum_x"), ("thickness", b"thickness")) if last in header.split(b","))


class Objects:
    """The connected objects of a picture, by their first points in raster order; and of all points what the columns sum up."""

    def __init__(self, picture, rule, contours, spacing):
        self.spacing = spacing
        self.picture, self.points = picture, np.array(picture.order, int).reshape(-1, picture.axes)
        left = picture.thinning(rule)[1]
        self.squares = picture.squares[picture.framed]
        self.is_left = left[picture.framed]
        self.near = beside(left, near_steps(picture.axes))[picture.framed]
        self.sides = 2 * picture.axes - beside(picture.framed, side_steps(picture.axes))[picture.framed]
        self.borders = borders(contours) if contours is not None else None

    @cached_property
    def thicknesses(self):
        """The squared radius of the greatest ball of the object that holds it, of each point."""
        return shapes.thicknesses(self.picture)[self.picture.framed]

    def each(self):
        """Of each object the places of its points in raster order."""
        numbers = parts.components(self.picture.framed, near_steps(self.picture.axes))
        places = np.argsort(numbers, kind="stable")
        return np.split(places, np.flatnonzero(np.diff(numbers[places])) + 1) if len(places) else []


def beside(framed, steps):
    """Of each point of a framed picture how many of the points at these steps are in a set, which has no point of the frame."""
    return sum(np.roll(framed, step[::-1], range(framed.ndim)).astype(int) for step in steps)


def row(objects, part):
    """The cells of an object, but those of the groups."""
    points = objects.points[part]
    deep = [""] * 4 if objects.spacing else depth(points, objects.squares[part])
    cells = place(points) + deep + skeleton(objects.near[part][objects.is_left[part]])
    cells.append(int((points == 0).any() or (points == np.array(objects.picture.sides) - 1).any()))
    if objects.picture.axes == 3:
        return cells + [objects.sides[part].sum(), shapes.euler(points, 3)] + surface(points, objects.spacing) + feret(points, objects.spacing)
    borders_told = lengths(objects.borders, points)
    return cells + [hole_count(points)] + borders_told + feret(points) + [shapes.euler(points, 2)] + hull(points) + [circularity(len(points), borders_told[0])]


def further(objects, part, groups):
    """The cells of the groups that are asked for."""
    points, cells = objects.points[part], []
    if "moments" in groups:
        sums, products = shapes.moments(points)
        cells += sums + products
        if objects.picture.axes == 2:
            major, minor, x, y = shapes.ellipse(points)
            cells += [thousandths(major), thousandths(minor), x, y]
    if "thickness" in groups:
        cells += [""] * 3 if objects.spacing else map(thousandths, shapes.thickness_measures(objects.thicknesses[part]))
    return cells


# ---- columns


def thousandths(n):
    return "%d.%03d" % (n // 1000, n % 1000)


def mean(total, count):
    """The mean, to the nearest thousandth, and a half up."""
    return thousandths((2000 * total + count) // (2 * count))


def root(s):
    """The square root, to the nearest thousandth."""
    return thousandths((isqrt(4000000 * s) + 1) // 2)


def place(points):
    """An object's size, its box and its centroid."""
    return [len(points), *points.min(0), *points.max(0), *(mean(int(total), len(points)) for total in points.sum(0))]


def depth(points, squares):
    """The greatest distance to the background, and the first point that has it."""
    return [root(int(squares.max())), *points[squares.argmax()]]


def skeleton(near):
    """How many points no `del` line takes away, and how many of these have one neighbour among them, and three or more."""
    return [len(near), (near == 1).sum(), (near >= 3).sum()]


def hole_count(points):
    """The pieces of the background of the object alone, but the outside."""
    if len(points) < 4:  # a hole takes four points round it
        return 0
    alone = np.zeros(points.max(0)[::-1] - points.min(0)[::-1] + 3, bool)
    alone[tuple((points - points.min(0) + 1).T[::-1])] = True
    return parts.count(~alone, side_steps(2)) - 1


def lengths(borders, points):
    """The lengths of the outer border, and of those of the holes together; empty cells where they are not told."""
    if borders is None:
        return ["", ""]
    mine = list(map(tuple, points.tolist()))
    totals = [sum(told.get(p, 0) for p in mine) for told in borders]
    return [thousandths((n + UNIT // 2000) // (UNIT // 1000)) for n in totals]


def surface(points, spacing):
    """The surface; by the sides of a voxel, where they are asked for, and then the volume as well."""
    if spacing is None:
        return [thousandths(shapes.surface(points))]
    return [thousandths(shapes.spaced_surface(points, spacing)), len(points) * spacing[0] * spacing[1] * spacing[2]]


def feret(points, spacing=None):
    """The greatest distance of two points: the first point that has another at it, and the last one at it from there.

    Such points are ends of rows, as no point of a row is as far from another as the farther of its ends. A spacing gives the sides of a voxel.
    """
    is_other = (points[1:, 1:] != points[:-1, 1:]).any(1)
    is_end = np.append(True, is_other) | np.append(is_other, True)
    ends = points[is_end]
    sides = np.array(spacing or [1] * points.shape[1])
    squares = lambda p: (((ends - p) * sides) ** 2).sum(1)
    most = [int(squares(p).max()) for p in ends]
    first = ends[most.index(max(most))]
    return [root(max(most)), *first, *ends[squares(first) == max(most)][-1]]


def hull(points):
    """The convex hull of the corners of the pixels: area, perimeter, least width and the side across which it is, and the share of it that is object."""
    double_area, perimeter, width, side = shapes.hull_measures(points)
    return [thousandths(500 * double_area), thousandths(perimeter), thousandths(width), *side, thousandths(shapes.nearest(2000 * len(points), double_area))]


def circularity(area, border):
    """4 pi area / border^2, by the outer border as it is told; empty where that is not told."""
    if border == "":
        return ""
    length = int(border.replace(".", ""))
    return thousandths(shapes.nearest(shapes.FOUR_PI * area, 1000 * length * length))
