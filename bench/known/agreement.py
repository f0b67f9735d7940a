"""Whether the table of a picture or a volume says what scikit-image, scipy and numpy find of the same definitions, object by object.

Nothing is left to a tolerance but the rounding to thousandths.
"""
import math

import numpy as np
from scipy import spatial
from skimage import measure

ROUNDED = 0.0005001
# Crofton's weights of a step out of an object: 8 times the share of the sphere that is nearest to its direction, over its length.
WEIGHTS = {1: 0.36622312963809, 2: 0.20919402194967, 3: 0.16256169682097}


def near(cell, value):
    return abs(float(cell) - value) <= ROUNDED + 1e-9 * abs(value)


def ints(row, *names):
    return [int(row[name]) for name in names]


def greatest_square(points):
    """The square of the greatest distance of two points, by scipy: those of the convex hull are enough, where there is one."""
    try:
        points = points[spatial.ConvexHull(points).vertices]
    except (spatial.QhullError, ValueError):  # fewer than three points, or all in a line
        points = points[[np.lexsort(points.T)[0], np.lexsort(points.T)[-1]]]
    return int(np.rint(spatial.distance.cdist(points, points, "sqeuclidean").max()))


def same_feret(row, coords):
    """Whether the diameter is the greatest distance of two points, and that of the two that are told."""
    ends = ints(row, "from_y", "from_x", "to_y", "to_x")
    told = (ends[0] - ends[2]) ** 2 + (ends[1] - ends[3]) ** 2
    inside = len(coords) >= 10000 or all(end in coords.tolist() for end in (ends[:2], ends[2:]))
    return told == greatest_square(coords) and inside and near(row["feret"], math.sqrt(told))


def same_hull(row, coords):
    """Whether area, perimeter and least width are those of scipy's hull of the corners: the width by all sides of the hull."""
    corners = np.unique((coords[:, None, ::-1] + [[0, 0], [0, 1], [1, 0], [1, 1]]).reshape(-1, 2), axis=0)
    hull = spatial.ConvexHull(corners)
    round_ = corners[hull.vertices]
    normals = np.unique(hull.equations[:, :2], axis=0)
    least = np.ptp(round_ @ normals.T, axis=0).min()
    x, y = ints(row, "side_x", "side_y")
    across = np.ptp(round_ @ [y, -x]) / math.hypot(x, y)
    areas = near(row["convex_area"], hull.volume) and near(row["convex_perimeter"], hull.area)
    return areas and near(row["min_feret"], least) and abs(across - least) < 1e-6


def same_ratios(row):
    """Whether solidity and circularity are those of the other cells, as far as these are told."""
    area, border, hull = (float(row[name]) for name in ("area", "border", "convex_area"))
    low, high = (4 * math.pi * area / (border + sign * ROUNDED) ** 2 for sign in (1, -1))
    return near(row["solidity"], area / hull) and low - ROUNDED <= float(row["circularity"]) <= high + ROUNDED


def sums_of(coords):
    """The sums of coordinates and of products of two: x, y, .. and then xx, xy, yy, xz, yz, zz."""
    axes = coords[:, ::-1].astype(np.int64)
    n = axes.shape[1]
    return [int(s) for s in axes.sum(0)] + [int((axes[:, a] * axes[:, b]).sum()) for b in range(n) for a in range(b + 1)]


def same_axes(row, props):
    """Whether the ellipse is that of regionprops with the second moment of a pixel besides, and the axis that of the sums."""
    axes = [math.sqrt(length**2 + 4 / 3) for length in (props.axis_major_length, props.axis_minor_length)]
    n, (x, y, xx, xy, yy) = int(props.area), sums_of(props.coords)
    true = 12 * (n * (xx - yy) - x * x + y * y), 24 * (n * xy - x * y)
    told = ints(row, "axis_x", "axis_y")
    same_way = told[0] * true[1] == told[1] * true[0] and told[0] * true[0] + told[1] * true[1] >= 0 and (any(told) == any(true))
    return same_way and near(row["major"], axes[0]) and near(row["minor"], axes[1])


def same_flat(row, props):
    """By name, whether what a row says is so."""
    top, left, bottom, right = props.bbox
    euler = int(props.euler_number)
    return {
        "area, box, holes": ints(row, "area", "left", "top", "right", "bottom", "holes") == [int(props.area), left, top, right - 1, bottom - 1, 1 - euler],
        "centroid": all(near(row[name], place) for name, place in zip("yx", props.centroid)),
        "feret": same_feret(row, props.coords),
        "euler": int(row["euler"]) == euler,
        "convex hull": same_hull(row, props.coords),
        "solidity, circularity": same_ratios(row),
        "sums": ints(row, "sum_x", "sum_y", "sum_xx", "sum_xy", "sum_yy") == sums_of(props.coords),
        "ellipse": same_axes(row, props),
    }


def steps_out(image):
    """By the number of axes that move, how many steps to a near voxel lead out of an object, in one of each two opposite directions."""
    framed = np.pad(image, 1)
    counts = dict.fromkeys(WEIGHTS, 0)
    for step in np.ndindex(3, 3, 3):
        move = np.array(step) - 1
        if tuple(move) > (0, 0, 0):
            counts[int(abs(move).sum())] += int((framed & ~np.roll(framed, -move, axis=(0, 1, 2))).sum())
    return counts


def same_solid(row, props):
    low, high = props.bbox[:3][::-1], [end - 1 for end in props.bbox[3:][::-1]]
    sums = ("sum_x", "sum_y", "sum_z", "sum_xx", "sum_xy", "sum_yy", "sum_xz", "sum_yz", "sum_zz")
    counts = steps_out(props.image)
    return {
        "voxels, box": ints(row, "voxels", "x0", "y0", "z0", "x1", "y1", "z1") == [int(props.area), *low, *high],
        "centroid": all(near(row[name], place) for name, place in zip("zyx", props.centroid)),
        "sides": int(row["sides"]) == 2 * counts[1],
        "euler": int(row["euler"]) == measure.euler_number(props.image, 3),
        "surface": near(row["surface"], sum(WEIGHTS[moved] * count for moved, count in counts.items())),
        "sums": ints(row, *sums) == sums_of(props.coords),
    }


def disagreements(program, picture):
    """How many objects a picture or a volume has, and the names of what is not the same, object by object."""
    rows = program.rows(picture, "moments")
    props = measure.regionprops(measure.label(picture, connectivity=picture.ndim))
    if len(rows) != len(props):
        return len(props), ["objects"]
    same = same_flat if picture.ndim == 2 else same_solid
    return len(rows), [name for row, p in zip(rows, props) for name, holds in same(row, p).items() if not holds]
