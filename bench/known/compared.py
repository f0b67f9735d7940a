"""What the program and others find of the shapes of known measure, and the tables of errors that show it.

A column of a table may be added here: its title, the true measure's name, and where the found one stands.
"""
import math
from dataclasses import dataclass
from typing import Any

from skimage import measure

from known import imagej, opencv
from known.table import Column, difference, show, turn


@dataclass(frozen=True)
class Measured:
    """A shape with what is found of it: columns of the program's table, and what others have; None where one is not there."""

    shape: Any
    ours: dict
    skimage: dict
    opencv: dict | None = None
    imagej: dict | None = None


def numbers(row):
    """The cells of a row of the program's table that are numbers, with angles in degrees from x towards y."""
    found = {name: float(cell) for name, cell in row.items() if cell}
    if "axis_x" in found:
        found["angle"] = math.degrees(math.atan2(found["axis_y"], found["axis_x"])) / 2
        found["side"] = math.degrees(math.atan2(found["side_y"], found["side_x"]))
    return found


def only_row(program, shape, picture, *words):
    rows = program.rows(picture, *words)
    if len(rows) != 1:
        raise RuntimeError(f"{shape.group}: {len(rows)} objects")
    return numbers(rows[0])


def regionprops(picture):
    props = measure.regionprops(picture.astype("uint8"))[0]
    names = ("perimeter", "perimeter_crofton", "feret_diameter_max", "area_convex", "solidity", "euler_number", "axis_major_length", "axis_minor_length")
    # The orientation is told from y towards x.
    return {**{name: props[name] for name in names}, "angle": 90 - math.degrees(props.orientation)}


def flat(program, shapes):
    found = imagej.found([shape.picture for shape in shapes])
    for shape, theirs in zip(shapes, found):
        ours = only_row(program, shape, shape.picture, "moments", "thickness")
        if theirs and shape.true["euler"] < 1:
            theirs = {name: theirs[name] for name in imagej.OUTER}
        yield Measured(shape, ours, regionprops(shape.picture), opencv.found(shape.picture), theirs)


def solid(program, bodies):
    for body in bodies:
        ours = only_row(program, body, body.volume, "thickness")
        points, faces, _, _ = measure.marching_cubes(body.volume.astype("float32"), 0.5)
        theirs = {"marching cubes": measure.mesh_surface_area(points, faces), "euler_number": measure.euler_number(body.volume, 3)}
        yield Measured(body, ours, theirs)


def of(source, name, more=0):
    """Where a found measure stands, and what is added to it."""

    def found(measured):
        names = getattr(measured, source)
        return names[name] + more if names and name in names else None

    return found


def ours(name, title=None, **rest):
    return Column(title or f"`{name}`", name, of("ours", name), **rest)


def theirs(source, name, key, title=None, **rest):
    shown = {"skimage": "scikit-image", "opencv": "OpenCV", "imagej": "ImageJ"}[source]
    return Column(title or f"{shown}: `{name}`", key, of(source, name), **rest)


def off(measured):
    """How far the centroid lies from the true middle, in pixels."""
    return math.hypot(measured.ours["x"] - measured.shape.true["x"], measured.ours["y"] - measured.shape.true["y"])


LENGTHS = [
    ours("border"),
    theirs("skimage", "perimeter", "borders"),
    theirs("skimage", "perimeter_crofton", "borders"),
    theirs("opencv", "arcLength", "border"),
    theirs("imagej", "Perim.", "border"),
    ours("feret"),
    Column("`feret` and 1", "feret", of("ours", "feret", 1)),
    theirs("skimage", "feret_diameter_max", "feret"),
    theirs("imagej", "Feret", "feret"),
    ours("area"),
    Column("centroid", "euler", off, lambda found, _: found),
]
HULLS = [
    ours("convex_area"),
    theirs("skimage", "area_convex", "convex_area"),
    theirs("opencv", "contourArea", "convex_area"),
    ours("convex_perimeter"),
    theirs("opencv", "hull", "convex_perimeter", "OpenCV: `arcLength` of `convexHull`"),
    ours("min_feret"),
    theirs("opencv", "minAreaRect", "min_feret"),
    theirs("imagej", "MinFeret", "min_feret"),
    ours("side", "`side_x`, `side_y`, degrees", error=turn),
]
RATIOS = [
    ours("solidity"),
    theirs("skimage", "solidity", "solidity"),
    theirs("imagej", "Solidity", "solidity"),
    ours("circularity"),
    theirs("imagej", "Circ.", "circularity"),
    ours("euler", error=difference),
    theirs("skimage", "euler_number", "euler", error=difference),
]
AXES = [
    ours("major"),
    theirs("skimage", "axis_major_length", "major"),
    theirs("imagej", "Major", "major_by_area"),
    ours("minor"),
    theirs("skimage", "axis_minor_length", "minor"),
    theirs("imagej", "Minor", "minor_by_area"),
    ours("angle", "`axis_x`, `axis_y`, degrees", error=turn),
    theirs("skimage", "angle", "angle", "scikit-image: `orientation`", error=turn),
    theirs("imagej", "angle", "angle", "ImageJ: `Angle`", error=turn),
]
THICKNESS = [ours(name, error=difference) for name in ("thickness", "thickness_sd", "thickness_max")]
SURFACES = [
    ours("voxels"),
    ours("surface"),
    theirs("skimage", "marching cubes", "surface"),
    Column("`sides`", "surface", of("ours", "sides")),
    ours("euler", error=difference),
    theirs("skimage", "euler_number", "euler", error=difference),
]


def show_flat(measured):
    show("Lengths, in percent, and the centroid's error in pixels", "Shape", LENGTHS, measured)
    show("Convex hull and least width, in percent", "Shape", HULLS, measured)
    show("Solidity and circularity, in percent, and Euler number", "Shape", RATIOS, measured)
    show("The ellipse with the same second moments, in percent", "Shape", AXES, measured)
    show("Local thickness of flat shapes, in pixels", "Shape", THICKNESS, measured)


def show_solid(measured):
    show("Volume and surface, in percent, and Euler number", "Body", SURFACES, measured)
    show("Local thickness of bodies, in voxels", "Body", THICKNESS, measured)
