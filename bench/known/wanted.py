"""What is wanted of the measures, and whether it is so: by the shapes of known measure, and by the comparison of all objects.

A bound may be made less here. One that is missed and documented in docs/MEASURING.md has the bound that holds beside it.
"""
from dataclasses import dataclass

from known.table import difference, percent


@dataclass(frozen=True)
class Wanted:
    text: str
    found: float
    bound: float
    holds: float | None = None
    within: str = ""

    @property
    def is_met(self):
        return self.found <= self.bound

    @property
    def is_as_documented(self):
        return self.found <= (self.holds or self.bound)

    def line(self):
        met = "yes" if self.is_met else "no, as documented" if self.is_as_documented else "no"
        return f"| {self.text} | {self.found:.3g}{self.within} | {met} |"


def errors(measured, key, error):
    """The sizes of the errors of what is found."""
    return [abs(error(m.ours[key], m.shape.true[key])) for m in measured if key in m.shape.true]


def thickness_of(kind, measured, holds):
    found = errors(measured, "thickness", difference)
    within = f" ({sum(size <= 0.7 for size in found)} of {len(found)} within 0.7)"
    return Wanted(f"thickness of {kind}s in twelve directions, voxels at most 0.7", max(found), 0.7, holds, within)


def wanted(flat, solid, wall, differing):
    """All of it: of the flat shapes, the bodies, the mean thickness of a wall beside the true one, and the names of what differs."""
    of = {kind: [m for m in solid if m.shape.group.startswith(kind)] for kind in ("ball", "cylinder", "plate")}
    balls = [m for m in of["ball"] if m.shape.true["thickness"] >= 20]
    return [
        Wanted("surface of balls from radius 10 on, percent at most 0.5", max(errors(balls, "surface", percent)), 0.5),
        thickness_of("cylinder", of["cylinder"], 0.75),
        thickness_of("plate", of["plate"], 1.2),
        Wanted("thickness of a gyroid's wall, voxels at most 0.7", abs(wall[0] - wall[1]), 0.7),
        Wanted("Euler number of all shapes, bodies and objects: how many differ", sum(m.ours["euler"] != m.shape.true["euler"] for m in [*flat, *solid]) + differing.count("euler"), 0),
        Wanted("ellipse of all objects as regionprops', with 1/12 for a pixel, to 0.001: how many differ", differing.count("ellipse"), 0),
        Wanted("least Feret diameter of all objects as by all sides of the hull: how many differ", differing.count("convex hull"), 0),
    ]
