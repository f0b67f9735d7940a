"""The lines of faces in analyses of volumes: patches, their planes and points, and the points that they refuse; each by its claim."""
from secondreading.digital import holds, is_proper, refutes
from secondreading.geometry import around, near_steps, raster
from secondreading.texts import COORDINATE, COUNT, LONG, Form, need

PATCH = Form("patch", COUNT, LONG, LONG, LONG, LONG)
ON = Form("on", COORDINATE, COORDINATE, COORDINATE)
OFF = Form("off", COORDINATE, COORDINATE, COORDINATE, weights_of=3)


def read(picture, lines):
    """The axis, the points and the refused points of each patch, of each face in turn."""
    patches = []
    for t, sense, exposed in picture.faces:
        lines.exactly(b"face %s %s %d" % ("xyz"[t].encode(), sense.encode(), len(exposed)))
        left = set(exposed)
        for p in exposed:
            if p in left:
                patches.append(read_patch(t, p, left, lines))
    return patches


def read_patch(t, first, left, lines):
    """The next patch of the exposed points left, which are fewer then; it begins at the first of them."""
    size, *a, mu = lines.line(PATCH)
    need(1 <= size <= len(left) and is_proper(t, a))
    patch, touched = [], {first}
    for _ in range(size):
        p = tuple(lines.line(ON))
        need(p in left and p in touched and holds(t, a, mu, [p]))
        patch.append(p)
        left.remove(p)
        touched.update(around(p, near_steps(3)))
    refused = sorted(touched & left, key=raster)
    for p in refused:
        *given, why = lines.line(OFF)
        need(tuple(given) == p and refutes(t, patch + [p], why))
    return t, patch, refused
