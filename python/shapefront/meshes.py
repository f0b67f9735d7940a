"""The surface of a volume as a mesh of triangles (PLY): by the marching cubes of scikit-image where it is installed, and else the exposed sides of voxels.

Neither is proved, and the file says so. What a report says of the surface are its patches: `shapes export ply`.
"""
from __future__ import annotations

import numpy as np

from .spacing import Spacing


def mesh(mask: np.ndarray, spacing: Spacing | None) -> bytes:
    """The surface of a volume [z, y, x] as a PLY, its places in the unit of the voxels' size, where it is told. The middle of the first voxel is at 0, 0, 0."""
    wide = np.pad(mask, 1)
    try:
        import skimage
        from skimage.measure import marching_cubes

        places, faces = _of_cubes(wide, marching_cubes)
        how = f"marching cubes of scikit-image {skimage.__version__}"
    except ImportError:
        places, faces = _of_sides(wide)
        how = "the exposed sides of voxels"
    sizes = np.array([float(size) for size in spacing.sizes]) if spacing else np.ones(3)
    places = ((places - 1)[:, ::-1] * sizes).astype("<f4")
    rows = np.zeros(len(faces), [("count", "u1"), ("at", "<i4", 3)])
    rows["count"], rows["at"] = 3, faces
    unit = spacing.unit if spacing and spacing.unit else "the sizes that the file tells" if spacing else "voxels"
    head = ["ply", "format binary_little_endian 1.0", f"comment not proved: {how}; lengths in {unit}"]
    head += [f"element vertex {len(places)}", *(f"property float {name}" for name in "xyz"), f"element face {len(faces)}", "property list uchar int vertex_indices", "end_header"]
    return "".join(line + "\n" for line in head).encode() + places.tobytes() + rows.tobytes()


def _of_cubes(wide: np.ndarray, marching_cubes) -> tuple[np.ndarray, np.ndarray]:
    """The places (z, y, x) and the triangles of the surface halfway between voxels, outwards."""
    if not wide.any():
        return np.zeros((0, 3)), np.zeros((0, 3), int)
    places, faces, _, _ = marching_cubes(wide.astype(np.float32), 0.5, gradient_direction="descent")
    return places, faces


def _of_sides(wide: np.ndarray) -> tuple[np.ndarray, np.ndarray]:
    """The same of the exposed sides of voxels, two triangles each, outwards."""
    corners, order = [], []
    for axis in range(3):
        for sense in (1, -1):
            exposed = np.argwhere(wide & ~np.roll(wide, -sense, axis))
            one, other = [k for k in range(3) if k != axis]
            square = np.full((4, 3), 0.0)
            square[:, axis] = sense / 2
            square[:, one], square[:, other] = (-0.5, 0.5, 0.5, -0.5), (-0.5, -0.5, 0.5, 0.5)
            turned = (sense > 0) == (axis == 1)
            corners.append((exposed[:, None, :] + square[::-1 if not turned else 1]).reshape(-1, 3))
    every = np.concatenate(corners)
    places, own = np.unique(np.rint(2 * every).astype(np.int64), axis=0, return_inverse=True)
    squares = own.reshape(-1, 4)
    order = np.concatenate([squares[:, [0, 1, 2]], squares[:, [0, 2, 3]]])
    return places / 2, order
