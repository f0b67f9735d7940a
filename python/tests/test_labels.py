"""Label images: a row a label, the same as each label measured by itself, in however many pieces it is."""
import csv
import os
import time
import unittest
from pathlib import Path

import numpy as np

from .common import InFolder, installed, needs_pillow, needs_shape, random_mask

from shapefront.labels import boxes, feret
from shapefront.pictures import spelled

if installed("PIL"):
    from PIL import Image


def table(path):
    with open(path, newline="") as file:
        return list(csv.DictReader(file))


def discs(side, count, radius):
    """Labels that touch one another: each point has that of the nearest of some centres, where one is near."""
    draw, (y, x) = np.random.default_rng(side), np.mgrid[:side, :side]
    centres = draw.integers(0, side, (count, 2))
    squares = np.stack([(x - a) ** 2 + (y - b) ** 2 for a, b in centres])
    return np.where(squares.min(0) < radius**2, squares.argmin(0) + 1, 0).astype(np.uint16)


class Boxes(unittest.TestCase):
    def test_each_is_the_label_at_its_place(self):
        labels = discs(60, 12, 9)
        labels[labels == 5] = 60000
        own = boxes(labels)
        self.assertEqual([box.label for box in own], sorted(set(labels.ravel().tolist()) - {0}))
        whole = np.pad(labels, 1)
        for box in own:
            (x, y), (height, width) = box.place, box.mask.shape
            np.testing.assert_array_equal(whole[y + 1 : y + 1 + height, x + 1 : x + 1 + width] == box.label, box.mask)
            self.assertFalse(box.mask[[0, -1]].any() or box.mask[:, [0, -1]].any())
            self.assertTrue(box.mask[1].any() and box.mask[-2].any() and box.mask[:, 1].any() and box.mask[:, -2].any())
        self.assertEqual(boxes(np.zeros((3, 3), int)), [])


class Ferets(unittest.TestCase):
    def test_in_space_and_with_sides_of_a_voxel(self):
        for seed in range(1, 7):
            mask, voxel = random_mask(seed, 5, 6, 7), (2, 3, 7)
            points = np.argwhere(mask)[:, ::-1]
            squares = (((points[:, None] - points[None]) * voxel) ** 2).sum(2)
            first = squares.max(1).argmax()
            last = len(points) - 1 - squares[first][::-1].argmax()
            self.assertEqual(feret(mask, voxel), [f"{squares.max() ** 0.5:.3f}", *map(str, (*points[first], *points[last]))])


@needs_shape
@needs_pillow
class Rows(InFolder):
    def alone(self, labels, label):
        """The rows of a label that is measured as a picture of its own, as large as the image."""
        Path("alone.pbm").write_bytes(spelled(labels == label))
        self.assertEqual(self.shapes("measure", "alone.pbm", "-o", "alone")[0], 0)
        return table("alone/objects.csv")

    def test_they_are_those_of_each_label_alone(self):
        labels = discs(90, 14, 12)
        Image.fromarray(labels).save("cells.tif")
        self.assertEqual(self.shapes("measure", "cells.tif", "--labels", "-o", "out")[0], 0)
        rows = table("out/objects.csv")
        self.assertEqual([int(row["label"]) for row in rows], sorted(set(labels.ravel().tolist()) - {0}))
        for row in rows:
            (own,) = self.alone(labels, int(row["label"]))
            self.assertEqual({name: row[name] for name in own if name not in ("image", "object")}, {name: own[name] for name in own if name not in ("image", "object")})
            self.assertEqual(row["pieces"], "1")

    def test_a_label_in_several_pieces_is_one_row(self):
        labels = np.zeros((30, 40), np.uint8)
        labels[3:9, 4:12], labels[20:24, 30:40], labels[12:15, 12:15], labels[13, 13] = 7, 7, 7, 0
        Image.fromarray(labels).save("cells.png")
        self.assertEqual(self.shapes("measure", "cells.png", "--labels", "--pixel-size", "0.5", "mm", "-o", "out")[0], 0)
        (row,), own = table("out/objects.csv"), self.alone(labels, 7)
        y, x = np.nonzero(labels)
        self.assertEqual((row["label"], row["pieces"], row["area"], row["touches"], row["holes"]), ("7", "3", str(len(x)), "1", "1"))
        self.assertEqual([row[name] for name in ("left", "top", "right", "bottom")], ["4", "3", "39", "23"])
        self.assertEqual((row["x"], row["y"]), (f"{x.mean():.3f}", f"{y.mean():.3f}"))
        for name in ("area", "skeleton", "ends", "junctions", "border", "hole_border"):
            self.assertAlmostEqual(float(row[name]), sum(float(piece[name]) for piece in own), 6)
        deepest = max(own, key=lambda piece: float(piece["radius"]))
        self.assertEqual([row[name] for name in ("radius", "cx", "cy")], [deepest[name] for name in ("radius", "cx", "cy")])
        self.assertEqual([row[name] for name in ("feret", "from_x", "from_y", "to_x", "to_y")], ["40.311", "4", "3", "39", "23"])
        self.assertEqual(self.shapes("check", "out")[0], 0)

    def test_the_feret_diameter_is_that_of_the_program(self):
        for seed in range(1, 9):
            mask = random_mask(seed, 20, 25)
            Path("x.pbm").write_bytes(spelled(mask))
            self.assertEqual(self.shapes("measure", "x.pbm", "-o", "x")[0], 0)
            for row in table("x/objects.csv"):
                piece = _piece(mask, int(row["cx"]), int(row["cy"]))
                self.assertEqual([row[name] for name in ("feret", "from_x", "from_y", "to_x", "to_y")], feret(piece))

    def test_networks_and_masks_of_labels(self):
        labels = discs(40, 4, 12)
        Image.fromarray(labels).save("cells.tif")
        self.assertEqual(self.shapes("measure", "cells.tif", "--labels", "--network", "--masks", "skeleton", "-o", "out")[0], 0)
        rows = table("out/networks.csv")
        self.assertEqual([row["label"] for row in rows], [row["label"] for row in table("out/objects.csv")])
        for row in table("out/branches.csv"):
            if row["from_x"]:
                self.assertEqual(labels[int(row["from_y"]), int(row["from_x"])], int(row["label"]))
        self.assertEqual(self.shapes("check", "out")[0], 0)

    def test_labels_of_a_volume(self):
        labels = np.zeros((8, 9, 10), np.uint8)
        labels[1:4, 2:5, 3:9], labels[4:7, 2:5, 3:9] = 1, 2
        np.save("cells.npy", labels)
        self.assertEqual(self.shapes("volume", "cells.npy", "--labels", "-o", "out")[0], 0)
        rows = table("out/objects.csv")
        self.assertEqual([[row[name] for name in ("label", "pieces", "voxels", "z0", "z1", "x")] for row in rows], [["1", "1", "54", "1", "3", "5.500"], ["2", "1", "54", "4", "6", "5.500"]])
        self.assertEqual(self.shapes("check", "out")[0], 0)
        self.assertEqual(self.shapes("check", "cells.npy", "out/evidence/cells.npy.labels.zip")[0], 0)

    def test_an_archive_is_checked_against_its_image(self):
        labels = discs(40, 4, 12)
        Image.fromarray(labels).save("cells.tif")
        self.shapes("measure", "cells.tif", "--labels", "-o", "out")
        archive = "out/evidence/cells.tif.labels.zip"
        self.assertEqual(self.shapes("check", "cells.tif", archive)[:2], (0, [f"{archive}: yes"]))
        labels[labels == 2] = 3
        Image.fromarray(labels).save("cells.tif")
        status, out, _ = self.shapes("check", "cells.tif", archive)
        self.assertEqual((status, out), (1, [f"{archive}: no, label 3: the image gives another picture of it"]))

    def test_ninety_labels_in_three_seconds(self):
        Image.fromarray(discs(512, 90, 26)).save("cells.tif")
        before = time.process_time(), sum(os.times()[2:4])
        self.assertEqual(self.shapes("measure", "cells.tif", "--labels", "-o", "out")[0], 0)
        took = time.process_time() - before[0] + sum(os.times()[2:4]) - before[1]
        self.assertEqual(len(table("out/objects.csv")), 90)
        self.assertLess(took, 3)


def _piece(mask, x, y):
    """The piece of a picture that a point is in, with its eight neighbours."""
    piece = np.zeros_like(mask)
    piece[y, x] = True
    while True:
        wide = np.pad(piece, 1)
        more = mask & sum(wide[b : b + mask.shape[0], a : a + mask.shape[1]] for a in range(3) for b in range(3)).astype(bool)
        if (more == piece).all():
            return piece
        piece = more


if __name__ == "__main__":
    unittest.main()
