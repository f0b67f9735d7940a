"""holes.csv: a row for each hole, beside scikit-image and beside the definitions; holes that touch at a corner among them."""
import csv
import itertools
import unittest
from pathlib import Path

import numpy as np

from .common import InFolder, installed, needs_pillow, needs_shape, random_mask

from shapefront.components import numbered
from shapefront.filters import holes_of
from shapefront.holes import Holes
from shapefront.hulls import least_widths

if installed("PIL"):
    from PIL import Image


def table(path):
    with open(path, newline="") as file:
        return list(csv.DictReader(file))


def picture(seed):
    """A picture with many holes, some of which touch at corners and some of which have objects in them."""
    mask = random_mask(seed, 40, 50)
    return mask | (np.random.default_rng(100 + seed).random(mask.shape) < 0.5)


class Widths(unittest.TestCase):
    def test_it_is_the_least_over_all_directions_between_two_points(self):
        draw = np.random.default_rng(4)
        sets = [np.unique(draw.integers(0, draw.integers(2, 15), (draw.integers(1, 20), 2)), axis=0) for _ in range(200)]
        numbers, places = np.repeat(np.arange(1, 201), list(map(len, sets))), draw.permutation(sum(map(len, sets)))
        x, y = np.concatenate(sets).T
        found = list(least_widths(numbers[places], x[places], y[places]))
        self.assertEqual(len(found), 200)
        for points, width in zip(sets, found):
            pairs = [b - a for a, b in itertools.permutations(points, 2)]
            widths = [np.ptp(points @ [-b, a]) / np.hypot(a, b) for a, b in pairs]
            self.assertLess(abs(float(width) - min(widths, default=0)), 0.00051)

    def test_holes_of_pictures_are_told_apart(self):
        layers = 0
        for seed in range(12):
            mask = picture(seed)
            holes = Holes.of(mask)
            pictures = holes.pictures()
            np.testing.assert_array_equal(sum(pictures, np.zeros(mask.shape, int)), holes_of(mask))
            self.assertEqual(sum(numbered(own, by_corners=True).max() for own in pictures), len(holes.objects))
            self.assertEqual(len(holes.objects), numbered(holes_of(mask), by_corners=False).max())
            layers = max(layers, len(pictures))
        self.assertGreater(layers, 1)
        self.assertEqual(Holes.of(np.zeros((3, 4), bool)).pictures() + Holes.of(np.ones((3, 4), bool)).pictures(), [])


@needs_shape
@needs_pillow
class HolesOfImages(InFolder):
    def measured(self, mask, *words):
        Image.fromarray(np.where(mask, 0, 255).astype(np.uint8)).convert("1").save("x.ppm")
        Path("x.ppm").rename("x.pbm")
        self.assertEqual(self.shapes("measure", "x.pbm", *words, "-o", "out")[0], 0)

    def test_rows_are_those_of_the_holes(self):
        for seed in range(4):
            mask = picture(seed)
            self.measured(mask)
            objects, holes = table("out/objects.csv"), table("out/holes.csv")
            numbers = numbered(holes_of(mask), by_corners=False)
            self.assertEqual(len(holes), numbers.max())
            for k, row in enumerate(holes, 1):
                y, x = np.nonzero(numbers == k)
                self.assertEqual([int(row[name]) for name in ("hole", "area", "left", "top", "right", "bottom")], [k, len(x), x.min(), y.min(), x.max(), y.max()])
                self.assertLess(max(abs(float(row["x"]) - x.mean()), abs(float(row["y"]) - y.mean())), 0.00051)
                self.assertAlmostEqual(float(row["equivalent_diameter"]), 2 * np.sqrt(len(x) / np.pi), delta=0.00051)
                far = np.hypot(x[:, None] - x, y[:, None] - y).max()
                self.assertAlmostEqual(float(row["feret"]), far, delta=0.00051)
                self.assertLessEqual(float(row["min_feret"]), far + 0.001)
            counts = np.bincount([int(row["object"]) for row in holes], minlength=len(objects) + 1)[1:]
            self.assertEqual(counts.tolist(), [int(row["holes"]) for row in objects])
            self.assertEqual(self.shapes("check", "out")[0], 0)

    @unittest.skipUnless(installed("skimage"), "scikit-image is not installed")
    def test_beside_regionprops(self):
        from skimage.measure import label, regionprops_table

        mask = picture(3)
        self.measured(mask)
        properties = ["area", "bbox", "centroid", "equivalent_diameter_area"]
        theirs = regionprops_table(label(holes_of(mask), connectivity=1), properties=properties)
        ours = {name: np.array([float(row[name]) for row in table("out/holes.csv")]) for name in table("out/holes.csv")[0] if name != "image"}
        for name, own in (("area", ours["area"]), ("bbox-0", ours["top"]), ("bbox-3", ours["right"] + 1)):
            np.testing.assert_array_equal(own, theirs[name])
        for name, own in (("centroid-0", ours["y"]), ("equivalent_diameter_area", ours["equivalent_diameter"])):
            np.testing.assert_allclose(own, theirs[name], rtol=0, atol=0.00051)

    def test_in_the_unit_and_without_holes(self):
        self.measured(np.pad(~np.eye(4, dtype=bool), 2, constant_values=True), "--pixel-size", "2", "mm")
        (row, *others) = table("out/holes.csv")
        self.assertEqual((len(others), row["area"], row["area_mm2"], row["min_feret_mm"]), (3, "1", "4", "0"))
        self.assertEqual(float(row["equivalent_diameter_mm"]), 2 * float(row["equivalent_diameter"]))
        self.measured(np.ones((4, 5), bool))
        self.assertFalse(Path("out/holes.csv").exists())
        self.assertFalse(list(Path("out").rglob("*holes*")))
        self.assertEqual(self.shapes("check", "out")[0], 0)

    def test_holes_of_labels(self):
        labels = np.zeros((20, 30), np.uint8)
        labels[2:9, 2:9], labels[10:18, 5:20] = 1, 5
        labels[4:6, 4:6] = labels[12, 8] = labels[13, 9] = 0
        Image.fromarray(labels).save("labels.png")
        self.assertEqual(self.shapes("measure", "labels.png", "--labels", "-o", "out")[0], 0)
        rows = [(row["label"], row["hole"], row["area"], row["left"], row["top"]) for row in table("out/holes.csv")]
        self.assertEqual(rows, [("1", "1", "4", "4", "4"), ("5", "1", "1", "8", "12"), ("5", "2", "1", "9", "13")])
        self.assertEqual(self.shapes("check", "out")[0], 0)


if __name__ == "__main__":
    unittest.main()
