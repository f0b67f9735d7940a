"""Beside scikit-image's regionprops_table of the same masks: every column that both have agrees. And intensities beside numpy."""
import csv
import re
import unittest
from pathlib import Path

import numpy as np

from .common import ROOT, InFolder, installed, needs_pillow, needs_shape, random_mask

from shapefront.components import numbered
from shapefront.programs import call

if installed("PIL"):
    from PIL import Image
if installed("skimage"):
    from skimage.measure import label, regionprops_table


def table(path):
    """The columns of a table as arrays of numbers, by their names; words as they are."""
    with open(path, newline="") as file:
        names, *rows = csv.reader(file)
    columns = zip(*rows) if rows else [()] * len(names)
    return {name: np.array(column) if name == "image" else np.array(column, float) for name, column in zip(names, columns)}


# Our columns by those of regionprops_table, where the two mean the same; a box there ends behind its last pixel, rows come first.
SAME = {
    "label": "object", "area": "area", "bbox-0": "top", "bbox-1": "left", "bbox-2": "bottom", "bbox-3": "right",
    "centroid-0": "y", "centroid-1": "x", "intensity_mean": "intensity_mean", "intensity_min": "intensity_min", "intensity_max": "intensity_max",
}  # fmt: skip


def pictures():
    """Grey images of blobs and of noise, with the threshold by which each is measured."""
    for seed in range(1, 7):
        draw, mask = np.random.default_rng(seed), random_mask(seed, 60, 83)
        if seed % 2:
            yield mask, np.where(mask, draw.integers(120, 256, mask.shape), draw.integers(0, 120, mask.shape)).astype(np.uint8), 120
        else:
            yield mask, np.where(mask, draw.integers(30000, 65536, mask.shape), draw.integers(0, 30000, mask.shape)).astype(np.uint16), 30000


@needs_shape
@needs_pillow
class Regionprops(InFolder):
    def measured(self, grey, threshold, *words):
        Image.fromarray(grey).save("x.tif")
        self.assertEqual(self.shapes("measure", "x.tif", "--light", "--threshold", threshold, *words, "-o", "out")[0], 0)
        return table("out/objects.csv")

    @unittest.skipUnless(installed("skimage"), "scikit-image is not installed")
    def test_columns_that_both_have(self):
        for mask, grey, threshold in pictures():
            ours = self.measured(grey, threshold)
            properties = ["label", "area", "bbox", "centroid", "euler_number", "intensity_mean", "intensity_min", "intensity_max"]
            theirs = regionprops_table(label(mask, connectivity=2), grey, properties)
            for name in ("area", "bbox-0", "bbox-1", "label"):
                np.testing.assert_array_equal(ours[SAME[name]], theirs[name])
            for name in ("bbox-2", "bbox-3"):
                np.testing.assert_array_equal(ours[SAME[name]] + 1, theirs[name])
            for name in ("centroid-0", "centroid-1"):
                np.testing.assert_allclose(ours[SAME[name]], theirs[name], rtol=0, atol=0.00051)
            for name in ("intensity_mean", "intensity_min", "intensity_max"):
                np.testing.assert_allclose(ours[SAME[name]], theirs[name], rtol=1e-9)
            np.testing.assert_array_equal(1 - ours["holes"], theirs["euler_number"])
            np.testing.assert_array_equal(ours["euler"], theirs["euler_number"])

    @unittest.skipUnless(installed("skimage"), "scikit-image is not installed")
    def test_axes_have_the_moments_of_a_pixel_too(self):
        for mask, grey, threshold in pictures():
            self.measured(grey, threshold, "--plain")
            Path("moments.csv").write_text(call("measure", "moments", "out/evidence/x.tif.report").text)
            ours, theirs = table("moments.csv"), regionprops_table(label(mask, connectivity=2), properties=["axis_major_length", "axis_minor_length", "orientation"])
            for name, other in (("major", "axis_major_length"), ("minor", "axis_minor_length")):
                np.testing.assert_allclose(ours[name], np.sqrt(theirs[other] ** 2 + 4 / 3), rtol=0, atol=0.00051)
            turn = np.arctan2(ours["axis_y"], ours["axis_x"]) / 2 - (np.pi / 2 - theirs["orientation"])
            is_told = (ours["major"] > ours["minor"] + 0.01) & (ours["axis_x"] != 0)  # of an angle of 45 degrees scikit-image 0.19 tells the wrong one
            np.testing.assert_allclose(np.sin(turn[is_told]), 0, rtol=0, atol=1e-9)

    @unittest.skipUnless(installed("skimage"), "scikit-image is not installed")
    def test_who_has_which_column_is_told(self):
        from skimage.measure._regionprops import PROPS

        page = (ROOT / "docs" / "FRONT.md").read_text()
        told = page[page.index("Who has which column:") : page.index("## In millimetres")]
        ours, theirs = (set(re.findall(r"`(\w+)[`-]", "\n".join(line.split(" | ")[k] for line in told.splitlines() if line.startswith("| ")))) for k in (0, 1))
        self.assertEqual({name for name in PROPS.values() if name.removesuffix("_normalized").removesuffix("_central").removesuffix("_hu") not in theirs}, set())
        self.measured(next(pictures())[1], 120)
        names = set(Path("out/objects.csv").read_text().split("\n", 1)[0].split(",")) - ours
        self.assertEqual({name for name in names if not name.startswith(("intensity_", "from_", "to_"))} - {"image"}, set())

    def test_intensities_are_those_of_numpy(self):
        for mask, grey, threshold in pictures():
            ours, objects = self.measured(grey, threshold), numbered(mask, by_corners=True)
            for k in range(objects.max()):
                values = grey[objects == k + 1].astype(float)
                for name, value in zip(("mean", "min", "max", "sum", "std"), (values.mean(), values.min(), values.max(), values.sum(), values.std())):
                    np.testing.assert_allclose(ours[f"intensity_{name}"][k], value, rtol=1e-9, atol=1e-9)

    def test_a_volume_has_them_too(self):
        mask = random_mask(2, 9, 12, 14)
        grey = np.where(mask, 100.25, 3.5) + np.arange(mask.size).reshape(mask.shape) / mask.size
        np.save("v.npy", grey)
        self.assertEqual(self.shapes("volume", "v.npy", "--light", "--threshold", "50", "-o", "out")[0], 0)
        ours, objects = table("out/objects.csv"), numbered(mask, by_corners=True)
        np.testing.assert_array_equal(ours["voxels"], np.bincount(objects[mask])[1:])
        np.testing.assert_allclose(ours["intensity_mean"], [grey[objects == k + 1].mean() for k in range(objects.max())], rtol=1e-9)

    def test_images_with_and_without_grey_values(self):
        mask, grey, threshold = next(pictures())
        Path("in").mkdir()
        Image.fromarray(grey).save("in/grey.png")
        Image.fromarray(np.where(mask, 255, 0).astype(np.uint8)).save("in/mask.png")
        self.assertEqual(self.shapes("measure", "in", "--light", "--threshold", threshold, "--pixel-size", "2", "um", "-o", "out")[0], 0)
        rows = list(csv.DictReader(Path("out/objects.csv").read_text().splitlines()))
        for row in rows:
            self.assertEqual(row["intensity_sum"] == "", row["image"] == "mask.png")
        self.assertEqual(self.shapes("check", "out")[0], 0)
        self.assertEqual(self.shapes("measure", "in/mask.png", "--light", "-o", "alone")[0], 0)
        self.assertNotIn("intensity", Path("alone/objects.csv").read_text())

    def test_an_image_that_changed_within_its_objects_is_measured_again(self):
        mask, grey, threshold = next(pictures())
        before = self.measured(grey, threshold)
        after = self.measured(np.where(mask & (grey < 255), grey + 1, grey).astype(np.uint8), threshold)
        np.testing.assert_array_equal(before["area"], after["area"])
        self.assertGreater((after["intensity_sum"] - before["intensity_sum"]).sum(), 0)

    def test_a_forged_one_is_told(self):
        _, grey, threshold = next(pictures())
        self.measured(grey, threshold)
        path = Path("out/objects.csv")
        path.write_text(path.read_text().replace(",255,", ",254,", 1))
        status, out, _ = self.shapes("check", "out")
        self.assertEqual(status, 1)
        self.assertTrue(any("out/objects.csv: no, row" in line and "intensity_max 254; the table of intensities gives 255" in line for line in out), out)


if __name__ == "__main__":
    unittest.main()
