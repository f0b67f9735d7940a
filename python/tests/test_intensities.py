"""Intensities of the objects of another image: of labels and of masks, beside a grey image of the same name."""
import csv
import json
import shutil
import unittest
from pathlib import Path

import numpy as np

from .common import InFolder, installed, needs_pillow, needs_shape
from .test_labels import discs

from shapefront import Fault
from shapefront.greys import partner
from shapefront.layout import MADE

if installed("PIL"):
    from PIL import Image
if installed("skimage"):
    from skimage.measure import regionprops_table


def rows_of(path):
    with open(path, newline="") as file:
        return list(csv.DictReader(file))


class Partners(InFolder):
    def setUp(self):
        super().setUp()
        Path("fields").mkdir()

    def found(self, image, *names):
        for name in names:
            Path("fields", name).touch()
        return partner(Path(image), image, Path("fields")).name

    def test_the_same_name_with_any_ending(self):
        self.assertEqual(self.found("a.png", "a.tif", "a_b.png", "b.png", "a.txt"), "a.tif")
        self.assertEqual(self.found("a.png", "a.png"), "a.png")

    def test_more_behind_the_name(self):
        self.assertEqual(self.found("a_1_cp_masks.png", "a.tif", "a_1.tif", "a_1x.tif", "a_1_cp.txt"), "a_1.tif")

    def test_none_or_several(self):
        for names, told in ((["b.png", "ab.png"], "no image of its name is in fields"), (["a.png", "a.jpg"], "several images of its name are in fields: a.jpg, a.png")):
            with self.assertRaisesRegex(Fault, told):
                self.found("a.tif", *names)

    def test_it_is_never_the_image_itself(self):
        Path("fields/a.png").touch()
        with self.assertRaisesRegex(Fault, "no image of its name"):
            partner(Path("fields/a.png"), "a.png", Path("fields"))
        Path("fields/a.tif").touch()
        self.assertEqual(partner(Path("fields/a.png"), "a.png", Path("fields")).name, "a.tif")


@needs_shape
@needs_pillow
class OfOthers(InFolder):
    """Two label images with the fields that they are of, the second of these in colours."""

    def setUp(self):
        super().setUp()
        draw = np.random.default_rng(3)
        Path("labels").mkdir()
        Path("fields").mkdir()
        self.labels = [discs(90, 8, 12), discs(70, 6, 10)]
        self.labels[0][40:44, 2:5] = 3
        self.fields = [draw.integers(0, 60000, (90, 90)).astype(np.uint16), draw.integers(0, 255, (70, 70, 3)).astype(np.uint8)]
        for name, labels, field in zip("ab", self.labels, self.fields):
            Image.fromarray(labels).save(f"labels/{name}_masks.png")
            Image.fromarray(field).save(f"fields/{name}.{'tif' if name == 'a' else 'png'}")

    def measure(self, *words, status=0):
        found, out, error = self.shapes("measure", "labels", "--labels", "--rule", "none", "--intensities", "fields", *words, "-o", "out")
        self.assertEqual(found, status, (out, error))
        return error

    def check(self, *words):
        status, out, _ = self.shapes("check", "out", *words)
        return status, out

    @unittest.skipUnless(installed("skimage"), "scikit-image is not installed")
    def test_they_are_those_of_regionprops(self):
        self.measure("--channel", "1")
        for name, labels, field in zip("ab", self.labels, (self.fields[0], self.fields[1][:, :, 0])):
            theirs = regionprops_table(labels, field, ["label", "area", "bbox", "centroid", "intensity_mean", "intensity_min", "intensity_max"])
            ours = {column: np.array([float(row[column]) for row in rows_of("out/objects.csv") if row["image"] == f"{name}_masks.png"]) for column in (
                "label", "area", "left", "right", "top", "bottom", "x", "y", "intensity_mean", "intensity_min", "intensity_max", "intensity_sum", "intensity_std")}
            for own, other in (("label", "label"), ("area", "area"), ("top", "bbox-0"), ("left", "bbox-1"), ("intensity_min", "intensity_min"), ("intensity_max", "intensity_max")):
                np.testing.assert_array_equal(ours[own], theirs[other])
            np.testing.assert_array_equal(ours["bottom"] + 1, theirs["bbox-2"])
            np.testing.assert_array_equal(ours["right"] + 1, theirs["bbox-3"])
            np.testing.assert_allclose(ours["y"], theirs["centroid-0"], rtol=0, atol=0.00051)
            np.testing.assert_allclose(ours["x"], theirs["centroid-1"], rtol=0, atol=0.00051)
            np.testing.assert_allclose(ours["intensity_mean"], theirs["intensity_mean"], rtol=1e-9)
            for k, label in enumerate(ours["label"]):
                own = field[labels == label].astype(float)
                np.testing.assert_allclose([ours["intensity_sum"][k], ours["intensity_std"][k]], [own.sum(), own.std()], rtol=1e-9)

    def test_it_is_told_checked_and_made_again_where_the_field_changes(self):
        self.measure("--channel", "1")
        self.assertIn("intensities of b.png; its red channel of 3: the others are not used", Path("out/summary.txt").read_text())
        record = json.loads(Path("out/evidence/b_masks.png.json").read_text())
        self.assertEqual(record["intensities"]["image"], "b.png")
        self.assertEqual(self.check()[0], 0)
        status, out = self.check("--originals", "labels")
        self.assertEqual((status, out[-1].partition("not checked: ")[2]), (0, "the intensities, as --intensities was not given, and the pixel's size"), out)
        status, out = self.check("--originals", "labels", "--intensities", "fields")
        self.assertEqual((status, out[-1].partition("not checked: ")[2]), (0, "the pixel's size"), out)
        self.fields[0][self.labels[0] > 0] += 1
        Image.fromarray(self.fields[0]).save("fields/a.tif")
        status, out = self.check("--originals", "labels", "--intensities", "fields")
        self.assertEqual(status, 1)
        self.assertTrue(any("labels/a_masks.png: no, its record" in line and "intensities" in line for line in out), out)
        before = Path("out/objects.csv").read_text()
        self.measure("--channel", "1")
        self.assertNotEqual(Path("out/objects.csv").read_text(), before)
        self.assertEqual(self.check("--originals", "labels", "--intensities", "fields")[0], 0)
        self.assertEqual(self.shapes("check", "labels/a_masks.png", "out/evidence/a_masks.png.labels.zip")[0], 0)

    def test_a_forged_one_is_told(self):
        from .test_originals import sealed_again

        self.measure("--channel", "1")
        sealed_again(Path("out"), "evidence/a_masks.png.intensities.csv", lambda data: data.replace(b"\n", b"\n1", 2).replace(b"\n1", b"\n", 1))
        Path("out/objects.csv").unlink()
        self.assertEqual(self.check("--originals", "labels", "--intensities", "fields")[0], 1)

    def test_the_borders_are_over_the_field(self):
        self.measure("--channel", "1")
        with Image.open("out/drawings/a_masks.png.png") as drawing:
            scale = drawing.width // 90
            self.assertGreater(np.unique(np.array(drawing.convert("RGB"))[::scale, ::scale].reshape(-1, 3), axis=0).shape[0], 100)

    def test_one_image_and_labels_together(self):
        status, out, error = self.shapes("measure", "labels/a_masks.png", "--labels-together", "--intensities", "fields/a.tif", "-o", "out")
        self.assertEqual((status, error), (0, []), out)
        self.assertEqual(sum(int(row["intensity_sum"]) for row in rows_of("out/objects.csv")), int(self.fields[0][self.labels[0] > 0].astype(np.int64).sum()))
        self.assertEqual(self.check("--originals", "labels", "--intensities", "fields")[0], 0)

    def test_what_does_not_fit(self):
        Image.fromarray(self.fields[0][:80]).save("fields/a.tif")
        shutil.rmtree("out", ignore_errors=True)
        error = self.measure("--channel", "1", status=1)
        self.assertEqual(error, ["labels/a_masks.png: it has x 90, y 90, and fields/a.tif has x 90, y 80; an image and that of its intensities have to show the same"])
        Path("fields/a.tif").unlink()
        error = self.measure("--channel", "1", status=1)
        self.assertEqual(error, ["labels/a_masks.png: no image of its name is in fields; one has to be called as this one is, with any ending"])
        self.assertEqual(len(json.loads(Path("out", MADE).read_text())["images"]), 2)


if __name__ == "__main__":
    unittest.main()
