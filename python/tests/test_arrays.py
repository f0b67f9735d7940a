"""Arrays analysed and checked by the proved program, beside what scipy says of them."""
import unittest

import numpy as np

from .common import STORED, installed, needs_shape, random_mask

import shapefront
from secondreading.limits import MOST_FLAT, MOST_SOLID
from shapefront import Fault

if installed("scipy"):
    from scipy import ndimage

PICTURES = [random_mask(seed, 5 + 3 * seed, 70 - 2 * seed) for seed in range(20)]
VOLUMES = [random_mask(seed, 9, 12 + seed, 15 - seed) for seed in range(5)]


@needs_shape
@unittest.skipUnless(installed("scipy"), "scipy is not installed")
class BesideScipy(unittest.TestCase):
    def compare(self, mask, rule):
        report = shapefront.analyse(mask, rule)
        np.testing.assert_array_equal(report.mask, mask)
        whole = np.pad(mask, 1)
        inner = (slice(1, -1),) * mask.ndim
        distances = ndimage.distance_transform_edt(whole)[inner]
        np.testing.assert_allclose(report.distance_image, distances)
        np.testing.assert_array_equal(((report.points - report.nearest) ** 2).sum(1), report.squares)
        full = np.ones((3,) * mask.ndim)
        for counts, object_ in ((report.parts, whole), (report.kept, np.pad(report.skeleton_mask, 1))):
            self.assertEqual(counts.points, object_.sum())
            self.assertEqual(counts.pieces, ndimage.label(object_, full)[1])
            self.assertEqual(counts.background, ndimage.label(~object_)[1])
        self.assertEqual(report.kept.holes, report.parts.holes)
        self.assertEqual(len(report.events), len(report.points) - len(report.skeleton) + len(report.tips))
        return report, whole

    def test_twenty_pictures(self):
        for k, mask in enumerate(PICTURES):
            report, whole = self.compare(mask, ("none", "curve", "few")[k % 3])
            outer = sum(not contour.is_hole for contour in report.contours)
            self.assertEqual((outer, len(report.contours) - outer), (report.parts.pieces, report.parts.holes))
            border = whole & ~ndimage.binary_erosion(whole)
            touched = np.zeros_like(mask)
            touched[report.contours.points[:, 1], report.contours.points[:, 0]] = True
            np.testing.assert_array_equal(touched, border[1:-1, 1:-1])

    def test_five_volumes(self):
        for mask in VOLUMES:
            report, whole = self.compare(mask, "curve")
            sides = sum(int((whole != np.roll(whole, 1, axis)).sum()) for axis in range(3))
            self.assertEqual(sum(len(patch.points) for patch in report.patches), sides)
            for patch in report.patches:
                heights = patch.points @ patch.plane[:3] - patch.plane[3]
                self.assertTrue(((heights >= 0) & (heights < patch.plane[patch.axis])).all())


@needs_shape
class Checks(unittest.TestCase):
    def test_a_report_holds_of_its_picture_alone(self):
        mask = PICTURES[4]
        report = shapefront.analyse(mask)
        self.assertTrue(shapefront.check(mask, report))
        self.assertTrue(shapefront.check(mask, report.text))
        other = mask.copy()
        other[3, 3] ^= True
        self.assertFalse(shapefront.check(other, report))
        changed = report.text.replace(b"kept ", b"kept 1")
        self.assertEqual(str(shapefront.check(mask, changed)), "no %d" % (changed.count(b"\n") - 1))

    def test_a_stored_report(self):
        mask = shapefront.read(STORED / "word.report").mask
        self.assertTrue(shapefront.check(mask, STORED / "word.report"))

    def test_the_greatest_sides(self):
        for mask in (np.ones((1, MOST_FLAT), bool), np.ones((MOST_FLAT, 1), bool), np.ones((1, 1, MOST_SOLID), bool), np.ones((MOST_SOLID, 1, 1), bool)):
            report = shapefront.analyse(mask, "curve")
            self.assertEqual(report.parts.points, mask.size)
            self.assertTrue(shapefront.check(mask, report))

    def test_arrays_that_are_none(self):
        for array, reason in (
            (np.ones((3, 3)), "not of booleans"), (np.ones(3, bool), "of 1 axes"), (np.ones((0, 3), bool), f"from 1 to {MOST_FLAT}"),
            (np.ones((3, MOST_FLAT + 1), bool), f"x {MOST_FLAT + 1}, y 3"), (np.ones((2, 2, MOST_SOLID + 1), bool), f"from 1 to {MOST_SOLID}"),
        ):  # fmt: skip
            with self.assertRaisesRegex(Fault, reason):
                shapefront.analyse(array)
        with self.assertRaisesRegex(Fault, "no rule"):
            shapefront.analyse(np.ones((3, 3), bool), "thin")
