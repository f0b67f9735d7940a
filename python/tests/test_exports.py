"""Sides, corners and normals off reports: beside the true ones of shapes of known measure."""
import csv
import re
import subprocess
import sys
import unittest
from pathlib import Path

import numpy as np

from .common import ROOT, STORED, InFolder, needs_pillow, needs_shape, random_mask

from shapefront import analyse, read
from shapefront.circles import circle_of
from shapefront.convert import picture_of
from shapefront.exports import ply
from shapefront.pictures import spelled
from shapefront.sides import sides_of
from shapefront.thresholds import Settings


def shape(*words):
    return subprocess.run([sys.executable, ROOT / "docs" / "shapes", *map(str, words)], stdout=subprocess.PIPE, check=True).stdout


class Normals(unittest.TestCase):
    def test_a_stored_volume(self):
        report = read(STORED / "pores.report")
        head, _, body = ply(report, 0.5).partition(b"end_header\n")
        count = int(re.search(rb"element vertex (\d+)", head)[1])
        rows = np.frombuffer(body, [("where", "<f8", 3), ("normal", "<f8", 3), ("patch", "<i4")])
        self.assertEqual(len(rows), count)
        np.testing.assert_allclose(np.linalg.norm(rows["normal"], axis=1), 1)
        first = report.patches[0]
        np.testing.assert_allclose(rows["where"][0], (first.points[0] - [0.5, 0, 0]) * 0.5)
        self.assertLess(rows["normal"][0][0], -0.9)
        steps = 2 * (rows["where"] / 0.5 % 1 > 0.25)
        np.testing.assert_array_equal(steps.sum(1), 2)


def table(path):
    with open(path, newline="") as file:
        return list(csv.DictReader(file))


@needs_shape
@needs_pillow
class KnownShapes(InFolder):
    def test_corners_of_squares(self):
        for degrees in (0, 10, 30, 40):
            text = shape("bar", 100, 100, degrees)
            Path("square.pbm").write_bytes(text)
            true = [
                tuple(map(float, pair)) for pair in re.findall(r"\(([\d.]+), ([\d.]+)\)", text.decode().split("corners")[1].split("\n")[0])
            ]
            picture = picture_of(Path("square.pbm"), "square", Settings())
            report = analyse(picture.mask)
            sides = sides_of(report.contours[0])
            self.assertEqual([side.is_corner for side in sides], [True] * 4)
            for side in sides:
                self.assertLess(min(np.hypot(side.end[0] - x, side.end[1] - y) for x, y in true), 0.5 if degrees == 0 else 0.1)

    def test_a_square_as_dxf(self):
        Path("square.pbm").write_bytes(shape("bar", 100, 100, 30))
        self.assertEqual(self.shapes("measure", "square.pbm", "-o", "out")[0], 0)
        self.assertEqual(self.shapes("export", "dxf", "out/evidence/square.pbm.report.gz", "--pixel-size", "0.1", "-o", "square.dxf")[0], 0)
        pairs = Path("square.dxf").read_text().split("\n")
        lines = [
            dict(zip(pairs[k : k + 16 : 2], pairs[k + 1 : k + 16 : 2]))
            for k in range(len(pairs))
            if pairs[k] == "0" and pairs[k + 1 : k + 2] == ["LINE"]
        ]
        self.assertEqual(len(lines), 4)
        for line in lines:
            length = np.hypot(float(line["11"]) - float(line["10"]), float(line["21"]) - float(line["20"]))
            self.assertLess(abs(length - 10), 0.02)

    def plate(self, degrees, noise):
        """A plate of 400 by 250 pixels, turned, with holes of known diameters, as a scanner sees it: its mask, its true corners and its holes."""
        (y, x), turn = np.mgrid[:400, :520], np.radians(degrees)
        u, v = (x - 260.3) * np.cos(turn) - (y - 199.8) * np.sin(turn), (x - 260.3) * np.sin(turn) + (y - 199.8) * np.cos(turn)
        signed = np.maximum(abs(u) - 200, abs(v) - 125)
        holes = [(-150 + 60 * k, -60 + 40 * (k % 4), 14 + 7 * k) for k in range(6)]
        for a, b, diameter in holes:
            signed = np.maximum(signed, diameter / 2 - np.hypot(u - a, v - b))
        corners = [(260.3 + a * np.cos(turn) + b * np.sin(turn), 199.8 - a * np.sin(turn) + b * np.cos(turn)) for a in (-200, 200) for b in (-125, 125)]
        return signed + np.random.default_rng(1).normal(0, noise, signed.shape) < 0, corners, sorted(diameter for *_, diameter in holes)

    def test_circles_sides_and_corners_of_a_plate(self):
        for degrees, noise in ((0, 0), (7, 0), (3, 0.2)):
            mask, corners, diameters = self.plate(degrees, noise)
            Path("plate.pbm").write_bytes(spelled(mask))
            self.assertEqual(self.shapes("measure", "plate.pbm", "--min-size", "200", "--sides", "--pixel-size", "0.1", "mm", "-o", "out")[0], 0)
            rows = {name: table(f"out/{name}.csv") for name in ("circles", "sides", "corners")}
            self.assertEqual([len(rows[name]) for name in ("circles", "sides", "corners")], [6, 4, 4], (degrees, noise))
            for row, true in zip(sorted(rows["circles"], key=lambda row: float(row["diameter"])), diameters):
                self.assertLess(abs(float(row["diameter"]) - true), 0.3)
                self.assertEqual((row["object"], row["diameter_mm"]), ("1", f"{float(row['diameter']) / 10:.9g}"))
            self.assertEqual(sorted(int(row["hole"]) for row in rows["circles"]), [1, 2, 3, 4, 5, 6])
            for row, true in zip(sorted(rows["sides"], key=lambda row: float(row["length"])), (250, 250, 400, 400)):
                self.assertLess(abs(float(row["length"]) - true), 1 if degrees == 0 else 0.4)
            for row in rows["sides"]:
                self.assertLess(min(abs((float(row["angle"]) - degrees) % 90), abs((degrees - float(row["angle"])) % 90)), 0.1)
            for row in rows["corners"]:
                self.assertLess(min(np.hypot(float(row["x"]) - x, float(row["y"]) - y) for x, y in corners), 0.6 if degrees == 0 else 0.3)
                self.assertLess(abs(float(row["angle"]) - 90), 0.2)
            self.assertEqual(self.shapes("check", "out")[0], 0)

    def test_a_plate_as_dxf(self):
        mask, corners, _ = self.plate(3, 0)
        Path("plate.pbm").write_bytes(spelled(mask))
        self.assertEqual(self.shapes("measure", "plate.pbm", "--sides", "-o", "out")[0], 0)
        status, out, _ = self.shapes("export", "dxf", "out/evidence/plate.pbm.report.gz", "--dpi", "254", "-o", "plate.dxf")
        self.assertEqual(status, 0)
        self.assertRegex(out[0], r"^plate.dxf: sides 4, circles 6; the border is at most 0\.\d\d pixels away from them$")
        words = Path("plate.dxf").read_text().splitlines()
        pairs = list(zip(words[::2], words[1::2]))
        self.assertEqual([pairs.count(("0", kind)) for kind in ("LINE", "CIRCLE", "ENDSEC", "EOF")], [4, 6, 2, 1])
        told = [float(word.removeprefix("greatest distance ")) for code, word in pairs if code == "999"]
        self.assertEqual((len(told), all(0 <= one < 0.1 for one in told)), (10, True))
        ys = [float(value) for code, value in pairs if code in ("20", "21")]
        self.assertTrue(all(0 < y < 40 for y in ys))
        lowest = (max(y for _, y in corners) + 0.5) / 10
        self.assertAlmostEqual(min(float(value) for code, value in pairs if code in ("20", "21") and value), 40 - lowest, delta=0.05)
        radii = sorted(float(value) for code, value in pairs if code == "40")
        np.testing.assert_allclose(radii, [0.7 + 0.35 * k for k in range(6)], atol=0.015)

    def test_sides_that_go_back_meet_in_no_corner(self):
        bar = np.pad(np.ones((5, 60), bool), 4)
        sides = [side for contour in analyse(bar).contours for side in sides_of(contour)]
        self.assertEqual([(side.is_corner, round(side.length, 3)) for side in sides], [(False, 59.0), (False, 59.0)])

    def test_what_is_no_circle(self):
        for mask in (np.pad(np.ones((9, 9), bool), 3), np.pad(np.ones((30, 34), bool), 3), random_mask(2, 30, 40)):
            self.assertEqual([circle_of(contour) for contour in analyse(mask).contours], [None] * len(analyse(mask).contours))

    def test_refusals(self):
        self.assertEqual(self.shapes("export", "dxf", STORED / "word.report", "-o", "x")[0], 3)
        self.assertIn("no straight side that is so long, and no circle", self.shapes("export", "dxf", STORED / "word.report", "-o", "x")[2][0])
        self.assertIn("not the report of `shape analyse` of a flat picture", self.shapes("export", "dxf", STORED / "pores.report", "-o", "x")[2][0])
        self.assertIn("PLY is for volumes", self.shapes("export", "ply", STORED / "word.report", "-o", "x")[2][0])

    def test_normals_of_a_turned_box(self):
        volume = np.frombuffer(shape("box", 37.1, 37.1, 37.1, 25), np.uint8).reshape(64, 64, 64) > 0
        report = analyse(volume)
        largest = max(report.patches, key=lambda patch: len(patch.points))
        normal = np.array(largest.plane[:3]) / np.linalg.norm(largest.plane[:3])
        turn = np.radians(25)
        cos, sin = np.cos(turn), np.sin(turn)
        axes = np.array([[cos, -sin, 0], [sin, cos, 0], [0, 0, 1]]), np.array([[1, 0, 0], [0, cos, -sin], [0, sin, cos]])
        best = max(
            np.abs(m @ n).max()
            for m in (axes[0] @ axes[1], axes[1] @ axes[0], (axes[0] @ axes[1]).T, (axes[1] @ axes[0]).T)
            for n in [normal]
        )
        self.assertGreater(best, np.cos(np.radians(2)))
