"""Networks: branches, ends, junctions, lengths and widths, beside the true ones of shapes of known measure."""
import csv
import subprocess
import sys
import unittest
from decimal import Decimal
from pathlib import Path

import numpy as np

from .common import PAGE, ROOT, STORED, InFolder, installed, needs_pillow, needs_shape

from shapefront import read
from shapefront.components import numbered
from shapefront.filters import holes_of
from shapefront.network import length
from shapefront.pictures import pbm_mask, spelled
from shapefront.thin import neighbours, pruned, split

if installed("PIL"):
    from PIL import Image


def drawn(name, *words):
    """A shape of known measure from docs/shapes, in a file of this name."""
    done = subprocess.run([sys.executable, ROOT / "docs" / "shapes", *map(str, words)], stdout=subprocess.PIPE, check=True)
    Path(name).write_bytes(done.stdout)


def table(path):
    with open(path, newline="") as file:
        return list(csv.DictReader(file))


class Parts(unittest.TestCase):
    def test_where_four_strokes_meet(self):
        cross = np.zeros((7, 7), bool)
        cross[3, :] = cross[:, 3] = True
        branches, junctions = split(cross)
        self.assertEqual(np.argwhere(junctions).tolist(), [[2, 3], [3, 2], [3, 3], [3, 4], [4, 3]])
        np.testing.assert_array_equal(branches | junctions, cross)

    def test_a_pbm_comes_back(self):
        for width in (1, 7, 8, 9, 17):
            mask = np.random.default_rng(width).random((5, width)) > 0.5
            np.testing.assert_array_equal(pbm_mask(spelled(mask)), mask)

    def test_lengths_of_lines_by_their_borders(self):
        edge = 8**0.5
        for border, hole_border, holes, true in ((2 * 20 + edge, 0, 0, "20.000"), (60 + edge, 60 - edge, 1, "60.000"), (2.828, 0, 0, "0.000")):
            row = {"border": f"{border:.3f}", "hole_border": f"{hole_border:.3f}", "holes": str(holes)}
            self.assertEqual(str(length(row)), true)


@needs_shape
@needs_pillow
class KnownNetworks(InFolder):
    def test_strokes_of_a_width(self):
        widths = {"4.pbm": 4, "6.pbm": 6, "10.pbm": 10}
        for name, width in widths.items():
            drawn(name, "network", width)
        self.assertEqual(self.shapes("measure", *widths, "--network", "--pixel-size", "0.5", "mm", "-o", "out")[0], 0)
        for row in table("out/networks.csv"):
            width = widths[row["image"]]
            self.assertEqual([row[name] for name in ("pieces", "holes", "ends", "junctions", "branches")], ["1", "1", "4", "4", "8"])
            self.assertLess(abs(float(row["length"]) / 700 - 1), 0.022)
            self.assertLess(abs(float(row["mean_width"]) / width - 1), 0.03)
            self.assertEqual(Decimal(row["length_mm"]), Decimal(row["length"]) / 2)
            rows = [branch for branch in table("out/branches.csv") if branch["image"] == row["image"]]
            rows.sort(key=lambda branch: float(branch["length"]))
            for branch, true in zip(rows, sorted((58, 75, 70, 130, 70, 65, 150, 82)), strict=True):
                self.assertTrue(-width - 3 <= float(branch["length"]) - true <= 3, branch)
                self.assertLess(abs(float(branch["width"]) - width), 0.7)
                self.assertEqual(int(branch["ends"]) + int(branch["junctions"]), 2)

    def test_volume_and_surface_by_classes_of_width(self):
        widths = {f"{width}.pbm": width for width in (3, 4, 5, 6, 8, 10)}
        for name, width in widths.items():
            drawn(name, "network", width)
        self.assertEqual(self.shapes("measure", *widths, "--network", "--classes", "2.25,4.5", "--pixel-size", "0.5", "mm", "-o", "out")[0], 0)
        classes = table("out/widths.csv")
        for row in table("out/networks.csv"):
            width, own = widths[row["image"]], [one for one in classes if one["image"] == row["image"]]
            self.assertLess(abs(float(row["volume"]) / (700 * np.pi * width**2 / 4) - 1), 0.05)
            self.assertLess(abs(float(row["surface"]) / (700 * np.pi * width) - 1), 0.015)
            self.assertEqual([(one["width_from_mm"], one["width_to_mm"]) for one in own], [("0", "2.25"), ("2.25", "4.5"), ("4.5", "")])
            for name in ("length", "volume", "surface"):
                self.assertAlmostEqual(sum(float(one[name]) for one in own), float(row[name]), delta=0.003)
            shares = [float(one["length"]) / float(row["length"]) for one in own]
            self.assertGreater(shares[(width > 4.5) + (width > 9)], 0.9 if width in (3, 6, 8) else 0.6, (width, shares))
            self.assertAlmostEqual(8 * float(row["volume_mm3"]) / float(row["volume"]), 1, 7)
        self.assertEqual(self.shapes("check", "out")[0], 0)

    def test_classes_that_nobody_names(self):
        drawn("6.pbm", "network", 6)
        for words, wanted in (((), ("width_from", 2)), (("--dpi", "600"), ("width_from_mm", 0.1))):
            self.assertEqual(self.shapes("measure", "6.pbm", "--network", *words, "-o", "out")[0], 0)
            begins = [float(row[wanted[0]]) for row in table("out/widths.csv")]
            np.testing.assert_allclose(np.diff(begins), wanted[1])

    def test_short_branches_of_a_rough_network_are_left_out(self):
        drawn("8.pbm", "network", 8)
        with Image.open("8.pbm") as image:
            mask = ~np.array(image)
        edge = mask ^ (neighbours(~mask) == 0) & mask
        rough = mask & ~(edge & (np.random.default_rng(1).random(mask.shape) < 0.3))
        rough |= holes_of(rough) & mask
        Path("rough.pbm").write_bytes(spelled(rough))
        self.assertEqual(self.shapes("measure", "rough.pbm", "--network", "-o", "whole")[0], 0)
        self.assertGreater(int(table("whole/networks.csv")[0]["branches"]), 16)
        self.assertEqual(self.shapes("measure", "rough.pbm", "--network", "--prune", "6", "--pixel-size", "0.5", "mm", "-o", "out")[0], 0)
        (row,), branches = table("out/networks.csv"), table("out/branches.csv")
        self.assertEqual([row[name] for name in ("pieces", "branches", "ends", "junctions")], ["1", "8", "4", "4"])
        self.assertGreater(int(row["left_out"]), 8)
        self.assertLess(abs(float(row["length"]) / 700 - 1), 0.06)
        self.assertGreaterEqual(min(float(branch["length"]) for branch in branches), 12)
        for branch, true in zip(sorted(branches, key=lambda branch: float(branch["length"])), sorted((58, 75, 70, 130, 70, 65, 150, 82)), strict=True):
            self.assertTrue(-14 <= float(branch["length"]) - true <= 12, branch)
        self.assertEqual(self.shapes("check", "out")[0], 0)
        self.assertTrue(Path("out/drawings/rough.pbm.network.png").is_file())

    def test_pruning_keeps_pieces_and_holes_and_long_branches(self):
        def straight(mask):
            return [int(own.sum()) for own in (numbered(mask, True) == k for k in range(1, numbered(mask, True).max() + 1))]

        comb = np.zeros((30, 80), bool)
        comb[20, 2:78] = True
        for k, length in enumerate((3, 12, 2, 5, 14)):
            comb[20 - length : 20, 16 + 11 * k] = True
        own = pruned(comb, 8, straight)
        self.assertEqual((own.left_out, numbered(own.skeleton, True).max()), (3, 1))
        wanted = comb.copy()
        for k in (0, 2, 3):
            wanted[:20, 16 + 11 * k] = False
        np.testing.assert_array_equal(own.skeleton, wanted)
        self.assertEqual([numbered(part, True).max() for part in (own.branches, own.junctions)], [5, 2])

    def test_words_of_networks(self):
        for words in (("--prune", "3"), ("--classes", "1,2"), ("--network", "--classes", "2,1"), ("--network", "--prune", "-1")):
            self.assertEqual(self.shapes("measure", STORED / "cross.pbm", *words, "-o", "out")[0], 2)

    def test_a_ring_is_one_branch_without_ends(self):
        drawn("ring.pbm", "ring", 60, 80)
        self.assertEqual(self.shapes("measure", "ring.pbm", "--network", "-o", "out")[0], 0)
        (row,) = table("out/branches.csv")
        self.assertEqual((row["ends"], row["junctions"], row["from_x"], row["width"]), ("0", "0", "", "20.000"))
        self.assertLess(abs(float(row["length"]) / 439.82 - 1), 0.002)
        self.assertEqual(table("out/networks.csv")[0]["junctions"], "0")

    def test_every_number_is_one_of_a_report_or_a_table(self):
        self.assertEqual(self.shapes("measure", STORED / "granite.pbm", STORED / "cross.pbm", "--network", "-o", "out")[0], 0)
        for name in ("granite.pbm", "cross.pbm"):
            own, total = table(f"out/evidence/{name}.branches.csv"), table(f"out/evidence/{name}.network.csv")[0]
            rows = {part: table(f"out/evidence/{name}.network-{part}.csv") for part in ("skeleton", "branches", "junctions")}
            report = read(f"out/evidence/{name}.report.gz")
            widths = {f"{2 * float(square) ** 0.5:.3f}" for square in report.squares}
            tips = {tuple(map(str, point)) for point in read(f"out/evidence/{name}.network-branches.report.gz").tips}
            self.assertEqual([(row["branch"], row["points"]) for row in own], [(row["object"], row["area"]) for row in rows["branches"]])
            for row, measured in zip(own, rows["branches"]):
                line = (float(measured["border"]) + float(measured["hole_border"]) - 8**0.5 * (1 - int(measured["holes"]))) / 2
                self.assertAlmostEqual(float(row["length"]), line, 2)
                self.assertIn(row["width"], widths)
                self.assertIn(int(row["ends"]) + int(row["junctions"]), (0, 2))
                if row["points"] not in ("1", "0") and row["from_x"]:
                    self.assertLessEqual({(row["from_x"], row["from_y"]), (row["to_x"], row["to_y"])}, tips)
            self.assertEqual(sum(int(row["ends"]) for row in own), len(report.tips))
            self.assertEqual([int(total[part]) for part in ("branches", "junctions")], [len(rows["branches"]), len(rows["junctions"])])
            self.assertEqual((int(total["pieces"]), int(total["area"])), (len(rows["skeleton"]), report.parts.points))

    def test_it_is_checked_and_made_again(self):
        self.assertEqual(self.shapes("measure", STORED / "cross.pbm", "--network", "-o", "out")[0], 0)
        names = ["cross.pbm"]
        of_all = ["pictures.csv", "objects.csv", "networks.csv", "branches.csv", "widths.csv", "summary.txt", *PAGE, "evidence/made.json"]
        status, out, _ = self.shapes("check", "out")
        self.assertEqual((status, out[:-1]), (0, [f"out/evidence/{name}: yes" for name in names] + [f"out/{name}: yes" for name in of_all]))
        path = Path("out/evidence/cross.pbm.branches.csv")
        text = path.read_text()
        path.write_text(text.replace(",1,1,", ",2,1,", 1))
        status, out, _ = self.shapes("check", "out")
        told = f"out/evidence/cross.pbm: no, the report holds, but {path} is not what the reports and tables of its parts say: row 1 (branch 1): "
        self.assertEqual((status, any(line.startswith(told) for line in out)), (1, True), out)
        self.assertEqual(self.shapes("measure", STORED / "cross.pbm", "--network", "-o", "out")[0], 0)
        self.assertEqual(path.read_text(), text)
        self.assertEqual(self.shapes("measure", STORED / "cross.pbm", "-o", "out")[0], 0)
        self.assertFalse([path for path in Path("out").rglob("*") if "network" in path.name or "branches" in path.name])

    def test_another_rule_is_refused(self):
        status, _, error = self.shapes("measure", STORED / "cross.pbm", "--network", "--rule", "none", "-o", "out")
        self.assertEqual((status, error), (2, ["shapes: --network: the rule none does not keep the ends of branches; leave out --rule"]))
