"""`shapes volume`: the same table of every format, what is said of voxels that are no cubes, networks in space, drawings, and meshes."""
import csv
import gzip
import io
import os
import subprocess
import unittest
import unittest.mock
from pathlib import Path

import numpy as np

from .browser import HAS_BROWSER, Browser
from . import fake
from .test_scans import UNU, dicom_slice
from .common import InFolder, installed, needs_pillow, needs_shape, random_mask

from shapefront import meshes, programs
from shapefront.graphs import Graph, length, pruned
from shapefront.morphometry import COLUMNS, Morphometry, sides_at_border
from shapefront.separation import Spread
from shapefront.solidviews import Solid, Tiles
from shapefront.spacing import Spacing

if installed("PIL"):
    from PIL import Image

UM = Spacing.given("--pixel-size", ["0.5", "um"])

# Six tubes in space, each from a point to another: their lengths, with 3 junctions and 5 free ends.
A, B, C, D, E = (20.3, 20.1, 20.2), (60.3, 40.1, 30.2), (90.3, 20.1, 60.2), (70.3, 80.1, 60.2), (50.3, 60.1, 80.2)
TUBES = [(A, B), (B, C), (B, D), (D, E), (D, (95, 90, 30)), (E, (20.3, 80.1, 90.2)), (E, (30, 30, 85))]
LENGTHS = [float(np.linalg.norm(np.subtract(*ends))) for ends in TUBES]


def tubes(radius, side=110):
    """The tubes of this radius in a volume [z, y, x]."""
    places, mask = np.stack(np.mgrid[:side, :side, :side][::-1], -1).astype(float), np.zeros((side,) * 3, bool)
    for begin, end in TUBES:
        along = np.subtract(end, begin)
        share = np.clip((places - begin) @ along / (along @ along), 0, 1)
        mask |= ((places - begin - share[..., None] * along) ** 2).sum(-1) <= radius**2
    return mask


def table(path):
    with open(path, newline="") as file:
        return list(csv.DictReader(file))


def has_words(*words):
    """Whether the program knows these words for a report."""
    with unittest.mock.patch.dict(os.environ):
        return programs.has() and programs.call(*words, "/nowhere").message.startswith("read failed")


@needs_shape
@needs_pillow
class Tables(InFolder):
    def measured(self, *words):
        status, out, error = self.shapes("volume", *words, "--light", "-o", "out")
        self.assertEqual((status, error), (0, []))
        return Path("out/summary.txt").read_text()

    def checked(self, *words):
        status, out, error = self.shapes("check", "out", *words)
        self.assertEqual((status, error), (0, []), [line for line in out if ": no" in line])

    def test_every_format_gives_the_table_of_the_array(self):
        mask = random_mask(7, 6, 7, 8)
        values, names = mask.astype(np.uint8) * 200, ["v.npy", "v.npz", "v.raw"]
        np.save("v.npy", values)
        np.savez("v.npz", a=values)
        Path("slices").mkdir()
        for k, page in enumerate(values):
            Image.fromarray(page).save(f"slices/{k}.png")
        if installed("nibabel"):
            import nibabel

            nibabel.save(nibabel.Nifti1Image(values.transpose(), np.eye(4)), "v.nii.gz")
            names.append("v.nii.gz")
        if installed("h5py"):
            import h5py

            with h5py.File("v.h5", "w") as file:
                file["a/b"] = values
            names.append("v.h5:/a/b")
        if installed("tifffile"):
            import tifffile

            tifffile.imwrite("v.ome.tif", values, metadata={"axes": "ZYX"}, photometric="minisblack")
            tifffile.imwrite("v.tif", values, imagej=True, metadata={"axes": "ZYX"})
            names += ["v.ome.tif", "v.tif"]
        if installed("pydicom"):
            Path("series").mkdir()
            for k, page in enumerate(values):
                dicom_slice(f"series/{9 - k}.dcm", page.astype(np.uint16), k)
            names.append("series")
        if UNU:
            values.tofile("unu.raw")
            subprocess.run([UNU, "make", "-i", "unu.raw", "-t", "uchar", "-s", "8", "7", "6", "-e", "raw", "-o", "unu.nrrd"], check=True, stderr=subprocess.DEVNULL)
            names.append("unu.nrrd")
        if installed("vtk"):
            from vtkmodules.util.numpy_support import numpy_to_vtk
            from vtkmodules.vtkCommonDataModel import vtkImageData
            from vtkmodules.vtkIOImage import vtkMetaImageWriter

            image, writer = vtkImageData(), vtkMetaImageWriter()
            image.SetDimensions(8, 7, 6)
            image.GetPointData().SetScalars(numpy_to_vtk(values.ravel(), deep=True))
            writer.SetInputData(image)
            writer.SetFileName("v.mha")
            writer.Write()
            names.append("v.mha")
        Path("v.nrrd").write_bytes(b"NRRD0004\ntype: uchar\ndimension: 3\nsizes: 8 7 6\nencoding: gzip\n\n" + gzip.compress(values.tobytes()))
        values.tofile("v.raw")
        self.measured(*names, "v.nrrd", "slices", "--sides", 8, 7, 6)
        rows = {}
        for row in table("out/objects.csv"):
            rows.setdefault(row.pop("image"), []).append({name: value for name, value in row.items() if "_mm" not in name})
        self.assertEqual(len(rows), len(names) + 2)
        for name, own in rows.items():
            self.assertEqual(own, rows["v.npy"], name)
        self.checked()
        self.checked("--originals", ".", "--allow", "v.npy")

    def test_voxels_that_are_no_cubes(self):
        np.save("v.npy", random_mask(4, 6, 7, 8))
        told = self.measured("v.npy", "--voxel-size", 0.5, 0.5, 2, "um")
        self.assertIn("its voxels are 0.5 by 0.5 by 2 um, as you say", told)
        self.assertIn("its voxels are no cubes", told)
        for row in table("out/objects.csv"):
            self.assertEqual(float(row["voxels_um3"]), int(row["voxels"]) / 2)
            self.assertEqual((row["radius_um"], "sides_um2" in row), ("", False))
            self.assertAlmostEqual(float(row["z_um"]), 2 * float(row["z"]), 6)
            self.assertAlmostEqual(float(row["x_um"]), float(row["x"]) / 2, 6)
        whole = table("out/volumes.csv")[0]
        self.assertEqual((float(whole["TV_um3"]), whole["Tb.Th_um"]), (6 * 7 * 8 / 2, ""))
        self.assertEqual(whole["BS_um2"] != "", has_words("measure", "spacing", 1, 1, 4))
        self.checked("--originals", ".", "--allow", "v.npy")

    def test_cubes_of_them_are_measured_in_the_unit(self):
        np.save("v.npy", random_mask(4, 6, 7, 8))
        self.measured("v.npy", "--voxel-size", 1, 1, 2, "mm", "--cubes")
        whole = table("out/volumes.csv")[0]
        self.assertEqual((whole["TV"], whole["TV_mm3"]), (str(6 * 7 * 8 * 2),) * 2)
        self.assertTrue(all(row["radius_mm"] == f"{float(row['radius']):g}" for row in table("out/objects.csv")))
        self.checked("--originals", ".", "--allow", "v.npy")

    @unittest.skipUnless(installed("tifffile"), "tifffile is not installed")
    def test_metadata_and_words_that_differ(self):
        import tifffile

        values = random_mask(4, 6, 7, 8).astype(np.uint8)
        tifffile.imwrite("v.tif", values, imagej=True, resolution=(2, 2), metadata={"spacing": 2.0, "unit": "um", "axes": "ZYX"})
        self.assertIn("nothing is told in a unit", self.measured("v.tif", "--pixel-size", 0.5, "um"))
        self.assertNotIn("voxels_um3", table("out/objects.csv")[0])
        self.assertIn("its voxels are 0.5 um, as you say", self.measured("v.tif", "--pixel-size", 0.5, "um", "--no-metadata"))
        self.assertIn("voxels_um3", table("out/objects.csv")[0])
        self.checked("--originals", ".", "--allow", "v.tif")

    def test_units_of_several_volumes(self):
        """The first volume's unit is that of the table, and others are told in it."""
        for name, unit in (("a.mha", "um"), ("b.mha", "mm"), ("c.mha", "")):
            told = f"DistanceUnits = {unit}\n" if unit else ""
            head = f"NDims = 3\nDimSize = 4 3 2\n{told}ElementSpacing = 2 2 2\nElementType = MET_UCHAR\nElementDataFile = LOCAL\n"
            Path(name).write_bytes(head.encode() + bytes([1] * 12 + [0] * 12))
        self.measured("a.mha", "b.mha", "c.mha")
        self.assertEqual([row["voxels_um3"] for row in table("out/objects.csv")], ["96", "96000000000", ""])
        self.checked()

    def test_a_region_and_what_lies_between(self):
        mask, region = random_mask(4, 8, 9, 10), np.zeros((8, 9, 10), bool)
        region[1:7, 2:8, 3:9] = True
        np.save("v.npy", mask)
        np.save("r.npy", region.astype(np.uint8))
        told = self.measured("v.npy", "--region", "r.npy", "--separation", "--masks", "object")
        self.assertIn(f"within the region r.npy: {region.sum()} of {region.size} voxels", told)
        whole = table("out/volumes.csv")[0]
        own = (mask & region).sum()
        self.assertEqual((whole["TV"], whole["BV"], whole["background"]), (str(region.sum()), str(own), str(region.sum() - own)))
        self.assertEqual(whole["BV/TV"], f"{own / region.sum():.9g}".rstrip("0"))
        spaces = np.fromfile("out/evidence/v.npy.separation.10x9x8.raw", np.uint8).reshape(mask.shape)
        np.testing.assert_array_equal(spaces > 0, region & ~mask)
        self.checked("--originals", ".", "--allow", "v.npy")
        spaces[1, 2, 3] ^= 1
        spaces.tofile("out/evidence/v.npy.separation.10x9x8.raw")
        self.assertEqual(self.shapes("check", "out")[0], 1)

    def test_labels_one_by_one_have_no_whole(self):
        labels = np.zeros((5, 6, 7), np.uint8)
        labels[1:4, 1:3, 1:6], labels[1:4, 3:5, 1:6] = 1, 2
        np.save("v.npy", labels)
        self.measured("v.npy", "--labels", "--voxel-size", 1, 1, 3, "um")
        self.assertFalse(Path("out/volumes.csv").exists())
        self.assertEqual([row["voxels_um3"] for row in table("out/objects.csv")], ["90", "90"])
        self.checked()
        self.assertEqual(self.shapes("volume", "v.npy", "--labels", "--network", "-o", "out")[0], 2)


@needs_shape
@needs_pillow
class Spaced(InFolder):
    """Voxels that are no cubes, with a program that measures by whole-number sides of them, and with one that does not know how."""

    def setUp(self):
        super().setUp()
        np.save("v.npy", random_mask(4, 6, 7, 8))

    def measured(self, *words, knows=True):
        environment = fake.put_spaced(Path("bin").resolve(), programs.find()) if knows else {"SHAPE_BIN": str(programs.find().parent)}
        with unittest.mock.patch.dict(os.environ, environment):
            self.assertEqual(self.shapes("volume", "v.npy", "--light", *words, "-o", "out")[0::2], (0, []))
            status, out, _ = self.shapes("check", "out")
        self.assertEqual(status, 0, out)
        return Path("out/summary.txt").read_text(), table("out/objects.csv"), table("out/volumes.csv")[0] if Path("out/volumes.csv").exists() else None

    def test_surfaces_are_told_in_the_unit(self):
        told, rows, whole = self.measured("--voxel-size", 0.5, 0.5, 2, "um")
        self.assertIn("surfaces and Feret diameters are told in the unit (by sides of 1 by 1 by 4), radii and thickness are not", told)
        for row in rows:
            self.assertEqual((row["surface_um2"], row["radius_um"]), ("250", ""))
            self.assertEqual(float(row["voxels_um3"]), int(row["voxels"]) / 2)
        self.assertEqual((whole["BS"], float(whole["BS_um2"]), whole["Tb.Th_um"]), ("", 250 * len(rows), ""))
        self.assertAlmostEqual(float(whole["BS/BV_um-1"]), float(whole["BS_um2"]) / float(whole["BV_um3"]), 6)

    def test_a_table_of_it_that_was_changed(self):
        self.measured("--voxel-size", 0.5, 0.5, 2, "um")
        path = Path("out/evidence/v.npy.spacing.csv")
        path.write_text(path.read_text().replace("1000.000", "2000.000", 1))
        with unittest.mock.patch.dict(os.environ, {"SHAPE_BIN": str(Path("bin").resolve())}):
            self.assertIn("is not what `shape measure` makes of it", "\n".join(self.shapes("check", "out")[1]))

    def test_a_voxel_of_a_volume_that_was_made_smaller(self):
        _, rows, _ = self.measured("--voxel-size", 0.5, 0.5, 2, "um")
        values = np.load("v.npy").repeat(2, 0).repeat(2, 1).repeat(2, 2)
        np.save("v.npy", values)
        with unittest.mock.patch("shapefront.convert.MOST_SOLID", 8):
            _, fitted, whole = self.measured("--voxel-size", 0.25, 0.25, 1, "um", "--fit")
        self.assertEqual([row["surface_um2"] for row in fitted], [row["surface_um2"] for row in rows])
        self.assertEqual(float(whole["BS_um2"]), 250 * len(rows))

    def test_labels_in_one_piece_and_in_two(self):
        labels = np.zeros((5, 6, 9), np.uint8)
        labels[1:4, 1:3, 1:6], labels[1:3, 4, 1:3], labels[1:3, 4, 6:8] = 1, 2, 2
        np.save("v.npy", labels)
        _, rows, whole = self.measured("--labels", "--voxel-size", 1, 1, 3, "um")
        self.assertIsNone(whole)
        self.assertEqual([(row["pieces"], row["surface_um2"], row["radius_um"], row["voxels_um3"]) for row in rows], [("1", "1000", "", "90"), ("2", "2000", "", "24")])

    def test_a_program_that_does_not_know_it(self):
        if has_words("measure", "spacing", 1, 1, 4):
            self.skipTest("the program knows it")
        told, rows, whole = self.measured("--voxel-size", 0.5, 0.5, 2, "um", knows=False)
        self.assertIn("volumes and places are told in the unit, lengths and areas are not", told)
        self.assertTrue(all(row["surface_um2"] == row["radius_um"] == "" for row in rows))
        self.assertEqual((whole["BS"], whole["BS_um2"]), ("", ""))

    def test_a_network_wants_cubes(self):
        with unittest.mock.patch.dict(os.environ, {"SHAPE_BIN": str(programs.find().parent)}):
            status, _, error = self.shapes("volume", "v.npy", "--light", "--network", "--voxel-size", 0.5, 0.5, 2, "um", "-o", "out")
        self.assertEqual((status, error), (1, ["v.npy: its voxels are no cubes, and lengths of a network in them would be wrong; give --cubes"]))


@needs_shape
class Networks(InFolder):
    def test_tubes_in_space(self):
        for radius in (2, 3, 4):
            np.save(f"{radius}.npy", tubes(radius))
        names = [f"{radius}.npy" for radius in (2, 3, 4)]
        words = ("--network", "--prune", 4, "--classes", "2,3", "--pixel-size", 0.5, "um", "-o", "out")
        self.assertEqual(self.shapes("volume", *names, *words)[0::2], (0, []))
        for row in table("out/networks.csv"):
            radius = int(row["image"][0])
            self.assertEqual([row[name] for name in ("pieces", "loops", "branches", "ends", "junctions", "left_out")], ["1", "0", "7", "5", "3", "0"])
            self.assertLess(abs(float(row["length"]) / sum(LENGTHS) - 1), 0.015)
            self.assertLess(abs(float(row["mean_width"]) / (2 * radius) - 1), 0.04)
            self.assertLess(abs(float(row["volume"]) / int(row["voxels"]) - 1), 0.1)
            self.assertAlmostEqual(float(row["length_um"]), float(row["length"]) / 2, 4)
            own = [branch for branch in table("out/branches.csv") if branch["image"] == row["image"]]
            for found, true in zip(sorted(float(branch["length"]) for branch in own), sorted(LENGTHS), strict=True):
                self.assertLess(abs(found - true), 2.5)
            for branch in own:
                self.assertLess(abs(float(branch["width"]) - 2 * radius), 1.3)
                self.assertLess(float(branch["tortuosity"]), 1.08)
                self.assertGreaterEqual(float(branch["tortuosity"]), 1)
            nodes = [node for node in table("out/nodes.csv") if node["image"] == row["image"]]
            self.assertEqual([node["kind"] for node in nodes], ["junction"] * 3 + ["end"] * 5)
            self.assertEqual([node["branches"] for node in nodes], ["3"] * 3 + ["1"] * 5)
            for node in nodes[:3]:
                place = np.array([float(node[axis]) for axis in "xyz"])
                self.assertLess(min(np.linalg.norm(place - true) for true in (B, D, E)), 2.5)
            classes = [one for one in table("out/widths.csv") if one["image"] == row["image"]]
            self.assertAlmostEqual(sum(float(one["length"]) for one in classes), float(row["length"]), 1)
        status, out, _ = self.shapes("check", "out")
        self.assertEqual(status, 0, out)
        text = Path("out/branches.csv").read_text().replace(",7,", ",8,", 1)
        Path("out/branches.csv").write_text(text)
        self.assertIn("out/branches.csv: no, row", "\n".join(self.shapes("check", "out")[1]))


class Graphs(unittest.TestCase):
    """Skeletons by hand."""

    def line(self, *points):
        return np.array(sorted(points, key=lambda point: point[::-1]))

    def test_a_ring_and_a_point(self):
        ring = [(x, y, 3) for x in range(6) for y in range(6) if (x in (0, 5)) != (y in (0, 5))]
        graph = Graph.of(self.line(*ring, (20, 20, 20)))
        self.assertEqual([(branch.is_ring, branch.ends, branch.junctions, len(branch.points)) for branch in graph.branches], [(True, 0, 0, 16), (False, 2, 0, 1)])
        self.assertEqual(length(graph.line(graph.branches[1])), 0)
        eighth = [(round((400 - k * k) ** 0.5), k) for k in range(-14, 15)]
        circle = {(sign * place[turn] + 30, sign * place[1 - turn] + 30, 10) for place in eighth for sign in (1, -1) for turn in (0, 1)}
        graph = Graph.of(self.line(*circle))
        branch, = graph.branches
        self.assertTrue(branch.is_ring)
        self.assertLess(abs(length(graph.line(branch)) / (40 * np.pi) - 1), 0.01)

    def test_a_short_branch_is_left_out_and_two_become_one(self):
        line = [(x, 5, 5) for x in range(30)] + [(12, 5 + k, 5) for k in range(1, 4)]
        graph = Graph.of(self.line(*line))
        self.assertEqual((len(graph.branches), len(graph.middles)), (3, 1))
        found = pruned(self.line(*line), 6)
        branch, = found.graph.branches
        self.assertEqual((found.left_out, len(branch.points), branch.ends, length(found.graph.line(branch))), (1, 30, 2, 29.0))

    def test_a_short_branch_between_two_junctions(self):
        line = [(x, 15, 5) for x in range(10, 20)] + [(10 - k, 15 + sign * k, 5) for k in range(1, 9) for sign in (1, -1)]
        line += [(19 + k, 15 + sign * k, 5) for k in range(1, 9) for sign in (1, -1)]
        self.assertEqual(len(pruned(self.line(*line), 1).graph.middles), 2)
        found = pruned(self.line(*line), 11)
        self.assertEqual((len(found.graph.middles), len(found.graph.branches), found.left_out), (1, 4, 1))

    def test_nothing(self):
        graph = Graph.of(np.zeros((0, 3), int))
        self.assertEqual((graph.branches, len(graph.middles)), ([], 0))


class Whole(InFolder):
    """The row of a whole volume, by tables as the program prints them."""

    def put(self, objects):
        Path("v.whole.csv").write_text("voxels,pieces,pores,tunnels,euler,surface\n300,2,1,4,-1,230.501\n")
        Path("v.csv").write_text(objects)

    def test_what_follows_from_the_tables(self):
        self.put("object,voxels,sides,euler,surface,thickness,thickness_sd,thickness_max\n1,200,9,-3,150.500,4.000,1.000,6.000\n2,100,5,2,80.000,7.000,0.000,7.000\n")
        header, row = Morphometry.of(Path("v"), 1000, (3, 4, 5), Spread(10.0, 2.0, 14.0), True).rows
        self.assertEqual(header, COLUMNS)
        self.assertEqual(
            dict(zip(header, row)),
            {
                "TV": "1000", "BV": "300", "background": "700", "BV/TV": "0.3", "porosity": "0.7", "BS": "230.501", "i.S": "12", "BS/BV": "0.768336667",
                "Tb.Th": "5.000", "Tb.Th_sd": f"{(2 / 3 * 17 + 49 / 3 - 25) ** 0.5:.3f}", "Tb.Th_max": "7.000", "Tb.Sp": "10.00", "Tb.Sp_sd": "2.00", "Tb.Sp_max": "14.00",
                "euler": "-1", "Conn.D": "0.002", "pieces": "2", "closed_pores": "1", "tunnels": "4",
            },
        )  # fmt: skip

    def test_of_voxels_that_are_no_cubes_lengths_and_areas_are_empty(self):
        self.put("object,voxels,thickness,thickness_sd,thickness_max\n1,300,4.000,1.000,6.000\n")
        whole = Morphometry.of(Path("v"), 1000, (3, 4, 5), None, False, (1, 1, 4))
        told = dict(zip(*whole.rows))
        self.assertEqual([name for name in COLUMNS if not told[name]], [name for name in COLUMNS if name[:2] in ("BS", "Tb", "i.")])
        self.assertIsNone(whole.spaced_rows)
        Path("v.spacing.csv").write_text("object,voxels,volume,surface\n1,200,800,400.500\n2,100,400,99.500\n")
        told = dict(zip(*Morphometry.of(Path("v"), 1000, (3, 4, 5), None, False, (1, 1, 4)).spaced_rows))
        self.assertEqual({name: value for name, value in told.items() if value}, {"BS": "500.000", "i.S": "33", "BS/BV": "0.416666667"})

    def test_sides_at_the_border(self):
        mask = random_mask(4, 4, 5, 6)
        wide = np.pad(mask, 1)
        every = tuple(int((np.diff(wide.astype(int), axis=axis) != 0).sum()) for axis in (2, 1, 0))
        self.assertEqual(sides_at_border(mask, mask), every)
        self.assertEqual(sides_at_border(mask, np.ones_like(mask)), sides_at_border(mask, None))
        self.assertEqual(sides_at_border(np.ones((2, 3, 4), bool), None), (12, 16, 24))

    def test_a_spread(self):
        self.assertEqual(Spread.of(np.array([0, 3, 0, 1]), 0.5), Spread(0.75, 0.75**0.5 / 2, 1.5))
        self.assertIsNone(Spread.of(np.zeros(4, int), 0.5))


@needs_shape
@needs_pillow
class Separation(InFolder):
    """What lies between plates that are 12 apart, in a box and in a region."""

    def measured(self, *words):
        self.assertEqual(self.shapes("volume", "v.npy", "--light", "--separation", "--rule", "none", *words, "-o", "out")[0::2], (0, []))
        return table("out/volumes.csv")[0]

    def test_what_is_near_to_the_border_is_left_out(self):
        mask = np.zeros((40, 40, 57), np.uint8)
        mask[:, :, [*range(12, 15), *range(27, 30), *range(42, 45)]] = 1
        np.save("v.npy", mask)
        whole = self.measured()
        for name, value in (("Tb.Sp", 12), ("Tb.Sp_sd", 0), ("Tb.Sp_max", 13)):
            self.assertLess(abs(float(whole[name]) - value), 1.2, name)
        region = np.zeros_like(mask)
        region[4:36, 4:36, 4:53] = 1
        np.save("r.npy", region)
        self.assertLess(abs(float(self.measured("--region", "r.npy")["Tb.Sp"]) - 12), 1.2)
        self.assertEqual(self.shapes("check", "out")[0], 0)
        np.save("v.npy", np.pad(np.ones((2, 1, 1), np.uint8), ((0, 0), (4, 4), (4, 4))))
        self.assertEqual(self.measured()["Tb.Sp"], "")


@needs_pillow
class Views(unittest.TestCase):
    def picture(self, data):
        return np.array(Image.open(io.BytesIO(data)).convert("RGB"))

    def test_drawings_have_their_sides_and_are_not_empty(self):
        mask = tubes(3, 60)
        points = np.argwhere(mask)[::40, ::-1]
        solid = Solid(mask, mask.astype(np.uint8), 1, UM)
        for data in (solid.faces(), solid.skeleton(points), solid.slices()):
            picture = self.picture(data)
            self.assertLess(max(picture.shape), 2400)
            self.assertGreater((picture < 250).any(2).mean(), 0.01)

    def test_the_slices_of_the_page(self):
        for side, most in ((5, 5), (200, 64)):
            mask = np.zeros((side, 30, 40), bool)
            mask[:, 3:9, 4:11] = True
            tiles, picture = Tiles.of((40, 30, side), (40, 30, side)), self.picture(Solid(mask, mask).sheet())
            self.assertEqual((len(tiles.places), tiles.places[0], tiles.places[-1]), (most, 0, side - 1))
            self.assertEqual(picture.shape[:2], (-(-most // tiles.row) * tiles.height, tiles.row * tiles.width))


class Meshes(unittest.TestCase):
    def surface(self, data):
        head, _, body = data.partition(b"end_header\n")
        counts = [int(line.split()[-1]) for line in head.decode().splitlines() if line.startswith("element")]
        places = np.frombuffer(body, "<f4", 3 * counts[0]).reshape(-1, 3).astype(float)
        faces = np.frombuffer(body, [("count", "u1"), ("at", "<i4", 3)], counts[1], 12 * counts[0])["at"]
        return head.decode(), places, faces

    def volume(self, places, faces):
        """The volume that a closed surface holds, positive where its triangles look outwards."""
        return float(np.einsum("ij,ij->i", places[faces[:, 0]], np.cross(places[faces[:, 1]], places[faces[:, 2]])).sum() / 6)

    def closed(self, faces):
        """Whether each edge of a triangle belongs to another that goes the other way."""
        edges = np.concatenate([faces[:, [0, 1]], faces[:, [1, 2]], faces[:, [2, 0]]])
        key = lambda pairs: sorted(map(tuple, pairs.tolist()))  # noqa: E731
        return key(edges) == key(edges[:, ::-1])

    def test_exposed_sides(self):
        for mask in (random_mask(4, 5, 6, 7), random_mask(6, 4, 4, 4), np.ones((2, 3, 4), bool)):
            with unittest.mock.patch.dict("sys.modules", {"skimage": None}):
                head, places, faces = self.surface(meshes.mesh(mask, UM))
            self.assertIn("comment not proved: the exposed sides of voxels; lengths in um", head)
            self.assertTrue(self.closed(faces))
            self.assertAlmostEqual(self.volume(places, faces), mask.sum() / 8, 3)

    @unittest.skipUnless(installed("skimage"), "scikit-image is not installed")
    def test_marching_cubes(self):
        z, y, x = np.mgrid[:30, :30, :30]
        ball = (x - 14.3) ** 2 + (y - 14.1) ** 2 + (z - 14.2) ** 2 <= 100
        head, places, faces = self.surface(meshes.mesh(ball, Spacing.of((1, 1, 2), "mm")))
        self.assertIn("comment not proved: marching cubes of scikit-image", head)
        self.assertTrue(self.closed(faces))
        self.assertLess(abs(self.volume(places, faces) / (2 * ball.sum()) - 1), 0.05)
        np.testing.assert_allclose(places.mean(0), (14.3, 14.1, 28.4), atol=0.3)


@needs_shape
@unittest.skipUnless(HAS_BROWSER, "no browser")
class Page(InFolder):
    def test_a_slider_over_slices(self):
        np.save("v.npy", tubes(3, 50))
        self.assertEqual(self.shapes("volume", "v.npy", "--light", "--mesh", "-o", "out")[0], 0)
        browser = Browser()
        self.addCleanup(browser.close)
        browser.open(Path("out/index.html"))
        told = "await new Promise((done) => setTimeout(done, 400)); return document.querySelector('.sliding span').textContent"
        self.assertEqual(browser.run(told), "z = 25 of 0 to 49")
        browser.run("const slider = document.querySelector('.slices'); slider.value = 3; slider.dispatchEvent(new Event('input'))")
        self.assertEqual(browser.run(told), "z = 3 of 0 to 49")
        self.assertIn("volume fraction of the object", browser.run("return document.getElementById('whole').textContent"))
        self.assertEqual(browser.said(), [])
        self.assertEqual(self.shapes("check", "out")[0], 0)


class Asking(InFolder):
    def test_words(self):
        for words, reason in (
            (("--voxel-size", "1", "1", "0", "um"), "`1 1 0 um` is no size of a voxel"),
            (("--voxel-size", "1", "1", "1", "um", "--pixel-size", "1", "um"), "not allowed with"),
            (("--type", "complex64"), "invalid"),
            (("--sides", "1", "1"), "expected 3"),
            (("--prune", "3"), "--prune, --classes: they are about a network"),
        ):
            status, _, error = self.shapes("volume", "v.npy", *words)
            self.assertEqual((status, reason in "\n".join(error)), (2, True), (words, error))


if __name__ == "__main__":
    unittest.main()
