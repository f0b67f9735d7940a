"""The local thickness: columns, a mask and a drawing with a colour bar, of pictures, labels and volumes."""
import csv
import unittest
import unittest.mock
from pathlib import Path

import numpy as np

from .common import InFolder, installed, needs_pillow, needs_shape

from shapefront import thickness
from shapefront.units import Pixel

if installed("PIL"):
    from PIL import Image

needs_matplotlib = unittest.skipUnless(installed("matplotlib"), "matplotlib is not installed")
COLUMNS = ("thickness", "thickness_sd", "thickness_max")


def table(path):
    with open(path, newline="") as file:
        return list(csv.DictReader(file))


def bars():
    """Two bars, 11 and 5 wide, and a small one beside them."""
    image = np.zeros((40, 60), np.uint8)
    image[4:36, 6:17], image[4:36, 30:35], image[20:23, 45:55] = 1, 2, 2
    return image


@needs_shape
@needs_pillow
class Drawn(InFolder):
    def measured(self, command, name, *words):
        status, _, error = self.shapes(command, name, *words, "-o", "out")
        self.assertEqual((status, error), (0, []))
        status, out, _ = self.shapes("check", "out")
        self.assertEqual(status, 0, out)
        return table("out/objects.csv")

    def colours(self, name):
        return len(np.unique(np.array(Image.open(f"out/drawings/{name}.thickness.png").convert("RGB")).reshape(-1, 3), axis=0))

    @needs_matplotlib
    def test_of_a_picture(self):
        Image.fromarray(np.where(bars(), 0, 255).astype(np.uint8)).save("v.png")
        rows = self.measured("measure", "v.png", "--thickness", "--dark", "--pixel-size", 0.5, "mm")
        self.assertEqual([[float(row[name + "_mm"]) * 2 for name in COLUMNS] for row in rows], [[float(row[name]) for name in COLUMNS] for row in rows])
        for row, wide in zip(rows, (12, 6, 4)):
            self.assertEqual(float(row["thickness_max"]), wide)
            self.assertLess(wide - float(row["thickness"]), 1)
        self.assertGreater(self.colours("v.png"), 100)
        self.assertTrue(Path("out/evidence/v.png.thickness.pgm").is_file())
        self.measured("measure", "v.png", "--dark")
        self.assertFalse(Path("out/drawings/v.png.thickness.png").exists())

    @needs_matplotlib
    def test_of_labels_and_of_a_volume(self):
        Image.fromarray(bars()).save("v.png")
        rows = self.measured("measure", "v.png", "--labels", "--thickness")
        self.assertEqual([(row["pieces"], row["thickness_max"]) for row in rows], [("1", "12.000"), ("2", "")])
        self.assertGreater(self.colours("v.png"), 100)
        np.save("v.npy", np.repeat(bars()[None] > 0, 20, 0))
        Path("out").rename("labels")
        self.measured("volume", "v.npy", "--light", "--thickness", "--voxel-size", 2, 2, 2, "um")
        self.assertGreater(self.colours("v.npy"), 100)
        status, _, error = self.shapes("volume", "v.npy", "--light", "--thickness", "--voxel-size", 2, 2, 3, "um", "-o", "flat")
        self.assertEqual((status, error), (1, ["v.npy: its voxels are no cubes, and thickness in them would be wrong; give --cubes"]))

    def test_without_matplotlib(self):
        Image.fromarray(np.where(bars(), 0, 255).astype(np.uint8)).save("v.png")
        with unittest.mock.patch("importlib.util.find_spec", return_value=None):
            status, _, error = self.shapes("measure", "v.png", "--thickness", "--dark", "-o", "out")
        self.assertEqual((status, error), (0, ["no drawings of the thickness, as matplotlib is not installed: `apt install python3-matplotlib`"]))
        self.assertIn("thickness", table("out/objects.csv")[0])
        self.assertFalse(Path("out/drawings/v.png.thickness.png").exists())


class Views(unittest.TestCase):
    def test_slices_of_a_volume(self):
        widths = np.arange(2 * 4 * 6, dtype=np.uint16).reshape(2, 4, 6)
        views = list(thickness.views_of(widths))
        self.assertEqual([(view.name, view.across, view.down, view.values.shape) for view in views], [("z = 1", "x", "y", (4, 6)), ("y = 2", "x", "z", (2, 6)), ("x = 3", "z", "y", (4, 2))])
        self.assertEqual([int(view.values[1, 1]) for view in views], [widths[1, 1, 1], widths[1, 2, 1], widths[1, 1, 3]])

    @needs_matplotlib
    def test_large_and_empty_ones(self):
        for shape in ((3, 5000), (4100, 40), (1, 1)):
            data = thickness.drawing(np.zeros(shape, np.uint16), Pixel.given("2", "um"))
            self.assertEqual(data[:4], b"\x89PNG")
        large = np.zeros((30, 5000), np.uint16)
        large[10, 4321] = 7
        self.assertEqual(thickness._smaller(large).max(), 7)


if __name__ == "__main__":
    unittest.main()
