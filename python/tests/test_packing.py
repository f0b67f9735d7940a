"""What is packed comes out as it was, by libdeflate and without it; and drawings over an image keep its grey levels."""
import gzip
import io
import unittest
import unittest.mock

import numpy as np

from .common import installed, needs_pillow

from shapefront import packing
from shapefront.overlay import GREYS, INNER, OUTER, Border, Number, Overlay, shown

if installed("PIL"):
    from PIL import Image


def picture(data):
    with Image.open(io.BytesIO(data)) as image:
        return np.array(image.convert("RGB"))


class Packed(unittest.TestCase):
    def setUp(self):
        packing._packers.cache_clear()
        self.addCleanup(packing._packers.cache_clear)
        self.draw = np.random.default_rng(1)

    def both(self):
        """With libdeflate, where it is, and without it."""
        yield "as it is"
        packing._packers.cache_clear()
        with unittest.mock.patch("ctypes.CDLL", side_effect=OSError):
            yield "without libdeflate"

    def test_gzip(self):
        for _ in self.both():
            for data in (b"", b"a", bytes(100000), self.draw.integers(0, 256, 70000, np.uint8).tobytes(), b"near 1 2 3 4 5\n" * 30000):
                self.assertEqual(gzip.decompress(packing.gzipped(data)), data)
                self.assertEqual(packing.gzipped(data), packing.gzipped(data))

    @needs_pillow
    def test_png(self):
        palette = self.draw.integers(0, 256, (256, 3)).astype(np.uint8)
        for _ in self.both():
            for shape in ((1, 1), (1, 9), (7, 1), (40, 33)):
                values = self.draw.integers(0, 256, shape).astype(np.uint8)
                np.testing.assert_array_equal(picture(packing.png(values)), np.repeat(values[:, :, None], 3, 2))
                np.testing.assert_array_equal(picture(packing.png(values, palette.ravel().tolist())), palette[values])
                colours = self.draw.integers(0, 256, (*shape, 3)).astype(np.uint8)
                np.testing.assert_array_equal(picture(packing.png(colours)), colours)


@needs_pillow
class Levels(unittest.TestCase):
    """A drawing is the image itself but for borders and numbers, however many grey levels the image has."""

    def setUp(self):
        self.draw, box = np.random.default_rng(2), [(300, 300), (900, 300), (900, 800), (300, 800)]
        self.lines = [Border(np.array(box), 1, False), Border(np.array(box) + 50, 0, True)]
        self.numbers = [Number("17", 500.0, 600.0, 40.0, 9999.0)]

    def drawn(self, image):
        return picture(Overlay(image, self.lines, self.numbers).drawing())

    def test_each_level_stays(self):
        for levels in (2, 60, GREYS - 1, GREYS, GREYS + 1, 256):
            image = self.draw.permutation(256)[:levels][self.draw.integers(0, levels, (1200, 1200))].astype(np.uint8)
            drawn = self.drawn(image)
            changed = (drawn != image[:, :, None]).any(2)
            self.assertLess(changed.mean(), 0.01)
            colours = {tuple(colour) for colour in drawn[changed].tolist()}
            self.assertLessEqual({OUTER, INNER}, colours)
            self.assertLess(len(colours), 260)
            changed[290:960, 290:960] &= False
            self.assertFalse(changed.any())

    def test_deep_values_keep_their_order(self):
        image = np.sort(self.draw.integers(0, 65536, (1200, 1200)).astype(np.uint16), 1)
        drawn = self.drawn(image)[:250]
        self.assertTrue((drawn[:, :, 0] == drawn[:, :, 2]).all() and (np.diff(drawn[:, :, 0].astype(int), axis=1) >= 0).all())
        self.assertGreater(len(np.unique(drawn)), 240)
        self.assertLessEqual(len(np.unique(shown(image))), GREYS)


if __name__ == "__main__":
    unittest.main()
