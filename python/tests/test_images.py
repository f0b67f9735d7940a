"""Images as they come: 16 bits, many channels, pages; and what is done before and after the threshold."""
import builtins
import json
import struct
import unittest
import unittest.mock
import zlib
from pathlib import Path

import numpy as np

from .common import InFolder, installed, needs_pillow, needs_shape, random_mask

from shapefront import Fault, Missing
from shapefront.channels import luminance
from shapefront.components import numbered
from shapefront.convert import picture_of, volume
from shapefront.filters import Filters, holes_of
from shapefront.images import load
from shapefront.thresholds import Settings

if installed("PIL"):
    from PIL import Image
if installed("tifffile"):
    import tifffile
if installed("scipy"):
    from scipy import ndimage

needs_tifffile = unittest.skipUnless(installed("tifffile", "PIL"), "tifffile is not installed")
needs_scipy = unittest.skipUnless(installed("scipy"), "scipy is not installed")


def one(path, filters=None, **settings):
    picture = picture_of(Path(path), str(path), Settings(**settings, filters=Filters(**filters or {})))
    return picture


def disc(side=60, radius=15, x=30, y=25):
    rows, columns = np.mgrid[:side, :side]
    return (columns - x) ** 2 + (rows - y) ** 2 < radius**2


def deep_png(path, values, *further):
    """A PNG of 16 bits with the channels of these values, and with further chunks."""
    def chunk(kind, data):
        return struct.pack(">I", len(data)) + kind + data + struct.pack(">I", zlib.crc32(kind + data))

    rows = b"".join(b"\0" + row.astype(">u2").tobytes() for row in values)
    head = struct.pack(">IIBBBBB", values.shape[1], values.shape[0], 16, {2: 4, 3: 2, 4: 6}[values.shape[2]], 0, 0, 0)
    parts = ((b"IHDR", head), *further, (b"IDAT", zlib.compress(rows)), (b"IEND", b""))
    Path(path).write_bytes(b"\x89PNG\r\n\x1a\n" + b"".join(chunk(*part) for part in parts))


@needs_tifffile
class Channels(InFolder):
    def setUp(self):
        super().setUp()
        draw = np.random.default_rng(0)
        self.colours = np.stack([np.where(disc(x=x), 40000, 3000) + draw.integers(0, 900, (60, 60)) for x in (20, 30, 40)]).astype(np.uint16)
        self.grey = luminance(np.moveaxis(self.colours, 0, 2))

    def test_sixteen_bits_plane_by_plane_and_pixel_by_pixel(self):
        tifffile.imwrite("planes.tif", self.colours, photometric="rgb", planarconfig="separate")
        tifffile.imwrite("pixels.tif", np.moveaxis(self.colours, 0, 2), photometric="rgb")
        for name in ("planes.tif", "pixels.tif"):
            grey = load(Path(name))
            np.testing.assert_array_equal(grey.values, self.grey)
            self.assertEqual(grey.notes, ("colours made grey",))
        np.testing.assert_allclose(self.grey, np.tensordot([0.299, 0.587, 0.114], self.colours, 1), atol=1)

    def test_a_channel_by_its_name_and_by_its_number(self):
        tifffile.imwrite("planes.tif", self.colours, photometric="rgb", planarconfig="separate")
        Image.fromarray((np.moveaxis(self.colours, 0, 2) >> 8).astype(np.uint8)).save("eight.png")
        for channel, k in (("red", 0), ("2", 1), ("blue", 2)):
            np.testing.assert_array_equal(load(Path("planes.tif"), channel=channel).values, self.colours[k])
            np.testing.assert_array_equal(load(Path("eight.png"), channel=channel).values, self.colours[k] >> 8)
        self.assertEqual(load(Path("planes.tif"), channel="blue").notes, ("its blue channel of 3: the others are not used",))
        with self.assertRaisesRegex(Fault, "it has no channel alpha; red, green, blue, or 1 to 3"):
            load(Path("planes.tif"), channel="alpha")
        with self.assertRaisesRegex(Fault, "it has no channel 4"):
            load(Path("eight.png"), channel="4")

    def test_the_only_channel_that_has_values(self):
        blue = np.zeros((60, 60, 3), np.uint8)
        blue[:, :, 2] = np.where(disc(), 200, 10)
        Image.fromarray(blue).save("blue.png")
        tifffile.imwrite("blue.tif", blue.astype(np.uint16) * 256, photometric="rgb")
        for name, scale in (("blue.png", 1), ("blue.tif", 256)):
            grey = load(Path(name))
            np.testing.assert_array_equal(grey.values, blue[:, :, 2].astype(int) * scale)
            self.assertEqual(grey.notes, ("its blue channel alone has values: it is taken",))

    def test_channels_that_are_no_colours_have_to_be_named(self):
        tifffile.imwrite("cells.tif", self.colours, imagej=True, metadata={"axes": "CYX"})
        with self.assertRaisesRegex(Fault, "it has 3 channels; choose one: --channel 1 to --channel 3"):
            load(Path("cells.tif"))
        np.testing.assert_array_equal(load(Path("cells.tif"), channel="3").values, self.colours[2])
        with self.assertRaisesRegex(Fault, "it has no channel blue; 1 to 3"):
            load(Path("cells.tif"), channel="blue")

    def test_pages(self):
        tifffile.imwrite("stack.tif", self.colours, photometric="minisblack", metadata={"axes": "ZYX"})
        with self.assertRaisesRegex(Fault, "it has several pages or frames"):
            load(Path("stack.tif"))
        grey = load(Path("stack.tif"), channel="2")
        np.testing.assert_array_equal(grey.values, self.colours[1])
        self.assertEqual(grey.notes, ("its page 2 of 3: the others are not used",))
        np.testing.assert_array_equal(volume(Path("stack.tif")).values, self.colours)
        with tifffile.TiffWriter("thumb.tif") as file:
            file.write(self.colours[0])
            file.write(self.colours[0][::4, ::4])
        grey = load(Path("thumb.tif"))
        np.testing.assert_array_equal(grey.values, self.colours[0])
        self.assertEqual(grey.notes, ("1 other image in its file, of another size or kind: not used",))

    def test_a_stack_that_tifffile_cannot_unpack(self):
        pages = [Image.fromarray((own >> 8).astype(np.uint8)) for own in self.colours]
        pages[0].save("packed.tif", save_all=True, append_images=pages[1:], compression="tiff_lzw")
        np.testing.assert_array_equal(volume(Path("packed.tif")).values, self.colours >> 8)
        with self.assertRaisesRegex(Fault, "it has several pages or frames"):
            load(Path("packed.tif"))

    def test_a_stack_in_colours(self):
        stack = np.stack([np.moveaxis(self.colours, 0, 2)] * 4)
        tifffile.imwrite("stack.tif", stack, photometric="rgb")
        np.testing.assert_array_equal(volume(Path("stack.tif")).values, np.stack([self.grey] * 4))
        np.testing.assert_array_equal(volume(Path("stack.tif"), channel="red").values, np.stack([self.colours[0]] * 4))

    def test_a_scan_that_says_that_zero_is_white_and_lies_on_its_side(self):
        turned = [(274, "H", 1, 6, True)]
        tifffile.imwrite("scan.tif", np.moveaxis(self.colours, 0, 2)[:50], photometric="rgb", extratags=turned)
        np.testing.assert_array_equal(load(Path("scan.tif")).values, np.rot90(self.grey[:50], -1))
        tifffile.imwrite("fax.tif", self.colours[:2], photometric="miniswhite")
        np.testing.assert_array_equal(load(Path("fax.tif"), channel="1").values, 65535 - self.colours[0])

    def test_sixteen_bits_of_a_png_and_a_ppm(self):
        colours = np.moveaxis(self.colours, 0, 2)
        deep_png("deep.png", colours)
        Path("deep.ppm").write_bytes(b"P6\n# a comment\n60 60 65535\n" + colours.astype(">u2").tobytes())
        for name in ("deep.png", "deep.ppm"):
            np.testing.assert_array_equal(load(Path(name)).values, self.grey)
            self.assertEqual(load(Path(name)).notes, ("colours made grey",))
            np.testing.assert_array_equal(load(Path(name), channel="green").values, self.colours[1])
            np.testing.assert_array_equal(load(Path(name)).colours, colours >> 8)
        draw = np.random.default_rng(2)
        for channels in (2, 4):
            values = draw.integers(0, 65536, (20, 30, channels)).astype(np.uint16)
            deep_png("alpha.png", values)
            for k in range(channels):
                np.testing.assert_array_equal(load(Path("alpha.png"), channel=str(k + 1)).values, values[:, :, k])
        values[:10, :, 3], values[10:, :, 3] = 0, 65535
        deep_png("clear.png", values)
        clear = load(Path("clear.png"))
        self.assertEqual(clear.notes, ("transparent paper made white", "colours made grey"))
        np.testing.assert_array_equal(clear.values[:10], 65535)
        np.testing.assert_array_equal(clear.values[10:], luminance(values[10:, :, :3]))

    def test_a_deep_png_with_a_clear_colour_or_on_its_side(self):
        colours = np.moveaxis(self.colours, 0, 2)[:50]
        deep_png("clear.png", colours, (b"tRNS", colours[7, 9].astype(">u2").tobytes()))
        clear = load(Path("clear.png"))
        self.assertEqual(clear.notes, ("transparent paper made white", "colours made grey"))
        np.testing.assert_array_equal(clear.values, np.where((colours == colours[7, 9]).all(2), 65535, self.grey[:50]))
        deep_png("turned.png", colours, (b"eXIf", b"II*\0\x08\0\0\0\x01\0\x12\x01\x03\0\x01\0\0\0\x06\0\0\0\0\0\0\0"))
        np.testing.assert_array_equal(load(Path("turned.png")).values, np.rot90(self.grey[:50], -1))

    def test_bits_that_are_not_used_are_told(self):
        deep_png("deep.png", np.moveaxis(self.colours, 0, 2))
        with unittest.mock.patch("shapefront.images.deep_values", lambda *_: None):
            self.assertIn("the lower 8 of its 16 bits are not used", load(Path("deep.png")).notes[0])
        data = Path("deep.png").read_bytes()
        Path("cut.png").write_bytes(data[: len(data) // 2])
        with self.assertRaisesRegex(Fault, "a broken image"):
            load(Path("cut.png"))
        Image.fromarray(self.colours[0]).save("one.png")
        self.assertEqual(load(Path("one.png")).notes, ())
        np.testing.assert_array_equal(load(Path("one.png")).values, self.colours[0])

    def test_without_tifffile_the_package_is_named(self):
        tifffile.imwrite("planes.tif", self.colours, photometric="rgb", planarconfig="separate")
        tifffile.imwrite("one.tif", self.colours[0])
        tifffile.imwrite("stack.tif", self.colours, photometric="minisblack")
        own = builtins.__import__

        def refuse(name, *rest):
            if name == "tifffile":
                raise ImportError(name)
            return own(name, *rest)

        with unittest.mock.patch("builtins.__import__", refuse):
            with self.assertRaisesRegex(Missing, "tifffile: this Python package is not installed; `apt install python3-tifffile`"):
                load(Path("planes.tif"))
            np.testing.assert_array_equal(load(Path("one.tif")).values, self.colours[0])
            np.testing.assert_array_equal(volume(Path("stack.tif")).values, self.colours)

    @needs_shape
    def test_a_planar_image_is_measured_as_what_it_shows(self):
        tifffile.imwrite("planes.tif", self.colours, photometric="rgb", planarconfig="separate")
        self.assertEqual(self.shapes("measure", "planes.tif", "--channel", "green", "--light", "-o", "out")[0], 0)
        self.assertIn("  its green channel of 3: the others are not used", Path("out/summary.txt").read_text().splitlines())
        self.assertIn(f"object points {disc(x=30).sum()}, pieces 1,", Path("out/summary.txt").read_text())
        self.assertEqual(self.shapes("check", "out")[0], 0)


class Components(unittest.TestCase):
    @needs_scipy
    def test_they_are_those_of_scipy(self):
        for seed, shape in enumerate([(7, 9), (30, 41), (1, 8), (8, 1), (6, 7, 8)]):
            for mask in (random_mask(seed, *shape), random_mask(seed + 1, *shape), np.zeros(shape, bool), np.ones(shape, bool)):
                for by_corners in (True, False):
                    steps = ndimage.generate_binary_structure(mask.ndim, mask.ndim if by_corners else 1)
                    np.testing.assert_array_equal(numbered(mask, by_corners), ndimage.label(mask, steps)[0])
                np.testing.assert_array_equal(holes_of(mask), ndimage.binary_fill_holes(mask) & ~mask)


@needs_pillow
class Filtered(InFolder):
    def setUp(self):
        super().setUp()
        self.mask = disc(radius=20) & ~disc(radius=6)
        self.mask[50:53, 40:44] = self.mask[58:, 3:9] = self.mask[25, 30] = True
        Image.fromarray(np.where(self.mask, 200, 20).astype(np.uint8)).save("x.png")

    def told(self, **filters):
        picture = one("x.png", filters, objects="light")
        return picture.mask, picture.notes[1:]

    def test_holes(self):
        mask, notes = self.told(fill_holes=True)
        filled = self.mask | disc(radius=20)
        np.testing.assert_array_equal(mask, filled)
        self.assertEqual(notes, (f"holes filled: {(filled & ~self.mask).sum()} pixels",))

    def test_objects_at_the_border(self):
        mask, notes = self.told(exclude_border=True)
        self.assertEqual((mask.sum(), notes), (self.mask.sum() - 12, ("left out as they touch the border: 1 object",)))

    def test_small_objects(self):
        mask, notes = self.told(min_size=12)
        self.assertEqual((mask.sum(), notes), (self.mask.sum() - 1, ("left out as they have fewer than 12 pixels: 1 object",)))
        mask, notes = self.told(min_size=13, exclude_border=True, fill_holes=True)
        np.testing.assert_array_equal(mask, disc(radius=20))
        self.assertEqual(notes[1:], ("left out as they touch the border: 1 object", "left out as they have fewer than 13 pixels: 1 object"))

    def test_labels(self):
        labels = numbered(self.mask, True)
        Image.fromarray(labels.astype(np.uint8)).save("labels.png")
        filters = Filters(fill_holes=True, exclude_border=True, min_size=10)
        picture = picture_of(Path("labels.png"), "labels.png", Settings(labels="each", filters=filters))
        self.assertEqual(np.unique(picture.labels).tolist(), [0, 1, 3])
        np.testing.assert_array_equal(picture.labels == 1, disc(radius=20) & (labels != 2))
        self.assertIn("left out as they touch the border: 1 label", picture.notes)
        with self.assertRaisesRegex(Fault, "labels have no background"):
            picture_of(Path("labels.png"), "labels.png", Settings(labels="each", filters=Filters(smooth=1)))

    @needs_scipy
    def test_uneven_light(self):
        draw, (y, x) = np.random.default_rng(3), np.mgrid[:400, :400]
        true = np.zeros((400, 400), bool)
        for k in range(25):
            true |= (x - 40 - 80 * (k % 5)) ** 2 + (y - 40 - 80 * (k // 5)) ** 2 < 15**2
        values = 300 + 2 * x + y + 260 * ndimage.gaussian_filter(true.astype(float), 1) + draw.normal(0, 60, true.shape)
        np.save("field.npy", values)
        Image.fromarray(np.rint(values).astype(np.uint16)).save("field.tif")
        for name in ("field.npy", "field.tif"):
            self.assertGreater((one(name, objects="light").mask != true).mean(), 0.2)
            picture = one(name, {"background": 40, "smooth": 2, "min_size": 100}, objects="light")
            self.assertLess((picture.mask != true).mean(), 0.02)
            self.assertEqual(numbered(picture.mask, True).max(), 25)
            self.assertIn("background taken off: the Gaussian mean of 40 pixels; the threshold is on the differences", picture.notes)
            self.assertIn("smoothed by a Gaussian of 2 pixels", picture.notes)
        with self.assertRaisesRegex(Fault, "a percentage is no threshold for differences"):
            one("field.tif", {"background": 40}, threshold="50%")
        half = one("field.tif", {"smooth": 1}, threshold="50%", objects="light")
        self.assertEqual(half.cut.threshold, 65535 / 2)

    @needs_scipy
    @needs_shape
    def test_they_are_told_and_checked(self):
        words = ("--smooth", "1", "--fill-holes", "--exclude-border", "--min-size", "13")
        self.assertEqual(self.shapes("measure", "x.png", *words, "-o", "out")[0], 0)
        summary = Path("out/summary.txt").read_text()
        for told in ("smoothed by a Gaussian of 1 pixels", "holes filled: ", "touch the border: 1 object", "fewer than 13 pixels: 1 object"):
            self.assertIn(told, summary)
        record = json.loads(next(Path("out").rglob("x.png.json")).read_text())
        wanted = {"background": None, "smooth": 1.0, "fill_holes": True, "exclude_border": True, "min_size": 13}
        self.assertEqual((record["filters"], record["channel"]), (wanted, None))
        self.assertEqual(self.shapes("check", "out")[0], 0)
        report = next(Path("out").rglob("x.png.report*"))
        self.assertEqual(self.shapes("check", "x.png", report)[0], 0)
        for word in ("0", "x", "-1"):
            self.assertEqual(self.shapes("measure", "x.png", "--min-size", word, "-o", "out")[0], 2)
