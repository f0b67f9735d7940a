"""Images to pictures of two values: what is object, and what is said of it."""
from pathlib import Path

import numpy as np

from .common import STORED, InFolder, installed, needs_pillow

from secondreading.limits import MOST_FLAT, MOST_SOLID
from shapefront import Fault
from shapefront.convert import picture_of, volume, volume_of
from shapefront.labels import boxes
from shapefront.pictures import spelled, told_sides
from shapefront.thresholds import Settings, looks_like_labels, otsu

if installed("PIL"):
    from PIL import Image


def one(path, **settings):
    return picture_of(Path(path), str(path), Settings(**settings))


@needs_pillow
class Pictures(InFolder):
    def setUp(self):
        super().setUp()
        y, x = np.mgrid[:40, :60]
        self.disc = (x - 30) ** 2 + (y - 20) ** 2 < 150
        self.values = np.where(self.disc, 40, 200).astype(np.uint8)

    def test_dark_on_light_and_light_on_dark(self):
        Image.fromarray(self.values).save("dark.png")
        Image.fromarray(255 - self.values).save("light.png")
        for name, told in (("dark.png", "objects dark (the frame is light)"), ("light.png", "objects light (the frame is dark)")):
            np.testing.assert_array_equal(one(name).mask, self.disc)
            self.assertIn(told, one(name).notes[0])
        np.testing.assert_array_equal(one("light.png", objects="dark").mask, ~self.disc)

    def test_thresholds(self):
        ramp = np.arange(240, dtype=np.uint8).reshape(12, 20)
        Image.fromarray(ramp).save("ramp.png")
        for given, value in (("100", 100), ("50%", 127.5), ("0", 0)):
            picture = one("ramp.png", threshold=given, objects="dark")
            self.assertEqual(picture.cut.threshold, value)
            np.testing.assert_array_equal(picture.mask, ramp < value)
        wide = ramp.astype(np.uint16) * 257
        Image.fromarray(wide).save("wide.tif")
        np.testing.assert_array_equal(one("wide.tif", threshold="50%", objects="light").mask, wide >= 32767.5)
        self.assertEqual(otsu(np.repeat([10, 20, 200, 210], 5)), 21)

    def test_transparent_paper_is_white(self):
        ink = np.zeros((40, 60, 4), np.uint8)
        ink[self.disc, 3] = 255
        Image.fromarray(ink).save("clear.png")
        picture = one("clear.png")
        np.testing.assert_array_equal(picture.mask, self.disc)
        self.assertIn("transparent paper made white", picture.notes)

    def test_a_pbm_goes_over_as_it_is(self):
        for path in sorted(STORED.glob("*.pbm")):
            mask = one(path).mask
            Path("again.pbm").write_bytes(spelled(mask))
            np.testing.assert_array_equal(one("again.pbm").mask, mask)
        self.assertEqual(one(STORED / "full.pbm").mask.all(), True)
        self.assertEqual(one(STORED / "blank.pbm").mask.any(), False)

    def test_labels(self):
        labels = np.zeros((20, 20), np.uint16)
        labels[2:8, 2:8], labels[8:12, 2:8], labels[15:18, 15:18] = 1, 2, 300
        Image.fromarray(labels).save("cells.tif")
        each = boxes(one("cells.tif", labels="each").labels)
        self.assertEqual([(box.label, box.place, box.mask.shape) for box in each], [(1, (1, 1), (8, 8)), (2, (1, 7), (6, 8)), (300, (14, 14), (5, 5))])
        for box in each:
            whole, (x, y), (height, width) = np.zeros_like(labels, bool), box.place, box.mask.shape
            whole[y : y + height, x : x + width] = box.mask
            np.testing.assert_array_equal(whole, labels == box.label)
        np.testing.assert_array_equal(one("cells.tif", labels="each").mask, labels > 0)
        indexed = Image.fromarray(np.minimum(labels, 3).astype(np.uint8))
        indexed.putpalette([0, 0, 0, 255, 0, 0, 0, 200, 0, 0, 0, 90])
        indexed.save("indexed.png")
        self.assertEqual(np.unique(one("indexed.png", labels="each").labels).tolist(), [0, 1, 2, 3])
        together = one("cells.tif", labels="all")
        np.testing.assert_array_equal(together.mask, labels > 0)
        self.assertIn("the 3 labels as one picture", together.notes[0])

    def test_hint_at_labels(self):
        labels = np.repeat(np.arange(5, dtype=np.uint8), 20).reshape(10, 10)
        self.assertTrue(looks_like_labels(labels))
        self.assertFalse(looks_like_labels(self.values))
        Image.fromarray(labels).save("cells.png")
        self.assertIn("if these are labels, give --labels", one("cells.png").notes[-1])

    def test_too_large_and_made_smaller(self):
        wide = 2 * MOST_FLAT + 6
        large = np.full((30, wide), 255, np.uint8)
        large[9:21, 300:12300] = 0
        Image.fromarray(large).save("large.png")
        with self.assertRaisesRegex(Fault, rf"too large: x {wide}, y 30, and a side goes up to {MOST_FLAT}; .* --fit: 3 by 3 pixels are one"):
            one("large.png")
        picture = one("large.png", fit=None)
        self.assertEqual((picture.fit, picture.mask.shape, picture.mask.sum()), (3, (10, wide // 3 + 1), 4 * 4000))
        Image.fromarray(large[:, :MOST_FLAT]).save("widest.png")
        self.assertEqual([one("widest.png", fit=fit).fit for fit in (1, None, 2)], [1, 1, 2])

    def test_refusals_name_the_file(self):
        Path("text.png").write_text("no image")
        Path("short.png").write_bytes(b"")
        Image.fromarray(self.values).save("whole.png")
        Path("cut.png").write_bytes(Path("whole.png").read_bytes()[:-60])
        Image.fromarray(np.full((5, 5), 7, np.uint8)).save("flat.png")
        Image.fromarray(self.values).save("two.tif", save_all=True, append_images=[Image.fromarray(self.values)])
        np.save("cube.npy", np.zeros((3, 3, 3)))
        np.save("words.npy", np.array([["a"]]))
        for name, reason in (
            ("nowhere.png", "no such file"), ("text.png", "not an image"), ("short.png", "not an image"), ("cut.png", "a broken image"),
            ("flat.png", "all its pixels have the value 7"), ("two.tif", "several pages"), ("cube.npy", "3 axes"), ("words.npy", "an array of <U1"), (".", "not a file"),
        ):  # fmt: skip
            with self.assertRaisesRegex(Fault, f"^{name}: .*{reason}") as caught:
                one(name)
            self.assertNotIn("\n", str(caught.exception))


@needs_pillow
class Volumes(InFolder):
    def test_slices_in_the_order_of_their_numbers(self):
        for k in range(12):
            Image.fromarray(np.full((3, 4), 10 * k, np.uint8)).save(f"slice{k}.png")
        values = volume(self.folder).values
        self.assertEqual(values[:, 0, 0].tolist(), [10 * k for k in range(12)])
        self.assertEqual(told_sides((4, 3, 12)), "x 4, y 3, z 12")

    def test_a_stack_and_an_array_are_the_same(self):
        values = (np.random.default_rng(1).random((5, 6, 7)) * 255).astype(np.uint8)
        pages = [Image.fromarray(page) for page in values]
        pages[0].save("stack.tif", save_all=True, append_images=pages[1:])
        np.save("array.npy", values)
        for name in ("stack.tif", "array.npy"):
            picture = volume_of(Path(name), name, Settings("128", "light"))
            np.testing.assert_array_equal(picture.mask, values >= 128)

    def test_refusals(self):
        Path("mixed").mkdir()
        Path("empty").mkdir()
        Image.fromarray(np.zeros((3, 4), np.uint8)).save("mixed/a1.png")
        Image.fromarray(np.zeros((3, 5), np.uint8)).save("mixed/a2.png")
        Image.fromarray(np.zeros((3, 5), np.uint8)).save("one.png")
        np.save("flat.npy", np.zeros((3, 3)))
        np.save("large.npy", np.zeros((MOST_SOLID + 1, 3, 4), np.uint8))
        for name, reason in (
            ("mixed", r"slices of different sizes: a2.png has x 5, y 3, a1.png has x 4, y 3"), ("empty", "an empty folder"), ("one.png", "not a stack"),
            ("flat.npy", "2 axes"), ("nowhere", "no such file"), ("large.npy", f"too large: x 4, y 3, z {MOST_SOLID + 1}, and a side goes up to {MOST_SOLID}"),
        ):  # fmt: skip
            with self.assertRaisesRegex(Fault, f"^{name}: .*{reason}"):
                volume_of(Path(name), name, Settings())
