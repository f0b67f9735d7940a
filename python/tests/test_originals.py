"""`shapes check FOLDER --originals IMAGES`: every image is made black and white again and compared with what the folder says of it."""
import csv
import json
import shutil
import unittest
from pathlib import Path

import numpy as np

from .common import InFolder, installed, needs_pillow, needs_shape, random_mask

from shapefront.components import numbered
from shapefront.files import spelled_json, sum_of_bytes
from shapefront.layout import MADE
from shapefront.seals import SEAL, sealed

if installed("PIL"):
    from PIL import Image


def sealed_again(folder, name, change):
    """Changes a record or a file as a forger would: with all sums that tell of it made anew."""
    made = json.loads((folder / MADE).read_text())
    path = folder / name
    if name.endswith(".json"):
        record = json.loads(path.read_text())
        change(record)
        record = sealed({key: value for key, value in record.items() if key != SEAL})
        path.write_bytes(spelled_json(record))
    else:
        path.write_bytes(change(path.read_bytes()))
        record_name = next(image["record"] for image in made["images"] if name.startswith(image["record"].removesuffix(".json")))
        sealed_again(folder, record_name, lambda record: record["files"].update({name: sum_of_bytes(path.read_bytes())}))
        made = json.loads((folder / MADE).read_text())
    _seal(folder, made, name)


def sealed_again_of_all(folder, name, change):
    """Changes a file of all images as a forger would: with its sum made anew."""
    path = folder / name
    path.write_bytes(change(path.read_bytes()))
    _seal(folder, json.loads((folder / MADE).read_text()), name)


def _seal(folder, made, name):
    made["files"][name] = sum_of_bytes((folder / name).read_bytes())
    (folder / MADE).write_bytes(spelled_json(sealed({key: value for key, value in made.items() if key != SEAL})))


@needs_shape
@needs_pillow
class Originals(InFolder):
    def setUp(self):
        super().setUp()
        draw = np.random.default_rng(2)
        Path("in/b").mkdir(parents=True)
        for name, seed in (("in/one.png", 1), ("in/two.png", 2), ("in/b/three.png", 4)):
            values = np.where(random_mask(seed, 40, 50), 160, 30) + draw.integers(0, 60, (40, 50))
            Image.fromarray(values.astype(np.uint8)).save(name)
        self.images = ["in/one.png", "in/two.png", "in/b/three.png"]
        self.words = ("--light", "--min-size", "4", "--pixel-size", "2", "um")
        self.assertEqual(self.shapes("measure", *self.images, *self.words, "-o", "out")[0], 0)

    def check(self, folder="out", originals="in"):
        status, out, error = self.shapes("check", folder, "--originals", originals)
        self.assertEqual(error, [])
        return status, out

    def refused(self, told, folder="out"):
        status, out = self.check(folder)
        self.assertEqual(status, 1, out)
        self.assertTrue(any(told in line for line in out), (told, out))
        self.assertIn("checked 2 of 3 images", out[-1])

    def test_what_is_as_it_was(self):
        rows = sum(len(Path("out", name).read_text().splitlines()) - 1 for name in ("objects.csv", "pictures.csv", "holes.csv"))
        status, out = self.check()
        self.assertEqual(status, 0, out)
        self.assertLessEqual({f"in/{name}: yes" for name in ("one.png", "two.png", "b/three.png")}, set(out))
        self.assertRegex(out[-1], rf"^checked 3 of 3 images, {rows:,} rows, \d+ files; not checked: the pixel's size$")

    def test_another_image_under_the_name(self):
        with Image.open("in/two.png") as image:
            values = np.array(image)
        values[3, 3] ^= 255
        Image.fromarray(values).save("in/two.png")
        self.refused("in/two.png: no, it is another file than was measured: its sum is not the one in made.json; ")
        Path("in/two.png").unlink()
        self.refused("in/two.png: no, it is missing")

    def test_the_same_picture_in_another_file(self):
        with Image.open("in/two.png") as image:
            image.save("in/two.png", compress_level=1)
        self.refused("in/two.png: no, it is another file than was measured: its sum is not the one in made.json; but it gives the same")

    def test_a_threshold_that_was_not_the_one(self):
        def lower(record):
            record["cut"]["threshold"] -= 1
            record["notes"][0] = record["notes"][0].replace(f"{record['cut']['threshold'] + 1:g}", f"{record['cut']['threshold']:g}")

        sealed_again(Path("out"), "evidence/two.png.json", lower)
        self.refused("in/two.png: no, its record, cut, threshold: it says")

    def test_a_picture_of_another_image(self):
        self.assertEqual(self.shapes("measure", "in", *self.words, "-o", "out")[0], 0)
        shutil.copytree("in", "other")
        with Image.open("other/two.png") as image:
            values = np.array(image)
        values[10:20, 10:20] = 200
        Image.fromarray(values).save("other/two.png")
        self.assertEqual(self.shapes("measure", "other", *self.words, "-o", "forged")[0], 0)
        made = json.loads(Path("forged", MADE).read_text())
        true = json.loads(Path("out", MADE).read_text())
        made["images"][1]["sum"] = true["images"][1]["sum"]
        Path("forged", MADE).write_bytes(spelled_json(sealed({key: value for key, value in made.items() if key != SEAL})))
        self.assertEqual(self.shapes("check", "forged")[0], 0)
        status, out = self.check("forged")
        self.assertEqual(status, 1)
        self.assertTrue(any(line.startswith("in/two.png: no, ") for line in out), out)

    def test_a_picture_whose_pixels_are_others(self):
        mask = Path("out/evidence/two.png.pbm").read_bytes()
        sealed_again(Path("out"), "evidence/two.png.pbm", lambda data: mask[:-3] + bytes([mask[-3] ^ 4]) + mask[-2:])
        sum_ = sum_of_bytes(Path("out/evidence/two.png.pbm").read_bytes())
        sealed_again(Path("out"), "evidence/two.png.json", lambda record: record.update(picture=sum_))
        self.refused("in/two.png: no, pixels of two.png.pbm that the image does not give: 1")

    def test_intensities_that_are_not_those_of_the_image(self):
        name = "evidence/two.png.intensities.csv"
        with open(Path("out", name), newline="") as file:
            rows = list(csv.reader(file))
        cell, k = rows[2][2], 2
        sealed_again(Path("out"), name, lambda data: data.replace(",".join(rows[k]).encode(), ",".join([*rows[k][:2], "9", *rows[k][3:]]).encode()))
        self.refused(f"in/two.png: no, two.png.intensities.csv, row 2: intensity_max 9; the image gives {cell}")

    def test_labels_and_failures_and_volumes(self):
        Image.fromarray(numbered(random_mask(2, 30, 40), True).astype(np.uint8)).save("cells.png")
        Path("broken.png").write_bytes(Path("in/one.png").read_bytes()[:300])
        self.assertEqual(self.shapes("measure", "cells.png", "broken.png", "--labels", "--min-size", "5", "-o", "cells")[0], 1)
        status, out = self.check("cells", ".")
        self.assertEqual(status, 0, out)
        self.assertIn("checked 1 of 1 images (1 failed when it was measured)", out[-1])
        Path("in/one.png").rename("broken.png")
        status, out = self.check("cells", ".")
        self.assertEqual(status, 1)
        np.save("v.npy", np.where(random_mask(2, 8, 9, 10), 200, 3))
        self.assertEqual(self.shapes("volume", "v.npy", "-o", "volume")[0], 0)
        self.assertEqual(self.check("volume", ".")[0], 0)

    def test_words(self):
        for words in (("out", "--originals", "nowhere"), ("in/one.png", "out/evidence/one.png.report.gz", "--originals", "in")):
            self.assertEqual(self.shapes("check", *words)[0], 2)
        Path("hand").mkdir()
        shutil.copy("out/evidence/one.png.pbm", "hand")
        shutil.copy("out/evidence/one.png.report.gz", "hand")
        status, _, error = self.shapes("check", "hand", "--originals", "in")
        self.assertEqual((status, "nothing tells of which images it was made" in error[0]), (3, True))


if __name__ == "__main__":
    unittest.main()
