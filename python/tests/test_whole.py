"""The front door as a whole, which takes minutes: with SHAPES_SLOW=1 set it runs.

Twelve images as people have them; two hundred with one broken among them, stopped and begun again; a report of a million points.
"""
import csv
import json
import os
import re
import shutil
import signal
import subprocess
import sys
import time
import unittest
from pathlib import Path

import numpy as np

from .common import HERE, PAGE, InFolder, installed, measured, needs_pillow, needs_shape, random_mask, slow

import shapefront
from secondreading.limits import MOST_FLAT

if installed("PIL"):
    from PIL import Image
if installed("skimage", "scipy"):
    import skimage
    from scipy import ndimage

LARGE = MOST_FLAT + 2048
COMMAND = [sys.executable, str(HERE.parent / "shapes")]


def contents(folder):
    return {str(path.relative_to(folder)): path.read_bytes() for path in sorted(Path(folder).rglob("*")) if path.is_file()}


def table(path):
    with open(path, newline="") as file:
        return list(csv.DictReader(file))


@slow
@needs_shape
@needs_pillow
@unittest.skipUnless(installed("skimage", "scipy"), "scikit-image is not installed")
class TwelveImages(InFolder):
    # The image; what the summary says of its threshold, the side of the objects and what was done to it; each right by eye.
    SAID = {
        "coins.png": ["objects light (the frame is dark)"],
        "cell.png": ["chosen by Otsu"],
        "text.png": ["objects dark (the frame is light)"],
        "horse.png": ["objects dark (the frame is light)", "transparent paper made white"],
        "retina.jpg": ["objects light (the frame is dark)", "colours made grey"],
        "labels.tif": ["if these are labels, give --labels"],
        "clear.png": ["objects dark (the frame is light)", "transparent paper made white"],
        "rocket.jpg": ["chosen by Otsu", "colours made grey"],
        "board.tif": ["chosen by Otsu", "objects dark (the frame is light)"],
        "camera.pgm": ["chosen by Otsu"],
    }
    FAILED = {
        "large.png": f"large.png: too large: x {LARGE}, y 909, and a side goes up to {MOST_FLAT}; cut it into parts, or give --fit: 1 pixel for 2",
        "notes.png": "notes.png: not an image that can be read; open it in another program and save it as PNG or TIFF",
    }

    def setUp(self):
        super().setUp()
        data = Path(skimage.data_dir)
        for name in ("coins.png", "cell.png", "text.png", "horse.png", "rocket.jpg"):
            shutil.copy(data / name, name)
        Image.open(data / "retina.jpg").save("retina.jpg", quality=95)
        shutil.copy(data / "chessboard_GRAY_U16.tif", "board.tif")
        shutil.copy(data / "README.txt", "notes.png")
        coins = np.array(Image.open("coins.png"))
        labels = ndimage.label(ndimage.binary_opening(ndimage.binary_fill_holes(coins > 107), iterations=3))[0]
        Image.fromarray(labels.astype(np.uint16)).save("labels.tif")
        Image.open("coins.png").resize((LARGE, 909)).save("large.png")
        Image.open(data / "camera.png").save("camera.pgm")
        ink = np.zeros((60, 90, 4), np.uint8)
        ink[20:40, 10:70, 3] = 255
        Image.fromarray(ink).save("clear.png")

    def test_what_is_said_and_found(self):
        names = [*self.SAID, *self.FAILED]
        status, out, error = self.shapes("measure", *names, "-o", "out", "--jobs", "4")
        self.assertEqual((status, out, sorted(error)), (1, [measured("10 of 12")], sorted(self.FAILED.values())))
        said = dict(re.findall(r"^(\S+): x .*\n((?:  .*\n)+)", Path("out/summary.txt").read_text(), re.M))
        pictures = {row["image"]: row for row in table("out/pictures.csv")}
        objects = table("out/objects.csv")
        for name, wanted in self.SAID.items():
            for words in wanted:
                self.assertIn(words, said[name])
            mask = shapefront.read(f"out/evidence/{name}.report.gz").mask
            np.testing.assert_array_equal(mask, self.cut(name, pictures[name], said[name]))
            labels, count = ndimage.label(mask, np.ones((3, 3)))
            areas = [int(row["area"]) for row in objects if row["image"] == name]
            self.assertEqual((int(pictures[name]["points"]), int(pictures[name]["pieces"])), (mask.sum(), count))
            self.assertEqual(sorted(areas), sorted(np.bincount(labels.ravel())[1:]))
        status, out, _ = self.shapes("check", "out", "--jobs", "4")
        self.assertEqual((status, {line.rpartition(": ")[2] for line in out[:-1]}, len(out)), (0, {"yes"}, 15 + len(PAGE)))
        self.assertIn("checked 10 of 10 images (2 failed when they were measured)", out[-1])

    def cut(self, name, row, said):
        """The image cut at the threshold that the table tells, with the object on the side that the summary does."""
        image = Image.open(name)
        if name in ("horse.png", "clear.png"):
            image = Image.alpha_composite(Image.new("RGBA", image.size, "white"), image.convert("RGBA"))
        values = np.array(image if image.mode.startswith("I") else image.convert("L"))
        is_dark = values < float(row["threshold"])
        return is_dark if "objects dark" in said else ~is_dark

    def test_the_two_that_failed_are_mended_by_what_was_said(self):
        self.assertEqual(self.shapes("measure", "large.png", "--fit", "-o", "fitted")[0], 0)
        self.assertEqual(self.shapes("measure", "labels.tif", "--labels", "--rule", "none", "-o", "cells")[0], 0)
        labels = np.array(Image.open("labels.tif"))
        rows = table("cells/pictures.csv")
        self.assertEqual([int(row["points"]) for row in rows], np.bincount(labels.ravel())[1:].tolist())
        self.assertEqual(self.shapes("check", "cells")[0], 0)


@slow
@needs_shape
@needs_pillow
class TwoHundred(InFolder):
    def setUp(self):
        super().setUp()
        Path("in").mkdir()
        for k in range(200):
            Image.fromarray(np.where(random_mask(k + 1, 60, 60), 0, 255).astype(np.uint8)).save(f"in/{k:03}.png")
        Path("in/117.png").write_bytes(Path("in/117.png").read_bytes()[:-40])

    def run_to_the_end(self, folder, jobs):
        return subprocess.run([*COMMAND, "measure", "in", "--jobs", jobs, "-o", folder], stdout=subprocess.PIPE, stderr=subprocess.PIPE, text=True)

    def test_one_broken_and_a_stop_in_the_middle(self):
        whole = self.run_to_the_end("whole", "4")
        self.assertEqual((whole.returncode, whole.stdout), (1, measured("199 of 200", "whole") + "\n"))
        self.assertEqual(whole.stderr.count("\n"), 1)
        self.assertTrue(whole.stderr.startswith("in/117.png: a broken image ("), whole.stderr)
        self.assertEqual(len([name for name in contents("whole") if re.fullmatch(r"evidence/\d+\.png\.csv", name)]), 199)
        self.assertEqual(len({row["image"] for row in table("whole/objects.csv")}), 199)
        self.assertEqual([image["image"] for image in json.loads(Path("whole/evidence/made.json").read_text())["images"] if image["failure"]], ["117.png"])
        for number, at in ((signal.SIGINT, 40), (signal.SIGKILL, 110)):
            self.stopped("other", number, at)
        again = self.run_to_the_end("other", "4")
        self.assertEqual((again.returncode, again.stderr), (1, whole.stderr))
        self.assertEqual(contents("other"), contents("whole"))

    def stopped(self, folder, number, at):
        """Begins a run and ends it by a signal as soon as so many images are made."""
        words = [*COMMAND, "measure", "in", "--jobs", "4", "-o", folder]
        run = subprocess.Popen(words, stdout=subprocess.DEVNULL, stderr=subprocess.DEVNULL, start_new_session=True)
        while run.poll() is None and len(list(Path(folder, "evidence").glob("*.png.json"))) < at:
            time.sleep(0.01)
        os.killpg(run.pid, number)
        run.wait()
        self.assertLess(len(list(Path(folder, "evidence").glob("*.png.json"))), 199)
        self.assertFalse(Path(folder, "evidence", "made.json").exists())


@slow
@needs_shape
class AMillionPoints(unittest.TestCase):
    def test_it_is_read_in_seconds(self):
        mask = np.ones((1000, 1000), bool)
        text = shapefront.analyse(mask).text
        begin = time.process_time()
        report = shapefront.read(text)
        self.assertLess(time.process_time() - begin, 8)
        self.assertEqual((len(report.points), report.squares.max()), (1000000, 250000))
