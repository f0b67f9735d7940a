"""`shapes measure` and `shapes volume`: folders of good and bad images, stopped and begun again."""
import csv
import json
import math
import os
import re
import signal
import subprocess
import sys
import time
import unittest
import unittest.mock
from decimal import Decimal
from pathlib import Path

import numpy as np

from .common import HERE, PAGE, ROOT, InFolder, installed, measured, needs_pillow, needs_shape, random_mask

from secondreading.limits import MOST_SOLID
from shapefront import programs, read

if installed("PIL"):
    from PIL import Image


def contents(folder):
    return {str(path.relative_to(folder)): path.read_bytes() for path in sorted(Path(folder).rglob("*")) if path.is_file()}


def table(path):
    with open(path, newline="") as file:
        return list(csv.DictReader(file))


@needs_shape
@needs_pillow
class Measuring(InFolder):
    def save(self, count, side=30):
        Path("in").mkdir()
        for k in range(count):
            Image.fromarray(np.where(random_mask(k + 1, side, side), 0, 255).astype(np.uint8)).save(f"in/{k:03}.png")

    def test_a_folder(self):
        self.save(3)
        Path("in/notes.txt").write_text("not an image")
        status, out, error = self.shapes("measure", "in", "--pixel-size", "0.5", "mm", "-o", "out")
        self.assertEqual((status, out), (0, [measured("3 of 3")]), error)
        self.assertIn("passed over, as their names are not those of images: 1 of the files", error)
        wanted = [f"evidence/{k:03}.png{suffix}" for k in range(3) for suffix in (".csv", ".json", ".pbm", ".report.gz")]
        self.assertLessEqual({*wanted, *(f"drawings/{k:03}.png.svg" for k in range(3)), "evidence/made.json", "objects.csv", "pictures.csv", "summary.txt"}, set(contents("out")))
        self.assertEqual([row["image"] for row in table("out/pictures.csv")], ["000.png", "001.png", "002.png"])

    def test_every_number_was_printed_by_a_program_or_is_a_power_of_the_pixel_times_one(self):
        self.save(3)
        self.shapes("measure", "in", "--pixel-size", "0.125", "um", "--plain", "-o", "out")
        rows = table("out/objects.csv")
        own = [row for k in range(3) for row in table(f"out/evidence/{k:03}.png.csv")]
        self.assertEqual(len(rows), len(own))
        powers = {"um": 1, "um2": 2, "um3": 3}
        for row, told in zip(rows, own):
            for name, value in row.items():
                base, _, unit = name.rpartition("_")
                if unit in powers:
                    self.assertEqual(Decimal(value), Decimal(told[base]) * Decimal("0.125") ** powers[unit])
                elif name != "image":
                    self.assertEqual(value, told[name])
        for row in table("out/pictures.csv"):
            lines = Path(f"out/evidence/{row['image']}.report").read_text().splitlines()
            self.assertEqual(lines[1], f"parts {row['points']} {row['pieces']} {row['background']}")
            self.assertEqual(lines[-2].split()[1], row["skeleton"])

    def test_a_second_run_changes_nothing(self):
        self.save(4)
        self.shapes("measure", "in", "-o", "out")
        before, times = contents("out"), {path: path.stat().st_mtime_ns for path in Path("out").rglob("*.report.gz")}
        self.shapes("measure", "in", "-o", "out", "--jobs", "2")
        self.assertEqual(contents("out"), before)
        self.assertEqual({path: path.stat().st_mtime_ns for path in Path("out").rglob("*.report.gz")}, times)
        Path("out/evidence/002.png.report.gz").write_text("changed")
        self.shapes("measure", "in", "-o", "out")
        self.assertEqual(contents("out"), before)

    def test_one_broken_among_many(self):
        self.save(12, 12)
        Path("in/005.png").write_bytes(Path("in/005.png").read_bytes()[:-40])
        status, out, error = self.shapes("measure", "in", "-o", "out", "--jobs", "2")
        self.assertEqual((status, out), (1, [measured("11 of 12")]))
        self.assertEqual(sum("005.png: a broken image" in line for line in error), 1)
        self.assertEqual(len(list(Path("out").rglob("*.png.report.gz"))), 11)
        self.assertIn("in/005.png", json.loads(Path("out/evidence/made.json").read_text())["images"][5]["failure"])

    def test_stopped_and_begun_again(self):
        self.save(12, 80)
        command = [sys.executable, str(HERE.parent / "shapes"), "measure", "in", "-o", "out"]
        run = subprocess.Popen(command, stdout=subprocess.DEVNULL, stderr=subprocess.PIPE, start_new_session=True)
        for _ in range(2000):
            if len(list(Path("out").rglob("*.json"))) > 1:
                break
            time.sleep(0.005)
        os.killpg(run.pid, signal.SIGINT)
        _, error = run.communicate()
        if run.returncode == 0:
            self.skipTest("it was through before it could be stopped")
        self.assertEqual(run.returncode, 130, error)
        self.assertIn(b"stopped; the same command goes on where it was", error)
        self.assertFalse(Path("out/evidence/made.json").exists())
        self.assertEqual(subprocess.run(command, stdout=subprocess.DEVNULL, stderr=subprocess.DEVNULL).returncode, 0)
        self.shapes("measure", "in", "-o", "other")
        self.assertEqual(contents("out"), contents("other"))

    def test_killed_and_begun_again(self):
        self.save(2)
        Path("out/evidence/.making-999999999-x").mkdir(parents=True)
        Path("out/evidence/.making-999999999-x/000.png.pbm").write_bytes(b"half")
        Path("out/evidence/.making-999999999-y").write_bytes(b"half a record")
        self.assertEqual(self.shapes("measure", "in", "-o", "out")[0], 0)
        self.assertFalse(list(Path("out").rglob(".making*")))

    def test_the_same_name_in_two_folders(self):
        for folder in ("a", "b"):
            Path(folder).mkdir()
            Image.fromarray(np.where(random_mask(len(folder) + ord(folder), 9, 9), 0, 255).astype(np.uint8)).save(f"{folder}/x.png")
        self.assertEqual(self.shapes("measure", "a/x.png", "b/x.png", "a/x.png", "-o", "out")[0], 0)
        self.assertEqual([row["image"] for row in table("out/pictures.csv")], ["a/x.png", "b/x.png"])
        self.assertTrue(Path("out/evidence/b/x.png.report.gz").exists())
        status, out, _ = self.shapes("check", "out")
        self.assertEqual((status, out[:2]), (0, ["out/evidence/a/x.png: yes", "out/evidence/b/x.png: yes"]))

    def test_odd_names(self):
        for name in ("-minus.png", "two words.png", "ümlaut [1].png", "a.b.c.png"):
            Image.fromarray(np.where(random_mask(5, 9, 9), 0, 255).astype(np.uint8)).save(name)
        self.assertEqual(self.shapes("measure", "-o", "out", "./-minus.png", "two words.png", "ümlaut [1].png", "a.b.c.png")[0], 0)
        status, out, _ = self.shapes("check", "out")
        self.assertEqual((status, len(out), {line.rpartition(": ")[2] for line in out[:-1]}), (0, 9 + len(PAGE), {"yes"}))

    def test_labels(self):
        labels = np.zeros((20, 20), np.uint8)
        labels[2:8, 2:8], labels[8:12, 2:8] = 1, 2
        Image.fromarray(labels).save("cells.png")
        self.assertEqual(self.shapes("measure", "cells.png", "--labels", "-o", "out")[0], 0)
        self.assertEqual(
            [(row["label"], row["pieces"], row["area"]) for row in table("out/objects.csv")], [("1", "1", "36"), ("2", "1", "24")]
        )
        self.assertTrue(Path("out/evidence/cells.png.labels.zip").exists())
        self.assertEqual(self.shapes("check", "out")[0], 0)

    def test_masks(self):
        self.save(1)
        words = ("--masks", "skeleton", "--masks", "distances", "--masks", "object", "--masks", "squares", "--masks", "thickness", "-o", "out")
        self.assertEqual(self.shapes("measure", "in", *words)[0], 0)
        report = read("out/evidence/000.png.report.gz")
        for kind, suffix, wanted in (
            ("skeleton", "pbm", ~report.skeleton_mask),
            ("object", "pbm", ~report.mask),
            ("distances", "pgm", report.mask),
            ("thickness", "pgm", report.mask),
        ):
            values = np.array(Image.open(f"out/evidence/000.png.{kind}.{suffix}"))
            np.testing.assert_array_equal(values > 0, wanted)
        y, x = report.mask.shape
        squares = np.fromfile(f"out/evidence/000.png.squares.{x}x{y}.32bit.raw", "<u4").reshape(y, x)
        np.testing.assert_array_equal(squares[report.points[:, 1], report.points[:, 0]], report.squares)
        self.assertEqual(squares[~report.mask].max(initial=0), 0)
        self.assertEqual(np.array(Image.open("out/evidence/000.png.thickness.pgm")).max(), math.isqrt(40000 * int(report.squares.max())))
        self.assertEqual(self.shapes("check", "out")[0], 0)
        Path("out/evidence/000.png.skeleton.pbm").write_text("P1 1 1 1")
        self.assertIn("but out/evidence/000.png.skeleton.pbm is not what `shape mask` makes of it", self.shapes("check", "out")[1][0])

    def test_volumes(self):
        mask = random_mask(7, 8, 10, 12)
        np.save("v.npy", mask)
        Path("slices").mkdir()
        for k, page in enumerate(mask):
            Image.fromarray(page.astype(np.uint8) * 255).save(f"slices/s{k}.png")
        status, out, error = self.shapes("volume", "v.npy", "slices", "--light", "--pixel-size", "2", "mm", "-o", "out")
        self.assertEqual((status, out), (0, [measured("2 of 2")]), error)
        self.assertIn("v.npy: x 12, y 10, z 8", Path("out/summary.txt").read_text())
        self.assertEqual(Path("out/evidence/v.npy.report.gz").read_bytes(), Path("out/evidence/slices.report.gz").read_bytes())
        self.assertEqual(self.shapes("check", "out")[0], 0)
        self.assertEqual(self.shapes("check", "slices", "out/evidence/slices.report.gz")[0], 0)
        self.assertEqual(self.shapes("check", "v.npy", "out/evidence/v.npy.report.gz")[0], 0)

    def test_volumes_that_are_none_are_named(self):
        np.save("good.npy", random_mask(7, 5, 6, 7))
        np.save("large.npy", np.zeros((3, 3, MOST_SOLID + 1), np.uint8))
        Path("mixed").mkdir()
        for name, side in (("a1.png", 4), ("a2.png", 5)):
            Image.fromarray(np.zeros((3, side), np.uint8)).save(f"mixed/{name}")
        status, out, error = self.shapes("volume", "good.npy", "large.npy", "mixed", "nowhere", "-o", "out")
        self.assertEqual((status, out, len(error)), (1, [measured("1 of 4")], 3))
        for line, begin in zip(error, (f"large.npy: too large: x {MOST_SOLID + 1}, y 3, z 3", "mixed: slices of different sizes", "nowhere: no such file")):
            self.assertTrue(line.startswith(begin), error)

    def test_nothing_can_be_done(self):
        self.save(1)
        Path("empty").mkdir()
        Path("file").write_text("")
        for words, status, reason in (
            (("measure", "empty"), 3, "empty: no image is in this folder"),
            (("measure", "in", "--pixel-size", "0", "mm"), 2, "`0 mm` is no length"),
            (("measure", "in", "--dpi", "many"), 2, "is no length"),
            (("measure", "in", "--pixel-size", "0.1", "-o", "out"), 2, "expected 2 arguments, as in `--pixel-size 0.65 um`"),
            (("volume", "in", "--voxel-size", "0.5", "mm", "-o", "out"), 2, "as in `--voxel-size 0.5 0.5 2 um`; of cubes give `--pixel-size 0.5 um`"),
            (("in/000.png",), 2, "to measure an image: shapes measure IMAGE"),
            (("help", "in"), 2, "invalid choice"),
            (("measure", "in", "--threshold", "half"), 2, "invalid"),
            (("measure", "in", "--jobs", "0"), 2, "invalid"),
            (("measure", "in", "--rule", "thin"), 2, "invalid choice"),
            (("measure", "in", "-o", "./in"), 2, "the folder of the images themselves"),
            (("measure",), 2, "required"),
            (("check", "empty"), 3, "empty: no report is in this folder"),
            (("check", "in/000.png"), 3, "not a folder"),
            (("check", "in/000.png", "nowhere.report"), 3, "nowhere.report: cannot be read"),
            (("measure", "in", "-o", "file/below"), 3, "file/below: cannot be made .Not a directory.; choose another folder"),
        ):  # fmt: skip
            found, _, error = self.shapes(*words)
            self.assertEqual((found, bool(re.search(reason, "\n".join(error)))), (status, True), (words, error))

    def test_a_unit_in_the_same_word(self):
        self.save(1)
        self.assertEqual(self.shapes("measure", "in", "--pixel-size", "0.1mm", "-o", "out")[0], 0)
        self.assertIn("a pixel is 0.1 mm wide", Path("out/summary.txt").read_text())

    def test_help(self):
        for words in ((), ("measure",), ("check",)):
            self.assertEqual(self.shapes("help", *words), self.shapes(*words, "--help"))

    def test_a_threshold_beyond_all_values(self):
        self.save(1)
        self.assertEqual(self.shapes("measure", "in", "--threshold", "300", "--light", "-o", "out")[0], 0)
        self.assertIn("  no pixel is object: its values are 0 to 255\n", Path("out/summary.txt").read_text())
        self.assertEqual(self.shapes("check", "out")[0], 0)

    @unittest.skipUnless(Path("/usr/bin/python3").exists(), "there is no /usr/bin/python3")
    def test_a_python_without_packages(self):
        run = subprocess.run(["/usr/bin/python3", "-I", "-S", str(ROOT / "python" / "shapes"), "measure", "in"], stderr=subprocess.PIPE, text=True)
        self.assertEqual(run.returncode, 1)
        self.assertIn("has no package numpy; `/usr/bin/python3 -m pip install numpy`, or after `apt install python3-numpy`", run.stderr)

    def test_a_program_is_missing(self):
        self.save(1)
        places, programs._places = programs._places, lambda: []
        path, os.environ["PATH"] = os.environ["PATH"], ""
        try:
            status, _, error = self.shapes("measure", "in")
        finally:
            programs._places, os.environ["PATH"] = places, path
        self.assertEqual((status, len(error)), (3, 1))
        self.assertIn("shape: this program is not found; build it by `rt run` in crates/shape", error[0])

    def test_a_package_is_missing(self):
        self.save(2)
        with unittest.mock.patch.dict(sys.modules, {"PIL": None}):
            status, _, error = self.shapes("measure", "in")
        self.assertEqual(
            (status, error[-1]),
            (3, "shapes: Pillow: this Python package is not installed; `apt install python3-pil`, or `pip install pillow`"),
        )


if __name__ == "__main__":
    unittest.main()
