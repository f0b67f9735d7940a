"""Runs every command of the pages in order, in one shell for each page, and compares what it prints with the page.

A block that begins with ```sh is run. The block without a word that follows it is what it prints, standard error among it; `...`
there stands for any lines. ```sh and the names of Python packages or programs: the block is left out where one of them is missing.
What a block hands to Slurm waits in a cluster of the test's, whose first job has the number that the page shows.
A block of another kind, such as ```make Makefile, is written to the file that it names. ```sh gate has commands that the gate itself
is made of. A page finds the folders `pictures` and `docs` and the program as in a clone, and the files of `lay_files`.
"""
import os
import re
import shutil
import subprocess
import sys
import tempfile
import unittest
from pathlib import Path

import numpy as np

from . import cluster
from .common import ROOT, installed, needs_pillow, needs_shape, programs, slow

# What matplotlib, which scikit-image loads, says in a home where it never was.
FIRST_TIME = "Matplotlib is building the font cache; this may take a moment.\n"
FENCE = re.compile(r"^```(?P<words>[^\n]*)\n(?P<text>.*?)^```$", re.S | re.M)


def there(name):
    return cluster.is_installed() if name == "sbatch" else name != "gate" and (installed(name) or shutil.which(name) is not None)


def blocks(page):
    """The page's commands in order: each with what it prints, None where the page does not say; files are made by commands."""
    found = []
    for match in FENCE.finditer(page):
        kind, *needs = match["words"].split() or [""]
        if kind == "sh":
            found.append([match["text"], None, all(map(there, needs))])
        elif kind == "":
            if found:
                found[-1][1] = match["text"]
        elif needs:
            found.append([f"cat > {needs[0]} <<'END OF FILE'\n{match['text']}END OF FILE\n", None, True])
    return found


def lay_files(home):
    """The scan, the drawing, the masks and the slices that pages name, and a folder of images."""
    from PIL import Image, ImageDraw

    for name in ("pictures", "docs", "python"):
        (home / name).symlink_to(ROOT / name)
    (home / "crates/shape/out").mkdir(parents=True)
    (home / "crates/shape/out/shape").symlink_to(programs.find())
    scan = Image.new("L", (60, 40), 255)
    ImageDraw.Draw(scan).ellipse((10, 8, 40, 32), fill=20)
    scan.save(home / "scan.png")
    drawing = scan.convert("RGBA")
    drawing.putalpha(scan.point(lambda value: 255 - value))
    drawing.save(home / "drawing.png")
    scan.point(lambda value: 255 - value).save(home / "mask.png")
    scan.point(lambda value: 3 * (value < 128)).save(home / "labels.png")
    (home / "slices").mkdir()
    (home / "images").mkdir()
    draw = np.random.default_rng(1)
    for k in range(16):
        Image.fromarray((255 * (draw.random((16, 16)) < 0.5)).astype(np.uint8)).save(home / f"slices/{k:02}.png")
    for k in range(6):
        scan.rotate(30 * k, fillcolor=255).save(home / f"images/{k}.png")


@needs_shape
@needs_pillow
class Pages(unittest.TestCase):
    def check(self, name, environment=os.environ):
        told = [block for block in blocks((ROOT / name).read_text()) if block[2]]
        script = "".join(f"echo '<<{k}>>'\n{commands}" for k, (commands, _, _) in enumerate(told))
        with tempfile.TemporaryDirectory() as folder:
            home = Path(folder).resolve()
            lay_files(home)
            path = f"{Path(sys.executable).parent}:{home}/crates/shape/out:{ROOT}/python:{environment['PATH']}"
            values = {**environment, "HOME": str(home), "CLONE": str(ROOT), "PATH": path, "SHAPE_BIN": str(home / "crates/shape/out")}
            run = subprocess.run(["bash", "-c", f"exec 2>&1\ncd {home}\n{script}"], stdout=subprocess.PIPE, text=True, env=values)
        parts = re.split(r"^<<\d+>>\n", run.stdout.replace(FIRST_TIME, ""), flags=re.M)[1:]
        self.assertEqual(len(parts), len(told))
        for (commands, wanted, _), printed in zip(told, parts):
            with self.subTest(commands):
                pattern = "".join("(.*\n)*?" if line == "..." else re.escape(line) + "\n" for line in (wanted or "...").splitlines())
                self.assertRegex(printed, re.compile(rf"\A{pattern}\Z"))
                if wanted is None:
                    self.assertNotRegex(printed, r"(?m)^(bash: |Traceback |shape: (?!read failed))")

    def test_readme(self):
        self.check("README.md")

    def test_using(self):
        self.check("docs/USING.md")

    @slow
    def test_measuring(self):
        self.check("docs/MEASURING.md")

    @slow
    def test_many(self):
        environment = os.environ
        if cluster.is_installed():
            holder = tempfile.TemporaryDirectory()
            self.addCleanup(holder.cleanup)
            environment = cluster.start(self, Path(holder.name).resolve() / "cluster", environment, first=4183, works=False)
        self.check("docs/MANY.md", environment)

    @unittest.skipUnless(installed("skimage"), "scikit-image is not installed")
    def test_front(self):
        self.check("docs/FRONT.md")


if __name__ == "__main__":
    unittest.main()
