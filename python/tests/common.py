"""What the tests share: pictures, the repository's files, and whether the program and packages are there."""
from __future__ import annotations

import contextlib
import importlib.util
import io
import os
import sys
import tempfile
import unittest
from pathlib import Path

import numpy as np

HERE = Path(__file__).resolve().parent
ROOT = HERE.parents[1]
STORED = ROOT / "pictures"
sys.path.insert(0, str(HERE.parent))

from shapefront import main, programs  # noqa: E402


def installed(*packages: str) -> bool:
    return all(importlib.util.find_spec(package) for package in packages)


# The workbook of a run, and its page, where it is made.
PAGE = ["objects.xlsx", *(["index.html"] if installed("jinja2") else [])]


def measured(told: str, folder: str = "out") -> str:
    """The last line of a run that measured so many images, as `3 of 3`, and made a page where that can be."""
    page = f"{folder}/index.html" if folder != "." else "index.html"
    return f"{told} measured, in {folder}" + (f"; open {page}" if installed("jinja2") else ": summary.txt tells how")


needs_shape = unittest.skipUnless(programs.has(), "the program shape is not built")
slow = unittest.skipUnless(os.environ.get("SHAPES_SLOW"), "it takes minutes: set SHAPES_SLOW=1")
needs_pillow = unittest.skipUnless(installed("PIL"), "Pillow is not installed")


def random_mask(seed: int, *shape: int) -> np.ndarray:
    """A picture of smooth random blobs, or of noise for every third seed."""
    draw = np.random.default_rng(seed)
    values = draw.random(shape)
    if seed % 3:
        for axis in range(len(shape)):
            values = (np.roll(values, 1, axis) + values + np.roll(values, -1, axis)) / 3
    return values > np.quantile(values, draw.choice([0.3, 0.5, 0.8]))


class InFolder(unittest.TestCase):
    """A test in an empty folder of its own."""

    def setUp(self) -> None:
        holder = tempfile.TemporaryDirectory()
        self.addCleanup(holder.cleanup)
        self.folder = Path(holder.name).resolve()
        self.addCleanup(os.chdir, os.getcwd())
        os.chdir(self.folder)
        self.addCleanup(os.environ.__setitem__, "PATH", os.environ["PATH"])
        os.environ["PATH"] = f"{Path(sys.executable).parent}:{os.environ['PATH']}"

    def shapes(self, *words: object) -> tuple[int, list[str], list[str]]:
        """Runs the command: its status, and the lines on standard output and standard error."""
        out, error = io.StringIO(), io.StringIO()
        with contextlib.redirect_stdout(out), contextlib.redirect_stderr(error):
            try:
                status = main.main([str(word) for word in words])
            except SystemExit as exit_:
                status = exit_.code
        return status, out.getvalue().splitlines(), error.getvalue().splitlines()
