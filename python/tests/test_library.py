"""What one's own programs call: columns and reports of arrays, and what can be done with them."""
import pickle
import subprocess
import sys
import tempfile
import unittest
from pathlib import Path

import numpy as np

from .common import HERE, STORED, installed, needs_shape, random_mask, slow

import shapefront
from shapefront import Fault
from shapefront.library import columns_of

STRICT = "[mypy]\nstrict = True\ndisallow_any_generics = False\nignore_missing_imports = True\nfollow_imports = silent\n"
# The modules whose types are checked: the library, and the runs of many images.
TYPED = (
    "arrays", "batch", "crew", "dask", "equal", "faults", "files", "further", "hands", "joincheck", "joining", "library", "lines", "making", "pictures", "programs",
    "report", "runs", "seals", "shares", "stopping", "streams", "traits",
)  # fmt: skip
PROGRAM = """
import numpy as np
import numpy.typing as npt
import shapefront

mask: npt.NDArray[np.bool_] = np.ones((3, 4), bool)
report: shapefront.Analysis = shapefront.analyse(mask, "curve")
columns: shapefront.Columns = shapefront.measure(mask)
lengths: list[int] = [len(contour.points) for contour in report.contours[1:3]]
network: shapefront.Networks = shapefront.networks(mask, prune=3.0)
verdict: bool = bool(shapefront.check(mask, report))
balls: shapefront.BallReport = shapefront.balls([[0, 1], [1, 1]])
pieces: shapefront.PieceReport = shapefront.pieces(mask)
edges: shapefront.EdgeReport = shapefront.edges(mask)
holes: int = report.parts.holes
try:
    shapefront.measure(mask, "thin")
except shapefront.Fault as fault:
    told: str = fault.reason + fault.remedy + fault.about
"""


class Reports(unittest.TestCase):
    def setUp(self):
        self.report = shapefront.read(STORED / "word.report")

    def test_an_analysis_is_shown_in_one_line(self):
        self.assertEqual(repr(self.report), "<Analysis of 59 by 29 pixels, rule none: 95 points, 5 pieces, 4 holes>")
        self.assertLess(len(repr(shapefront.read(STORED / "pores.report"))), 100)

    def test_slices_of_contours_and_patches(self):
        contours = self.report.contours
        self.assertEqual([len(one.points) for one in contours[1:4]], [len(contours[k].points) for k in (1, 2, 3)])
        self.assertEqual(contours[::-1], [contours[k] for k in reversed(range(len(contours)))])
        self.assertEqual((len(contours[7:99]), contours[9:9]), (len(contours) - 7, []))
        patches = shapefront.read(STORED / "pores.report").patches
        self.assertEqual(patches[-2:], [patches[len(patches) - 2], patches[len(patches) - 1]])
        with self.assertRaises(IndexError):
            contours[len(contours)]

    def test_equality_hash_and_pickling(self):
        again = shapefront.read((STORED / "word.report").read_bytes())
        self.assertEqual((again == self.report, hash(again) == hash(self.report), len({again, self.report})), (True, True, 1))
        other = shapefront.read(STORED / "pores.report")
        self.assertFalse(other == self.report or self.report == "word")
        for report in (self.report, other):
            back = pickle.loads(pickle.dumps(report))
            self.assertEqual((back, back.name), (report, report.name))
            np.testing.assert_array_equal(back.events, report.events)
        first, second = self.report.contours[:2]
        self.assertEqual((first == again.contours[0], first == second, len({first, again.contours[0]})), (True, False, 1))


class Masks(unittest.TestCase):
    def test_whole_numbers_and_lists(self):
        from shapefront.pictures import checked_mask

        true = np.array([[True, False, True]])
        for mask in (true, true.astype(np.uint8), true * np.uint8(255), true.astype(np.int64) * -3, [[1, 0, 1]], [[True, False, True]]):
            own = checked_mask(mask)
            self.assertEqual((own.dtype, own.tolist()), (np.dtype(bool), true.tolist()))
        self.assertFalse(checked_mask(np.zeros((2, 2), np.uint8)).any())
        for mask, reason in ((np.array([[0, 1, 2]]), "several values beside 0"), (np.array([[0.0, 1.0]]), "of float64, not of booleans"), ([["a"]], "not of booleans")):
            with self.assertRaisesRegex(ValueError, reason):
                checked_mask(mask)

    def test_columns_of_a_table(self):
        columns = columns_of("object,x,note,far\n1,2.5,a,\n2,3,b,0.5\n")
        self.assertEqual({name: column.dtype.kind for name, column in columns.items()}, {"object": "i", "x": "f", "note": "U", "far": "f"})
        np.testing.assert_array_equal(columns["far"], [np.nan, 0.5])
        self.assertEqual([len(column) for column in columns_of("object,x\n").values()], [0, 0])


@needs_shape
class ByProgram(unittest.TestCase):
    def test_measure_gives_the_columns_of_the_table(self):
        for mask in (random_mask(4, 40, 50), random_mask(5, 8, 9, 10)):
            columns = shapefront.measure(mask.astype(np.uint8) * 255)
            self.assertEqual({**columns}.keys(), columns_of(shapefront.table(mask, "curve")).keys())
            size = "area" if mask.ndim == 2 else "voxels"
            self.assertEqual((columns[size].sum(), columns["object"].tolist()), (mask.sum(), list(range(1, len(columns[size]) + 1))))
            for name, column in columns.items():
                np.testing.assert_array_equal(column, columns_of(shapefront.table(mask, "curve"))[name])

    @unittest.skipUnless(installed("pandas"), "pandas is not installed")
    def test_columns_are_a_frame(self):
        import pandas

        mask = random_mask(4, 40, 50)
        frame = pandas.DataFrame(shapefront.measure(mask))
        self.assertEqual(frame.area.sum(), mask.sum())

    def test_further_reports(self):
        mask = random_mask(4, 20, 30)
        self.assertEqual(len(shapefront.edges(mask).heads), len(shapefront.pieces(mask).heads) or len(shapefront.edges(mask).heads))
        report = shapefront.analyse(mask)
        self.assertEqual(len(shapefront.pieces(mask).heads), len(report.contours))
        for own in (mask, random_mask(5, 6, 7, 8)):
            balls = shapefront.balls(own)
            covered = np.zeros(own.shape, bool)
            places = np.stack(np.indices(own.shape)[::-1], -1)
            for centre, square in zip(balls.centres, balls.squares):
                covered |= ((places - centre) ** 2).sum(-1) < square
            np.testing.assert_array_equal(covered, own)

    def test_a_network(self):
        mask = np.zeros((30, 60), bool)
        mask[13:16, 5:55] = mask[5:25, 29:32] = True
        network = shapefront.networks(mask, prune=3)
        self.assertEqual((network.whole["branches"].tolist(), len(network.branches["length"]), network.whole["pieces"].tolist()), ([4], 4, [1]))
        self.assertAlmostEqual(float(network.whole["length"][0]), 68, delta=5)
        with self.assertRaisesRegex(Fault, "a network is made of a picture of two"):
            shapefront.networks(np.ones((3, 3, 3), bool))


@slow
@unittest.skipUnless(installed("mypy"), "mypy is not installed")
class Types(unittest.TestCase):
    def test_the_library_and_a_program_that_calls_it_are_typed(self):
        with tempfile.TemporaryDirectory() as folder:
            config, program = Path(folder, "mypy.ini"), Path(folder, "program.py")
            config.write_text(STRICT)
            program.write_text(PROGRAM)
            files = [str(program), *(str(HERE.parent / "shapefront" / f"{name}.py") for name in TYPED)]
            words = [sys.executable, "-m", "mypy", "--config-file", str(config), "--cache-dir", folder, *files]
            done = subprocess.run(words, cwd=HERE.parent, capture_output=True, text=True)
            self.assertEqual((done.returncode, done.stdout.splitlines()[:5]), (0, [f"Success: no issues found in {len(files)} source files"]))
        self.assertTrue((HERE.parent / "shapefront" / "py.typed").is_file())
