"""`shapes check`: reports, tables and drawings that were changed, and why they are wrong."""
import shutil
import subprocess
from pathlib import Path

import numpy as np

from .common import PAGE, STORED, InFolder, installed, needs_pillow, needs_shape, random_mask

from secondreading.limits import MOST_FLAT
from shapefront import programs
from shapefront.convert import picture_of
from shapefront.making import make
from shapefront.plan import Plan
from shapefront.thresholds import Settings
from shapefront.words import parser

if installed("PIL"):
    from PIL import Image


@needs_shape
class Checking(InFolder):
    def setUp(self):
        super().setUp()
        for name in ("word.pbm", "word.report", "pores.report", "pores.16x16x16.raw"):
            shutil.copy(STORED / name, name)

    def change(self, report, old, new):
        path = Path(report)
        self.assertIn(old, path.read_bytes())
        path.write_bytes(path.read_bytes().replace(old, new, 1))

    def found(self, *words):
        status, out, error = self.shapes("check", *words)
        self.assertEqual(error, [])
        return status, out

    def test_stored_reports(self):
        status, out = self.found(".")
        self.assertEqual((status, out[:2], len(out)), (0, ["pores: yes", "word: yes"], 3))
        self.assertIn("checked 2 of 2 reports with what lies beside them, as in a folder that was made by hand", out[2])
        self.assertEqual(self.found("word.pbm", "word.report"), (0, ["word.report: yes"]))
        self.assertEqual(self.found("pores.16x16x16.raw", "pores.report"), (0, ["pores.report: yes"]))

    def test_why_not(self):
        for old, new, why in (
            (b"near 15 10 15 11 1", b"near 15 10 15 11 4", "line 3: it says `near 15 10 15 11 4`; the squared distance is 1, not 4"),
            (b"parts 95 5 5", b"parts 95 4 5", "line 2: it says `parts 95 4 5`; true is `parts 95 5 5`"),
            (b"pbm 59 29 none", b"pbm 59 28 none", "the report is of another one"),
            (b"pbm 59 29 none", b"pbm 59 29 curv", "curv"),
            (b"kept 32 5 5", b"kept 31 5 5", "true is `kept 32 5 5`"),
            (b"\nend\n", b"\n", "the report ends before this line; here a fresh report says `end`"),
            (b"\nend\n", b"\nend\nmore\n", "something stands behind `end`"),
        ):  # fmt: skip
            shutil.copy(STORED / "word.report", "word.report")
            self.change("word.report", old, new)
            status, out = self.found("word.pbm", "word.report")
            self.assertEqual((status, len(out)), (1, 1))
            self.assertTrue(out[0].startswith("word.report: no, line ") and why in out[0], (out, why))

    def test_every_changed_line_has_a_reason(self):
        for source, report, step in (("word.pbm", "word.report", 23), ("pores.16x16x16.raw", "pores.report", 401)):
            lines = (STORED / report).read_bytes().split(b"\n")
            for k in range(0, len(lines) - 1, step):
                Path(report).write_bytes(b"\n".join([*lines[:k], lines[k] + b"7", *lines[k + 1 :]]))
                status, out = self.found(source, report)
                self.assertEqual(status, 1)
                if not lines[k].startswith(b"patch"):
                    self.assertIn(f"no, line {k + 1}: it says `{lines[k].decode()}7`", out[0])

    def test_further_kinds(self):
        for kind in ("edges", "pieces", "balls"):
            text = subprocess.run([programs.find(), kind, "pbm", "word.pbm"], stdout=subprocess.PIPE).stdout
            Path(f"word.{kind}").write_bytes(text)
            self.assertEqual(self.found("word.pbm", f"word.{kind}"), (0, [f"word.{kind}: yes"]))
            lines = text.split(b"\n")
            for k in (0, 1, len(lines) // 2, len(lines) - 3):
                Path(f"word.{kind}").write_bytes(b"\n".join([*lines[:k], lines[k] + b"7", *lines[k + 1 :]]))
                status, out = self.found("word.pbm", f"word.{kind}")
                self.assertTrue(status == 1 and f"no, line {k + 1}: it says" in out[0], out)

    def test_a_report_without_its_picture(self):
        Path("word.pbm").unlink()
        status, out = self.found(".")
        self.assertEqual(status, 1)
        self.assertEqual(
            out[1], "word: no, no picture lies beside its report; put word.pbm or word.XxYxZ.raw there, with the sides for X, Y and Z"
        )

    def test_a_broken_picture_is_told_by_its_name(self):
        Path("word.pbm").write_bytes(b"P5 3 3 255\n123456789")
        status, out = self.found(".")
        self.assertEqual((status, out[1]), (1, "word: no, not a PBM; its first two bytes are not P1 or P4"))

    def test_a_picture_that_is_too_large_is_told_by_its_name(self):
        wide = MOST_FLAT + 1
        Path("word.pbm").write_bytes(b"P4 %d 1 " % wide + bytes(wide // 8 + 1))
        status, out = self.found(".")
        told = f"word: no, a side is above {MOST_FLAT} pixels, or 1024 voxels (a side is too large: {wide}); give --fit, which makes it smaller"
        self.assertEqual((status, out[1]), (1, told))


@needs_shape
@needs_pillow
class CheckingAFolder(InFolder):
    def setUp(self):
        super().setUp()
        shutil.copy(STORED / "word.pbm", "word.pbm")
        shutil.copy(STORED / "cross.pbm", "cross.pbm")
        self.assertEqual(self.shapes("measure", "word.pbm", "cross.pbm", "--pixel-size", "3", "mm", "-o", "out")[0], 0)

    def test_it_is_right(self):
        status, out, _ = self.shapes("check", "out")
        names = ["evidence/cross.pbm", "evidence/word.pbm", "pictures.csv", "objects.csv", "holes.csv", "summary.txt", *PAGE, "evidence/made.json"]
        self.assertEqual((status, out[:-1]), (0, [f"out/{name}: yes" for name in names]))
        self.assertTrue(out[-1].startswith(f"checked 2 of 2 images, 12 rows, {24 + len(PAGE)} files; not checked: what only the original images tell"), out[-1])

    def test_changed_tables(self):
        path = Path("out/objects.csv")
        path.write_text(path.read_text().replace("word.pbm,1,", "word.pbm,9,", 1))
        self.assertEqual(
            self.shapes("check", "out")[1][3], "out/objects.csv: no, row 1 (image word.pbm, object 1): object 9; the report gives 1"
        )
        path = Path("out/evidence/word.pbm.csv")
        path.write_text(path.read_text() + "9,9\n")
        status, out, _ = self.shapes("check", "out")
        self.assertEqual(
            (status, out[1]),
            (1, "out/evidence/word.pbm: no, the report holds, but out/evidence/word.pbm.csv is not what `shape measure` makes of it: row 6 (object 9) is one that nothing gives"),
        )

    def test_a_changed_drawing(self):
        path = Path("out/drawings/word.pbm.svg")
        path.write_text(path.read_text().replace("svg", "gvs"))
        self.assertIn("but out/drawings/word.pbm.svg is not what `shape draw` makes of it", self.shapes("check", "out")[1][1])

    def test_the_original_image(self):
        self.assertEqual(self.shapes("check", "word.pbm", "out/evidence/word.pbm.report.gz")[:2], (0, ["out/evidence/word.pbm.report.gz: yes"]))
        status, out, _ = self.shapes("check", "cross.pbm", "out/evidence/word.pbm.report.gz")
        self.assertTrue(status == 1 and "the report is of another one" in out[0], out)

    def test_the_original_image_is_made_as_small_as_its_record_tells(self):
        Image.fromarray(random_mask(4, 30, 40).astype(np.uint8) * 255).save("half.png")
        picture = picture_of(Path("half.png"), "half.png", Settings(fit=2))
        make(picture, Plan.told(Path("half"), vars(parser().parse_args(["measure", "half.png"]))))
        for words in ((), ("--fit", "--threshold", repr(picture.cut.threshold), f"--{picture.cut.objects}")):
            self.assertEqual(self.shapes("check", "half.png", "half/evidence/half.png.report.gz", *words)[:2], (0, ["half/evidence/half.png.report.gz: yes"]))
