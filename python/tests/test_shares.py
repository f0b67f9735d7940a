"""Shares of many images, measured each by itself, joined and checked; by a program in the place of `shape`."""
import csv
import os
import re
import shutil
import subprocess
import sys
import unittest
from hashlib import sha256
from pathlib import Path
from unittest import mock

from . import fake
from .common import HERE, PAGE, InFolder, measured, needs_pillow
from .test_stopping import contents, save

from shapefront import layout
from shapefront.shares import Share

OF_ALL = ["objects.csv", "pictures.csv", "summary.txt"]


class Which(unittest.TestCase):
    def test_each_image_is_of_one_share_whatever_others_there_are(self):
        names = [f"{k}/{k * k}.png" for k in range(1000)]
        for of in (1, 7, 100):
            shares = [Share(k + 1, of) for k in range(of)]
            found = [[share.number for share in shares if share.takes(name)] for name in names]
            self.assertEqual({len(one) for one in found}, {1})
            counts = [sum(one == [k + 1] for one in found) for k in range(of)]
            self.assertLess(max(counts), 3 * len(names) / of)
        # by sha256sum
        self.assertEqual([Share.told(f"{k}/4").takes("a.png") for k in range(1, 5)].index(True), int(subprocess.run("printf a.png | sha256sum", shell=True, capture_output=True, text=True).stdout[:16], 16) % 4)

    def test_words_that_are_no_share(self):
        for word in ("0/3", "4/3", "1", "1/0", "a/b", "1/2/3", "-1/2"):
            with self.assertRaises(ValueError):
                Share.told(word)


class OfShares(InFolder):
    """Tests of the command with a program of their own in the place of `shape`."""

    def setUp(self):
        super().setUp()
        before = os.environ.get("SHAPE_BIN")
        os.environ["SHAPE_BIN"] = fake.put(self.folder / "bin")["SHAPE_BIN"]
        self.addCleanup(lambda: os.environ.pop("SHAPE_BIN") if before is None else os.environ.__setitem__("SHAPE_BIN", before))

    def measured(self, of=3, out="out", *more):
        for k in range(of, 0, -1):
            self.assertEqual(self.shapes("measure", "in", "--dark", "--share", f"{k}/{of}", "-o", out, *more)[::2], (0, []))

    def join(self, *words):
        status, out, error = self.shapes("join", "out", *words)
        return status, out, error

    def no(self, *words):
        status, out, error = self.shapes("check", "out", *words)
        no = [line for line in out if ": no, " in line]
        self.assertEqual((status, error, bool(no)), (1, [], True), out)
        return "\n".join(no)


@needs_pillow
class Joined(OfShares):
    def test_the_tables_are_those_of_one_run(self):
        save(12)
        Path("in/0003.png").rename("in/µ, 3.png")
        self.measured()
        before = contents("out")
        self.assertEqual(self.join("in"), (0, [measured("12 of 12")], []))
        self.assertEqual({name: data for name, data in contents("out").items() if name in before}, before)
        self.assertEqual(self.shapes("measure", "in", "--dark", "-o", "one")[::2], (0, []))
        for name in OF_ALL:
            self.assertEqual(Path("out", name).read_bytes(), Path("one", name).read_bytes(), name)
        self.assertTrue(Path("out/objects.csv").read_bytes().startswith(b"\xef\xbb\xbf"))
        self.assertTrue(all(Path("out", name).is_file() for name in PAGE))
        status, out, error = self.shapes("check", "out", "--jobs", 2)
        self.assertEqual((status, error), (0, []), out)
        self.assertEqual(out[-1], "checked 3 of 3 shares of 12 images, 24 rows")
        self.assertEqual(self.shapes("check", "out", "--originals", "in")[0], 0)

    def test_the_number_of_shares_changes_no_table(self):
        save(9)
        for of in (1, 4):
            self.measured(of)
            self.assertEqual(self.join()[0], 0)
            tables = [Path("out", name).read_bytes() for name in OF_ALL]
            self.assertEqual(self.shapes("check", "out")[0], 0)
            shutil.rmtree("out")
            if of == 1:
                first = tables
        self.assertEqual(tables, first)

    def test_the_page_shows_images_of_all_shares_and_links_their_drawings(self):
        save(5)
        self.measured()
        self.join()
        page = Path("out/index.html").read_text() if "index.html" in PAGE else self.skipTest("Jinja2 is not installed")
        links = re.findall(r'href="(shares/[^"]*)"', page)
        self.assertEqual(len(links), 10)
        self.assertTrue(all(Path("out", link).is_file() for link in links))

    def test_what_is_missing_or_failed_is_told(self):
        save(8)
        Path("in/0002.png").write_bytes(b"none")
        of = 2
        own = [k for k in (1, 2) if Share(k, of).takes("0002.png")][0]
        statuses = {k: self.shapes("measure", "in", "--dark", "--share", f"{k}/{of}", "-o", "out")[0] for k in (1, 2)}
        self.assertEqual(statuses, {own: 1, 3 - own: 0})
        status, out, error = self.join("in")
        self.assertEqual((status, out), (1, [measured("7 of 8")]))
        self.assertEqual(error, ["failed: in/0002.png: not an image that can be read; open it in another program and save it as PNG or TIFF"])
        self.assertEqual(self.shapes("check", "out")[0], 0)
        other = 3 - own
        shutil.rmtree(f"out/shares/{other}")
        gone = [f"{k:04}.png" for k in range(8) if Share(other, of).takes(f"{k:04}.png")]
        status, out, error = self.join("in")
        self.assertEqual((status, error[: len(gone)]), (1, [f"missing: {name}" for name in gone]))
        self.assertEqual(error[len(gone) : -1], [f"1 of 2 shares are missing, or not at their end: {other}/2", f"{len(gone)} of 8 images are missing"])
        self.assertIn(f"{len(gone)} of 8 images are missing", Path("out/summary.txt").read_text())
        self.assertIn(f"out: no, 1 of 2 shares are missing, or not at their end: {other}/2", self.no())
        self.assertIn("this share is missing, or not at its end", self.shapes("check", "out", "--share", f"{other}/2")[2][0])

    def test_images_that_came_later_are_told(self):
        save(6)
        self.measured(2)
        save(7)
        late = [k for k in (1, 2) if Share(k, 2).takes("0006.png")][0]
        self.shapes("measure", "in", "--dark", "--share", f"{3 - late}/2", "-o", "out")
        status, out, error = self.join()
        self.assertEqual((status, error), (1, ["1 of 7 images are missing: they came later than some shares; measure all shares again"]))
        self.shapes("measure", "in", "--dark", "--share", f"{late}/2", "-o", "out")
        self.assertEqual(self.join("in")[0], 0)

    def test_shares_are_checked_each_by_itself_and_the_tables_without_them(self):
        save(8)
        self.measured(2)
        self.join()
        for k in (1, 2):
            status, out, _ = self.shapes("check", "out", "--share", f"{k}/2")
            self.assertEqual((status, len([line for line in out if line.endswith(": yes")])), (0, 1 + sum(Share(k, 2).takes(f"{n:04}.png") for n in range(8))))
        status, out, _ = self.shapes("check", "out", "--tables")
        self.assertEqual((status, out[-1]), (0, "checked 16 rows of the tables of 8 images; not checked: the shares themselves, by --share 1/2 to 2/2"))

    def test_what_is_changed_is_told(self):
        save(8)
        self.measured(2)
        self.join()
        whole = contents("out")
        evidence = next(name for name in whole if name.endswith("0001.png.csv"))

        def changed(name, old, new):
            Path("out", name).write_bytes(whole[name].replace(old, new, 1))

        def added(name):
            Path("out", name).parent.mkdir(exist_ok=True, parents=True)
            Path("out", name).write_bytes(b"mine")

        for change, told in (
            (lambda: changed("objects.csv", b"0001.png,1,95", b"0001.png,1,96"), "out/objects.csv: no, it says `0001.png,1,96,"),
            (lambda: changed("pictures.csv", b"0004.png,59", b"0004.png,58"), "out/pictures.csv: no, it says `0004.png,58,29,1,"),
            (lambda: Path("out/objects.csv").write_bytes(whole["objects.csv"][:-70]), "out/objects.csv: no, it says"),
            (lambda: Path("out/objects.csv").write_bytes(whole["objects.csv"] + b"x\n"), "out/objects.csv: no, it says `x`; the shares give `nothing`"),
            (lambda: changed("summary.txt", b"8 images", b"9 images"), "out/summary.txt: no, line 1: it says `9 images: 8 measured"),
            (lambda: Path("out/objects.csv").unlink(), "out/objects.csv: no, it is missing"),
            (lambda: changed(evidence, b",95,", b",96,"), f"no, the report holds, but out/{evidence} is not what `shape measure` makes of it"),
            (lambda: Path("out", evidence).unlink(), f"out/{evidence}: no, it is missing"),
            (lambda: Path("out/shares/1/evidence/made.json").unlink(), "out/shares/1: no, it is missing, or is another than was joined"),
            (lambda: shutil.copytree("out/shares/1", "out/shares/3"), "out/shares/3: no, nothing joined it"),
            (lambda: added("shares/1/evidence/mine.txt"), "out/shares/1/evidence/mine.txt: no, nothing made it"),
            (lambda: added("shares/mine.txt"), "out/shares/mine.txt: no, nothing joined it"),
            (lambda: added("evidence/mine.txt"), "out/evidence/mine.txt: no, nothing made it"),
            (lambda: changed("evidence/made.json", b'"given": 8', b'"given": 7'), "out/evidence/made.json: no, it was changed"),
        ):  # fmt: skip
            change()
            self.assertIn(told, self.no())
            shutil.rmtree("out")
            for name, data in whole.items():
                Path("out", name).parent.mkdir(parents=True, exist_ok=True)
                Path("out", name).write_bytes(data)
        self.assertEqual(self.shapes("check", "out")[0], 0)
        added("shares/1/evidence/mine.txt")
        self.assertEqual(self.shapes("check", "out", "--allow", "shares/1/evidence/mine.txt")[0], 0)

    def test_shares_that_are_not_of_one_run(self):
        save(6)
        self.measured(2)
        self.shapes("measure", "in", "--dark", "--min-size", "2", "--share", "2/2", "-o", "out")
        self.assertEqual(self.join()[::2], (3, ["shapes: out/shares/2: it was measured with other options than those before it; measure all shares alike, into an empty folder"]))
        self.shapes("measure", "in", "--dark", "--share", "2/3", "-o", "out")
        self.assertEqual(self.join()[::2], (3, ["shapes: out/shares/2: it was measured with another number of shares, 3 than those before it; measure all shares alike, into an empty folder"]))
        self.assertEqual(self.shapes("join", "in")[::2], (3, ["shapes: in: no share is in this folder; shapes measure --share K/N IMAGES -o FOLDER makes them"]))

    def test_names_are_those_below_the_base(self):
        for folder in ("all/a/one", "all/b"):
            Path(folder).mkdir(parents=True)
            save(2, folder)
        for k in (1, 2):
            self.assertEqual(self.shapes("measure", "all/a/one", "all/b", "--dark", "--base", "all", "--share", f"{k}/2", "-o", "out")[0], 0)
        self.assertEqual(self.join("all/a/one", "--base", "all")[0], 0)
        with open("out/pictures.csv", newline="") as file:
            self.assertEqual([row["image"] for row in csv.DictReader(file)], ["a/one/0000.png", "a/one/0001.png", "b/0000.png", "b/0001.png"])
        self.assertEqual(self.shapes("check", "out")[0], 0)
        self.assertEqual(self.shapes("measure", "all/b", "--base", "all/a", "-o", "other")[::2], (2, ["shapes: --base: all/b/0000.png does not lie below all/a; name a folder that holds all images"]))

    def test_a_share_without_images(self):
        save(1)
        self.measured(4)
        self.assertEqual(self.join()[0], 0)
        self.assertEqual(self.shapes("check", "out")[0], 0)

    def test_shares_at_once(self):
        save(12)
        words = [sys.executable, str(HERE.parent / "shapes"), "measure", "in", "--dark", "-o", "out", "--share"]
        runs = [subprocess.Popen([*words, f"{k}/4"], stdout=subprocess.DEVNULL, stderr=subprocess.PIPE) for k in range(1, 5)]
        self.assertEqual([(run.wait(), run.stderr.read()) for run in runs], [(0, b"")] * 4)
        self.assertEqual(self.join("in")[0], 0)
        self.assertEqual(self.shapes("check", "out")[0], 0)

    def test_two_runs_into_one_folder_are_told(self):
        save(3)
        save(2, "other")
        Path("other/0000.png").rename("other/1000.png")
        Path("other/0001.png").rename("other/1001.png")
        self.shapes("measure", "in", "--dark", "-o", "out")
        self.shapes("measure", "other", "--dark", "-o", "out")
        self.assertIn("0000.png.csv: no, nothing made it", self.no())
        self.shapes("measure", "in", "--dark", "--share", "1/1", "-o", "out")
        self.assertIn("out/shares/1/", self.no())


@needs_pillow
class InSubfolders(OfShares):
    """Many images: each has its files in a folder by the first letters of a sum; here four are many."""

    def setUp(self):
        super().setUp()
        patch = mock.patch.object(layout, "MANY", 4)
        patch.start()
        self.addCleanup(patch.stop)

    def test_files_lie_in_folders_by_a_sum_of_the_name(self):
        Path("in/a").mkdir(parents=True)
        save(6)
        Path("in/0005.png").rename("in/a/µ.png")
        words = ("measure", "in", "in/a", "--dark", "-o")
        self.assertEqual(self.shapes(*words, "out")[::2], (0, []))
        with mock.patch.object(layout, "MANY", 7):
            self.assertEqual(self.shapes(*words, "flat")[::2], (0, []))
        for name in ("a/µ.png", "0001.png"):
            place = sha256(name.encode()).hexdigest()[:2]
            own, flat = contents(f"out/evidence/{place}"), contents("flat/evidence")
            for suffix in (".pbm", ".csv", ".report.gz"):
                self.assertEqual(own[name + suffix], flat[name + suffix])
            self.assertTrue(Path("out/drawings", place, name + ".svg").is_file())
        self.assertEqual({path.name for path in Path("out/evidence").iterdir() if path.is_file()}, {"made.json"})
        for name in OF_ALL:
            self.assertEqual(Path("out", name).read_bytes(), Path("flat", name).read_bytes(), name)
        for folder in ("out", "flat"):
            self.assertEqual(self.shapes("check", folder, "--originals", "in")[::2], (0, []))

    def test_what_is_there_stays_and_a_folder_goes_on_as_it_was_begun(self):
        save(3)
        self.shapes("measure", "in", "--dark", "-o", "flat")
        save(5)
        self.shapes("measure", "in", "--dark", "-o", "flat")
        self.assertTrue(Path("flat/evidence/0004.png.json").is_file())
        self.assertEqual(self.shapes("check", "flat")[0], 0)
        self.shapes("measure", "in", "--dark", "-o", "out")
        before = {path: path.stat().st_mtime_ns for path in Path("out/evidence").rglob("*.png.*")}
        Path("in/0004.png").unlink()
        Path("in/0003.png").unlink()
        self.shapes("measure", "in", "--dark", "-o", "out")
        after = {path: path.stat().st_mtime_ns for path in Path("out/evidence").rglob("*.png.*")}
        self.assertEqual(after, before)

    def test_a_picture_in_another_folder_is_told(self):
        save(4)
        self.shapes("measure", "in", "--dark", "-o", "out")
        place = sha256(b"0001.png").hexdigest()[:2]
        Path(f"out/evidence/{place}").rename("out/evidence/xx")
        self.assertIn(f"out/evidence/{place}/0001.png.report.gz: no, it is missing", self.no())

    def test_shares_are_joined_and_checked(self):
        save(12)
        self.measured(2)
        self.assertTrue([path for path in Path("out/shares/1/evidence").iterdir() if path.is_dir()])
        self.assertEqual(self.join("in")[::2], (0, []))
        self.assertEqual(self.shapes("check", "out", "--originals", "in")[0], 0)
        with mock.patch.object(layout, "MANY", 100):
            self.shapes("measure", "in", "--dark", "-o", "flat")
        for name in OF_ALL:
            self.assertEqual(Path("out", name).read_bytes(), Path("flat", name).read_bytes(), name)
        page = Path("out/index.html").read_text() if "index.html" in PAGE else self.skipTest("Jinja2 is not installed")
        self.assertTrue(all(Path("out", link).is_file() for link in re.findall(r'href="(shares/[^"]*)"', page)))
