"""The page of a run, in headless Chromium: its table, its images, its histograms, what `shapes check` said; and that it can be made again."""
import csv
import os
import re
import shutil
import sys
import unittest
import unittest.mock
from pathlib import Path
from urllib.parse import unquote

import numpy as np

from .browser import HAS_BROWSER, Browser
from .common import ROOT, InFolder, installed, needs_pillow, needs_shape

from shapefront.badges import badges_of, chosen_sides
from shapefront.evenness import unevenness
from shapefront.page import Page, with_verdict, without_verdict

if installed("PIL"):
    from PIL import Image

needs_jinja = unittest.skipUnless(installed("jinja2"), "Jinja2 is not installed")
ROWS = "return [...document.querySelectorAll('tbody tr[data-row]')].map((line) => [...line.children].map((cell) => cell.textContent))"
TOLD = ROWS.replace("cell.textContent", "cell.title || cell.textContent")
COUNT = "return document.getElementById('count').textContent"
POINTED = "return [...document.querySelectorAll('tr.pointed')].map((line) => Number(line.dataset.row))"
LIT = """const mark = document.getElementById('mark'), data = mark.getContext('2d').getImageData(0, 0, mark.width, mark.height).data;
let count = 0; for (let k = 0; k < data.length; k += 4) count += data[k] > 200 && data[k + 3] > 100; return count"""


def table(path):
    with open(path, newline="", encoding="utf-8-sig") as file:
        return list(csv.DictReader(file))


def save_images():
    """Three images of discs: one with many, one with a few that are dark, and one with specks and an uneven background."""
    y, x = np.mgrid[:200, :260]
    draw = np.random.default_rng(5)
    for name, count, sign in (("many & <few>.png", 14, 1), ("dark.png", 3, -1), ("uneven.png", 8, 1)):
        values = np.full(x.shape, 40.0 if sign > 0 else 220.0) + draw.normal(0, 3, x.shape)
        for k in range(count):
            a, b, radius = 25 + 50 * (k % 5) + draw.integers(-4, 4), 25 + 60 * (k // 5), draw.integers(6, 20)
            values += np.where((x - a) ** 2 + (y - b) ** 2 < radius**2, 120 * sign, 0)
        if name == "uneven.png":
            values += 70 * (x / 260) + np.where(draw.random(x.shape) < 0.001, 180, 0)
        Image.fromarray(np.clip(values, 0, 255).astype(np.uint8)).save(name)
    return ["many & <few>.png", "dark.png", "uneven.png"]


@needs_shape
@needs_pillow
@unittest.skipUnless(HAS_BROWSER, "Chromium, selenium or Jinja2 is not installed")
class InBrowser(InFolder):
    @classmethod
    def setUpClass(cls):
        super().setUpClass()
        cls.browser = Browser()
        cls.addClassCleanup(cls.browser.close)

    def setUp(self):
        super().setUp()
        self.images = save_images()
        self.assertEqual(self.shapes("measure", *self.images, "--pixel-size", "0.5", "um", "-o", "out")[0], 0)
        self.rows = table("out/objects.csv")

    def open(self, page="out/index.html", **how):
        self.browser.open(Path(page), **how)

    def tearDown(self):
        self.assertEqual(self.browser.said(), [])
        super().tearDown()

    def column(self, name):
        return self.browser.run("return columns.findIndex((column) => column.name === values[0])", name)

    def test_rows_are_those_of_the_table(self):
        self.open()
        self.assertEqual(self.browser.run(COUNT), str(len(self.rows)))
        names = self.browser.run("return visible().map((column) => column.name)")
        self.assertEqual(names[:3], ["image", "object", "area_um2"])
        shown = self.browser.run(ROWS)
        self.assertGreater(len(shown), 10)
        told = self.browser.run(TOLD)
        self.assertEqual(told, [[row[name] for name in names] for row in self.rows[: len(told)]])
        for name, few, all_of_it in ((name, *cells) for own, whole in zip(shown, told) for name, *cells in zip(names, own, whole)):
            if name.startswith("intensity_"):
                self.assertLessEqual(len(few.partition(".")[2].lstrip("0")), 4, few)
                self.assertLessEqual(abs(float(few) - float(all_of_it)), 5.001e-4 * abs(float(all_of_it)))
            else:
                self.assertEqual(few, all_of_it)
        self.assertTrue(any(len(few) < len(whole) for own in zip(shown, told) for few, whole in zip(*own)))
        self.browser.click("#all")
        self.assertEqual(sorted(self.browser.run("return visible().map((column) => column.name)")), sorted(self.rows[0]))

    def test_sorting(self):
        self.open()
        areas = sorted((float(row["area_um2"]) for row in self.rows), reverse=True)
        self.browser.click("th[data-column=area_um2]")
        at = self.browser.run("return visible().findIndex((column) => column.name === 'area_um2')")
        self.assertEqual([float(row[at]) for row in self.browser.run(ROWS)][:10], areas[:10])
        self.browser.click("th[data-column=area_um2]")
        self.assertEqual([float(row[at]) for row in self.browser.run(ROWS)][:10], areas[::-1][:10])
        self.assertEqual(self.browser.run("return document.querySelector('th[data-column=area_um2]').ariaSort"), "ascending")

    def test_filters_by_image_and_by_range(self):
        self.open()
        own = [row for row in self.rows if row["image"] == "dark.png"]
        self.browser.change("#image", 1)
        self.assertEqual(self.browser.run(COUNT), f"{len(own)} of {len(self.rows)}")
        self.assertEqual({row[0] for row in self.browser.run(ROWS)}, {"dark.png"})
        self.browser.change("#image", -1)
        self.browser.change("#column", self.column("area_um2"))
        self.browser.change("#low", 50)
        self.browser.change("#high", "200,5")
        count = sum(50 <= float(row["area_um2"]) <= 200.5 for row in self.rows)
        self.assertEqual(self.browser.run(COUNT), f"{count} of {len(self.rows)}")
        self.browser.click(".chip")
        self.assertEqual(self.browser.run(COUNT), str(len(self.rows)))
        self.browser.click(".card[data-image='1'] h3")
        self.assertEqual(self.browser.run(COUNT), f"{len(own)} of {len(self.rows)}")

    def test_pointing_at_a_row_shows_the_object_and_at_an_object_its_row(self):
        self.open()
        row = next(k for k, row in enumerate(self.rows[:12]) if int(row["area"]) > 200)
        self.browser.point(f"tr[data-row='{row}'] td:nth-child(2)")
        self.browser.run("await new Promise((done) => setTimeout(done, 150))")
        self.assertEqual(self.browser.run(POINTED), [row])
        scale = (512 / 260) ** 2
        self.assertLess(abs(self.browser.run(LIT) / scale - int(self.rows[row]["area"])), 0.35 * int(self.rows[row]["area"]) + 60)
        self.assertIn(self.rows[row]["area_um2"], self.browser.run("return document.getElementById('values').textContent"))
        for k, (name, number) in enumerate((("many & <few>.png", 5), ("dark.png", 1))):
            self.browser.change("#image", k)
            self.browser.change("#image", -1)
            at, other = next((at, row) for at, row in enumerate(self.rows) if row["image"] == name and int(row["area"]) > 100 and int(row["object"]) >= number)
            self.browser.point("#sheet", (float(other["cx"]) + 0.5) / 260, (float(other["cy"]) + 0.5) / 200)
            self.browser.run("await new Promise((done) => setTimeout(done, 150))")
            self.assertEqual(self.browser.run(POINTED), [at])

    def test_histograms_and_medians(self):
        self.open()
        for name in ("area_um2", "radius_um", "holes", "intensity_mean"):
            median = self.browser.run("return Number(document.querySelector(`.chart[data-column=${values[0]}] [data-median]`).dataset.median)", name)
            self.assertAlmostEqual(median, float(np.median([float(row[name]) for row in self.rows])), 9)
        self.browser.change("#image", 1)
        median = self.browser.run("return Number(document.querySelector('.chart[data-column=area_um2] [data-median]').dataset.median)")
        self.assertAlmostEqual(median, float(np.median([float(row["area_um2"]) for row in self.rows if row["image"] == "dark.png"])), 9)
        bins = self.browser.run("return binned(columns.find((column) => column.name === 'area_um2'), state.rows)")
        self.assertEqual(sum(bins), sum(row["image"] == "dark.png" for row in self.rows))
        self.browser.change("#image", -1)
        self.browser.click("#by")
        self.assertEqual(self.browser.run("return document.querySelectorAll('.chart[data-column=area_um2] .small').length"), 3)

    def test_badges_and_what_was_said(self):
        self.open()
        badges = self.browser.run("return [...document.querySelectorAll('.card')].map((card) => [...card.querySelectorAll('.badge')].map((badge) => badge.textContent))")
        self.assertEqual(badges[0], [])
        self.assertEqual(badges[1], ["objects dark"])
        self.assertIn("uneven background", badges[2])
        said = "return document.getElementById('said').textContent"
        self.assertIn("Each of the 3 reports was checked by the proved program when it was made.", self.browser.run(said))
        _, out, _ = self.shapes("check", "out")
        self.open()
        self.assertRegex(self.browser.run(said), r"shapes check said yes\.\s+\d{4}-\d\d-\d\d \d\d:\d\d UTC")
        self.assertIn(out[-1], self.browser.run(said))
        Path("out/pictures.csv").write_text("image\n")
        _, out, _ = self.shapes("check", "out")
        self.open()
        self.assertIn("shapes check said no", self.browser.run(said))
        self.assertIn(next(line for line in out if ": no, " in line), self.browser.run(said))

    def test_widths_and_schemes(self):
        papers = set()
        for width in (400, 1400):
            for scheme in ("light", "dark"):
                self.open(width=width, scheme=scheme)
                self.assertLessEqual(self.browser.run("return document.documentElement.scrollWidth"), width)
                papers.add(self.browser.run("return getComputedStyle(document.documentElement).backgroundColor"))
                for name in ("h1", ".card", "#scroll", "#stage", ".chart"):
                    box = self.browser.run("const box = document.querySelector(values[0]).getBoundingClientRect(); return [box.left, box.right, box.height]", name)
                    self.assertTrue(0 <= box[0] < box[1] <= width and box[2] > 10, (name, width, box))
        self.assertEqual(len(papers), 2)

    def test_ten_thousand_rows(self):
        header = ["image", "object", "area", "left", "top", "right", "bottom", "x", "y", "radius", "border", "feret", "holes"]
        draw = np.random.default_rng(1)
        cells = draw.gamma(2, 300, (10000, len(header) - 2))
        rows = [header, *([f"{k % 20}.png", str(k + 1), str(int(own[0])), *(f"{value:.3f}" for value in own[1:])] for k, own in enumerate(cells))]
        rows[1:] = sorted(rows[1:], key=lambda row: int(row[0][:-4]))
        record = {"key": "0.png", "parts": [1, 500, 1], "kept": [1, 1, 1], "labels": None, "cut": None, "notes": [], "files": {}, "original": [9, 9], "fit": 1}
        page = Page([(f"{k}.png", record, None) for k in range(20)], {"rule": "curve"}, None, {"shapefront": "0", "programs": {}}, [], [], rows, lambda *_: None)
        Path("many.html").write_bytes(page.spelled())
        self.open("many.html")
        self.assertEqual(self.browser.run(COUNT), "10000")
        timed = "const begin = performance.now(); {} ; document.body.offsetHeight; return performance.now() - begin"
        sort = timed.format("document.querySelector('th[data-column=area]').click()")
        self.assertLess(min(self.browser.run(sort) for _ in range(6)), 200)
        scroll = timed.format("at('scroll').scrollTop = Math.random() * 200000; await new Promise(requestAnimationFrame); await new Promise(requestAnimationFrame)")
        self.assertLess(min(self.browser.run(scroll) for _ in range(6)), 200)
        at = self.browser.run("at('scroll').scrollTop = 5000 * HEIGHT; await new Promise((done) => setTimeout(done, 100)); return visible().findIndex((column) => column.name === 'area')")
        areas, shown = sorted(int(row[2]) for row in rows[1:]), [int(row[at]) for row in self.browser.run(ROWS)]
        self.assertLess(len(shown), 100)
        self.assertTrue(any(areas[k : k + len(shown)] == sorted(shown) for k in range(len(areas))))

    def test_labels_that_touch_are_told_apart(self):
        labels = np.zeros((60, 80), np.uint8)
        labels[10:40, 10:30], labels[10:40, 30:60], labels[45:55, 5:9] = 7, 9, 7
        Image.fromarray(labels).save("cells.png")
        self.assertEqual(self.shapes("measure", "cells.png", "--labels", "-o", "cells")[0], 0)
        self.open("cells/index.html")
        for x, row in ((20, 0), (45, 1)):
            self.browser.point("#sheet", x / 80, 25 / 60)
            self.browser.run("await new Promise((done) => setTimeout(done, 150))")
            self.assertEqual(self.browser.run(POINTED), [row])

    @unittest.skipUnless(os.environ.get("SHAPES_PICTURES") and installed("skimage"), "set SHAPES_PICTURES=1 to draw the pictures of the page anew")
    def test_pictures_for_the_docs(self):
        import skimage

        for name in ("coins.png", "horse.png", "text.png"):
            shutil.copy(Path(skimage.data_dir, name), name)
        self.assertEqual(self.shapes("measure", "coins.png", "horse.png", "text.png", "--pixel-size", "0.1", "mm", "-o", "page")[0], 0)
        self.shapes("check", "page")
        for width, height, scheme, name in ((1400, 1760, "light", "page.png"), (400, 1300, "dark", "page-narrow.png")):
            self.open("page/index.html", width=width, height=height, scheme=scheme)
            self.browser.run("await point(columns.find((column) => column.name === 'area_mm2').values.findIndex((value) => value > 28 && value < 32))")
            self.browser.run("document.getElementById('said-when').textContent = '2026-12-01 09:30 UTC'; await new Promise((done) => setTimeout(done, 300))")
            self.browser.driver.save_screenshot(name)
            with Image.open(name) as image:
                _save_small(image.convert("RGB"), ROOT / "docs" / name)


def _save_small(image, path):
    """Saves a picture with 256 colours, chosen by those of all its pixels, and of each hue some."""
    image.quantize(256, Image.Quantize.FASTOCTREE, dither=Image.Dither.NONE).save(path, optimize=True)


@needs_shape
@needs_pillow
@needs_jinja
class Files(InFolder):
    """The page as a file: no address outside of it, made again by a check, and no way for a stranger to change it."""

    def setUp(self):
        super().setUp()
        self.images = save_images()
        self.assertEqual(self.shapes("measure", *self.images, "-o", "out")[0], 0)
        self.page = Path("out/index.html")

    def refused(self):
        status, out, _ = self.shapes("check", "out")
        self.assertEqual(status, 1)
        self.assertTrue(any(line.startswith("out/index.html: no, ") for line in out), out)

    def test_no_address_outside_of_the_folder(self):
        text = self.page.read_text()
        self.assertNotRegex(text, r"https?:|//[a-z]+\.|@import|url\(")
        self.assertNotIn("<few>", text)
        for target in re.findall(r'(?:href|src)="([^"]*)"', text):
            self.assertTrue(target.startswith("data:image/") or Path("out", unquote(target)).is_file(), target[:80])

    def test_the_script_is_short(self):
        self.assertLessEqual(len((ROOT / "python/shapefront/web/page.js").read_text().splitlines()), 400)

    def test_it_is_made_again_and_again_the_same(self):
        before = self.page.read_bytes()
        self.assertEqual(self.shapes("check", "out")[0], 0)
        told = self.page.read_bytes()
        self.assertNotEqual(told, before)
        self.assertEqual(without_verdict(told), before)
        self.assertEqual(self.shapes("check", "out")[0], 0)
        self.assertEqual(self.shapes("measure", *self.images, "-o", "out")[0], 0)
        self.assertEqual(self.page.read_bytes(), before)

    def test_a_changed_page(self):
        before = self.page.read_bytes()
        for old, new in ((b'"area"', b'"aera"'), (b"</html>", b"</html><p>"), (b'id="verdict">null', b'id="verdict">{"holds": true}'), (b'id="verdict">null', b'id="verdict">true')):
            self.assertIn(old, before)
            self.page.write_bytes(before.replace(old, new, 1))
            self.refused()
        self.page.unlink()
        self.refused()

    def test_a_forged_page_with_its_sum(self):
        from .test_originals import sealed_again_of_all

        sealed_again_of_all(Path("out"), "index.html", lambda data: data.replace(b'"object"', b'"abject"', 1))
        self.refused()

    def test_a_verdict_that_says_something_else_is_no_verdict(self):
        page = self.page.read_bytes()
        told = with_verdict(page, "today", True, "</script><b>", ["a <b> & c"])
        self.assertNotIn(b"<b>", told)
        self.assertEqual(without_verdict(told), page)
        self.assertEqual(with_verdict(told, "later", False, "", []).count(b"today"), 0)
        more = told.replace(b'"holds":true', b'"holds":true,"more":1')
        self.assertEqual(without_verdict(more), more)

    def test_a_page_of_another_version_is_compared_by_its_sum(self):
        with unittest.mock.patch("shapefront.runcheck.page_version", lambda: "other"):
            status, out, _ = self.shapes("check", "out")
            self.assertEqual(status, 0, out)
            self.assertIn("by sums alone, as another version made them, or what makes them is not installed: index.html", out[-1])
            self.page.write_bytes(self.page.read_bytes().replace(b'"area"', b'"aera"', 1))
            self.refused()

    def test_without_jinja(self):
        with unittest.mock.patch.dict(sys.modules, {"jinja2": None}):
            status, _, error = self.shapes("measure", *self.images, "-o", "plain")
            self.assertEqual((status, error), (0, ["no index.html, as Jinja2 is not installed: `apt install python3-jinja2`, or `pip install jinja2`"]))
            self.assertFalse(Path("plain/index.html").exists())
            status, out, _ = self.shapes("check", "out")
            self.assertEqual(status, 0, out)
            self.assertIn("by sums alone, as another version made them, or what makes them is not installed: index.html", out[-1])
        self.assertEqual(self.shapes("check", "plain")[0], 0)


class Badges(unittest.TestCase):
    def test_which_images_have_which(self):
        def record(objects, side="the frame is dark", notes=()):
            return {"cut": {"objects": objects, "side": side}, "notes": list(notes)}

        light, dark, given = record("light"), record("dark"), record("dark", "given")
        run = [light, light, dark, given]
        self.assertEqual([[badge.name for badge in badges_of(one, chosen_sides(run), [])] for one in run], [[], [], ["objects dark"], []])
        notes = ["its values are 0 to 24: if these are labels, give --labels", "the background is uneven: ..", "the lower 8 of its 16 bits are not used, .."]
        self.assertEqual([badge.name for badge in badges_of(record("light", notes=notes), chosen_sides(run), [])], ["labels?", "uneven background", "not all used"])
        for areas, has in (([1] * 5 + [50] * 20, True), ([1] * 4 + [50] * 4, False), ([1] * 6 + [50] * 60, False)):
            self.assertEqual([badge.name for badge in badges_of(light, chosen_sides(run), areas)], ["specks"] if has else [])

    def test_uneven_backgrounds(self):
        y, x = np.mgrid[:120, :160]
        disc = (x % 40 - 20) ** 2 + (y % 40 - 20) ** 2 < 90
        for slope, is_uneven in ((0, False), (20, False), (80, True)):
            self.assertEqual(unevenness(20 + 100.0 * disc + slope * x / 160, disc) is not None, is_uneven)
        self.assertIsNone(unevenness(np.zeros((120, 160)), np.zeros((120, 160), bool)))


if __name__ == "__main__":
    unittest.main()
