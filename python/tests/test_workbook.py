"""`objects.xlsx`, and tables that a spreadsheet opens right."""
import unittest
import unittest.mock
from pathlib import Path

import numpy as np

from .common import InFolder, installed, needs_pillow, needs_shape, random_mask

from shapefront.tables import marked, rows_of, text_of
from shapefront.workbook import is_same, workbook

if installed("PIL"):
    from PIL import Image

needs_openpyxl = unittest.skipUnless(installed("openpyxl"), "openpyxl is not installed")


class Marks(unittest.TestCase):
    def test_only_where_there_are_other_letters(self):
        for text in ("image,area\na.png,3\n", "image,area\nµ.png,3\n", "image\n\udcff.png\n"):
            table = text.encode("utf-8", "surrogateescape")
            self.assertEqual(marked(table).startswith(b"\xef\xbb\xbf"), not table.isascii())
            self.assertEqual(text_of(marked(table)), text)


@needs_openpyxl
class Workbooks(unittest.TestCase):
    TABLES = {"objects.csv": "image,area,x\n=1+1.png,3,2.500\nµ.png,4,\n\x07.png,1,2\n".encode(), "pictures.csv": b"image\na.png\n"}

    def test_cells(self):
        import io

        import openpyxl

        data = workbook(self.TABLES)
        book = openpyxl.load_workbook(io.BytesIO(data))
        self.assertEqual(book.sheetnames, ["objects", "pictures"])
        self.assertEqual([[cell.value for cell in row] for row in book["objects"]], [["image", "area", "x"], ["=1+1.png", 3, 2.5], ["µ.png", 4, None], ["?.png", 1, 2]])
        self.assertEqual(book["objects"]["A2"].data_type, "s")
        self.assertEqual(book["objects"].freeze_panes, "B2")
        names = io.BytesIO(workbook({"objects.csv": "image,area\n007,1e-5\n<&\">,-0.25\n12,inf\n".encode()}))
        cells = [[cell.value for cell in row] for row in openpyxl.load_workbook(names)["objects"]]
        self.assertEqual(cells, [["image", "area"], ["007", 1e-5], ['<&">', -0.25], ["12", "inf"]])
        self.assertEqual(workbook(self.TABLES), data)
        self.assertTrue(is_same(data, data))
        self.assertFalse(is_same(data, workbook({"objects.csv": b"image,area,x\na,1,1\n"})))
        self.assertFalse(is_same(data, b"PK"))
        for place in range(0, len(data), 7):
            is_same(data[:place] + bytes([data[place] ^ 9]) + data[place + 1 :], data)
        with unittest.mock.patch("shapefront.workbook.MOST_CELLS", 13):
            self.assertIsNone(workbook(self.TABLES))


@needs_shape
@needs_pillow
@needs_openpyxl
class OfARun(InFolder):
    def setUp(self):
        super().setUp()
        Image.fromarray(np.where(random_mask(4, 30, 40), 0, 255).astype(np.uint8)).save("µm.png")
        self.assertEqual(self.shapes("measure", "µm.png", "-o", "out")[0], 0)

    def test_it_has_the_tables(self):
        import openpyxl

        table = rows_of(text_of(Path("out/objects.csv").read_bytes()))
        sheet = openpyxl.load_workbook("out/objects.xlsx")["objects"]
        self.assertEqual([["" if cell.value is None else cell.value for cell in row] for row in sheet.iter_rows()], [[_plain(word) for word in row] for row in table])
        self.assertTrue(Path("out/objects.csv").read_bytes().startswith("\ufeffimage,".encode()))
        self.assertEqual(self.shapes("check", "out")[0], 0)

    def test_a_forged_workbook_with_its_sum(self):
        import openpyxl

        from .test_originals import sealed_again_of_all

        def forged(_):
            book = openpyxl.load_workbook("out/objects.xlsx")
            book["objects"]["C2"].value = 99999
            book.save("forged.xlsx")
            return Path("forged.xlsx").read_bytes()

        sealed_again_of_all(Path("out"), "objects.xlsx", forged)
        status, out, _ = self.shapes("check", "out")
        self.assertEqual((status, [line for line in out if ": no, " in line]), (1, ["out/objects.xlsx: no, its cells are not those of the tables"]))

    def test_one_of_another_version_is_compared_by_its_sum(self):
        with unittest.mock.patch("shapefront.runcheck.workbook_version", lambda: "other"):
            status, out, _ = self.shapes("check", "out")
            self.assertEqual(status, 0, out)
            self.assertIn("by sums alone, as another version made them, or what makes them is not installed: objects.xlsx", out[-1])
            Path("out/objects.xlsx").write_bytes(Path("out/objects.xlsx").read_bytes()[:-1])
            self.assertEqual(self.shapes("check", "out")[0], 1)


def _plain(word):
    for kind in (int, float):
        try:
            return kind(word)
        except ValueError:
            continue
    return word


if __name__ == "__main__":
    unittest.main()
