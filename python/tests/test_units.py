"""Lengths and areas in a unit, and the table of all objects."""
import unittest

from .common import ROOT  # noqa: F401  (puts the package on the path)

from shapefront import Fault
from shapefront.tables import Joint, Part, rows_of
from shapefront.units import Pixel


def joined(parts, pixel):
    joint = Joint(rows_of(parts[0].table)[0], [], any(part.fit > 1 for part in parts), pixel)
    return [joint.names(parts[0]), *(row for part in parts for row in joint.rows(part))]


class Units(unittest.TestCase):
    def test_powers_of_the_pixel(self):
        pixel = Pixel.given("0.65", "um")
        self.assertEqual((pixel.times("100", 1), pixel.times("100", 2), pixel.times("1000", 3)), ("65", "42.25", "274.625"))
        self.assertEqual(pixel.times("100", 2, fit=2), "169")
        self.assertEqual(pixel.times("628.319", 1), "408.40735")
        self.assertEqual(str(Pixel.of_dpi("300")), "0.0846666667 mm")
        self.assertEqual(Pixel.of_dpi("254").times("1234567", 2), "12345.67")

    def test_what_is_no_length(self):
        for size, unit in (("0", "mm"), ("-1", "mm"), ("wide", "mm"), ("nan", "mm"), ("inf", "mm"), ("1", "m m"), ("1", "")):
            with self.assertRaisesRegex(Fault, "is no length"):
                Pixel.given(size, unit)

    def test_the_table_of_all(self):
        table = "object,area,left,border\n1,100,3,40.000\n2,7,9,11.500\n"
        rows = list(joined([Part("a.png", 1, (9, 9), table), Part("b.png", 2, (19, 9), table)], Pixel.given("0.5", "mm")))
        self.assertEqual(rows[0], ["image", "fit", "object", "area", "left", "border", "left_px", "area_mm2", "border_mm"])
        self.assertEqual(rows[1], ["a.png", "1", "1", "100", "3", "40.000", "3", "25", "20"])
        self.assertEqual(rows[4], ["b.png", "2", "2", "7", "9", "11.500", "18", "7", "11.5"])
        self.assertEqual(len(rows), 5)

    def test_places_in_the_image_and_in_the_unit(self):
        table = "object,left,right,x,cy,from_x\n1,2,4,3.250,7,2\n2,0,6,1.000,1,\n"
        rows = list(joined([Part("a.png", 3, (20, 30), table)], Pixel.given("0.1", "mm")))
        self.assertEqual(rows[0][8:], ["left_px", "right_px", "x_px", "cy_px", "from_x_px", "x_mm"])
        self.assertEqual([row[8:] for row in rows[1:]], [["6", "14", "10.750", "22", "7", "1.075"], ["0", "19", "4.000", "4", "", "0.4"]])

    def test_no_unit(self):
        rows = list(joined([Part("a.png", 1, (9, 9), "object,area,x\n1,5,2.000\n")], None))
        self.assertEqual(rows, [["image", "object", "area", "x"], ["a.png", "1", "5", "2.000"]])

    def test_other_columns_are_refused(self):
        with self.assertRaisesRegex(Fault, "b.png: its table has other columns"):
            list(joined([Part("a.png", 1, (9, 9), "object,area\n"), Part("b.png", 1, (9, 9), "object,voxels\n")], None))
