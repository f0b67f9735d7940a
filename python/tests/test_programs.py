"""Other versions of the program: columns that came later, drawings with numbers, and volumes that are drawn or refused."""
import csv
import os
from pathlib import Path

import numpy as np

from .common import STORED, InFolder, needs_pillow, needs_shape, random_mask

from shapefront import programs

TABLE = "object,area,border,hole_border{more}\n1,3,8.000,0.000{values}\n"
FERET = {"more": ",feret,from_x,from_y,to_x,to_y", "values": ",2.828,1,1,3,3"}


@needs_shape
@needs_pillow
class OtherPrograms(InFolder):
    """A program `shape` whose words for what is made of a report are scripts of the test; all else the built one does."""

    def setUp(self):
        super().setUp()
        os.mkdir("bin")
        self.built, self.scripts = programs.find(), {}
        before = os.environ.get("SHAPE_BIN")
        os.environ["SHAPE_BIN"] = str(self.folder / "bin")
        self.addCleanup(lambda: os.environ.pop("SHAPE_BIN") if before is None else os.environ.__setitem__("SHAPE_BIN", before))

    def program(self, word, script):
        """From now on the program does this for the word."""
        self.scripts[word] = script
        cases = "".join(f"{word}) shift\n{script} ;;\n" for word, script in self.scripts.items())
        path = Path("bin", "shape")
        path.write_text(f'#!/bin/sh\ncase "$1" in\n{cases}*) exec "{self.built}" "$@" ;;\nesac\n')
        path.chmod(0o755)

    def tell(self, **columns):
        Path("table").write_text(TABLE.format(**columns))
        self.program("measure", f'[ "$1" = whole ] && exec "{self.built}" measure "$@"\ncat {self.folder}/table')

    def test_lengths_among_columns_that_come_are_told_in_the_unit(self):
        for columns, names, values in (
            ({"more": "", "values": ""}, ["area_mm2", "border_mm", "hole_border_mm"], ["0.75", "4", "0"]),
            (FERET, ["area_mm2", "border_mm", "hole_border_mm", "feret_mm"], ["0.75", "4", "0", "1.414"]),
        ):
            self.tell(**columns)
            self.program("draw", f'[ $# = 1 ] && echo "{len(names)}" || exit 2')
            self.assertEqual(self.shapes("measure", STORED / "cross.pbm", "--pixel-size", "0.5", "mm", "-o", "out")[0], 0)
            with open("out/objects.csv", newline="") as file:
                header, row = csv.reader(file)
            self.assertEqual(header, ["image", *TABLE.format(**columns).split("\n")[0].split(","), *names])
            self.assertEqual(row[-len(names) :], values)
            self.assertEqual(self.shapes("check", "out")[0], 0)

    def test_drawings_have_numbers_where_the_program_draws_them(self):
        self.tell(more="", values="")
        for script, drawn in (
            ('[ "$1" = labels ] && echo numbers || echo plain', "numbers\n"),
            ("[ $# = 1 ] && echo plain || exit 2", "plain\n"),
            ('[ "$1" = contours ] && echo contours && exit; echo "shape: the drawing is too large; draw contours draws the contours alone" >&2; exit 3', "contours\n"),
        ):
            self.program("draw", script)
            self.assertEqual(self.shapes("measure", STORED / "cross.pbm", "-o", "out")[0], 0)
            self.assertEqual(Path("out/drawings/cross.pbm.svg").read_text(), drawn)
            self.assertEqual(self.shapes("check", "out")[0], 0)

    def test_squares_are_numbers_whose_sides_and_size_the_name_tells(self):
        self.tell(more="", values="")
        self.program("mask", '[ "$1" = squares ] && echo numbers')
        np.save("v.npy", random_mask(4, 5, 6, 7))
        for words, name in ((("measure", STORED / "cross.pbm"), "cross.pbm.squares.21x15.32bit.raw"), (("volume", "v.npy"), "v.npy.squares.7x6x5.32bit.raw")):
            self.assertEqual(self.shapes(*words, "--masks", "squares", "-o", words[0])[0], 0)
            self.assertEqual(Path(words[0], "evidence", name).read_text(), "numbers\n")
            self.assertEqual(self.shapes("check", words[0])[0], 0)

    def test_a_drawing_by_another_version_is_told(self):
        self.tell(more="", values="")
        self.program("draw", "echo one")
        self.assertEqual(self.shapes("measure", STORED / "cross.pbm", "-o", "out")[0], 0)
        self.program("draw", "echo other")
        status, out, _ = self.shapes("check", "out")
        told = "out/evidence/cross.pbm: no, the report holds, but out/drawings/cross.pbm.svg is not what `shape draw` makes of it, and was made by another version of it"
        self.assertEqual((status, out[0]), (1, told))

    def test_a_flat_picture_that_is_not_drawn_is_a_failure(self):
        self.tell(more="", values="")
        self.program("draw", 'echo "shape: no memory" >&2; exit 6')
        status, _, error = self.shapes("measure", STORED / "cross.pbm", "-o", "out")
        self.assertEqual((status, error), (1, [f"{STORED / 'cross.pbm'}: not enough memory (no memory); give fewer --jobs"]))

    def test_volumes_have_a_drawing_where_the_program_draws_them(self):
        self.tell(more="", values="")
        np.save("v.npy", random_mask(4, 5, 6, 7))
        for script, is_drawn in (('echo "shape: a report of a volume" >&2; exit 3', False), ("[ $# = 1 ] && echo box || exit 2", True)):
            self.program("draw", script)
            self.assertEqual(self.shapes("volume", "v.npy", "-o", "out")[0], 0)
            self.assertEqual(Path("out/drawings/v.npy.svg").exists(), is_drawn)
            self.assertEqual(self.shapes("check", "out")[0], 0)
