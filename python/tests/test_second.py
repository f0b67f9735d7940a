"""The second reading beside the proved program: the same verdicts on reports as they are made and on changed ones, the same tables and masks."""
import contextlib
import io
import math
import random
import shutil
import subprocess
import tempfile
import time
import unittest
import unittest.mock
from pathlib import Path

import numpy as np

from .common import STORED, InFolder, needs_shape, slow

from secondreading import NoPicture, first_bad_line, picture_in
from secondreading.__main__ import main
from secondreading.kinds import read
from secondreading.limits import MOST_FLAT, MOST_SOLID
from secondreading.masks import MASKS, mask
from secondreading.tables import groups_of, table
from shapefront import programs
from shapefront.arrays import RULES, verdict
from shapefront.checking import _COMMANDS
from shapefront.pictures import Source, spelled, suffix_of

CHANGED = 300
SMALL_FLAT, SMALL_SOLID = 130, 24


def sources(most_flat=SMALL_FLAT):
    """The pictures and volumes of the repository that are small enough."""
    for path in sorted([*STORED.glob("*.pbm"), *STORED.glob("*.raw")]):
        source = Source.of(path)
        if max(picture_in(path.read_bytes(), source.sides).sides) <= (SMALL_SOLID if source.sides else most_flat):
            yield source


def made(*words):
    done = subprocess.run([programs.find(), *words], stdout=subprocess.PIPE, stderr=subprocess.PIPE)
    return done.stdout if done.returncode == 0 else None


def reports(source):
    """All reports of a picture: its analysis by each rule, and those of further kinds."""
    texts = [made("analyse", *source.words, rule) for rule in RULES]
    return texts + [made(kind, *source.words) for kind in (["balls"] if source.sides else ["edges", "pieces", "balls"])]


def asked(source, text):
    """The first bad line of a text by the program, None where it says yes."""
    kind = text[:200].split(b"\n", 1)[0].decode("ascii", "replace").split(" ")[0]
    with tempfile.NamedTemporaryFile() as file:
        file.write(text)
        file.flush()
        return verdict(source, Path(file.name), _COMMANDS.get(kind, _COMMANDS["shape"])[1]).line


def changed(draw, text):
    """A report with a byte changed, a line dropped, doubled or exchanged with the next, or a number one more or one less; its first word stays."""
    lines = text.split(b"\n")[:-1]
    way, k = draw.randrange(5), draw.randrange(1, len(lines))
    if way == 0:
        j = draw.randrange(len(lines[0]) + 1, len(text))
        return text[:j] + draw.choice([b"0", b"7", b" ", b"\n", b"x", b"-", b"", b"\xff"]) + text[j + 1 :]
    if way == 1:
        del lines[k]
    elif way == 2:
        lines.insert(k, lines[k])
    elif way == 3:
        lines[k - 1 : k + 1] = lines[k - 1 : k + 1][::-1] if k > 1 else [lines[0], lines[1] + b" "]
    else:
        words = lines[k].split(b" ")
        places = [j for j, word in enumerate(words) if word.lstrip(b"-").isdigit()]
        if places:
            j = draw.choice(places)
            words[j] = str(int(words[j]) + draw.choice((-1, 1))).encode()
        lines[k] = b" ".join(words)
    return b"\n".join(lines) + b"\n"


@needs_shape
class Verdicts(unittest.TestCase):
    def test_every_small_picture_of_the_repository(self):
        for source in sources():
            picture = picture_in(source.path.read_bytes(), source.sides)
            for text in filter(None, reports(source)):
                heading = text.split(b"\n", 1)[0]
                with self.subTest(picture=source.path.name, report=heading):
                    self.assertIsNone(first_bad_line(picture, text))
                    self.assertIsNone(asked(source, text))

    def test_stored_reports(self):
        for report in STORED.glob("*.report"):
            source = next(source for source in sources() if source.path.name.startswith(report.stem + "."))
            self.assertIsNone(first_bad_line(picture_in(source.path.read_bytes(), source.sides), report.read_bytes()))

    def test_changed_reports(self):
        draw, texts = random.Random(7), []
        for source in sources(70):
            picture = picture_in(source.path.read_bytes(), source.sides)
            texts += [(source, picture, text) for text in reports(source) if text]
        bad = 0
        for _ in range(CHANGED):
            source, picture, text = draw.choice(texts)
            other = changed(draw, text)
            answer = first_bad_line(picture, other)
            self.assertEqual(answer, asked(source, other), (source.path.name, text[:40], other != text))
            bad += answer is not None
        self.assertGreater(bad, CHANGED // 2)

    def test_texts_that_are_no_reports(self):
        source = Source.of(STORED / "ring.pbm")
        picture = picture_in(source.path.read_bytes())
        whole = made("analyse", *source.words, "none")
        texts = (b"", b"\n", b"shape", b"shape 2", b"\xff\xfe", b"x" * 5000, whole[:-1], whole + b"\n", whole.replace(b"\n", b"\r\n"))
        for text in texts:
            self.assertEqual(first_bad_line(picture, text), asked(source, text), text[:20])


@needs_shape
class Products(unittest.TestCase):
    def test_tables_and_masks(self):
        for source in sources():
            picture = picture_in(source.path.read_bytes(), source.sides)
            for rule in RULES:
                text = made("analyse", *source.words, rule)
                with tempfile.NamedTemporaryFile() as file, self.subTest(picture=source.path.name, rule=rule):
                    file.write(text)
                    file.flush()
                    given = made("measure", file.name)
                    self.assertEqual(given, table(picture, rule, read(picture, text)[1].contours, groups_of(given)))
                    for name in MASKS:
                        self.assertEqual(made("mask", name, file.name), mask(picture, rule, name))


class Pictures(unittest.TestCase):
    def test_forms_of_a_file(self):
        for data in (b"P1 3 2 101 010", b"P1\n# a\n3\t2\r1 0\n1010garbage", b"P1#a\n03 #b\r002\n101010", b"P4 3 2\n\xa0\x40", b"P4 3 2#c\n \xbf\x5fmore"):
            self.assertEqual(sorted(picture_in(data).points), [(0, 0), (1, 1), (2, 0)], data)
        self.assertEqual(picture_in(bytes([0, 9, 0, 0]), (2, 1, 2)).order, [(1, 0, 0)])

    def test_files_that_hold_none(self):
        for data in (b"", b"P5 1 1 255\n0", b"P1 2 2 101", b"P1 2 2 1021", b"P1 0 1 ", b"P4 9 1\n\xff", b"P12 2 1111", b"P1 2 2#1111"):
            with self.assertRaises(NoPicture, msg=data):
                picture_in(data)
        for data, sides in ((b"000", (2, 1, 1)), (b"0", (2, 1, 1)), (b"", (0, 1, 1))):
            with self.assertRaises(NoPicture):
                picture_in(data, sides)

    def test_the_greatest_sides(self):
        for sides, most in (((MOST_FLAT, 1), MOST_FLAT), ((1, MOST_FLAT), MOST_FLAT), ((1, MOST_SOLID, 1), MOST_SOLID)):
            above = tuple(side + (side == most) for side in sides)
            self.assertEqual(picture_in(*self.of_object_points(sides)).sides, sides)
            with self.assertRaisesRegex(NoPicture, "too large"):
                picture_in(*self.of_object_points(above))

    def of_object_points(self, sides):
        """The file of a picture without background, and what has to be told of its sides."""
        return (b"P1 %d %d " % sides + b"1" * math.prod(sides),) if len(sides) == 2 else (b"\1" * math.prod(sides), sides)


class Command(InFolder):
    def setUp(self):
        super().setUp()
        for name in ("word.pbm", "word.report", "pores.report", "pores.16x16x16.raw"):
            shutil.copy(STORED / name, name)

    def second(self, *words):
        """The same as `shapes check --second`, where there is no proved program."""
        with unittest.mock.patch.object(programs, "find", side_effect=programs.Missing("shape", "this program is not found")):
            return self.shapes("check", "--second", *words)

    def test_a_folder_and_reports(self):
        told = "drawings, records and the tables of all images are not looked at"
        self.assertEqual(
            self.second("."), (0, ["pores: yes", "word: yes", f"by the second reading: reports 2, tables 0, masks 0; {told}"], [])
        )
        self.assertEqual(self.second("word.report", "pores.report")[:2][1][:2], ["word: yes", "pores: yes"])

    def test_a_bad_line(self):
        lines = Path("word.report").read_bytes().split(b"\n")
        lines[4] = lines[4][:-1] + b"9"
        Path("word.report").write_bytes(b"\n".join(lines))
        status, out, _ = self.second("word.report")
        self.assertEqual((status, out[0]), (1, "word: no, line 5: no fresh report to compare with (this program is not found)"))

    def test_a_table_and_a_mask(self):
        picture = picture_in(Path("word.pbm").read_bytes())
        told = read(picture, Path("word.report").read_bytes())[1]
        Path("word.csv").write_bytes(table(picture, told.rule, told.contours))
        Path("word.skeleton.pbm").write_bytes(mask(picture, told.rule, "skeleton"))
        Path("word.squares.59x29.32bit.raw").write_bytes(mask(picture, told.rule, "squares"))
        self.assertIn("reports 1, tables 1, masks 2;", self.second("word.report")[1][1])
        Path("word.skeleton.pbm").write_bytes(mask(picture, told.rule, "object"))
        why = "word: no, the report holds, but word.skeleton.pbm is not what the second reading makes of it"
        self.assertEqual(self.second("word.report")[1][0], why)

    def test_without_a_picture(self):
        Path("word.pbm").unlink()
        status, out, _ = self.second("word.report")
        self.assertTrue(status == 1 and out[0].startswith("word: no, no picture lies beside its report"), out)

    @needs_shape
    def test_why(self):
        Path("word.report").write_bytes(Path("word.report").read_bytes().replace(b"\nparts 95 5 5", b"\nparts 95 4 5"))
        self.assertEqual(
            self.shapes("check", "--second", "word.report")[1][0], "word: no, line 2: it says `parts 95 4 5`; true is `parts 95 5 5`"
        )

    def test_a_picture_in_place_of_a_report_is_no_command(self):
        self.assertEqual(self.second("word.pbm", "word.report")[0], 2)

    def test_two_reports_of_one_image_are_no_command(self):
        self.assertEqual(self.shapes("check", "word.pbm", "word.report", "word.report")[0], 2 if programs.has() else 3)

    def test_alone(self):
        out = io.StringIO()
        with contextlib.redirect_stdout(out), contextlib.redirect_stderr(io.StringIO()):
            answers = [main(words.split()) for words in ("word.pbm word.report", "word.pbm pores.report", "pores.report pores.report", "word.pbm")]
        self.assertEqual((answers, out.getvalue()), ([0, 1, 3, 2], "yes\nno 1\n"))


@slow
@needs_shape
class Speed(unittest.TestCase):
    def test_ten_seconds(self):
        side = 500
        word = np.pad(picture_in((STORED / "word.pbm").read_bytes()).framed, 2)
        kinds = {"blobs": blobs(side), "text": np.tile(word, (16, 8))[:side, :side], "every pixel": np.ones((side, side), bool)}
        for name, inside in kinds.items():
            with tempfile.TemporaryDirectory() as folder, self.subTest(picture=name):
                path = Path(folder) / ("picture" + suffix_of(inside))
                path.write_bytes(spelled(inside))
                for report in reports(Source.of(path)):
                    begin = time.process_time()
                    self.assertIsNone(first_bad_line(picture_in(path.read_bytes()), report))
                    self.assertLess(time.process_time() - begin, 10, report[:30])


def blobs(side):
    """Random numbers, smoothed four times along each axis and cut in the middle."""
    values = np.random.default_rng(1).random((side, side))
    for _ in range(4):
        for axis in (0, 1):
            values = sum(np.roll(values, k, axis) for k in range(-2, 3))
    return values > np.median(values)


if __name__ == "__main__":
    unittest.main()
