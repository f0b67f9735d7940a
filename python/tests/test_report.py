"""Reports as arrays: the repository's stored reports, and texts that are none."""
import gzip
import tempfile
import unittest
from pathlib import Path

import numpy as np

from .common import STORED

import shapefront
from shapefront import Fault, read


class StoredReports(unittest.TestCase):
    def test_counts_and_sizes(self):
        for name, sides, parts, kept in (
            ("word", (59, 29), (95, 5, 5), 32),
            ("granite", (64, 64), (644, 175, 2), 178),
            ("pores", (16, 16, 16), (1638, 2, 2), 121),
        ):
            report = read(STORED / f"{name}.report")
            self.assertEqual(report.sides, sides)
            self.assertEqual((report.parts.points, report.parts.pieces, report.parts.background), parts)
            self.assertEqual(len(report.points), parts[0])
            self.assertEqual(report.mask.sum(), parts[0])
            self.assertEqual(len(report.skeleton), kept)
            self.assertEqual(report.skeleton_mask.sum(), kept)

    def test_every_line_is_where_the_report_has_it(self):
        for name in ("word", "granite", "pores"):
            report = read(STORED / f"{name}.report")
            self.assertEqual("\n".join(spelled(report)), plain_lines(report.text, report.version))

    def test_squares_are_those_of_the_nearest_points(self):
        for name in ("word", "granite", "pores"):
            report = read(STORED / f"{name}.report")
            np.testing.assert_array_equal(((report.points - report.nearest) ** 2).sum(1), report.squares)
            np.testing.assert_allclose(report.distances**2, report.squares)

    def test_first_contour_of_the_word(self):
        contour = read(STORED / "word.report").contours[0]
        self.assertEqual(contour.points[:5].tolist(), [[15, 10], [16, 10], [17, 10], [18, 11], [19, 10]])
        self.assertFalse(contour.is_hole)
        self.assertEqual((len(contour.points), len(contour.segments)), (38, 21))
        self.assertEqual(contour.segments.rows[0].tolist(), [0, 3, 1, -1, 3, 13])
        self.assertEqual(contour.segments.least[0].tolist(), [2, 3, 2, 0])

    def test_gzipped_and_as_bytes(self):
        text = (STORED / "word.report").read_bytes()
        with tempfile.TemporaryDirectory() as folder:
            path = Path(folder) / "word.report.gz"
            path.write_bytes(gzip.compress(text))
            for given in (path, str(path), text):
                self.assertEqual(read(given).parts.points, 95)

    def test_further_kinds(self):
        edges = read(b"edges 1 2 2\ncycle 0 0 0 8 2\narc 0 3 + + 1 2 0\narc 2 5 - + 2 1 -6\nfold 1 2 2 2 1 0 1 4 0\nbend 0 3\nend\n")
        self.assertEqual(edges.arcs_of(0).tolist(), [[0, 3, 1, 1, 1, 2, 0], [2, 5, -1, 1, 2, 1, -6]])
        pieces = read(b"pieces 1 2 2\nchain 0 0 0 4 2\npiece 0 1 y 0 1 0\nturn x 0 0\nturn y 1 1\npiece 2 3 y 0 1 1\nend\n")
        self.assertEqual(pieces.pieces_of(0).lines.tolist(), [[0, 1, 0], [0, 1, 1]])
        balls = read(b"balls 1 pbm 2 1 2\nball 0 0 0 -1 1 0 0\nball 1 0 1 -1 1 1 0\nend\n")
        self.assertEqual((balls.centres.tolist(), balls.squares.tolist(), balls.sides), ([[0, 0], [1, 0]], [1, 1], (2, 1)))


class NoReports(unittest.TestCase):
    def test_each_is_refused_in_one_line(self):
        word = (STORED / "word.report").read_bytes()
        for text, reason in (
            (b"", "its last line has no end"),
            (b"P4\n3 3\n", "its first line begins with none of"),
            (word[:-3], "its last line has no end"),
            (word[: word.index(b"kept")], "has 0 lines `kept`|not `end`"),
            (word.replace(b"near 15 10 15 11 1", b"near 15 10 15 1"), "has not 5 numbers"),
            (word.replace(b"near 15 10 15 11 1", b"near 15 10 15 one 1"), "has not 5 numbers"),
            (word.replace(b"near 15 10 15 11 1", b"far 15 10 15 11 1"), "line 3 is no line of such a report"),
            (word.replace(b"near 15 10 ", b"near 99 10 "), "outside the picture"),
            (word.replace(b"at 15 10\n", b"", 1), "tells another number of lines `at`"),
            (word.replace(b"shape 1 pbm 59 29 none", b"shape 1 pbm 59 none").replace(b"shape 2 pbm 59 29 none", b"shape 2 pbm 59 none"), "names no picture"),
        ):  # fmt: skip
            with self.assertRaisesRegex(Fault, reason) as caught:
                read(text)
            self.assertNotIn("\n", str(caught.exception))

    def test_a_missing_file(self):
        with self.assertRaisesRegex(Fault, r"nowhere\.report: cannot be read \(No such file or directory\)"):
            shapefront.read("nowhere.report")


def spelled(report):
    """The lines of a report again, by its arrays; without those of evidence."""
    axes = "xyz"
    for row in np.hstack([report.points, report.nearest, report.squares[:, None]]):
        yield "near " + " ".join(map(str, row))
    for head, contour in zip(report.contours.heads, report.contours):
        yield "contour " + " ".join(map(str, head))
        yield from ("at %d %d" % tuple(point) for point in contour.points)
        for k, (begin, end, axis, *line) in enumerate(contour.segments.rows):
            yield f"seg {begin} {end} {axes[axis]} " + " ".join(map(str, line))
            if contour.segments.least is not None:
                yield "least " + " ".join(map(str, contour.segments.least[k]))
    for patch in report.patches:
        yield "patch %d %d %d %d %d" % (len(patch.points), *patch.plane)
        yield from ("on %d %d %d" % tuple(point) for point in patch.points)
    for event, tip in zip(report.events, report.marked):
        yield ("tip " if tip else "del ") + " ".join(map(str, event))


def plain_lines(text, version):
    kinds = (b"near", b"contour", b"at", b"seg", b"patch", b"on", b"del", b"tip") + ((b"least",) if version == 2 else ())
    return "\n".join(line.decode() for line in text.split(b"\n") if line.split(b" ")[0] in kinds)
