"""Why a line is bad, by texts of reports alone."""
import unittest

from .common import STORED

from shapefront.why import reason


class Reasons(unittest.TestCase):
    def setUp(self):
        self.fresh = (STORED / "word.report").read_bytes()
        self.lines = self.fresh.split(b"\n")

    def why(self, number, line):
        """The reason where the fresh report has this line in place of another."""
        lines = list(self.lines)
        lines[number - 1] = line
        return reason(b"\n".join(lines), self.fresh, number)

    def test_distances(self):
        self.assertEqual(self.lines[2], b"near 15 10 15 11 1")
        self.assertIn("the squared distance is 1, not 2", self.why(3, b"near 15 10 15 11 2"))
        self.assertIn("(16, 11) is no nearest background point, as (15, 11) is", self.why(3, b"near 15 10 16 11 1"))
        self.assertIn("the next object point is (15, 10)", self.why(3, b"near 16 10 16 11 1"))
        self.assertIn("it has not 5 numbers as", self.why(3, b"near 15 10 1"))

    def test_other_kinds(self):
        self.assertIn("the report is of another one", self.why(1, b"shape 2 pbm 60 29 none"))
        self.assertIn("true is `parts 95 5 5`", self.why(2, b"parts 95 5 4"))
        number = self.lines.index(b"at 15 10") + 1
        self.assertIn("the next point of the border is `at 15 10`", self.why(number, b"at 15 11"))
        number = self.lines.index(b"end") + 1
        self.assertIn("here comes a line `end`", self.why(number, b"del 1 1"))

    def test_evidence_is_a_choice(self):
        number = next(k for k, line in enumerate(self.lines, 1) if line.startswith(b"turn"))
        self.assertIn("these places show no turn of the gap; `turn", self.why(number, b"turn x 9 9"))

    def test_ends(self):
        self.assertIn(
            "the report ends before this line; here a fresh report says `end`", reason(self.fresh[:-4], self.fresh, len(self.lines) - 1)
        )
        self.assertIn("CR LF", reason(self.fresh.replace(b"\n", b"\r\n"), self.fresh, 1))
        self.assertIn("something stands behind", reason(self.fresh + b"\n", self.fresh, len(self.lines)))
        self.assertIn("something stands behind", reason(self.fresh + b"x\n", self.fresh, len(self.lines)))
        self.assertIn("has no end of line", reason(self.fresh[:-1], self.fresh, len(self.lines) - 1))

    def test_the_thinning_of_a_volume_goes_by_its_own_place(self):
        fresh = (STORED / "pores.report").read_bytes()
        lines = fresh.split(b"\n")
        first = next(k for k, line in enumerate(lines) if line.startswith(b"off"))
        number = next(k for k, line in enumerate(lines) if line.startswith(b"del")) + 3
        other = lines[:first] + [lines[first] + b" changed"] + lines[first + 1 : number - 1] + [b"del 0 0 9"] + lines[number:]
        self.assertIn(f"is `{lines[number - 1].decode()}`", reason(b"\n".join(other), fresh, number))
