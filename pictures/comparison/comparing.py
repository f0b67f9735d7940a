"""The comparison of the program with the second reading: picture by picture, each report, what is made of it, and its changed versions."""
from collections import Counter

from secondreading import readings, tables
from secondreading.masks import MASKS, mask
from secondreading.texts import first_bad
from secondreading.thinning import RULES

from comparison import searches, shown
from comparison.forged import WAYS, Forging, text_of
from comparison.holding import forged
from comparison.making import make
from comparison.program import Difference


class Report:
    """A report of a picture: its first word, the form that checks it, its reading, what it has to show, and its lines."""

    def __init__(self, kind, text):
        self.kind, self.text, self.reading = kind, text, readings["shape" if kind == "analysis" else kind]
        self.check = "check" if kind == "analysis" else "check" + kind
        self.shown = getattr(shown, kind)
        self.lines = text.decode("latin-1").split("\n")[:-1]
        self.kinds = [line.split(" ")[0] for line in self.lines]


class Comparison:
    """What was compared, and how often."""

    def __init__(self, draw, program):
        self.draw, self.program = draw, program
        self.made, self.files, self.cases, self.held, self.sizes, self.forged = Counter(), Counter(), Counter(), 0, Counter(), Counter()

    def run(self, pictures, volumes, changed):
        """Compares so many pictures and volumes, and reports with so many changes, which fall evenly on them."""
        whole = pictures + volumes
        for k in range(whole):
            axes = 2 if k * pictures // whole < (k + 1) * pictures // whole else 3
            self.compare(make(self.draw, axes, k % 4 == 0), (k + 1) * changed // whole - k * changed // whole)

    def compare(self, picture, changed):
        self.sizes[picture.axes] += 1
        self.program.lay(picture)
        self.agree(picture, "the searches", True, searches.agrees(picture, RULES))
        reports = [self.analysis(picture, rule) for rule in RULES] + [self.further(picture, kind) for kind in self.kinds(picture)]
        for _ in range(changed):
            self.change(picture, reports)

    def kinds(self, picture):
        return ("edges", "pieces", "balls") if picture.axes == 2 else ("balls",)

    # ---- reports as they are made

    def analysis(self, picture, rule):
        """The analysis by a rule, and the tables and masks of it."""
        report = Report("analysis", self.program.made("analyse", rule))
        words = ["shape", "2" if picture.axes == 2 else "1", picture.word, *map(str, picture.sides), rule]
        self.agree(picture, "the heading", report.lines[0], " ".join(words))
        self.holds(picture, report)
        path = self.program.write("report", report.text)
        self.tabled(picture, rule, 2, report.text)
        for name in MASKS:
            given = self.program.run("mask", name, path)[0]
            self.agree(picture, "the mask %s by %s" % (name, rule), given, mask(picture, rule, name))
        self.files["masks"] += len(MASKS)
        return report

    def further(self, picture, kind):
        report = Report(kind, self.program.made(kind))
        self.holds(picture, report)
        return report

    def holds(self, picture, report):
        """A report that has to hold, and to show what it has to."""
        bad, told = first_bad(report.reading.read, picture, report.text)
        self.agree(picture, report.kind, None, bad, report.text)
        self.agree(picture, "what %s shows" % report.kind, True, report.shown(picture, told), report.text)
        self.agree(picture, report.check, self.program.checked(report.check, report.text), None, report.text)
        self.made[report.kind] += 1

    def tabled(self, picture, rule, version, text):
        """The table of a report that holds is the one of the picture alone: by the number 1 without the lengths of borders, as it does not fix them."""
        groups = self.draw.choice(tables.GROUPS)
        spacing = self.draw.choice((None, (1, 1, 1), (5, 5, 20), (1, 2, 3))) if picture.axes == 3 else None
        asked = ("spacing", *map(str, spacing)) if spacing else ()
        given = self.program.run("measure", *groups, *asked, self.program.write("report", text))[0]
        contours = shown.least_contours(picture) if picture.axes == 2 and version == 2 else None
        wanted = tables.table(picture, rule, contours, groups, spacing)
        self.agree(picture, "the table %s by %s of number %d" % (" ".join(groups + asked), rule, version), given, wanted, text)
        self.files["tables"] += 1

    # ---- forged reports that hold

    def run_forged(self, pictures, volumes):
        """Compares so many forged reports of pictures and of volumes that still hold."""
        for k in range(pictures + volumes):
            self.forge(make(self.draw, 2 if k < pictures else 3, False), self.draw.choice(RULES), 1 + k % 2 if k < pictures else 1)

    def forge(self, picture, rule, version):
        """A report with other choices throughout: both readings say yes, and its table is that of the picture."""
        self.program.lay(picture)
        lines = self.program.made("analyse", rule).decode("ascii").split("\n")[:-1]
        text = text_of(forged(self.draw, picture, lines, version))
        self.agree(picture, "a forged report", first_bad(readings["shape"].read, picture, text)[0], None, text)
        self.agree(picture, "check of a forged report", self.program.checked("check", text), None, text)
        self.tabled(picture, rule, version, text)
        self.forged["pictures, number %d" % version if picture.axes == 2 else "volumes"] += 1

    # ---- changed reports

    def change(self, picture, reports):
        """Changes a report at a line of the kind and in the way that came least often for its share, and compares the answers."""
        report, place, way, text = self.changed(picture, reports)
        bad, told = first_bad(report.reading.read, picture, text)
        what = "%s, line %d, %s" % (report.kind, place + 1, way.__name__)
        self.agree(picture, what, self.program.checked(report.check, text), bad, text)
        if bad is None:
            self.agree(picture, "what it shows: " + what, True, report.shown(picture, told), text)
        self.held += bad is None
        self.cases[report.kind, report.kinds[place], way] += 1

    def changed(self, picture, reports):
        cases = dict.fromkeys((report.kind, first, way) for report in reports for first in report.kinds for way in WAYS)
        for kind, first, way in sorted(cases, key=lambda case: (self.cases[case] / WAYS[case[2]], self.draw.random())):
            report = self.draw.choice([report for report in reports if report.kind == kind and first in report.kinds])
            place = self.draw.choice([k for k, word in enumerate(report.kinds) if word == first])
            others = [other.lines for other in reports if other is not report]
            text = way(Forging(self.draw, picture, report.lines, others, place))
            if text is not None and text != report.text:
                return report, place, way, text
        raise Difference("no report can be changed")

    # ---- what is said of it

    def agree(self, picture, what, given, wanted, text=b""):
        if given != wanted:
            self.program.write("different", text)
            told = "sides %s, points %s\n%s: the program says %r, the second reading %r" % (picture.sides, picture.order, what, given, wanted)
            raise Difference(told + "\n" + text.decode("latin-1"))

    def summary(self):
        """The one line of what was compared."""
        ways, kinds = Counter(), Counter()
        for (report, first, way), count in self.cases.items():
            ways[way.__name__] += count
            kinds["%s %s" % (report, first)] += count
        numbers = ["%d pictures, %d volumes: no difference" % (self.sizes[2], self.sizes[3]), "reports: " + listed(self.made), "files: " + listed(self.files)]
        numbers += ["forged reports that hold: " + listed(self.forged)]
        numbers += ["%d changed reports, of which %d hold" % (sum(ways.values()), self.held), "changes: " + listed(ways), "lines: " + listed(kinds)]
        return "; ".join(numbers)


def listed(counter):
    return ", ".join("%s %d" % (name, counter[name]) for name in sorted(counter))
