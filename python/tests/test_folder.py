"""`shapes check FOLDER`: of folders that were measured each file is changed by a byte, and by edits as a person makes them."""
import csv
import gzip
import hashlib
import io
import json
import os
import random
import shutil
import subprocess
import tempfile
import unittest
import unittest.mock
import zipfile
from pathlib import Path

import numpy as np

from .common import PAGE, STORED, InFolder, installed, measured, needs_pillow, needs_shape, random_mask, slow

from shapefront import programs
from shapefront.files import spelled_json
from shapefront.layout import MADE
from shapefront.seals import SEAL, opened, sealed

if installed("PIL"):
    from PIL import Image

FOLDERS = {
    "cells": ("measure", "cells.png", "more.png", "--labels", "--masks", "object", "--masks", "skeleton", "--masks", "distances"),
    "lines": ("measure", "one.pbm", "two.pbm", "--plain", "--network", "--masks", "distances", "--pixel-size", "3", "mm"),
    "packed": ("measure", "one.pbm", "below/two.pbm", "--network", "--prune", "3", "--classes", "2,3", "--sides", "--long", "4", "--masks", "skeleton"),
    "solids": ("volume", "one.npy", "two.npy", "--plain", "--masks", "distances", "--masks", "object"),
}


def save_images():
    """The images of all folders, small ones of more than one object."""
    labels = np.zeros((12, 14), np.uint8)
    labels[1:6, 1:6], labels[6:10, 1:6], labels[2:9, 8:13] = 1, 2, 2
    labels[4, 10] = 0
    Image.fromarray(labels).save("cells.png")
    Image.fromarray(labels[::-1] * 3).save("more.png")
    Path("below").mkdir()
    for name, seed in (("one", 4), ("two", 5)):
        lines = np.zeros((16, 15 + seed), bool)
        lines[2 + seed, 1:-1] = lines[1:-1, 3 + seed] = lines[12:14, 1:3] = lines[12:15, -4:-1] = True
        lines[13, -3] = False
        for folder in (".", "below"):
            Image.fromarray(np.where(lines, 0, 255).astype(np.uint8)).convert("1").save(f"{folder}/{name}.ppm")
            Path(folder, name + ".ppm").rename(Path(folder, name + ".pbm"))
        np.save(f"{name}.npy", random_mask(seed, 5, 6, 3 + seed))


class Remembered:
    """The program's answers by its words and the bytes of the files that they name: equal ones are not asked for again."""

    def __init__(self):
        self.answers = {}

    def run(self, words, out, message):
        key = tuple(hashlib.sha256(Path(word).read_bytes()).digest() if os.path.isfile(word) else str(word) for word in words[1:])
        if key not in self.answers:
            done = subprocess.run(words, stdin=subprocess.DEVNULL, stdout=subprocess.PIPE, stderr=subprocess.PIPE)
            self.answers[key] = done.returncode, done.stdout, done.stderr
        status, *told = self.answers[key]
        for number, data in zip((out, message), told):
            with open(number, "wb", closefd=False) as file:
                file.write(data)
        return status


def contents(folder):
    return {str(path.relative_to(folder)): path.read_bytes() for path in sorted(Path(folder).rglob("*")) if path.is_file()}


class OfFolders(InFolder):
    """Tests on copies of measured folders, which are made once."""

    @classmethod
    def setUpClass(cls):
        super().setUpClass()
        holder = tempfile.TemporaryDirectory()
        cls.addClassCleanup(holder.cleanup)
        cls.made = Path(holder.name).resolve()
        cls.remembered = Remembered()

    def setUp(self):
        super().setUp()
        if not os.environ.get("SHAPES_SLOW"):
            patch = unittest.mock.patch.object(programs, "_run", self.remembered.run)
            patch.start()
            self.addCleanup(patch.stop)
        if not any(self.made.iterdir()):
            os.chdir(self.made)
            save_images()
            for name, words in FOLDERS.items():
                self.assertEqual(self.shapes(*words, "-o", name)[0::2], (0, []))
            os.chdir(self.folder)

    def anew(self, name):
        """A copy of a measured folder as it was made, under its own name."""
        shutil.rmtree(name, ignore_errors=True)
        shutil.copytree(self.made / name, name)
        return Path(name)

    def check(self, name, *words):
        status, out, error = self.shapes("check", name, *words)
        self.assertEqual(error, [])
        return status, out

    def refused(self, name, *files):
        """The lines `no` of a check, which has to name each of these files of the folder in one."""
        status, out = self.check(name)
        no = [line for line in out if ": no, " in line]
        self.assertEqual((status, bool(no)), (1, True), (files, out))
        for file in files:
            self.assertTrue(any(f"{name}/{file}" in line for line in no), (file, no))
        return no


def rows(path):
    with open(path, newline="") as file:
        return list(csv.reader(file))


def write_rows(path, table):
    out = io.StringIO()
    csv.writer(out, lineterminator="\n").writerows(table)
    Path(path).write_text(out.getvalue())


def with_rows(name, change):
    """An edit of a table: what the function makes of its rows."""

    def edit(folder):
        table = rows(folder / name)
        write_rows(folder / name, change(table))
        return [name]

    return edit


def taken_out(k):
    return lambda table: [row for n, row in enumerate(table) if n != k % len(table)]


def exchanged(k, m):
    return lambda table: [table[{k: m, m: k}.get(n, n)] for n in range(len(table))]


def cell(k, column, value):
    return lambda table: [[value if (n, m) == (k, column) else word for m, word in enumerate(row)] for n, row in enumerate(table)]


def deleted(*names):
    def edit(folder):
        for name in names:
            (folder / name).unlink()
        return names

    return edit


def swapped(one, other):
    def edit(folder):
        first, second = (folder / one).read_bytes(), (folder / other).read_bytes()
        (folder / one).write_bytes(second)
        (folder / other).write_bytes(first)
        return one, other

    return edit


def replaced(name, old, new):
    def edit(folder):
        data = (folder / name).read_bytes()
        assert data.count(old) >= 1, (name, old)
        (folder / name).write_bytes(data.replace(old, new, 1))
        return [name]

    return edit


def added(name):
    def edit(folder):
        (folder / name).parent.mkdir(exist_ok=True)
        (folder / name).write_text("measured on Monday\n")
        return [name]

    return edit


def spelled_again(name, change, is_sealed):
    """An edit of a record: what the function makes of it, with a sum of its own that fits, or with the one that it had."""

    def edit(folder):
        value = json.loads((folder / name).read_bytes())
        change(value)
        own = {key: member for key, member in value.items() if key != SEAL}
        (folder / name).write_bytes(spelled_json(sealed(own) if is_sealed else value))
        return [name]

    return edit


def set_out_anew(folder):
    (folder / MADE).write_text(json.dumps(json.loads((folder / MADE).read_bytes()), indent=2) + "\n")
    return [MADE]


def both_tables(stem):
    """The same number is changed in a picture's own table and in that of all."""

    def edit(folder):
        own = rows(folder / f"{stem}.csv")[0][1]
        for name in (f"{stem}.csv", "objects.csv"):
            table = rows(folder / name)
            write_rows(folder / name, cell(1, table[0].index(own), "99999")(table))
        return f"{stem}.csv", "objects.csv"

    return edit


def whole_image(stem):
    """All files of an image are deleted."""

    def edit(folder):
        names = [name for name in contents(folder) if name.partition("/")[2].startswith(stem.partition("/")[2] + ".")]
        return deleted(*names)(folder)

    return edit


def other_report(stem, packed=""):
    """In place of a report another one, which holds of the same picture."""

    def edit(folder):
        words = [programs.find(), "analyse", "pbm", folder / f"{stem}.pbm", "none"]
        text = subprocess.run(words, stdout=subprocess.PIPE, check=True).stdout
        (folder / f"{stem}.report{packed}").write_bytes(gzip.compress(text) if packed else text)
        return [f"{stem}.report{packed}"]

    return edit


def other_kind(stem):
    """In place of a report one of another kind, which holds of the same picture."""

    def edit(folder):
        words = [programs.find(), "edges", "pbm", folder / f"{stem}.pbm"]
        (folder / f"{stem}.report").write_bytes(subprocess.run(words, stdout=subprocess.PIPE, check=True).stdout)
        return [f"{stem}.report"]

    return edit


def packed_again(name):
    def edit(folder):
        (folder / name).write_bytes(gzip.compress(gzip.decompress((folder / name).read_bytes()), 1))
        return [name]

    return edit


def ends_of_lines(name):
    def edit(folder):
        (folder / name).write_bytes((folder / name).read_bytes().replace(b"\n", b"\r\n"))
        return [name]

    return edit


def in_archive(name, change):
    """An edit of an archive: what the function makes of its members, by their names."""

    def edit(folder):
        with zipfile.ZipFile(folder / name) as archive:
            members = change({member: archive.read(member) for member in archive.namelist()})
        with zipfile.ZipFile(folder / name, "w") as archive:
            for member, data in members.items():
                archive.writestr(member, data)
        return [name]

    return edit


def labels(one, other):
    """Edits of the archives of two label images."""
    one, other = f"{one}.labels.zip", f"{other}.labels.zip"
    return {
        "two archives are exchanged": swapped(one, other),
        "an archive is deleted": deleted(other),
        "a label is taken out": in_archive(one, lambda members: {name: data for name, data in members.items() if not name.startswith("1.")}),
        "a label's table is taken out": in_archive(one, lambda members: {name: data for name, data in members.items() if name != "2.csv"}),
        "two labels are exchanged": in_archive(one, lambda members: {name.translate({49: 50, 50: 49}): data for name, data in members.items()}),
        "a label's report is changed": in_archive(one, lambda members: members | {"2.report": members["2.report"].replace(b"near 2 1 ", b"near 3 1 ")}),
        "a label's table is changed": in_archive(one, lambda members: members | {"2.csv": members["2.csv"].replace(b"2,", b"3,", 1)}),
        "a label's mask is changed": in_archive(one, lambda members: members | {"1.skeleton.pbm": members["2.skeleton.pbm"]}),
        "a member is added": in_archive(one, lambda members: members | {"3.txt": b"mine"}),
        "a member with a way out is added": in_archive(one, lambda members: members | {"../3.txt": b"mine"}),
        "a label is said to lie elsewhere": spelled_again(one.replace("labels.zip", "json"), lambda value: value["labels"][0].__setitem__(1, 99), True),
    }


def evidence(one, other, suffix, report):
    """Edits of the pictures and the reports of two images."""
    return {
        "two reports are exchanged": swapped(f"{one}.{report}", f"{other}.{report}"),
        "two pictures are exchanged": swapped(f"{one}{suffix[0]}", f"{other}{suffix[1]}"),
        "a report is deleted": deleted(f"{one}.{report}"),
        "a picture is deleted": deleted(f"{other}{suffix[1]}"),
    }


def edits_of(one, other):
    """Edits, as a person makes them, of a folder of two pictures whose files' names begin so; each gives the files that it changes."""
    return {
        "a row is taken out": with_rows("objects.csv", taken_out(1)),
        "the last row is taken out": with_rows("objects.csv", taken_out(-1)),
        "two rows are exchanged": with_rows("objects.csv", exchanged(1, 2)),
        "a row is there twice": with_rows("objects.csv", lambda table: table + table[-1:]),
        "a number is changed": with_rows("objects.csv", cell(1, 3, "99999")),
        "a column is called another way": with_rows("objects.csv", cell(0, 2, "width")),
        "a column is taken out": with_rows("pictures.csv", lambda table: [row[:-1] for row in table]),
        "a count of a picture is changed": with_rows("pictures.csv", lambda table: cell(1, len(table[0]) - 1, "99999")(table)),
        "a threshold or a label is changed": with_rows("pictures.csv", lambda table: cell(2, 1, "77")(table)),
        "a number of a picture's own table is changed": with_rows(f"{one}.csv", cell(1, 1, "99999")),
        "a number is changed in both tables": both_tables(one),
        "a table with ends of lines as on Windows": ends_of_lines("objects.csv"),
        "two tables are exchanged": swapped(f"{one}.csv", f"{other}.csv"),
        "two records are exchanged": swapped(f"{one}.json", f"{other}.json"),
        "a picture's own table is deleted": deleted(f"{one}.csv"),
        "a record is deleted": deleted(f"{other}.json"),
        "made.json is deleted": deleted(MADE),
        "a table of all is deleted": deleted("objects.csv"),
        "the table of pictures is deleted": deleted("pictures.csv"),
        "the summary is deleted": deleted("summary.txt"),
        "all of an image is deleted": whole_image(one),
        "the summary is edited": replaced("summary.txt", b"object points", b"object dots"),
        "a note is added": added("note.txt"),
        "a note is added in a folder of its own": added("notes/monday.txt"),
        "a record says another way of making": spelled_again(f"{one}.json", lambda value: value["notes"].append("smoothed"), False),
        "a record says other counts, with a sum": spelled_again(f"{one}.json", lambda value: value.update(kept=[1, 1, 1]), True),
        "made.json says another image's sum": spelled_again(MADE, lambda value: value["images"][0].update(sum="0" * 64), False),
        "made.json says another threshold, with a sum": spelled_again(
            MADE, lambda value: value["images"][0].update(threshold=3.5), True
        ),
        "made.json names a file less, with a sum": spelled_again(MADE, lambda value: value["files"].pop(f"{one}.csv"), True),
        "made.json is set out in another way": set_out_anew,
    }


def drawn(one, other):
    one, other = (name.replace("evidence", "drawings") + ".svg" for name in (one, other))
    return {"a drawing is deleted": deleted(one), "two drawings are exchanged": swapped(one, other)}


def networks(one, other, report):
    return {
        "a network's pictures are deleted": deleted(*(f"{one}.network-{name}.pbm" for name in ("skeleton", "branches", "junctions"))),
        "a network's skeleton is deleted": deleted(f"{other}.network-skeleton.pbm"),
        "a network's tables are deleted": deleted(f"{one}.network.csv", f"{one}.branches.csv"),
        "a length is changed": with_rows("networks.csv", lambda table: cell(1, table[0].index("length"), "99999")(table)),
        "a branch is taken out": with_rows("branches.csv", taken_out(2)),
        "a branch of a picture is changed": with_rows(f"{one}.branches.csv", cell(1, 1, "99999")),
        "two reports of branches are exchanged": swapped(f"{one}.network-branches.{report}", f"{other}.network-branches.{report}"),
        "the table of branches is deleted": deleted("branches.csv"),
    }


def holes(one, other, report):
    return {
        "a hole's row is taken out": with_rows("holes.csv", taken_out(1)),
        "a hole is made larger": with_rows("holes.csv", cell(1, 3, "99999")),
        "the picture of holes is deleted": deleted(f"{one}.holes-1.pbm"),
        "the report of holes is deleted": deleted(f"{one}.holes-1.{report}"),
        "a picture's table of holes is deleted": deleted(f"{other}.holes.csv"),
        "a picture's table of holes is changed": with_rows(f"{other}.holes.csv", cell(1, 9, "99999")),
        "a length of a class of widths is changed": with_rows("widths.csv", cell(1, 3, "99999")),
    }


def outlines(one):
    return {
        "a side is made longer": with_rows("sides.csv", cell(1, 4, "99999")),
        "a picture's own side is made longer": with_rows(f"{one}.sides.csv", cell(1, 3, "99999")),
        "the table of corners is deleted": deleted("corners.csv"),
        "the pruned skeleton is deleted": deleted(f"{one}.network-pruned.pbm"),
        "the count of what was left out is changed": with_rows("networks.csv", lambda table: cell(1, len(table[0]) - 1, "7")(table)),
    }


def masks(one, other, kind):
    return {"a mask is deleted": deleted(f"{one}.{kind}"), "two masks are exchanged": swapped(f"{one}.{kind}", f"{other}.{kind}")}


CELLS, LINES = ("evidence/cells.png", "evidence/more.png"), ("evidence/one.pbm", "evidence/two.pbm")
PACKED, SOLIDS = ("evidence/one.pbm", "evidence/below/two.pbm"), ("evidence/one.npy", "evidence/two.npy")
PBM = (".pbm", ".pbm")
EDITS = {
    "cells": edits_of(*CELLS) | labels(*CELLS),
    "lines": edits_of(*LINES) | evidence(*LINES, PBM, "report") | drawn(*LINES) | networks(*LINES, "report") | holes(*LINES, "report") | masks(*LINES, "distances.pgm")
    | {"another report": other_report(LINES[1]), "another kind of report": other_kind(LINES[0]), "another pixel": replaced(MADE, b'"size": "3"', b'"size": "2"')},
    "packed": edits_of(*PACKED) | evidence(*PACKED, PBM, "report.gz") | drawn(*PACKED) | networks(*PACKED, "report.gz") | holes(*PACKED, "report.gz") | outlines(PACKED[0]) | masks(*PACKED, "skeleton.pbm")
    | {"another report": other_report(PACKED[1], ".gz"), "packed again": packed_again("evidence/one.pbm.report.gz")},
    "solids": edits_of(*SOLIDS) | evidence(*SOLIDS, (".7x6x5.raw", ".8x6x5.raw"), "report"),
}  # fmt: skip


@needs_shape
@needs_pillow
class Changed(OfFolders):
    """Each change of a folder is told by the name of the file."""

    count = 0

    def bytes_of(self, name, round_):
        """Each file of a folder in turn with one byte changed."""
        folder = self.anew(name)
        for file, data in contents(folder).items():
            draw = random.Random(f"{name} {file} {round_}")
            place, other = draw.randrange(len(data)), draw.randrange(1, 256)
            (folder / file).write_bytes(data[:place] + bytes([data[place] ^ other]) + data[place + 1 :])
            with self.subTest(folder=name, file=file, place=place):
                self.refused(name, file)
                Changed.count += 1
            (folder / file).write_bytes(data)

    def edits_of(self, name):
        for told, edit in EDITS[name].items():
            folder = self.anew(name)
            before = contents(folder)
            with self.subTest(folder=name, edit=told):
                files = edit(folder)
                self.assertNotEqual(contents(folder), before)
                self.refused(name, *files)
                Changed.count += 1

    def test_two_hundred_changes(self):
        for name in FOLDERS:
            self.assertEqual(self.check(self.anew(name))[0], 0)
            self.bytes_of(name, 0)
            self.edits_of(name)
        self.assertGreaterEqual(Changed.count, 200)

    @slow
    def test_more_bytes(self):
        for name in FOLDERS:
            for round_ in range(1, 6):
                self.bytes_of(name, round_)


@needs_shape
@needs_pillow
class Seals(OfFolders):
    """A record is taken as it was written, and no other way."""

    def test_every_byte_counts(self):
        draw = random.Random(7)
        for name in ("cells/evidence/made.json", "packed/evidence/below/two.pbm.json"):
            data = (self.made / name).read_bytes()
            self.assertEqual(opened(data), json.loads(data))
            for k in range(len(data)):
                other = bytes([data[k] ^ draw.randrange(1, 256)])
                changed = (data[:k] + other + data[k + 1 :], data[:k] + data[k + 1 :], data[:k] + other + data[k:])[k % 3]
                self.assertIsNone(opened(changed), (name, k, changed[k : k + 9]))

    def test_what_is_no_record(self):
        for data in (b"", b"3", b"[]", b"{}", b"{}\n", b"[" * 100000, b'{"own_sum": "0"}', b"\xff\xfe"):
            self.assertIsNone(opened(data))
        self.assertEqual(opened(spelled_json(sealed({"a": [1.5, None, "\udcff"]}))), sealed({"a": [1.5, None, "\udcff"]}))


@needs_shape
@needs_pillow
class Told(OfFolders):
    """What is said of a folder: why it is not right, and what a `yes` covers."""

    UNTOLD = "not checked: what only the original images tell (names, labels, thresholds, intensities, what was done to them), and the pixel's size"

    def test_what_a_yes_covers(self):
        for name, count in (("cells", f"2 of 2 images, 8 rows, {18 + len(PAGE)} files"), ("solids", "2 of 2 images, ")):
            status, out = self.check(self.anew(name))
            self.assertEqual((status, {line.rpartition(": ")[2] for line in out[:-1]}), (0, {"yes"}))
            self.assertTrue(out[-1].startswith(f"checked {count}") and out[-1].endswith(self.UNTOLD), out[-1])

    def test_rows(self):
        folder, table = self.anew("cells"), rows(self.made / "cells" / "objects.csv")
        whose = "image {}, label {}".format
        first, second, last = ((*table[k][:2],) for k in (1, 2, -1))
        for change, why in (
            (cell(1, 3, "99999"), f"row 1 ({whose(*first)}): area 99999; the report gives {table[1][3]}"),
            (cell(1, 1, "2"), f"row 1 ({whose(*first)}): label 2; the record gives 1"),
            (taken_out(2), f"row 2 ({whose(*second)}) is missing"),
            (taken_out(-1), f"row {len(table) - 1} ({whose(*last)}) is missing"),
            (exchanged(1, 2), f"row 1 ({whose(*second)}) stands in the place of another: it is row 2"),
            (lambda all_: [*all_[:2], all_[1], *all_[2:]], f"row 2 ({whose(*first)}) is one that nothing gives"),
            (lambda all_: [*all_[:2], all_[2][:-1], *all_[3:]], f"row 2 ({whose(*second)}) has {len(table[0]) - 1} cells in place of {len(table[0])}"),
            (cell(0, 3, "size"), "column 4 is called `size`, and has to be `area`"),
            (lambda all_: [row[:3] + row[4:] for row in all_], "of its columns `area` is missing"),
        ):  # fmt: skip
            write_rows(folder / "objects.csv", change(table))
            self.assertEqual(self.refused("cells", "objects.csv"), [f"cells/objects.csv: no, {why}"])
        for data, why in ((b"", "it is no table any more"), (b'a,"b\n', "of its columns"), (b"\xff\0\r", "of its columns")):
            (folder / "objects.csv").write_bytes(data)
            self.assertIn(why, self.refused("cells", "objects.csv")[0])

    def test_what_is_missing_was_changed_or_nothing_made(self):
        for edit, wanted in (
            (deleted("drawings/one.pbm.svg"), ["lines/drawings/one.pbm.svg: no, it is missing"]),
            (added("note.txt"), ["lines/note.txt: no, nothing made it; take it away, or name it by --allow"]),
            (deleted("evidence/two.pbm.report"), [
                "lines/evidence/two.pbm: no, its report two.pbm.report is gone: it is missing", "lines/evidence/two.pbm.report: no, it is missing"]),
            (replaced("summary.txt", b"a pixel is 3 mm", b"a pixel is 4 mm"), [
                "lines/summary.txt: no, line 2: it says `thinned by the rule curve; a pixel is 4 mm wide`; "
                "the records give `thinned by the rule curve; a pixel is 3 mm wide`"]),
            (replaced(MADE, b'"size": "3"', b'"size": "2"'), [
                "lines/evidence/made.json: no, it was changed since `shapes` wrote it: its sum is not that of what it says"]),
            (deleted(MADE), [
                "lines/evidence/made.json: no, it is missing, and without it nobody can tell whether branches.csv, evidence/one.pbm.json, evidence/two.pbm.json, .. "
                "and all else of the run are as they were made"]),
            (spelled_again("evidence/one.pbm.json", lambda value: value.update(parts=[1, 2, 3]), False), [
                "lines/evidence/one.pbm.json: no, parts 1: it says 1; the reports and tables give "]),
            (spelled_again(MADE, lambda value: value.pop(SEAL), False), ["lines/evidence/made.json: no, it has no sum of its own: an earlier version"]),
        ):  # fmt: skip
            files = edit(self.anew("lines"))
            found = self.refused("lines", *files)
            self.assertEqual([line[: len(told)] for line, told in zip(found, wanted, strict=True)], wanted)

    def test_a_folder_of_an_earlier_version(self):
        folder = self.anew("lines")
        (folder / MADE).rename(folder / "made.json")
        found = self.refused("lines", "made.json")
        self.assertEqual(found, ["lines/made.json: no, an earlier version of `shapes` wrote this folder; measure again into an empty one"])

    def test_two_things_at_once(self):
        folder = self.anew("packed")
        files = [*deleted("drawings/one.pbm.svg", "evidence/below/two.pbm.network-branches.pbm")(folder), *both_tables("evidence/one.pbm")(folder), *added("x")(folder)]
        self.refused("packed", *files)

    def test_what_may_be_there(self):
        folder = self.anew("cells")
        (folder / "notes").mkdir()
        for name in (".hidden", "notes/a.txt", "notes/b.txt", "list.txt"):
            (folder / name).write_text("mine")
        self.assertEqual(self.refused("cells", "notes/a.txt", "notes/b.txt", "list.txt")[0][:12], "cells/list.t")
        self.assertEqual(self.check("cells", "--allow", "notes", "--allow", "list.txt")[0], 0)
        (folder / "evidence/cells.png.csv").unlink()
        self.assertEqual(self.check("cells", "--allow", "notes", "--allow", "list.txt", "--allow", "evidence/cells.png.csv")[0], 1)

    def test_an_empty_folder_and_a_link_are_things_that_nothing_made(self):
        folder = self.anew("cells")
        (folder / "empty").mkdir()
        (folder / "link").symlink_to(self.made)
        self.refused("cells", "empty", "link")

    def test_images_that_lie_in_their_own_folder(self):
        Path("here").mkdir()
        shutil.copy(self.made / "one.pbm", "here/one.pbm")
        os.chdir("here")
        self.assertEqual(self.shapes("measure", "one.pbm", "-o", "."), (0, [measured("1 of 1", ".")], []))
        self.assertEqual(self.check(".")[0], 0)
        Path("one.pbm").write_bytes(Path("one.pbm").read_bytes() + b"x")
        status, out = self.check(".")
        self.assertEqual((status, out[-2]), (1, "one.pbm: no, nothing made it; take it away, or name it by --allow"))

    def test_what_an_earlier_run_left(self):
        self.anew("lines")
        shutil.copy(self.made / "cells.png", "cells.png")
        status, _, error = self.shapes("measure", "cells.png", "--labels", "--plain", "-o", "lines")
        told = "lines: not of this run, and `shapes check` will not pass over it: drawings/one.pbm.network.png, drawings/one.pbm.png, drawings/one.pbm.svg, .."
        self.assertEqual((status, error), (0, [told]))
        self.refused("lines", "evidence/one.pbm.report", "evidence/two.pbm.json")

    def test_runs_below_a_folder_and_reports_by_hand(self):
        Path("all").mkdir()
        os.chdir("all")
        for name in ("cells", "solids"):
            self.anew(name)
        os.chdir("..")
        self.assertEqual((self.check("all")[0], sum(line.startswith("checked ") for line in self.check("all")[1])), (0, 2))
        Path("all/cells/list.txt").write_text("mine")
        self.assertEqual([self.check("all", "--allow", name)[0] for name in ("list.txt", "cells/list.txt")], [1, 0])
        Path("all/cells/list.txt").unlink()
        shutil.copy(STORED / "word.pbm", "all/word.pbm")
        shutil.copy(STORED / "word.report", "all/word.report")
        shutil.copy(STORED / "word.report", "all/note.txt")
        status, out = self.check("all")
        self.assertEqual((status, out[-2]), (0, "all/word: yes"))
        self.assertTrue(out[-1].endswith("whether a file is missing or was exchanged, and 1 other file (note.txt)"), out[-1])
        Path("all/objects.csv").write_text("image\n")
        self.refused("all", "evidence/made.json")

    def test_a_record_that_was_changed_is_made_again(self):
        self.anew("lines")
        os.chdir(self.made)
        words = [*FOLDERS["lines"], "-o", str(self.folder / "lines")]
        for edit in (
            spelled_again("evidence/one.pbm.json", lambda value: value.update(parts=[1, 2, 3]), False),
            replaced("evidence/one.pbm.json", b'"kept"', b'"kepd"'),
        ):
            edit(self.folder / "lines")
            self.assertEqual(self.shapes(*words)[0], 0)
            self.assertEqual(contents(self.folder / "lines"), contents(self.made / "lines"))

    def test_another_build_is_told(self):
        self.anew("cells")
        with unittest.mock.patch("shapefront.runcheck.sums", lambda: {"shape": "0" * 64}):
            status, out = self.check("cells")
        self.assertEqual((status, out[-1].rpartition("; ")[2]), (0, "another build of the program made it, by the sum in made.json"))

    def test_the_name_of_the_record_of_all_is_no_name_of_an_image(self):
        Image.fromarray(np.eye(9, dtype=np.uint8) * 255).save("made.png")
        Path("made.png").rename("made")
        status, out, error = self.shapes("measure", "made", "-o", "out")
        self.assertEqual((status, out), (1, [measured("0 of 1")]))
        self.assertIn("made: its record would have the name of that of all, made.json; rename it", error[0])

    def test_a_record_of_a_stranger(self):
        for value in ({"files": {}}, {"files": {"../word.pbm": "0"}, "images": []}, {"files": [], "images": 3}, {"images": [{"pictures": ["x"]}], "files": {}}):
            folder = self.anew("cells")
            (folder / MADE).write_bytes(spelled_json(sealed(value)))
            self.assertIn("cells/evidence/made.json: no, it, or a record that it names, is none that `shapes` wrote", self.refused("cells"))


if __name__ == "__main__":
    unittest.main()
