"""A run that is stopped, by Ctrl-C, by a signal, or by a full disk, also where the program is slow; and two runs that want one folder."""
import multiprocessing
import os
import pickle
import shutil
import signal
import subprocess
import sys
import time
import unittest
from concurrent.futures import ProcessPoolExecutor
from pathlib import Path

import numpy as np

from . import fake
from .common import HERE, InFolder, needs_pillow

from shapefront import Fault, Missing
from shapefront.faults import Busy, Full
from shapefront.hands import MARK, Hand, Owner

COMMAND = [sys.executable, str(HERE.parent / "shapes")]


def save(count, folder="in"):
    """Images with one object each, none like another."""
    from PIL import Image

    Path(folder).mkdir(exist_ok=True)
    for k in range(count):
        image = np.full((29, 59), 255, np.uint8)
        image[5 : 7 + k % 20, 5 : 8 + k // 20 % 40] = 0
        Image.fromarray(image).save(f"{folder}/{k:04}.png")


def contents(folder):
    return {str(path.relative_to(folder)): path.read_bytes() for path in sorted(Path(folder).rglob("*")) if path.is_file()}


def refuse(name):
    raise Fault(name, "no image", "take another")


class Faults(unittest.TestCase):
    def test_a_fault_is_a_value_error_and_comes_out_of_another_process(self):
        for kind in (Fault, Missing, Full, Busy):
            fault = pickle.loads(pickle.dumps(kind("x\n.png", "broken", "copy it again")))
            self.assertEqual((type(fault), fault.about, fault.reason, fault.remedy, str(fault)), (kind, "x\\n.png", "broken", "copy it again", "x\\n.png: broken; copy it again"))
            self.assertIsInstance(fault, ValueError)
        with ProcessPoolExecutor(2, multiprocessing.get_context("fork")) as pool:
            told = [pool.submit(refuse, name).exception() for name in ("a", "b")]
        self.assertEqual(list(map(str, told)), ["a: no image; take another", "b: no image; take another"])


class WithFake(InFolder):
    """Tests of the command with a program of their own in the place of `shape`."""

    def setUp(self):
        super().setUp()
        self.environment = fake.put(self.folder / "bin")
        Path("begun").mkdir()
        self.environment["SHAPE_BEGUN"] = str(self.folder / "begun")

    def start(self, *words, pace="", before=(), **more):
        return subprocess.Popen(
            [*before, *COMMAND, *map(str, words)], env={**self.environment, "SHAPE_PACE": pace}, stdout=subprocess.PIPE, stderr=subprocess.PIPE, text=True, **more
        )

    def finish(self, *words):
        done = subprocess.run([*COMMAND, *map(str, words)], env=self.environment, capture_output=True, text=True)
        return done.returncode, done.stdout, done.stderr

    def until(self, ready, seconds=30):
        end = time.monotonic() + seconds
        while not ready():
            self.assertLess(time.monotonic(), end, "it does not come")
            time.sleep(0.01)

    def begun(self):
        return [int(path.name) for path in Path("begun").iterdir()]


def is_alive(process):
    try:
        return Path(f"/proc/{process}/stat").read_text().rpartition(")")[2].split()[0] != "Z"
    except OSError:
        return False


# A run ends within so many seconds of a signal. Where other processes want the processors too, one of so many tries has to.
SECONDS, TRIES = 2.0, 4


@needs_pillow
class Stopping(WithFake):
    def stopped(self, kind, jobs, pace, to_group):
        """A run that is stopped in the middle: it ends soon, leaves nothing half-made, and goes on later to what a whole run gives."""
        save(24)
        times = []
        while not times or times[-1] > SECONDS and len(times) < TRIES:
            times.append(self.seconds_to_end(kind, jobs, pace, to_group))
        self.assertLessEqual(min(times), SECONDS, (kind, jobs, pace, times))
        self.assertEqual(self.finish("measure", "in", "--dark", "--jobs", 2, "-o", "out")[0], 0)
        self.assertEqual(self.finish("measure", "in", "--dark", "-o", "other")[0], 0)
        self.assertEqual(contents("out"), contents("other"))

    def seconds_to_end(self, kind, jobs, pace, to_group):
        """How long a run takes from a signal in the middle to its end, at which nothing is half-made and no process of it is left."""
        for place in ("out", "begun"):
            shutil.rmtree(place, ignore_errors=True)
        Path("begun").mkdir()
        run = self.start("measure", "in", "--dark", "--jobs", jobs, "-o", "out", pace=pace, start_new_session=True)
        self.until(lambda: len(self.begun()) > (jobs if float(pace) > 1 else 3 * jobs) - 1)
        began = time.monotonic()
        (os.killpg if to_group else os.kill)(run.pid, kind)
        _, error = run.communicate()
        seconds = time.monotonic() - began
        self.assertEqual((run.returncode, "stopped; the same command goes on where it was" in error), (130, True), error)
        self.assertFalse([process for process in self.begun() if is_alive(process)])
        self.assertFalse([name for name in contents("out") if ".making" in name or MARK in name])
        self.assertFalse(Path("out/evidence/made.json").exists())
        return seconds

    def test_by_ctrl_c(self):
        self.stopped(signal.SIGINT, 1, "0.05", True)

    def test_by_an_interrupt_of_the_command_alone(self):
        self.stopped(signal.SIGINT, 3, "0.05", False)

    def test_by_a_signal_with_a_slow_program(self):
        self.stopped(signal.SIGTERM, 3, "100", False)

    def test_by_a_signal_with_one_slow_program(self):
        self.stopped(signal.SIGTERM, 1, "100", False)

    def test_the_command_is_killed(self):
        save(12)
        run = self.start("measure", "in", "--dark", "--jobs", 2, "-o", "out", pace="0.1")
        self.until(lambda: len(self.begun()) > 4)
        run.kill()
        run.communicate()
        self.assertTrue(Path("out", MARK).exists())
        began = time.monotonic()
        status, out, error = self.finish("measure", "in", "--dark", "-o", "out")
        self.assertEqual((status, error), (0, ""))
        self.assertLess(time.monotonic() - began, 30)
        self.assertFalse([name for name in contents("out") if ".making" in name or MARK in name])

    def test_a_process_of_the_crew_is_killed(self):
        save(6)
        run = self.start("measure", "in", "--dark", "--jobs", 2, "-o", "out", pace="1")
        self.until(lambda: len(self.begun()) > 1)
        parent = int(Path(f"/proc/{self.begun()[0]}/stat").read_text().rpartition(")")[2].split()[1])
        os.kill(parent, signal.SIGKILL)
        out, error = run.communicate()
        self.assertEqual((run.returncode, out[:23]), (1, "5 of 6 measured, in out"))
        self.assertIn("was ended by signal 9; give fewer --jobs, if memory is short", error)

    def test_a_program_that_cannot_write_ends_the_run(self):
        save(40)
        path = self.folder / "bin" / "shape"
        path.write_text(path.read_text().replace("measure) ", "measure) echo 'shape: write failed' >&2; exit 5; "))
        status, _, error = self.finish("measure", "in", "--dark", "-o", "out")
        self.assertEqual((status, len(self.begun())), (3, 1))
        self.assertIn("shapes: 0000.png: the output could not be written (write failed); make room: the same command goes on where it was", error)

    def test_a_full_disk_ends_other_programs_that_are_slow(self):
        save(6)
        path = self.folder / "bin" / "shape"
        path.write_text(path.read_text().replace("analyse)\n", "analyse)\n    case \"$3\" in *0000*) echo 'shape: write failed' >&2; exit 5 ;; esac\n"))
        times = []
        while not times or times[-1] > SECONDS and len(times) < TRIES:
            shutil.rmtree("begun")
            Path("begun").mkdir()
            run = self.start("measure", "in", "--dark", "--jobs", 3, "-o", "out", pace="100")
            _, error = run.communicate()
            self.assertEqual((run.returncode, error.count("\n")), (3, 1), error)
            self.assertFalse([process for process in self.begun() if is_alive(process)])
            self.assertFalse([name for name in contents("out") if ".making" in name or MARK in name])
            times.append(time.time() - max([path.stat().st_mtime for path in Path("begun").iterdir()], default=time.time()))
        self.assertLessEqual(min(times), SECONDS, times)

    @unittest.skipUnless(sys.platform == "linux" and os.getuid() == 0, "only root can mount a small disk")
    def test_a_full_disk_ends_the_run(self):
        save(60)
        Path("out").mkdir()
        if subprocess.run(["mount", "-t", "tmpfs", "-o", "size=400k", "tmpfs", "out"], capture_output=True).returncode:
            self.skipTest("no disk may be mounted here")
        self.addCleanup(subprocess.run, ["umount", str(self.folder / "out")])
        for jobs in (1, 3):
            status, _, error = self.finish("measure", "in", "--dark", "--jobs", jobs, "-o", "out")
            self.assertEqual((status, error.count("\n")), (3, 1), error)
            self.assertRegex(error, "cannot be written .No space left on device.|could not be written .write failed.")  # by whom the disk is filled: shapes, or the program
            self.assertIn("make room: the same command goes on where it was", error)
            self.assertFalse([name for name in contents("out") if ".making" in name or MARK in name])
        subprocess.run(["mount", "-o", "remount,size=40m", "out"], check=True)
        self.assertEqual(self.finish("measure", "in", "--dark", "-o", "out")[0], 0)
        self.assertEqual(self.finish("measure", "in", "--dark", "-o", "other")[0], 0)
        self.assertEqual(contents("out"), contents("other"))


# In a name space of processes of its own, where no process of this one is seen: as on another host.
ELSEWHERE = ["unshare", "--pid", "--fork", "--mount-proc"]


def needs_elsewhere(test):
    has = shutil.which("unshare") and not subprocess.run([*ELSEWHERE, "true"], capture_output=True).returncode
    return unittest.skipUnless(has, "no name space of processes may be made here")(test)


@needs_pillow
class TwoRuns(WithFake):
    def second_is_told(self, before):
        """The second run on a folder is told of the first, which goes on to what a run gives that is alone."""
        save(10)
        self.environment["SHAPE_GATE"] = str(self.folder / "gate")
        first = self.start("measure", "in", "--dark", "-o", "out", "--patience", 12)
        self.until(lambda: len(self.begun()) > 0)
        second = self.start("measure", "in", "--dark", "-o", "out", before=before)
        out, error = second.communicate()
        self.assertEqual((second.returncode, out), (3, ""), error)
        self.assertRegex(error, "shapes: out: another run is at work here .host .*, process [0-9]+, since .*.; wait for it, or choose another folder")
        Path("gate").touch()
        out, error = first.communicate()
        self.assertEqual((first.returncode, out[:25], error), (0, "10 of 10 measured, in out", ""))
        self.assertEqual(self.finish("measure", "in", "--dark", "-o", "other")[0], 0)
        self.assertEqual(contents("out"), contents("other"))

    def test_the_second_is_told_of_the_first_and_the_folder_is_whole(self):
        self.second_is_told([])

    @needs_elsewhere
    def test_the_same_in_two_name_spaces_of_processes(self):
        self.second_is_told(ELSEWHERE)

    @needs_elsewhere
    def test_two_shares_at_once_in_two_name_spaces_are_both_whole(self):
        save(10)
        self.environment["SHAPE_GATE"] = str(self.folder / "gate")
        runs = [self.start("measure", "in", "--dark", "--share", f"{k}/2", "-o", "out", before=before) for k, before in ((1, []), (2, ELSEWHERE))]
        self.until(lambda: len(self.begun()) > 1)
        Path("gate").touch()
        for run in runs:
            _, error = run.communicate()
            self.assertEqual((run.returncode, error), (0, ""))
        self.assertEqual(self.finish("join", "out", "in")[::2], (0, ""))
        self.assertEqual(self.finish("measure", "in", "--dark", "-o", "other")[0], 0)
        for name in ("objects.csv", "pictures.csv", "summary.txt"):
            self.assertEqual(Path("out", name).read_bytes(), Path("other", name).read_bytes(), name)
        self.assertEqual(self.finish("check", "out")[0], 0)

    def test_a_mark_of_another_host_is_taken_over_when_its_time_has_run_out(self):
        save(2)
        Path("out/evidence/.making-elsewhere-1-abc/1").mkdir(parents=True)
        Path("out/evidence/.making-elsewhere-1-abc/1/0000.png.pbm").write_bytes(b"half")
        lost = Owner("elsewhere", os.getpid(), "2026-01-01 00:00:00 UTC", 1.5, "elsewhere-1-abc-x", "another boot pid:[1]", "1")
        from dataclasses import asdict
        from shapefront.files import spelled_json

        Path("out", MARK).write_bytes(spelled_json(asdict(lost)))
        began = time.monotonic()
        status, out, error = self.finish("measure", "in", "--dark", "-o", "out")
        self.assertEqual(status, 0, error)
        self.assertGreater(time.monotonic() - began, 1.5)
        self.assertIn("out: another run has it in hand (host elsewhere, process", error)
        self.assertFalse([name for name in contents("out") if ".making" in name or MARK in name])

    def test_a_run_that_was_taken_over_writes_no_more(self):
        save(6)
        run = self.start("measure", "in", "--dark", "-o", "out", pace="0.3")
        self.until(lambda: len(self.begun()) > 2)
        Path("out", MARK).write_text("{}")
        before = len(contents("out"))
        out, error = run.communicate()
        self.assertEqual((run.returncode, out), (3, ""))
        self.assertIn("another run took this folder over", error)
        self.assertLessEqual(len(contents("out")), before)
        self.assertEqual(Path("out", MARK).read_text(), "{}")

    def test_a_mark_holds_in_one_process_too(self):
        Path("out").mkdir()
        with Hand(Path("out"), 1.0) as hand:
            self.assertTrue(hand.holds())
            with self.assertRaises(Busy):
                Hand(Path("out")).__enter__()
        self.assertFalse(Path("out", MARK).exists())
