"""Shares by Snakemake, Slurm and Dask, each where it is installed: all give the same tables, also where they are stopped or lose a worker in the middle.
With the program itself the same set of 1,500 images goes through each, and standard error has how long it took."""
import os
import shutil
import signal
import subprocess
import sys
import time
import unittest
from pathlib import Path

import numpy as np

from . import cluster
from .common import HERE, InFolder, installed, needs_pillow, needs_shape, programs, slow
from .test_stopping import WithFake, save

WORKFLOW = HERE.parent / "workflow"
TABLES = ["objects.csv", "pictures.csv", "summary.txt"]
COUNT = 1500


def tables(folder):
    return {name: Path(folder, name).read_bytes() for name in TABLES}


def lacking(folder, shares):
    """The files of verdicts that are too many, missing, not at their end, or have a `no`."""
    wanted = {*(f"{k}.txt" for k in range(1, shares + 1)), "tables.txt"}
    found = {path.name: path.read_text() for path in Path(folder).iterdir()}
    return sorted(wanted ^ set(found)) + [name for name, text in found.items() if ": no, " in text or "checked" not in text]


class Engines(WithFake):
    def setUp(self):
        super().setUp()
        self.environment["PATH"] = f"{Path(sys.executable).parent}:{self.environment['PATH']}"
        self.shapes_command = f"{sys.executable} {HERE.parent / 'shapes'}"

    def whole(self):
        """The tables that one run gives."""
        self.assertEqual(self.finish("measure", "in", "--dark", "-o", "one")[0], 0)
        return tables("one")


@slow
@needs_pillow
@unittest.skipUnless(shutil.which("snakemake"), "Snakemake is not installed")
class BySnakemake(Engines):
    def command(self):
        config = ["--config", "images=in", "out=out", "shares=6", "words=--dark", f"shapes={self.shapes_command}"]
        return ["snakemake", "-s", str(WORKFLOW / "Snakefile"), "--profile", str(WORKFLOW / "profiles/local"), "--cores", "4", "--nolock", *config]

    def test_stopped_and_begun_again(self):
        save(30)
        run = subprocess.Popen(self.command(), env={**self.environment, "SHAPE_PACE": "0.5"}, stdout=subprocess.PIPE, stderr=subprocess.STDOUT, start_new_session=True)
        self.until(lambda: len(self.begun()) > 6, 120)
        os.killpg(run.pid, signal.SIGINT)
        said, _ = run.communicate(timeout=60)
        self.assertNotEqual(run.returncode, 0, said)
        self.assertFalse(Path("out/evidence/made.json").exists())
        done = subprocess.run(self.command(), env=self.environment, capture_output=True, text=True)
        self.assertEqual(done.returncode, 0, done.stderr)
        self.assertEqual(tables("out"), self.whole())
        self.assertEqual(lacking("out.verdicts", 6), [])
        self.assertEqual(self.finish("check", "out")[0], 0)


@slow
@needs_pillow
@unittest.skipUnless(installed("distributed", "dask"), "dask.distributed is not installed")
class ByDask(Engines):
    def test_a_worker_is_killed_in_the_middle(self):
        from dask.distributed import Client, LocalCluster
        import dask

        save(24)
        os.environ["SHAPE_BIN"] = self.environment["SHAPE_BIN"]
        self.addCleanup(os.environ.pop, "SHAPE_BIN", None)
        os.environ |= {"SHAPE_PACE": "0.3", "SHAPE_BEGUN": self.environment["SHAPE_BEGUN"], "PYTHONPATH": str(HERE.parent)}
        for name in ("SHAPE_PACE", "SHAPE_BEGUN", "PYTHONPATH"):
            self.addCleanup(os.environ.pop, name, None)
        import shapefront.dask

        dask.config.set({"distributed.worker.daemon": False, "distributed.comm.timeouts.connect": "60s"})
        with LocalCluster(2, threads_per_worker=1, processes=True, dashboard_address=None) as cluster, Client(cluster) as client:
            future = client.compute(shapefront.dask.shares(["in"], "out", 6, "--dark", "--patience", "5"), retries=5)
            self.until(lambda: len(self.begun()) > 3, 120)
            os.kill(next(iter(client.run(os.getpid).values())), signal.SIGKILL)
            done = future.result(120)
        self.assertEqual([(one.share, one.failures) for one in done], [(k, ()) for k in range(1, 7)])
        self.assertEqual(sum(one.images for one in done), 24)
        self.assertEqual(shapefront.dask.join("out"), [])
        os.environ["SHAPE_PACE"] = ""
        self.assertEqual(tables("out"), self.whole())
        self.assertEqual(self.finish("check", "out")[0], 0)


@slow
@needs_pillow
@cluster.needs_slurm
class BySlurm(Engines):
    def test_arrays_in_chunks_then_join_then_check(self):
        self.environment = cluster.start(self, self.folder / "slurm", self.environment, "MaxArraySize=5")
        save(24)
        words = [str(WORKFLOW / "slurm"), str(self.folder / "out"), "6", str(self.folder / "in"), "--dark"]
        done = subprocess.run(words, env={**self.environment, "SHAPES": self.shapes_command, "LOG": str(self.folder / "log")}, capture_output=True, text=True)
        self.assertEqual(done.returncode, 0, done.stderr)
        told = done.stdout.split()
        self.assertEqual([word for word in told if not word.isdigit()], ["shares", "join", "check"])
        self.assertEqual(len(told), 3 + 2 + 1 + 3)
        self.until(lambda: not cluster.answers(["squeue", "-h"], self.environment), 240)
        self.assertEqual(tables("out"), self.whole(), Path("log").read_text())
        self.assertEqual(lacking("out.verdicts", 6), [])
        self.assertEqual(self.finish("check", "out")[0], 0)


def disc_images(count, folder):
    """Images of 64 to 300 a side with 50 bright discs on noise, every second one with a hole."""
    from PIL import Image

    folder.mkdir()
    for k in range(count):
        draw = np.random.default_rng(k)
        height, width = draw.integers(64, 301, 2)
        y, x = np.mgrid[:height, :width]
        image = draw.normal(60, 6, (height, width))
        for place in range(50):
            down, across = (place // 8 + 0.5) * height / 7, (place % 8 + 0.5) * width / 8
            far = np.hypot(y - down, x - across)
            radius = draw.uniform(0.2, 0.45) * min(height, width) / 8
            image[(far < radius) & (far >= place % 2 * radius / 3)] += 110
        Image.fromarray(np.clip(image, 0, 255).astype(np.uint8)).save(folder / f"{k:04}.png")


@slow
@needs_pillow
@needs_shape
class OneSet(InFolder):
    """One set of images by a plain run, and by each engine that is installed in eight shares: measured, joined and checked."""

    def setUp(self):
        super().setUp()
        self.shapes_command = f"{sys.executable} {HERE.parent / 'shapes'}"
        self.processors = str(len(os.sched_getaffinity(0)))
        self.environment = {**os.environ, "PATH": f"{Path(sys.executable).parent}:{os.environ['PATH']}", "SHAPE_BIN": str(programs.find().parent), "PYTHONPATH": str(HERE.parent)}

    def run_words(self, words):
        done = subprocess.run(words, env=self.environment, capture_output=True, text=True)
        self.assertEqual(done.returncode, 0, done.stderr)

    def by_snakemake(self, out):
        config = ["--config", "images=in", f"out={out}", "shares=8", "words=--light --no-draw", f"shapes={self.shapes_command}"]
        self.run_words(["snakemake", "-s", str(WORKFLOW / "Snakefile"), "--profile", str(WORKFLOW / "profiles/local"), "--cores", self.processors, "--nolock", *config])

    def by_dask(self, out):
        program = f"""
import dask, shapefront.dask
from dask.distributed import Client, LocalCluster
if __name__ == "__main__":
    dask.config.set({{"distributed.worker.daemon": False}})
    with LocalCluster({self.processors}, threads_per_worker=1, processes=True, dashboard_address=None) as cluster, Client(cluster):
        done = shapefront.dask.shares(["in"], "{out}", 8, "--light", "--no-draw").compute(retries=2)
    assert not any(share.failures for share in done) and not shapefront.dask.join("{out}")
"""
        Path("by_dask.py").write_text(program)
        self.run_words([sys.executable, "by_dask.py"])
        self.run_words([*self.shapes_command.split(), "check", out, "--jobs", self.processors])

    def by_slurm(self, out):
        environment = {**self.environment, "SHAPES": self.shapes_command}
        done = subprocess.run([str(WORKFLOW / "slurm"), str(self.folder / out), "8", "in", "--light", "--no-draw"], env=environment, capture_output=True, text=True)
        self.assertEqual(done.returncode, 0, done.stderr)
        while cluster.answers(["squeue", "-h"], self.environment):
            time.sleep(0.2)

    def timed(self, name, work):
        begun = time.monotonic()
        work(name)
        print(f"{name}: {time.monotonic() - begun:.0f} s, {len(Path(name, 'objects.csv').read_bytes().splitlines()) - 1} rows", file=sys.stderr)
        return tables(name)

    def plain(self, out):
        self.run_words([*self.shapes_command.split(), "measure", "in", "--light", "--no-draw", "--jobs", self.processors, "-o", out])
        self.run_words([*self.shapes_command.split(), "check", out, "--jobs", self.processors])

    def test_the_same_tables(self):
        disc_images(COUNT, Path("in"))
        wanted = self.timed("plain", self.plain)
        engines = {"snakemake": self.by_snakemake} if shutil.which("snakemake") else {}
        engines |= {"dask": self.by_dask} if installed("distributed", "dask") else {}
        if cluster.is_installed():
            self.environment = cluster.start(self, self.folder / "cluster", self.environment)
            engines["slurm"] = self.by_slurm
        for name, work in engines.items():
            with self.subTest(name):
                got = self.timed(name, work)
                self.assertEqual([table for table in TABLES if got[table] != wanted[table]], [])
                self.assertEqual(lacking(f"{name}.verdicts", 8) if name != "dask" else [], [])
