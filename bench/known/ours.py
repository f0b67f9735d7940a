"""What the program finds: the rows of `shape measure` of a picture or a volume, and the mask of its thickness.

A picture is an array of truth values, indexed y, x; a volume one indexed z, y, x.
"""
import csv
import io
import os
import subprocess
import tempfile

import numpy as np


class Program:
    def __init__(self, file):
        self.file = file

    def run(self, words, *options, **rest):
        return subprocess.run([self.file, *words, *options], check=True, **rest)

    def reported(self, picture, folder):
        """The file of a report of the picture."""
        path, report = os.path.join(folder, "picture"), os.path.join(folder, "report")
        source = write(picture, path)
        with open(report, "wb") as out:
            self.run(["analyse", *source, "none"], stdout=out)
        return report

    def rows(self, picture, *words):
        """The table of its objects, as dictionaries of texts."""
        with tempfile.TemporaryDirectory() as folder:
            done = self.run(["measure", *words, self.reported(picture, folder)], stdout=subprocess.PIPE, text=True)
        return list(csv.DictReader(io.StringIO(done.stdout)))

    def thicknesses(self, volume):
        """The local thickness of each voxel, in voxels, and 0 in the background."""
        with tempfile.TemporaryDirectory() as folder:
            done = self.run(["mask", "thickness", self.reported(volume, folder)], stdout=subprocess.PIPE)
        return np.frombuffer(done.stdout, "<u2").reshape(volume.shape) / 100


def write(picture, path):
    """Writes it as a file of the program, and says the words that name it there."""
    if picture.ndim == 3:
        picture.astype(np.uint8).tofile(path)
        return ["raw", *map(str, picture.shape[::-1]), path]
    with open(path, "wb") as out:
        out.write(b"P4\n%d %d\n" % picture.shape[::-1] + np.packbits(picture, axis=1).tobytes())
    return ["pbm", path]
