"""What ImageJ finds of pictures: one run of its macro language for all of them, without a window.

It is left out where Debian's `imagej` is not installed. What is measured is a selection, which the wand takes at the first object pixel: holes are filled in it.
"""
import os
import subprocess
import tempfile

import numpy as np

# What a selection says of an object with a hole, too.
OUTER = ("Perim.", "Feret", "MinFeret")
JAR = "/usr/share/java/ij.jar"
IS_THERE = os.path.exists(JAR)
NAMES = ("Area", "Perim.", "Circ.", "Feret", "MinFeret", "Major", "Minor", "Angle", "Solidity", "AR", "Round", "X", "Y")
MACRO = """
print(getVersion());
names = newArray(%s);
pictures = split(File.openAsString("%s"), "\\n");
for (k = 0; k < pictures.length; k++) {
    runs = split(pictures[k], ";");
    head = split(runs[0], " ");
    newImage("picture", "8-bit black", head[0], head[1], 1);
    setColor(255);
    for (i = 1; i < runs.length; i++) {
        r = split(runs[i], " ");
        fillRect(r[0], r[1], r[2], 1);
    }
    first = split(runs[1], " ");
    doWand(first[0], first[1], 0, "8-connected");
    line = "";
    for (i = 0; i < names.length; i++) line = line + d2s(getValue(names[i]), 9) + " ";
    print(line);
    close();
}
"""


def runs(picture):
    """A line of text: the sides, and each run of object pixels by its first pixel and its length."""
    y, x = np.nonzero(np.diff(picture.astype(np.int8), axis=1, prepend=0, append=0))
    pairs = zip(x[::2], y[::2], x[1::2] - x[::2])
    return ";".join(["%d %d" % picture.shape[::-1], *("%d %d %d" % pair for pair in pairs)])


def found(pictures):
    """For each picture, of one object each, ImageJ's measures by their names; None where there is no ImageJ."""
    if not IS_THERE:
        return [None] * len(pictures)
    with tempfile.TemporaryDirectory() as folder:
        texts, macro = os.path.join(folder, "pictures"), os.path.join(folder, "measure.ijm")
        with open(texts, "w") as out:
            out.write("\n".join(map(runs, pictures)))
        with open(macro, "w") as out:
            out.write(MACRO % (", ".join(f'"{name}"' for name in NAMES), texts))
        done = subprocess.run(["java", "-Djava.awt.headless=true", "-jar", JAR, "-batch", macro], stdout=subprocess.PIPE, text=True, check=True)
    version, *lines = filter(str.strip, done.stdout.splitlines())
    rows = [dict(zip(NAMES, map(float, line.split()))) for line in lines]
    if len(rows) != len(pictures):
        raise RuntimeError("ImageJ measured %d of %d pictures" % (len(rows), len(pictures)))
    # Its angles go against the clock.
    return [{**row, "angle": -row["Angle"], "version": version} for row in rows]
