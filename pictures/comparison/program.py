"""The built program, and the files that it is run on."""
import os
import subprocess


class Difference(Exception):
    """The program and the second reading do not say the same."""


def file_of(picture):
    """The bytes of the file of a picture, a plain PBM, or of a volume."""
    inside = picture.framed[(slice(1, -1),) * picture.axes].ravel()
    if picture.axes == 3:
        return bytes(inside)
    return b"P1\n%d %d\n" % picture.sides + bytes(b"01"[q] for q in inside.astype(int)) + b"\n"


class Program:
    """The program, in a folder of files."""

    def __init__(self, file, folder):
        self.file, self.folder, self.source = file, folder, []

    def path(self, name):
        return os.path.join(self.folder, name)

    def write(self, name, data):
        with open(self.path(name), "wb") as out:
            out.write(data)
        return self.path(name)

    def run(self, *words):
        """What the program writes, and its status."""
        done = subprocess.run([self.file, *words], stdout=subprocess.PIPE, stderr=subprocess.PIPE, close_fds=False, check=False)
        if done.returncode not in (0, 1) or done.stderr:
            raise Difference("shape %s: status %d, %r" % (" ".join(words), done.returncode, done.stderr))
        return done.stdout, done.returncode

    def lay(self, picture):
        """Writes the file of a picture, which later calls read."""
        path = self.write("picture.pbm" if picture.axes == 2 else "picture.raw", file_of(picture))
        self.source = ["pbm", path] if picture.axes == 2 else ["raw", *map(str, picture.sides), path]

    def made(self, form, *rule):
        """The report of the picture of a form."""
        return self.run(form, *self.source, *rule)[0]

    def checked(self, form, text):
        """The number of the first bad line of a text, None where the program says yes."""
        out, status = self.run(form, *self.source, self.write("report", text))
        if (out, status) == (b"yes\n", 0):
            return None
        words = out.decode("latin-1").split(" ")
        if status != 1 or words[0] != "no" or len(words) != 2 or words[1] != "%d\n" % int(words[1]):
            raise Difference("%s: status %d, %r" % (form, status, out))
        return int(words[1])
