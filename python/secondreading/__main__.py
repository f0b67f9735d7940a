"""Checks reports by the second reading alone: python3 -m secondreading PICTURE REPORT..

PICTURE is a PBM, or a volume whose name ends in .XxYxZ.raw with its sides; a REPORT may be gzipped. Of each report one line: yes, or no and the number of its
first bad line. Status 0 where all hold, 1 where one does not, 2 where the words are no command, 3 where a file cannot be read or is no picture.
"""
import gzip
import re
import sys

from secondreading.files import NoPicture, picture_in
from secondreading.kinds import first_bad_line


def bytes_of(name):
    with open(name, "rb") as file:
        data = file.read()
    return gzip.decompress(data) if data[:2] == b"\x1f\x8b" else data


def main(words):
    if len(words) < 2:
        sys.stderr.write(__doc__)
        return 2
    try:
        sides = re.search(r"\.(\d+)x(\d+)x(\d+)\.raw$", words[0])
        picture = picture_in(bytes_of(words[0]), tuple(map(int, sides.groups())) if sides else ())
        bad = [first_bad_line(picture, bytes_of(report)) for report in words[1:]]
    except (OSError, EOFError, NoPicture) as fault:
        sys.stderr.write("secondreading: %s\n" % fault)
        return 3
    for line in bad:
        print("yes" if line is None else "no %d" % line)
    return 0 if bad == [None] * len(bad) else 1


if __name__ == "__main__":
    sys.exit(main(sys.argv[1:]))
