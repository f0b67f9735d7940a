"""The kinds of reports, by the word that each begins with, and the answer on a report of a picture."""
from secondreading import analysis, balls, edges, pieces
from secondreading.texts import first_bad

readings = {"shape": analysis, "edges": edges, "pieces": pieces, "balls": balls}


def first_bad_line(picture, text):
    """The number of the first bad line of the text of a report, and None where it holds of the picture.

    A text that begins with no word of a kind is read as an analysis.
    """
    return read(picture, text)[0]


def read(picture, text):
    """The same, and what was read of a report that holds."""
    word = text[:200].split(b"\n", 1)[0].split(b" ")[0].decode("latin-1")
    if word in ("edges", "pieces") and picture.axes == 3:
        return 1, None
    return first_bad(readings.get(word, analysis).read, picture, text)
