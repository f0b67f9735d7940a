"""Changed reports of every kind: each way takes the lines of a report and the place of one, and gives the bytes of another text.

A way gives nothing where the line does not lend itself. Whether a changed report still holds is not decided here: the readings of the reports do.
"""
import re

from comparison.blocks import block_end, exchanged_blocks, grown, pruned, without_counted, without_least
from comparison.weakened import other_evidence

NUMBERS = (0, 1, 2, 3, 2**31 - 1, 2**31, 2**32 - 1, 2**32, 2**63 - 1, 2**63, 2**64, -1, -(2**31), -(2**31) - 1, -(2**63), -(2**63) - 1)
WORDS = (
    ("x", "y", "z", "w"), ("+", "-", "*"), ("up", "up+x", "up-x", "up+y", "up-y", "up+z", "up-z", "down"), ("pbm", "raw", "pgm"),
    ("none", "curve", "few", "nones", "cur", "many"), ("del", "tip"), ("turn", "cut"), ("bend", "fold"), ("seg", "piece"), ("at", "on"), ("parts", "kept"),
)
LINE_BYTES = 1024


class Forging:
    """What a change is made of: the random numbers, the picture, the lines of the report, those of others of the picture, and a place."""

    def __init__(self, draw, picture, lines, others, place):
        self.draw, self.picture, self.lines, self.others, self.place = draw, picture, list(lines), others, place

    @property
    def line(self):
        return self.lines[self.place]

    def text(self):
        return text_of(self.lines)

    def span(self):
        """Where the bytes of the line begin, and where its LF stands."""
        begin = len(text_of(self.lines[: self.place]))
        return begin, begin + len(self.line)

    def with_line(self, *lines):
        """The text with these lines in the place of the line."""
        self.lines[self.place : self.place + 1] = lines
        return self.text()


def text_of(lines):
    return "".join(line + "\n" for line in lines).encode("latin-1")


# ---- fields


def field(forging):
    """One word another one: a number that is close or at the end of a range, or another word of its kind."""
    draw, words = forging.draw, forging.line.split(" ")
    k = draw.randrange(len(words))
    if re.fullmatch("-?[0-9]+", words[k]):
        number = int(words[k])
        words[k] = str(draw.choice((number - 1, number + 1, number - 1, number + 1, -number, draw.choice(NUMBERS))))
    else:
        words[k] = draw.choice([word for kind in WORDS if words[k] in kind for word in kind] or ["end", "near", words[k] + "s"])
    return forging.with_line(" ".join(words))


def word_count(forging):
    """A word dropped, doubled or added."""
    draw, words = forging.draw, forging.line.split(" ")
    k = draw.randrange(len(words))
    words[k : k + 1] = draw.choice(([], [words[k], words[k]], [words[k], "0"], [words[k], "up"]))
    return forging.with_line(" ".join(words))


def spelling(forging):
    """The same words spelled in another way."""
    draw, line = forging.draw, forging.line
    words = line.split(" ")
    k = draw.randrange(len(words))
    word = words[k]
    words[k] = draw.choice((
        "0" + word, "+" + word, "-" + word, word + ".", word + ".0", word.upper(), word + " ", " " + word, word + "\t", word + "\r", word + "\0", "0x" + word, word + "\xa0",
    ))
    return forging.with_line(" ".join(words))


def evidence(forging):
    """Other evidence: weaker, as weak, or right as well."""
    line = other_evidence(forging.draw, forging.picture, forging.lines, forging.place)
    return None if line is None else forging.with_line(line)


# ---- lines


def dropped(forging):
    return forging.with_line()


def doubled(forging):
    return forging.with_line(forging.line, forging.line)


def exchanged(forging):
    """The line and the next one exchanged."""
    if forging.place + 1 == len(forging.lines):
        return None
    return forging.with_line(forging.lines.pop(forging.place + 1), forging.line)


def moved(forging):
    """The line at another place."""
    line = forging.lines.pop(forging.place)
    forging.lines.insert(forging.draw.randint(0, len(forging.lines)), line)
    return forging.text()


def foreign(forging):
    """A line of the same first word, of this or of another report of the picture."""
    first = forging.line.split(" ")[0]
    lines = [line for lines in [forging.lines] + forging.others for line in lines if line.split(" ")[0] == first]
    return forging.with_line(forging.draw.choice(lines))


def stranger(forging):
    """Any line of another report of the picture."""
    return forging.with_line(forging.draw.choice([line for lines in forging.others for line in lines])) if forging.others else None


# ---- sections


def sections(forging):
    """The section of the line and the next one exchanged."""
    lines = exchanged_blocks(forging.lines, forging.place)
    return None if lines is None else text_of(lines)


def section_dropped(forging):
    del forging.lines[forging.place : block_end(forging.lines, forging.place)]
    return forging.text()


def consistent(forging):
    """A section left out, and the number before it that counts it made smaller: what is left fits together."""
    lines = pruned(forging.lines, forging.place)
    return None if lines is None else text_of(lines)


def added(forging):
    """A segment or an arc put in beside one that holds it, with the number before it that counts them made greater; in half the cases without `least` lines."""
    lines, draw = forging.lines, forging.draw
    if not forging.line.startswith(("seg ", "arc ")):
        return None
    if draw.random() < 0.5:
        lines, forging.place = without_least(lines, forging.place)
    return text_of(grown(draw, lines, forging.place))


def emptied(forging):
    """What a line counts left out as a whole, and the number 0 in its place."""
    lines = without_counted(forging.lines, forging.place)
    return None if lines is None else text_of(lines)


def heading(forging):
    """The heading with its sides turned over, of another report, or of a report without `least` lines, with them or without."""
    words, lines, draw = forging.line.split(" "), forging.lines, forging.draw
    if forging.place > 0:
        return None
    way = draw.randrange(4)
    if way == 0:
        k = 3 if words[2].isalpha() else 2
        axes = forging.picture.axes
        return forging.with_line(" ".join(words[:k] + words[k : k + axes][::-1] + words[k + axes :]))
    if way == 1:
        return forging.with_line(draw.choice(forging.others)[0])
    if words[:2] != ["shape", "2"]:
        return forging.with_line(" ".join([words[0], str(int(words[1]) + draw.choice((-1, 1)))] + words[2:]))
    if way == 2:
        return forging.with_line(" ".join(["shape", "1"] + words[2:]))
    return text_of(without_least(lines, 0)[0])


# ---- bytes


def byte(forging):
    """A byte of the line, or its LF, another one, left out or put in."""
    draw, text = forging.draw, bytearray(forging.text())
    begin, end = forging.span()
    k = draw.randint(begin, end)
    new = draw.choice(b"0123456789 -+xyzup\n\r\t\0\xff")
    way = draw.randrange(4)
    if way <= 1:
        text[k] = new
    elif way == 2:
        del text[k]
    else:
        text.insert(k, new)
    return bytes(text)


def bit(forging):
    """A bit of the line another one."""
    text = bytearray(forging.text())
    text[forging.draw.randint(*forging.span())] ^= 1 << forging.draw.randrange(8)
    return bytes(text)


def cut(forging):
    """The text ends in this line, or right before or behind it."""
    begin, end = forging.span()
    return forging.text()[: forging.draw.choice((begin, end, end + 1, forging.draw.randint(begin, end)))]


def longer(forging):
    """The line made as long as a line may be, or longer."""
    draw, line = forging.draw, forging.line
    size = draw.choice((LINE_BYTES, LINE_BYTES + 1, 2 * LINE_BYTES, 5000))
    rest = size - len(line)
    return forging.with_line(draw.choice((line + " " * rest, line + "0" * rest, " " * rest + line, line + " 0" * (rest // 2), line + "x" * rest)))


def behind(forging):
    """More bytes behind the last line."""
    if forging.place + 1 < len(forging.lines):
        return None
    text = forging.text()
    return text + forging.draw.choice((b"\n", b"end\n", b" ", b"\0", text, b"x" * 2000, b"near 0 0 0 1 1\n"))


# Each way, and how often it comes beside the others.
WAYS = {
    field: 4, word_count: 1, spelling: 1, evidence: 20, dropped: 1, doubled: 1, exchanged: 1, moved: 1, foreign: 3, stranger: 1, sections: 1, section_dropped: 1,
    consistent: 4, added: 10, emptied: 3, heading: 10, byte: 2, bit: 1, cut: 1, longer: 1, behind: 2,
}
