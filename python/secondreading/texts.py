"""The text of a report, read line by line: words, numbers and the other fields, and the number of the first bad line.

What the lines of a kind of report claim stands in the module of the kind. A form says of a line its first word and its fields.
"""
import re

LINE_BYTES = 1024
NUMBER = "0|-?[1-9][0-9]*"


class Bad(Exception):
    """The line that was taken last is no good line."""


def need(holds):
    if not holds:
        raise Bad


# ---- fields: the words that each takes, and what they mean


def number(least, most):
    """A field that is a number from the least to the greatest."""

    def read(word):
        value = int(word)
        need(least <= value <= most)
        return value

    return NUMBER, read


def word(*choices):
    """A field that is one of these words."""
    return "|".join(map(re.escape, choices)), bytes.decode


def letter(choices):
    """A field that is one of these letters; its value is their place."""
    return "|".join(choices), choices.encode().index


COUNT = number(0, 2**32 - 1)
WEIGHT = number(0, 2**63 - 1)
LONG = number(-(2**63), 2**63 - 1)
SIDE = number(0, 3)
LENGTH = number(1, 2**32 - 1)
COORDINATE = number(-(2**31), 2**31 - 1)


class Form:
    """A form of lines: a first word, fields, and perhaps weights behind them."""

    def __init__(self, first, *fields, weights_of=0):
        self.first, self.reads, self.axes = first, [read for _, read in fields], weights_of
        rest = "(?: (.+))" if weights_of else ""
        self.pattern = re.compile("".join([first] + [" (%s)" % pattern for pattern, _ in fields] + [rest]).encode("ascii"), re.DOTALL)

    def read(self, words):
        """The values of the fields, of their words; the last one is the weights."""
        values = [read(word) for read, word in zip(self.reads, words)]
        return values + [weights(words[-1], self.axes)] if self.axes else values


ENTRY_NAMES = [word("up", *("up" + sign + axis for axis in "xyz"[:axes] for sign in "+-")) for axes in range(4)]


def weights(text, axes):
    """The low, the high and the step entries of weights: at most four of each, each a weight and a place, or a weight and the word of a step."""
    words = iter(text.split(b" "))
    lists = [entries(words, name) for name in (COUNT, COUNT, ENTRY_NAMES[axes])]
    need(next(words, None) is None)
    return lists


def entries(words, name):
    many = field(words, number(0, 4))
    return [(field(words, WEIGHT), field(words, name)) for _ in range(many)]


def field(words, kind):
    """The value of the next word, which is a field of this kind."""
    given = next(words, b"")
    pattern, read = kind
    need(re.fullmatch(pattern.encode(), given))
    return read(given)


# ---- lines


class Lines:
    """The lines of a text, taken one after another; `count` says how many were taken, or wanted where there was none."""

    def __init__(self, text):
        self.text, self.place, self.count = text, 0, 0

    def next(self):
        """Where the next line begins and ends."""
        self.count += 1
        begin = self.place
        end = self.text.find(b"\n", begin)
        need(begin <= end <= begin + LINE_BYTES)
        self.place = end + 1
        return begin, end

    def line(self, form):
        """The values of the fields of the next line, which has this form."""
        match = form.pattern.fullmatch(self.text, *self.next())
        need(match)
        return form.read(match.groups())

    def either(self, one, other):
        """The form of the next line, which is one of two, and the values of its fields."""
        begin, end = self.next()
        for form in (one, other):
            match = form.pattern.fullmatch(self.text, begin, end)
            if match:
                return form, form.read(match.groups())
        raise Bad

    def exactly(self, wanted):
        """The next line is this one."""
        begin, end = self.next()
        need(self.text[begin:end] == wanted)

    def finish(self):
        """Nothing may be left."""
        self.count += 1
        need(self.place == len(self.text))


def first_bad(read, picture, text):
    """The number of the first bad line of a text, None where the report holds of the picture, and then what was read of it."""
    lines = Lines(text)
    try:
        told = read(picture, lines)
        lines.finish()
    except Bad:
        return lines.count, None
    return None, told
