"""A report's text as lines of known kinds, whose numbers are read by whole blocks.

A report of a million points has some three million lines. So no line becomes an object of its own: the text is one array of
bytes, a line is the place where it begins, and the numbers of all lines of a kind are read at once.
"""
from __future__ import annotations

from dataclasses import dataclass

import numpy as np

from .faults import Fault

REMEDY = "`shapes check` tells whether a report holds, and why not"

# Words become blanks. Before that the names of axes, which stand between blanks, become 0, 1 and 2, and signs that stand alone 1 and -1.
_LETTERS = bytes.maketrans(b"abcdefghijklmnopqrstuvwxyz", b" " * 26)
_AXES_AND_SIGNS = ((b" x ", b" 0 "), (b" y ", b" 1 "), (b" z ", b" 2 "), (b"- ", b"-1 "), (b"+", b"1"))


def _code(word: str) -> int:
    """The first three bytes of a line that begins with the word, as one number."""
    return int.from_bytes((word + " ").encode()[:3], "little")


@dataclass(frozen=True)
class Lines:
    """The lines of a text: where each begins and, behind the last one, where the text ends; and each line's kind."""

    name: str
    data: np.ndarray
    starts: np.ndarray
    codes: np.ndarray

    @classmethod
    def of(cls, text: bytes, name: str) -> Lines:
        """The lines of a text. A Fault where the last one has no end."""
        data = np.frombuffer(text, np.uint8)
        ends = np.flatnonzero(data == ord("\n"))
        if not ends.size or ends[-1] != data.size - 1:
            raise Fault(name, "not a whole report: its last line has no end", "was it cut on the way?")
        starts = np.concatenate([[0], ends + 1])
        # the text as numbers of four bytes, one for each place where four begin
        fours: np.ndarray = np.ndarray((data.size + 1,), "<u4", text + bytes(4), 0, (1,))
        return cls(name, data, starts, fours[starts[:-1]] & 0xFFFFFF)

    def __len__(self) -> int:
        return len(self.codes)

    def words(self, line: int) -> list[str]:
        """The words of one line, counted from 0."""
        return self.data[self.starts[line] : self.starts[line + 1] - 1].tobytes().decode("ascii", "replace").split(" ")

    def only(self, words: tuple[str, ...]) -> None:
        """A Fault where a line, from the second on, begins with none of these words."""
        known = np.isin(self.codes[1:], [_code(word) for word in words])
        if not known.all():
            line = int(np.argmin(known)) + 2
            raise Fault(self.name, f"line {line} is no line of such a report", REMEDY)

    def where(self, word: str) -> np.ndarray:
        """Which lines begin with the word, from the second line on; the first is the heading."""
        return np.flatnonzero(self.codes[1:] == _code(word)) + 1

    def begin(self, lines: np.ndarray, word: str) -> np.ndarray:
        """Whether each of these lines begins with the word."""
        begun: np.ndarray = self.codes[lines] == _code(word)
        return begun

    def where_any(self, *words: str) -> np.ndarray:
        """Which lines begin with one of the words, in order; not the first one."""
        found = self.codes[1:] == _code(words[0])
        for word in words[1:]:
            found |= self.codes[1:] == _code(word)
        return np.flatnonzero(found) + 1

    def numbers(self, word: str, fields: int) -> np.ndarray:
        """The numbers of all lines that begin with the word: a row for each, with so many numbers; axes are 0, 1 and 2."""
        return self.numbers_at(self.where(word), fields)

    def numbers_at(self, lines: np.ndarray, fields: int) -> np.ndarray:
        """The numbers of these lines. A Fault where a line has not so many."""
        block = self._block(lines)
        blanks = np.flatnonzero(block == ord(" "))
        if blanks.size == lines.size * fields:
            ends = np.cumsum(self.starts[lines + 1] - self.starts[lines])
            rows = blanks.reshape(lines.size, fields)
            if (rows[:, -1] < ends).all() and (rows[1:, 0] >= ends[:-1]).all():
                values = _parsed(block.tobytes())
                if values.size == lines.size * fields:
                    return values.reshape(lines.size, fields)
        raise Fault(self.name, f"a line `{self.words(int(lines[0]))[0]}` has not {fields} numbers", REMEDY)

    def _block(self, lines: np.ndarray) -> np.ndarray:
        """The bytes of these lines, in order; the lines grow."""
        if not lines.size:
            return self.data[:0]
        first, last = int(lines[0]), int(lines[-1])
        span = self.data[self.starts[first] : self.starts[last + 1]]
        if lines.size == last - first + 1:
            return span
        taken = np.zeros(last - first + 1, bool)
        taken[lines - first] = True
        own: np.ndarray = span[np.repeat(taken, np.diff(self.starts[first : last + 2]))]
        return own


def _parsed(block: bytes) -> np.ndarray:
    """All numbers of a block; fewer where something in it is no number."""
    for word, number in _AXES_AND_SIGNS:
        if word in block:
            block = block.replace(word, number)
    return np.fromstring(block.translate(_LETTERS), np.int64, sep=" ")
