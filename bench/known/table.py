"""Tables of errors: a row for each group of shapes, a column for each measure by each program, in Markdown.

Of several shapes of a group a cell has the least error and the greatest.
"""
from dataclasses import dataclass
from itertools import groupby
from typing import Callable


def percent(found, true):
    return 100 * (found / true - 1)


def difference(found, true):
    return found - true


def turn(found, true):
    """Of two directions of lines, in degrees."""
    return (found - true + 90) % 180 - 90


@dataclass(frozen=True)
class Column:
    title: str
    key: str
    found: Callable
    error: Callable = percent

    def errors(self, measured):
        """The errors of the shapes of which the true measure is known and something is found."""
        pairs = ((self.found(m), m.shape.true.get(self.key)) for m in measured)
        return [self.error(found, true) for found, true in pairs if found is not None and true is not None]


def told(errors, digits):
    low, high = (f"{error:+.{digits}f}" for error in (min(errors), max(errors)))
    return low if low == high else f"{low} to {high}"


def rows(columns, measured, digits):
    """The cells of each group that has an error in some column."""
    for group, members in groupby(measured, key=lambda m: m.shape.group):
        members = list(members)
        cells = [told(errors, digits) if errors else "" for errors in (column.errors(members) for column in columns)]
        if any(cells):
            yield [group, *cells]


def show(title, head, columns, measured, digits=2):
    """Prints a table, without the columns of programs that are not there."""
    found = list(rows(columns, measured, digits))
    kept = [0, *(k for k in range(1, len(columns) + 1) if any(row[k] for row in found))]
    print(f"\n{title}\n")
    for row in [[head, *(column.title for column in columns)], ["---"] * (len(columns) + 1), *found]:
        print("| " + " | ".join(row[k] for k in kept) + " |")
