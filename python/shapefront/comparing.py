"""Where a file differs from what it has to be, in words: tables row by row, texts line by line, records member by member."""
from __future__ import annotations

import csv
from typing import Any

from .tables import Row, rows_of, text_of

# The columns that tell whose a row is; and those of which a picture's record knows, and no report.
_NAMING = ("image", "label", "object", "branch")
_RECORDED = ("image", "label", "fit", "threshold")


def of_tables(found: bytes, wanted: bytes) -> str:
    """Where a table first differs from the one that its report gives; the two are not the same."""
    try:
        names, *rows = rows_of(text_of(found))
        true_names, *true = rows_of(text_of(wanted))
    except (ValueError, csv.Error):
        return "it is no table any more"
    if names != true_names:
        return _of_names(names, true_names)
    k = next((k for k, (one, other) in enumerate(zip(rows, true)) if one != other), min(len(rows), len(true)))
    if k == len(rows) == len(true):
        return "its rows are right, but it is spelled in another way: line ends or quotes were changed"
    return _of_rows(names, rows, true, k)


def _text(data: bytes) -> str:
    return data.decode("utf-8", "surrogateescape")


def _of_names(names: Row, true: Row) -> str:
    """How the names of the columns differ."""
    if len(names) == len(true):
        k = next(k for k, (one, other) in enumerate(zip(names, true)) if one != other)
        return f"column {k + 1} is called `{_short(names[k])}`, and has to be `{true[k]}`"
    missing = [f"`{name}` is missing" for name in true if name not in names]
    more = [f"`{_short(name)}` is one that nothing gives" for name in names if name not in true]
    return "of its columns " + (", ".join(missing + more) or "one stands twice")


def _of_rows(names: Row, rows: list[Row], true: list[Row], k: int) -> str:
    """How two tables differ from row k on, where they first do; there rows are counted from 1, without the header."""
    lacks, has_more = len(rows) < len(true), len(rows) > len(true)
    if k == len(rows) or lacks and rows[k] in true[k + 1 :]:
        return f"row {k + 1}{_whose(names, true[k])} is missing"
    if k == len(true) or has_more and true[k] in rows[k + 1 :]:
        return f"row {k + 1}{_whose(names, rows[k])} is one that nothing gives"
    if rows[k] in true:
        return f"row {k + 1}{_whose(names, rows[k])} stands in the place of another: it is row {true.index(rows[k]) + 1}"
    if len(rows[k]) != len(true[k]):
        return f"row {k + 1}{_whose(names, true[k])} has {len(rows[k])} cells in place of {len(true[k])}"
    column = next(column for column, (one, other) in enumerate(zip(rows[k], true[k])) if one != other)
    giver = "record" if names[column] in _RECORDED else "table of intensities" if names[column].startswith("intensity_") else "report"
    told = f"{names[column]} {_short(rows[k][column]) or 'nothing'}; the {giver} gives {true[k][column] or 'nothing'}"
    return f"row {k + 1}{_whose(names, true[k])}: {told}"


def _whose(names: Row, row: Row) -> str:
    """In brackets whose row it is, as its first columns tell."""
    told = ", ".join(f"{name} {_short(value)}" for name, value in zip(names, row) if name in _NAMING)
    return f" ({told})" if told else ""


def of_texts(found: bytes, wanted: bytes) -> str:
    """The first line of a text that is not the one it has to be."""
    lines, true = found.split(b"\n"), wanted.split(b"\n")
    k = next((k for k, (one, other) in enumerate(zip(lines, true)) if one != other), min(len(lines), len(true)))
    says = f"it says `{_short(_text(lines[k]))}`" if k < len(lines) and lines[k:] != [b""] else "it ends there"
    gives = f"the records give `{_short(_text(true[k]))}`" if k < len(true) and true[k:] != [b""] else "the records give no more"
    return f"line {k + 1}: {says}; {gives}"


def of_members(found: Any, wanted: Any, at: str = "") -> str | None:
    """The first member of a record that is not what it has to be; None where all are."""
    if isinstance(found, dict) and isinstance(wanted, dict):
        for name in [*wanted, *(name for name in found if name not in wanted)]:
            inside = f"{at}, {name}" if at else str(name)
            if name not in found or name not in wanted:
                return f"{inside}: " + ("this is missing" if name not in found else "nothing gives this")
            if told := of_members(found[name], wanted[name], inside):
                return told
        return None
    if isinstance(found, list) and isinstance(wanted, list) and len(found) == len(wanted):
        each = (of_members(one, other, f"{at} {k}") for k, (one, other) in enumerate(zip(found, wanted), 1))
        return next(filter(None, each), None)
    if type(found) is type(wanted) and found == wanted:
        return None
    return f"{at}: it says {_short(repr(found))}; the reports and tables give {_short(repr(wanted))}"


def _short(text: str) -> str:
    text = text.replace("\n", "\\n").replace("\r", "\\r")
    return text if len(text) <= 100 else text[:97] + "..."
