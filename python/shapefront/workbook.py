"""The tables of a run as one workbook, `objects.xlsx`: a sheet for each table, and numbers as numbers.

It is written here, by the few parts of Office Open XML that a workbook of plain cells needs; a package for all of them takes longer than a run.
"""
from __future__ import annotations

import io
import re
import zipfile
from functools import lru_cache
from html import escape
from pathlib import Path

from .files import sum_of_bytes
from .tables import Row, rows_of, text_of

# With more cells in all than these a workbook takes longer to open than anybody waits.
MOST_CELLS = 500_000

_DIGITS = r"-?(?:0|[1-9][0-9]*)(?:\.[0-9]+)?(?:[eE][-+]?[0-9]+)?"
_NUMBER, _NUMBERS = re.compile(_DIGITS), re.compile(f"{_DIGITS}(?:,{_DIGITS})*")
# What no text of XML may hold.
_NO_TEXT = re.compile("[\x00-\x08\x0b\x0c\x0e-\x1f\ud800-\udfff\ufffe\uffff]")
_HEAD = '<?xml version="1.0" encoding="UTF-8" standalone="yes"?>\n'
_TYPE, _OF = "application/vnd.openxmlformats", "http://schemas.openxmlformats.org"
_MAIN, _RELATION = f"{_OF}/spreadsheetml/2006/main", f"{_OF}/officeDocument/2006/relationships"


@lru_cache
def workbook_version() -> str:
    """The sum of what makes a workbook of tables."""
    return sum_of_bytes(Path(__file__).read_bytes())


def workbook(tables: dict[str, bytes]) -> bytes | None:
    """The workbook of these tables, by the names of their files: the same bytes for the same tables. None where it would have too many cells."""
    sheets = {name.removesuffix(".csv"): rows_of(text_of(data)) for name, data in tables.items()}
    if sum(len(rows) * len(rows[0]) for rows in sheets.values() if rows) > MOST_CELLS:
        return None
    names = sorted(sheets, key=lambda name: (name != "objects", name))
    out = io.BytesIO()
    with zipfile.ZipFile(out, "w") as book:
        for name, text in {**_parts_of(names), **{_place(k): _sheet(sheets[name]) for k, name in enumerate(names, 1)}}.items():
            book.writestr(zipfile.ZipInfo(name), _HEAD + text, zipfile.ZIP_DEFLATED, 1)
    return out.getvalue()


def _place(k: int) -> str:
    return f"xl/worksheets/sheet{k}.xml"


def _parts_of(names: list[str]) -> dict[str, str]:
    """The parts of a workbook but for its sheets, which have these names: what kinds its parts are of, and where each lies."""
    count = range(1, len(names) + 1)
    kinds = "".join(f'<Override PartName="/{_place(k)}" ContentType="{_TYPE}-officedocument.spreadsheetml.worksheet+xml"/>' for k in count)
    sheets = "".join(f'<sheet name="{escape(name)}" sheetId="{k}" r:id="rId{k}"/>' for k, name in enumerate(names, 1))
    places = "".join(f'<Relationship Id="rId{k}" Type="{_RELATION}/worksheet" Target="worksheets/sheet{k}.xml"/>' for k in count)
    return {
        "[Content_Types].xml": f'<Types xmlns="{_OF}/package/2006/content-types">'
        f'<Default Extension="rels" ContentType="{_TYPE}-package.relationships+xml"/><Default Extension="xml" ContentType="application/xml"/>'
        f'<Override PartName="/xl/workbook.xml" ContentType="{_TYPE}-officedocument.spreadsheetml.sheet.main+xml"/>{kinds}</Types>',
        "_rels/.rels": f'<Relationships xmlns="{_OF}/package/2006/relationships"><Relationship Id="rId1" Type="{_RELATION}/officeDocument" '
        'Target="xl/workbook.xml"/></Relationships>',
        "xl/workbook.xml": f'<workbook xmlns="{_MAIN}" xmlns:r="{_RELATION}"><bookViews><workbookView/></bookViews><sheets>{sheets}</sheets></workbook>',
        "xl/_rels/workbook.xml.rels": f'<Relationships xmlns="{_OF}/package/2006/relationships">{places}</Relationships>',
    }


def _sheet(rows: list[Row]) -> str:
    """The sheet of a table, whose first row and first column stay in sight."""
    pane = '<pane xSplit="1" ySplit="1" topLeftCell="B2" activePane="bottomRight" state="frozen"/>'
    texts = {k for k, name in enumerate(rows[0] if rows else []) if name == "image"}
    lines = "".join(f"<row>{_cells(row, texts)}</row>" for row in rows)
    return f'<worksheet xmlns="{_MAIN}"><sheetViews><sheetView workbookViewId="0">{pane}</sheetView></sheetViews><sheetData>{lines}</sheetData></worksheet>'


def _cells(row: Row, texts: set[int]) -> str:
    """The cells of a row: numbers, and texts, as those in these columns are; so a name that begins with `=` is no formula, and 007 stays a name."""
    if texts == {0} and _NUMBERS.fullmatch(",".join(row[1:])):
        return _text(row[0]) + "<c><v>" + "</v></c><c><v>".join(row[1:]) + "</v></c>"
    return "".join(f"<c><v>{word}</v></c>" if k not in texts and _NUMBER.fullmatch(word) else _text(word) for k, word in enumerate(row))


@lru_cache
def _text(word: str) -> str:
    return f'<c t="inlineStr"><is><t xml:space="preserve">{escape(_NO_TEXT.sub("?", word))}</t></is></c>' if word else "<c/>"


def is_same(one: bytes, other: bytes) -> bool:
    """Whether two workbooks have the same parts, packed in whatever way."""
    try:
        return _parts(one) == _parts(other)
    except Exception:  # noqa: BLE001  zipfile raises errors of many kinds on files that were changed
        return False


def _parts(book: bytes) -> dict[str, bytes]:
    with zipfile.ZipFile(io.BytesIO(book)) as archive:
        return {name: archive.read(name) for name in archive.namelist()}
