"""Tables in workbooks (.xlsx)."""

from __future__ import annotations

import io
import warnings
import zipfile
import zlib
from collections.abc import Iterator
from dataclasses import dataclass
from typing import Any

from .. import messages
from ..errors import NotStarted
from ..model import Compound, Result, Status
from . import columns
from .decode import KINDS
from .table import Reading, Row, Table, Value, is_blank, padded, text_of

OLD = KINDS[1]
# What reading a broken workbook ends with: the archive, its parts, their XML and the values in them are read by different libraries.
BROKEN = (zipfile.BadZipFile, zlib.error, OSError, EOFError, RuntimeError, SyntaxError, LookupError, ValueError, TypeError, AttributeError)


@dataclass(frozen=True)
class Formula:
    """A formula that no value is stored for."""

    text: str


@dataclass(frozen=True)
class Fault:
    """What a cell shows in the place of a value, as #REF!"""

    text: str


Cell = Value | Formula | Fault


def openpyxl() -> Any:
    """The module openpyxl, or the end."""
    try:
        import openpyxl as module
    except ImportError:
        raise NotStarted(messages.no_openpyxl()) from None
    return module


def _open(data: bytes, source: str, values: bool) -> Any:
    """The workbook of the bytes, with the values that are stored or with the formulas."""
    if not data:
        raise NotStarted(messages.empty_file(source=source))
    if data.startswith(OLD[0]):
        raise NotStarted(messages.old_workbook(source=source))
    module = openpyxl()
    try:
        with warnings.catch_warnings():
            warnings.simplefilter("ignore")
            return module.load_workbook(io.BytesIO(data), read_only=True, data_only=values, keep_links=False)
    except BROKEN as error:
        raise NotStarted(messages.no_workbook(source=source, error=str(error).strip("'\""))) from None


def _cells(sheet: Any) -> Iterator[tuple[Any, ...]]:
    """The rows of a sheet, whatever it says about its own size."""
    sheet.reset_dimensions()
    yield from sheet.iter_rows()


def _value(stored: Any, formula: Any) -> Cell:
    """What a cell holds; a formula's text is known from the second reading."""
    if getattr(formula, "data_type", None) == "f" and stored.value is None:
        return Formula(text_of(formula.value) if isinstance(formula.value, str) else "=")
    if stored.data_type == "e":
        return Fault(str(stored.value))
    value: Value = stored.value
    return value


def _rows(stored: Any, formulas: Any) -> list[tuple[Cell, ...]]:
    """All rows of a sheet without the empty ones at the end."""
    rows: list[tuple[Cell, ...]] = []
    filled = 0
    for one, other in zip(_cells(stored), _cells(formulas)):
        row = tuple(_value(a, b) for a, b in zip(one, other))
        rows.append(row)
        if not is_blank(tuple(_kept(cell) for cell in row)):
            filled = len(rows)
    return rows[:filled]


def _kept(cell: Cell) -> Value:
    """What is written again of a cell."""
    return cell.text if isinstance(cell, (Formula, Fault)) else cell


def _header(rows: list[tuple[Cell, ...]], column: str | None) -> int | None:
    return columns.find_header(([_kept(cell) for cell in row] for row in rows), column)


def _first_rows(sheet: Any) -> list[tuple[Cell, ...]]:
    """As many rows as a header is looked for in."""
    return [tuple(_value(cell, cell) for cell in row) for row, _ in zip(_cells(sheet), range(columns.HEADER_ROWS))]


def _asked(book: Any, source: str, wanted: str) -> str:
    """The sheet that the user names, hidden or not."""
    names = [str(sheet.title) for sheet in book.worksheets]
    exact = [name for name in names if name.strip() == wanted.strip()]
    for name in exact or names:
        if name.strip().casefold() == wanted.strip().casefold():
            return name
    shown = [sheet.title for sheet in book.worksheets if sheet.sheet_state == "visible"]
    raise NotStarted(messages.no_sheet(source=source, wanted=wanted, sheets=shown))


def _chosen(book: Any, source: str, reading: Reading) -> str:
    """The sheet to read: the one that is asked for, or the one visible sheet that has such a column."""
    if reading.sheet is not None:
        return _asked(book, source, reading.sheet)
    shown = [sheet for sheet in book.worksheets if sheet.sheet_state == "visible"]
    if not shown:
        raise NotStarted(messages.only_hidden(source=source, sheets=[sheet.title for sheet in book.worksheets]))
    fitting = [sheet.title for sheet in shown if _header(_first_rows(sheet), reading.column) is not None]
    if len(fitting) > 1:
        raise NotStarted(messages.several_sheets(source=source, sheets=fitting))
    if fitting:
        return str(fitting[0])
    if len(shown) == 1:
        return str(shown[0].title)
    raise NotStarted(messages.no_fitting_sheet(source=source, wanted=reading.column, sheets=[sheet.title for sheet in shown]))


def _compound(name: str, cell: Cell) -> Compound:
    """The compound of a cell."""
    if isinstance(cell, Formula):
        return Compound(name, problem=Result(Status.UNREADABLE, reason=messages.formula_without_value(formula=cell.text)))
    if isinstance(cell, Fault):
        return Compound(name, problem=Result(Status.UNREADABLE, reason=messages.fault_in_cell(text=cell.text)))
    return columns.compound_of(name, text_of(cell))


def read(data: bytes, source: str, reading: Reading) -> Table:
    """The table of a workbook's bytes."""
    stored, formulas = (_open(data, source, values) for values in (True, False))
    try:
        sheet = _chosen(stored, source, reading)
        rows = _rows(stored[sheet], formulas[sheet])
    except BROKEN as error:
        raise NotStarted(messages.no_workbook(source=source, error=str(error).strip("'\""))) from None
    where = messages.sheet_of(source=source, sheet=sheet)
    if not rows:
        raise NotStarted(messages.empty_file(source=where))
    top = _header(rows, reading.column)
    if top is None:
        top = next(place for place, row in enumerate(rows) if not is_blank(tuple(_kept(cell) for cell in row)))
    header = tuple(text_of(_kept(cell)) for cell in rows[top])
    structure = columns.structure_column(where, header, reading.column)
    name = columns.name_column(where, header, reading.name, structure)

    def row_of(cells: tuple[Cell, ...]) -> Row:
        def cell(place: int | None) -> Cell:
            return cells[place] if place is not None and place < len(cells) else None

        return Row(tuple(_kept(value) for value in cells), _compound(text_of(_kept(cell(name))), cell(structure)))

    return padded(
        Table(
            source=source,
            columns=header,
            rows=tuple(row_of(row) for row in rows[top + 1 :]),
            above=tuple(tuple(_kept(cell) for cell in row) for row in rows[:top]),
            name=None if name == structure else name,
            kind="xlsx",
        )
    )
