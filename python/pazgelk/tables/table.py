"""A list of compounds as it was read, with what is needed to write it again."""

from __future__ import annotations

import datetime
from dataclasses import dataclass, field, replace

from ..model import Compound

Value = str | int | float | bool | datetime.datetime | datetime.date | datetime.time | datetime.timedelta | None
"""What a cell holds: text, or what a workbook has that is no text."""


@dataclass(frozen=True)
class Style:
    """How a text file writes its table."""

    delimiter: str = ","
    encoding: str = "utf-8"
    bom: bool = False
    newline: str = "\n"
    first_line: str = ""
    """A line `sep=;`, by which Excel is told the delimiter."""


@dataclass(frozen=True)
class Row:
    """A row: its cells, the compound in it, and of an SDF the record's own text."""

    cells: tuple[Value, ...]
    compound: Compound
    text: str = ""


@dataclass(frozen=True)
class Table:
    """A list of compounds: the columns' names, the rows, what stands above the header, and which column holds the names."""

    source: str
    columns: tuple[str, ...]
    rows: tuple[Row, ...]
    above: tuple[tuple[Value, ...], ...] = ()
    name: int | None = None
    style: Style = field(default_factory=Style)
    kind: str = "csv"
    warnings: tuple[str, ...] = ()


@dataclass(frozen=True)
class Reading:
    """What the user said about the lists: their format, and which column, name, sheet, delimiter and encoding they have."""

    format: str | None = None
    column: str | None = None
    name: str | None = None
    sheet: str | None = None
    delimiter: str | None = None
    encoding: str | None = None


def text_of(value: Value) -> str:
    """A cell's value as text."""
    if value is None:
        return ""
    if isinstance(value, str):
        return value
    if isinstance(value, bool):
        return "TRUE" if value else "FALSE"
    if isinstance(value, datetime.datetime):
        return value.date().isoformat() if value.time() == datetime.time() else value.isoformat(sep=" ")
    if isinstance(value, (datetime.date, datetime.time)):
        return value.isoformat()
    return str(value)


def is_blank(cells: tuple[Value, ...] | list[str]) -> bool:
    """Whether no cell holds anything."""
    return not any(text_of(cell).strip() for cell in cells)


def padded(table: Table) -> Table:
    """The table with as many cells in each row, and as many columns, as its longest row has."""
    width = max([len(table.columns), *(len(row.cells) for row in table.rows)])
    columns = table.columns + ("",) * (width - len(table.columns))
    rows = tuple(
        row if len(row.cells) == width else replace(row, cells=row.cells + ("",) * (width - len(row.cells))) for row in table.rows
    )
    return replace(table, columns=columns, rows=rows)
