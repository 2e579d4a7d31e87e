"""Reads lists of compounds from the files that laboratories have, and writes them again with what was found."""

from __future__ import annotations

import sys
from collections.abc import Sequence
from dataclasses import replace
from pathlib import Path

from .. import messages
from ..errors import NotStarted
from ..model import Compound
from . import answers, delimited, sdf, workbook
from .columns import compound_of, wanted_column
from .table import Reading, Row, Style, Table, Value, text_of

__all__ = [
    "FORMATS",
    "INPUT",
    "Reading",
    "Row",
    "Style",
    "Table",
    "Value",
    "blended",
    "from_smiles",
    "joined",
    "read",
    "text_of",
    "wanted_column",
]

FORMATS = ("csv", "tsv", "xlsx", "sdf", "mol", "smi")
ENDINGS = {
    **{"." + name: name for name in FORMATS},
    ".txt": "csv",
    ".tab": "tsv",
    ".xlsm": "xlsx",
    ".sd": "sdf",
    ".smiles": "smi",
    ".ism": "smi",
}
FILE_COLUMN = "pz_file"
INPUT = "-"
"""Standard input."""


def _format(source: str, reading: Reading) -> str:
    """The format of a file, as the user or its ending says."""
    if reading.format is not None:
        return reading.format
    if source == INPUT:
        raise NotStarted(messages.input_format())
    ending = Path(source).suffix.casefold()
    if ending == ".xls":
        raise NotStarted(messages.old_workbook(source=source))
    if ending not in ENDINGS:
        raise NotStarted(messages.unknown_ending(source=source))
    return ENDINGS[ending]


def _bytes(source: str) -> bytes:
    """All bytes of a file, or of standard input."""
    if source == INPUT:
        return sys.stdin.buffer.read()
    try:
        return Path(source).read_bytes()
    except OSError as error:
        raise NotStarted(messages.no_file(source=source, error=error.strerror or str(error))) from None


def _with_name(table: Table) -> Table:
    """The table with a name for each compound that has none: its number."""
    rows = tuple(
        row if row.compound.name.strip() else replace(row, compound=replace(row.compound, name=messages.row_name(number=number)))
        for number, row in enumerate(table.rows, 1)
    )
    return replace(table, rows=rows)


def read(source: str, reading: Reading = Reading()) -> Table:
    """The table of a file, or of standard input."""
    kind = _format(source, reading)
    data = _bytes(source)
    shown = messages.standard_input() if source == INPUT else source
    if kind == "xlsx":
        table = workbook.read(data, shown, reading)
    elif reading.sheet is not None:
        raise NotStarted(messages.no_sheets_here(source=shown))
    elif kind in ("sdf", "mol"):
        table = sdf.read(data, shown, reading, kind)
    elif kind == "smi":
        table = delimited.read_smiles_list(data, shown, reading)
    else:
        table = delimited.read(data, shown, reading, kind)
    return _with_name(table)


def from_smiles(texts: Sequence[str]) -> Table:
    """The table of SMILES that the user typed; each is its own name."""
    rows = tuple(Row((text,), compound_of(text.strip(), text)) for text in texts)
    return _with_name(Table("", ("smiles",), rows))


def joined(tables: Sequence[Table]) -> Table:
    """One table of several, in order: the columns of all, and then the file that a row is from. One table stays as it is."""
    if len(tables) == 1:
        return tables[0]
    keys: dict[tuple[str, int], int] = {}
    places: list[list[int]] = []
    for table in tables:
        seen: dict[str, int] = {}
        places.append([])
        for column in table.columns:
            seen[column] = seen.get(column, 0) + 1
            places[-1].append(keys.setdefault((column, seen[column]), len(keys)))
    rows = []
    for table, where in zip(tables, places):
        for row in table.rows:
            cells: list[Value] = [*[""] * len(keys), table.source]
            for place, cell in zip(where, row.cells):
                cells[place] = cell
            rows.append(replace(row, cells=tuple(cells)))
    same = len({table.style.encoding for table in tables}) == 1
    name = next((where[table.name] for table, where in zip(tables, places) if table.name is not None), None)
    return Table(
        source=", ".join(table.source for table in tables),
        columns=(*(column for column, _ in keys), FILE_COLUMN),
        rows=tuple(rows),
        name=name,
        style=replace(tables[0].style, encoding=tables[0].style.encoding if same else "utf-8"),
        kind=tables[0].kind,
        warnings=tuple(warning for table in tables for warning in table.warnings),
    )


def blended(table: Table, name: str) -> tuple[Table, tuple[int, ...]]:
    """The table with a last row of this name for its compounds scored together, and the places of these.

    The row of a blend that an earlier run has written is no compound.
    """
    told = [place for place, column in enumerate(table.columns) if answers.tells_blend(column)]
    members = tuple(number for number, row in enumerate(table.rows) if not any(text_of(row.cells[place]).strip() for place in told))
    cells = tuple(name if place == table.name else "" for place in range(len(table.columns)))
    compound = Compound(name, blend=tuple(table.rows[place].compound for place in members))
    return replace(table, rows=(*table.rows, Row(cells, compound, sdf.record_of_title(name)))), members
