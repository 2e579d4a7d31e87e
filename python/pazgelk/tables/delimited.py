"""Tables in text files: comma, semicolon or tab between the cells, and lists of SMILES with names."""

from __future__ import annotations

import csv
import io
import re
import sys
from collections.abc import Iterator
from dataclasses import dataclass, replace

from .. import messages
from ..errors import NotStarted
from ..model import Compound, Result, Status
from . import columns
from .decode import Text, decode
from .table import Reading, Row, Style, Table, is_blank, padded

DELIMITERS = (",", ";", "\t")
csv.field_size_limit(sys.maxsize)


@dataclass(frozen=True)
class Line:
    """A row of cells, and the first and last line of the file that it stands on."""

    cells: tuple[str, ...]
    first: int
    last: int


def _lines(text: str, delimiter: str) -> Iterator[Line]:
    """The rows of a text; a quotation mark that is not closed takes all that follows into one cell."""
    reader = csv.reader(io.StringIO(text, newline=""), delimiter=delimiter)
    before = 0
    for cells in reader:
        yield Line(tuple(cells), before + 1, reader.line_num)
        before = reader.line_num


def _refuse_open_quote(source: str, text: str, delimiter: str, lines: list[Line], skipped: int) -> None:
    """Ends where the last row has a quotation mark that is not closed."""
    end = "\ue000"
    reader = csv.reader(io.StringIO(text.rstrip("\r\n") + "\n" + end, newline=""), delimiter=delimiter)
    last: list[str] = []
    for last in reader:
        pass
    if last != [end]:
        raise NotStarted(messages.open_quote(source=source, line=lines[-1].first + skipped))


def _swallowed(source: str, delimiter: str, lines: list[Line], skipped: int) -> Iterator[str]:
    """Warnings of cells over several lines that look as if a quotation mark were missing."""
    for line in lines:
        if line.last > line.first and any(delimiter in part for cell in line.cells for part in re.split(r"[\r\n]+", cell)[1:]):
            yield messages.long_cell(source=source, first=line.first + skipped, last=line.last + skipped)


def _delimiter(text: str, wanted: str | None) -> str:
    """The delimiter for which the header has a column with structures, and of those the one with the most columns."""

    def fitness(delimiter: str) -> tuple[bool, int]:
        rows = [line.cells for line, _ in zip(_lines(text, delimiter), range(columns.HEADER_ROWS))]
        header = columns.find_header(rows, wanted)
        return header is not None, len(rows[header] if header is not None else next((row for row in rows if row), ()))

    return max(DELIMITERS, key=fitness)


def _told(text: str) -> tuple[str, str]:
    """A first line `sep=;` with its line end, and the delimiter in it."""
    told = re.match(r'"?sep=(.)"?[ \t]*(\r\n|\r|\n)', text, re.IGNORECASE)
    return (told[0], told[1]) if told else ("", "")


def _trimmed(lines: list[Line]) -> list[Line]:
    """The rows without the empty ones at the end."""
    while lines and is_blank(lines[-1].cells):
        lines.pop()
    return lines


def _row(line: Line, width: int, structure: int, name: int | None) -> Row:
    """A row below the header, which has so many cells."""

    def cell(place: int | None) -> str:
        return line.cells[place] if place is not None and place < len(line.cells) else ""

    if not is_blank(line.cells[width:]):
        reason = messages.too_many_cells(cells=len(line.cells), columns=width)
        return Row(line.cells, Compound(cell(name), problem=Result(Status.UNREADABLE, reason=reason)))
    return Row(line.cells, columns.compound_of(cell(name), cell(structure)))


def read(data: bytes, source: str, reading: Reading, kind: str) -> Table:
    """The table of a .csv or .tsv file's bytes."""
    found = decode(data, source, reading.encoding)
    first_line, told = _told(found.text)
    text = found.text[len(first_line) :]
    delimiter = reading.delimiter or told or ("\t" if kind == "tsv" and "\t" in text else _delimiter(text, reading.column))
    lines = _trimmed(list(_lines(text, delimiter)))
    if not lines:
        raise NotStarted(messages.empty_file(source=source))
    skipped = 1 if first_line else 0
    _refuse_open_quote(source, text, delimiter, lines, skipped)
    top = columns.find_header([line.cells for line in lines], reading.column)
    if top is None:
        top = next(place for place, line in enumerate(lines) if not is_blank(line.cells))
    header = lines[top].cells
    structure = columns.structure_column(source, header, reading.column)
    name = columns.name_column(source, header, reading.name, structure)
    return padded(
        Table(
            source=source,
            columns=header,
            rows=tuple(_row(line, len(header), structure, name) for line in lines[top + 1 :]),
            above=tuple(line.cells for line in lines[:top]),
            name=None if name == structure else name,
            style=Style(delimiter, found.encoding, found.bom, found.newline, first_line),
            kind=kind,
            warnings=(*found.warnings, *_swallowed(source, delimiter, lines, skipped)),
        )
    )


def _smiles_line(line: str) -> tuple[str, str]:
    """SMILES and name of a line; what stands between bars after a SMILES belongs to it."""
    parts = re.match(r"\s*(\S*)(\s+\|[^|]*\|)?\s*(.*?)\s*$", line, re.DOTALL)
    assert parts is not None
    return parts[1] + (parts[2] or ""), parts[3]


def read_smiles_list(data: bytes, source: str, reading: Reading) -> Table:
    """The table of a .smi file's bytes: in each line a SMILES, and after a space or tab a name."""
    if reading.column is not None or reading.name is not None:
        raise NotStarted(messages.no_columns_here(source=source, kind="a list of SMILES"))
    found = decode(data, source, reading.encoding)
    lines = re.split(r"\r\n|\r|\n", found.text)
    while lines and not lines[-1].strip():
        lines.pop()
    told = [line for line in lines if line.startswith("#")]
    pairs = [_smiles_line(line) for line in lines if not line.startswith("#")]
    if pairs and columns.structure_columns([pairs[0][0]]):
        pairs = pairs[1:]
    return Table(
        source=source,
        columns=("smiles", "name"),
        rows=tuple(Row((smiles, name), columns.compound_of(name, smiles)) for smiles, name in pairs),
        name=1,
        style=replace(_style(found), delimiter=","),
        kind="smi",
        warnings=found.warnings + ((messages.comments(source=source, count=len(told)),) if told else ()),
    )


def _style(found: Text) -> Style:
    return Style(encoding=found.encoding, bom=found.bom, newline=found.newline)
