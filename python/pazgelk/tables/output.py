"""Writes a list with the appended columns."""

from __future__ import annotations

import csv
import io
import os
import stat
import tempfile
from collections.abc import Iterator, Sequence
from contextlib import contextmanager
from dataclasses import replace
from pathlib import Path
from typing import Any, BinaryIO, Protocol

from .. import messages
from ..errors import NotStarted
from .answers import Answer
from .sdf import END
from .table import Row, Style, Table, Value, text_of
from .workbook import openpyxl

ENDINGS = {".csv": "csv", ".tsv": "tsv", ".tab": "tsv", ".txt": "csv", ".xlsx": "xlsx", ".sdf": "sdf", ".sd": "sdf"}
SHEET_ROWS = 1_048_576
CELL_LETTERS = 32_767


class Writer(Protocol):
    """Writes rows, one after the other."""

    def row(self, row: Row, answers: Sequence[Answer]) -> None:
        """Writes a row of the list and what is appended to it."""

    def close(self) -> None:
        """Writes what is still to be written."""


class TextWriter:
    """Writes a text table, in the style of the list that was read."""

    def __init__(self, stream: BinaryIO, table: Table, appended: Sequence[str], style: Style) -> None:
        self._text = io.TextIOWrapper(stream, encoding=style.encoding, errors="replace", newline="", write_through=True)
        self._csv = csv.writer(self._text, delimiter=style.delimiter, lineterminator=style.newline)
        self._text.write(("\ufeff" if style.bom else "") + style.first_line)
        for cells in table.above:
            self._csv.writerow([text_of(cell) for cell in cells])
        self._csv.writerow([*table.columns, *appended])

    def row(self, row: Row, answers: Sequence[Answer]) -> None:
        """Writes a row, and hands it on at once."""
        self._csv.writerow([*(text_of(cell) for cell in row.cells), *answers])
        self._text.flush()

    def close(self) -> None:
        """Hands on what is left, and leaves the stream open."""
        self._text.flush()
        self._text.detach()


class WorkbookWriter:
    """Writes a new workbook with one sheet: text as text, numbers as numbers."""

    def __init__(self, stream: BinaryIO, table: Table, appended: Sequence[str]) -> None:
        module = openpyxl()
        from openpyxl.cell import WriteOnlyCell
        from openpyxl.cell.cell import ILLEGAL_CHARACTERS_RE
        from openpyxl.styles import Font
        from openpyxl.utils import get_column_letter

        self._stream = stream
        self._book = module.Workbook(write_only=True)
        self._sheet = self._book.create_sheet("scores")
        self._cell, self._illegal = WriteOnlyCell, ILLEGAL_CHARACTERS_RE
        self._sheet.freeze_panes = f"A{len(table.above) + 2}"
        header = [*table.columns, *appended]
        for place, name in enumerate(header):
            longest = max([len(name), *(len(text_of(row.cells[place])) for row in table.rows if place < len(row.cells)), 8])
            self._sheet.column_dimensions[get_column_letter(place + 1)].width = min(longest, 40) + 2
        for cells in table.above:
            self._sheet.append([self._made(cell) for cell in cells])
        self._sheet.append([self._made(name, Font(bold=True)) for name in header])

    def _made(self, value: Value, font: Any = None) -> Any:
        """A cell: what is text is never a formula, an error or a number."""
        if isinstance(value, str):
            clean = self._illegal.sub("\ufffd", value)
            value = clean if len(clean) <= CELL_LETTERS else clean[: CELL_LETTERS - 2] + ".."
        cell = self._cell(self._sheet, value=value if value != "" else None)
        if isinstance(value, str) and value:
            cell.data_type = "s"
        if font is not None:
            cell.font = font
        return cell

    def row(self, row: Row, answers: Sequence[Answer]) -> None:
        """Adds a row."""
        self._sheet.append([self._made(value) for value in (*row.cells, *answers)])

    def close(self) -> None:
        """Writes the workbook."""
        self._book.save(self._stream)


class SdfWriter:
    """Writes the records of an SDF again, each with the appended data."""

    def __init__(self, stream: BinaryIO, table: Table, appended: Sequence[str], style: Style) -> None:
        self._text = io.TextIOWrapper(stream, encoding="utf-8", newline=style.newline)
        self._appended = appended

    def row(self, row: Row, answers: Sequence[Answer]) -> None:
        """Writes a record."""
        record = row.text.rstrip("\n")
        gap = "\n" if record.endswith(END) else "\n\n"
        items = "".join(f"> <{name}>\n{answer}\n\n" for name, answer in zip(self._appended, answers) if answer != "")
        self._text.write(f"{record}{gap}{items}$$$$\n")

    def close(self) -> None:
        """Hands on what is left, and leaves the stream open."""
        self._text.flush()
        self._text.detach()


def kind_of(path: Path) -> str:
    """The format that an output's ending names."""
    kind = ENDINGS.get(path.suffix.casefold())
    if kind is None:
        raise NotStarted(messages.output_ending(path=str(path)))
    return kind


def writer(kind: str, stream: BinaryIO, table: Table, appended: Sequence[str]) -> Writer:
    """What writes the table in this format."""
    if kind == "xlsx":
        if len(table.rows) + len(table.above) + 1 > SHEET_ROWS:
            raise NotStarted(messages.too_many_rows(rows=len(table.rows)))
        return WorkbookWriter(stream, table, appended)
    if kind == "sdf":
        if any(not row.text for row in table.rows):
            raise NotStarted(messages.sdf_from_table())
        return SdfWriter(stream, table, appended, table.style)
    style = table.style
    if kind != table.kind and "tsv" in (kind, table.kind):
        style = replace(style, delimiter="\t" if kind == "tsv" else ",", first_line="")
    return TextWriter(stream, table, appended, style)


def refuse_target(path: Path, inputs: Sequence[str]) -> None:
    """Ends where the output would be written over an input, or cannot be written."""
    for source in inputs:
        if path.exists() and Path(source).exists() and path.samefile(source):
            raise NotStarted(messages.output_is_input(path=str(path)))
    if path.exists() and not path.is_file():
        raise NotStarted(messages.output_no_file(path=str(path)))
    folder = path.resolve().parent
    if not folder.is_dir():
        raise NotStarted(messages.output_folder(path=str(path)))
    if not os.access(folder, os.W_OK):
        raise NotStarted(messages.output_locked(folder=str(folder)))


@contextmanager
def replacing(path: Path) -> Iterator[BinaryIO]:
    """A stream to a temporary file beside the output, which takes its name once all is written, and goes where it is not."""
    real = path.resolve()
    mode = stat.S_IMODE(real.stat().st_mode) if real.exists() else 0o666 & ~_umask()
    try:
        handle, name = tempfile.mkstemp(prefix=f".{real.name}.", suffix=".part", dir=real.parent)
    except OSError as error:
        raise NotStarted(messages.not_written(path=str(path), error=error.strerror or str(error))) from None
    temporary = Path(name)
    try:
        with os.fdopen(handle, "wb") as stream:
            yield stream
        temporary.chmod(mode)
        temporary.replace(real)
    finally:
        temporary.unlink(missing_ok=True)


def _umask() -> int:
    """The mask for new files' rights."""
    mask = os.umask(0)
    os.umask(mask)
    return mask
