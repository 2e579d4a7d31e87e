"""Structures in SDF and mol files."""

from __future__ import annotations

import re
from collections.abc import Iterator
from dataclasses import dataclass

from .. import messages
from ..errors import NotStarted
from ..model import Compound, Result, Status
from . import columns
from .decode import decode, guess, refuse_binary
from .table import Reading, Row, Style, Table

END = "M  END"
WITHOUT_ATOMS = f"\n\n  0  0  0  0  0  0  0  0  0  0999 V2000\n{END}\n"
COUNTS = re.compile(r"^[ \d]{6}.*V[23]000\s*$")
ITEM = re.compile(r"^>[^<]*<([^>]*)>")


@dataclass(frozen=True)
class Record:
    """A record of an SDF: its text, and whether a line $$$$ ends it."""

    text: str
    closed: bool

    @property
    def lines(self) -> list[str]:
        """Its lines."""
        return self.text.split("\n")

    @property
    def title(self) -> str:
        """Its first line, unless that is not there and the counts stand in its place."""
        first = self.lines[0].strip()
        return "" if COUNTS.match(first) else first

    @property
    def block(self) -> str:
        """The mol block: all up to the first M  END."""
        lines = self.lines
        return "\n".join(lines[: _ends(lines)[0] + 1] if _ends(lines) else lines) + "\n"


def _ends(lines: list[str]) -> list[int]:
    """The lines that end a mol block."""
    return [place for place, line in enumerate(lines) if line.rstrip() == END]


def _text(data: bytes, source: str, encoding: str | None) -> tuple[str, Style, tuple[str, ...]]:
    """The text of the file. Without a mark or a named encoding each line is decoded on its own, so that one title stops no other."""
    if encoding is not None or data.startswith((b"\xef\xbb\xbf", b"\xff\xfe", b"\xfe\xff")):
        found = decode(data, source, encoding)
        return found.text, Style(encoding=found.encoding, bom=found.bom, newline=found.newline), ()
    refuse_binary(data, source)
    lines = [guess(line) for line in data.split(b"\n")]
    odd = next((used for _, used in lines if used != "utf-8"), None)
    newline = "\r\n" if lines[0][0].endswith("\r") else "\n"
    told = () if odd is None else (messages.guessed(source=source, encoding=odd),)
    return "\n".join(text for text, _ in lines), Style(newline=newline), told


def _records(text: str) -> Iterator[Record]:
    """The records of a file's text; what is empty after the last $$$$ is none."""
    lines: list[str] = []
    for line in re.sub(r"\r\n?", "\n", text).split("\n"):
        if line.rstrip() == "$$$$":
            yield Record("\n".join(lines), True)
            lines = []
        else:
            lines.append(line)
    if any(line.strip() for line in lines):
        yield Record("\n".join(lines), False)


def _items(record: Record) -> dict[str, str]:
    """The data of a record, by name; what one name has several times is joined."""
    lines = record.lines
    ends = _ends(lines)
    items: dict[str, list[str]] = {}
    name: str | None = None
    for line in lines[ends[0] + 1 if ends else len(lines) :]:
        head = ITEM.match(line)
        if head:
            name = head[1]
            items.setdefault(name, [])
        elif not line.strip():
            name = None
        elif name is not None:
            items[name].append(line.rstrip())
    return {name: "\n".join(values) for name, values in items.items()}


def _compound(record: Record, name: str, alone: bool) -> Compound:
    """The compound of a record, or what is wrong with it."""
    lines = record.lines
    ends = _ends(lines)
    if not record.text.strip():
        return Compound(name, problem=Result(Status.NO_STRUCTURE, reason=messages.empty_record()))
    counts = sum(1 for line in lines if COUNTS.match(line))
    if len(ends) > 1 or counts > 1:
        return Compound(name, problem=Result(Status.UNREADABLE, reason=messages.missing_separator(structures=max(len(ends), counts))))
    if not ends:
        reason = messages.cut_record() if not record.closed and not alone else messages.no_end()
        return Compound(name, problem=Result(Status.UNREADABLE, reason=reason))
    return Compound(name, mol_block=record.block)


def record_of_title(title: str) -> str:
    """The text of a record that has a title and no structure."""
    return f"{title}\n{WITHOUT_ATOMS}"


def read(data: bytes, source: str, reading: Reading, kind: str) -> Table:
    """The table of an SDF's or mol file's bytes: the titles and the data as columns."""
    if reading.column is not None:
        raise NotStarted(messages.no_columns_here(source=source, kind="an SDF or mol file"))
    text, style, told = _text(data, source, reading.encoding)
    records = list(_records(text))
    if not any(_ends(record.lines) or any(COUNTS.match(line) for line in record.lines) for record in records):
        raise NotStarted(messages.no_sdf(source=source))
    alone = kind == "mol"
    found = [_items(record) for record in records]
    names = list(dict.fromkeys(name for items in found for name in items))
    header = ("title", *names)
    titles = any(record.title for record in records)
    place = 0 if titles and reading.name is None else columns.name_column(source, header, reading.name, None if titles else 0)
    rows = []
    for record, items in zip(records, found):
        cells = (record.title, *(items.get(name, "") for name in names))
        rows.append(Row(cells, _compound(record, cells[place or 0], alone), record.text))
    if not alone and records and not records[-1].closed:
        told += (messages.last_record_open(source=source, title=records[-1].title),)
    return Table(source, header, tuple(rows), name=place or 0, style=style, kind=kind, warnings=told)
