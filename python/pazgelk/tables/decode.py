"""From a file's bytes to text."""

from __future__ import annotations

import codecs
from dataclasses import dataclass

from .. import messages
from ..errors import NotStarted

MARKS = (
    (codecs.BOM_UTF8, "utf-8"),
    (codecs.BOM_UTF32_LE, "utf-32-le"),
    (codecs.BOM_UTF32_BE, "utf-32-be"),
    (codecs.BOM_UTF16_LE, "utf-16-le"),
    (codecs.BOM_UTF16_BE, "utf-16-be"),
)
KINDS = (
    (b"PK\x03\x04", "a workbook or another zip archive"),
    (b"\xd0\xcf\x11\xe0", "an old (.xls) or locked workbook"),
    (b"%PDF", "a PDF"),
    (b"\x1f\x8b", "packed by gzip"),
)


@dataclass(frozen=True)
class Text:
    """A file's text, its encoding, and whether a byte order mark stood before it."""

    text: str
    encoding: str
    bom: bool
    warnings: tuple[str, ...] = ()

    @property
    def newline(self) -> str:
        """How the first line ends."""
        for place, letter in enumerate(self.text):
            if letter in "\r\n":
                return "\r\n" if self.text.startswith("\r\n", place) else letter
        return "\n"


def _marked(data: bytes) -> tuple[str, bytes] | None:
    """The encoding that a byte order mark names, and what stands after the mark."""
    for mark, encoding in MARKS:
        if data.startswith(mark):
            return encoding, data[len(mark) :]
    return None


def refuse_binary(data: bytes, source: str) -> None:
    """Ends where the bytes are empty or no text."""
    if not data.strip():
        raise NotStarted(messages.empty_file(source=source))
    for start, kind in KINDS:
        if data.startswith(start):
            raise NotStarted(messages.other_kind(source=source, kind=kind))
    if b"\0" in data:
        raise NotStarted(messages.binary(source=source))


def _strictly(data: bytes, encoding: str, source: str) -> str:
    """The text in the encoding, or the end."""
    try:
        return data.decode(encoding)
    except UnicodeDecodeError as error:
        raise NotStarted(messages.not_encoded(source=source, encoding=encoding, place=error.start)) from None


def guess(data: bytes) -> tuple[str, str]:
    """The text and its encoding: UTF-8, else Windows-1252, else Latin-1, which has a letter for each byte."""
    for encoding in ("utf-8", "cp1252"):
        try:
            return data.decode(encoding), encoding
        except UnicodeDecodeError:
            continue
    return data.decode("latin-1"), "latin-1"


def _named(data: bytes, source: str, encoding: str) -> Text:
    """The text in the encoding that the user names, without its mark."""
    name = codecs.lookup(encoding).name
    marked = _marked(data)
    if marked is not None and name in ("utf-8-sig", "utf-16", "utf-32"):
        return Text(_strictly(marked[1], marked[0], source), marked[0], True)
    name = {"utf-8-sig": "utf-8", "utf-16": "utf-16-le", "utf-32": "utf-32-le"}.get(name, name)
    text = _strictly(data, name, source)
    return Text(text.removeprefix("\ufeff"), name, text.startswith("\ufeff"))


def decode(data: bytes, source: str, encoding: str | None) -> Text:
    """The text of a file's bytes: in the encoding that the user names, or that its mark names, or else by trying."""
    marked = _marked(data)
    if encoding is not None:
        found = _named(data, source, encoding)
    elif marked is not None:
        found = Text(_strictly(marked[1], marked[0], source), marked[0], True)
    else:
        refuse_binary(data, source)
        text, used = guess(data)
        found = Text(text, used, False, () if used == "utf-8" else (messages.guessed(source=source, encoding=used),))
    if not found.text.strip():
        raise NotStarted(messages.empty_file(source=source))
    if "\0" in found.text:
        raise NotStarted(messages.binary(source=source))
    return found
