"""What is shown on a terminal: the table, how far the work is, and what became of the list."""

from __future__ import annotations

import os
import textwrap
import time
import unicodedata
from collections import Counter
from collections.abc import Sequence
from dataclasses import dataclass
from typing import TextIO

from . import messages
from .blends import Blend
from .compare import Compared
from .model import Compound, Result, Status

WIDEST_NAME = 40
WIDEST_STATUS = max(len(status.value) for status in Status)
LEAST_REMARK = 24
SILENT = 2.0
"""Seconds before the first word on how far the work is."""

RED, YELLOW, BOLD = "31", "33", "1"


def letter_width(letter: str) -> int:
    """How many columns of a terminal a letter takes."""
    if unicodedata.category(letter) in ("Mn", "Me", "Cf"):
        return 0
    return 2 if unicodedata.east_asian_width(letter) in "WF" else 1


def width(text: str) -> int:
    """How many columns a text takes."""
    return sum(letter_width(letter) for letter in text)


def fitted(text: str, columns: int) -> str:
    """The text on one line, in at most so many columns; where it is cut two dots stand at its end."""
    text = messages.one_line(text)
    if width(text) <= columns:
        return text
    kept, used = "", 0
    for letter in text:
        used += letter_width(letter)
        if used > columns - 2:
            break
        kept += letter
    return kept + ".."


def left(text: str, columns: int) -> str:
    """The text with spaces after it."""
    return text + " " * (columns - width(text))


def right(text: str, columns: int) -> str:
    """The text with spaces before it."""
    return " " * (columns - width(text)) + text


@dataclass(frozen=True)
class Layout:
    """The table's columns."""

    name: int
    room: int
    colour: bool = False
    against: bool = False
    details: bool = False

    @classmethod
    def of(cls, names: Sequence[str], *, room: int, colour: bool, against: bool, details: bool) -> Layout:
        """A layout for these names on a terminal with so many columns."""
        longest = max((width(messages.one_line(name)) for name in names), default=0)
        return cls(min(max(longest, len("name")), WIDEST_NAME), room, colour, against, details)

    def _line(self, name: str, score: str, status: str, bonds: str, details: Sequence[str], old: str, compared: str) -> str:
        """A line without its remark."""
        cells = [left(fitted(name, self.name), self.name), right(score, 5), left(status, WIDEST_STATUS), right(bonds, 5)]
        if self.details:
            cells += [right(details[0], 7), right(details[1], 8), left(fitted(details[2], 16), 16)]
        if self.against:
            cells += [right(fitted(old, 6), 6), left(compared, 18)]
        return "  ".join(cells)

    def _paint(self, text: str, colour: str | None) -> str:
        return f"\033[{colour}m{text}\033[0m" if self.colour and colour else text

    def header(self) -> str:
        """The names of the columns."""
        line = self._line("name", "score", "status", "bonds", ("matches", "states", "removals"), "old", "compared")
        return self._paint(f"{line}  remark", BOLD)

    def row(self, compound: Compound, result: Result, old: str, compared: Compared | None) -> str:
        """A row, over several lines where its remark is long."""
        numbers = ["" if number is None else str(number) for number in (result.bonds, result.matches, result.states)]
        line = self._line(
            compound.name,
            "-" if result.score is None else str(result.score),
            result.status.value,
            numbers[0],
            (numbers[1], numbers[2], " ".join(str(removal) for removal in result.removals)),
            old,
            compared.value if compared else "",
        )
        return self._paint((line + "  " + self._remark(result, width(line) + 2)).rstrip(), colour_of(result, compared))

    def _remark(self, result: Result, start: int) -> str:
        """Reason and note, broken into lines where the terminal ends."""
        parts = [result.reason, result.note]
        if self.details and result.row:
            parts.append(messages.row_and_place(row=result.row, place=result.place or 0))
        text = messages.one_line("; ".join(part for part in parts if part))
        if self.room - start < LEAST_REMARK:
            return text
        return ("\n" + " " * start).join(textwrap.wrap(text, self.room - start, break_on_hyphens=False)) if text else ""


def colour_of(result: Result, compared: Compared | None) -> str | None:
    """Red for what is to be looked at, yellow for what is turned back for what it is."""
    if result.status in (Status.CUT_OFF, Status.UNREADABLE) or compared in (Compared.OLD_ZERO, Compared.DIFFERS):
        return RED
    return None if result.status is Status.SCORED else YELLOW


def has_colour(stream: TextIO) -> bool:
    """Whether colours are shown and wanted there."""
    return stream.isatty() and os.environ.get("TERM", "dumb") != "dumb" and not os.environ.get("NO_COLOR")


class Progress:
    """Says how far the work is, after two seconds: on a terminal in a line that changes, else now and then in a line."""

    def __init__(self, total: int, stream: TextIO, *, shown: bool) -> None:
        self._total, self._stream, self._shown = total, stream, shown
        self._terminal = stream.isatty()
        self._next = time.monotonic() + SILENT
        self._drawn = False

    def __call__(self, done: int, compound: Compound) -> None:
        """So many rows are finished, and this compound is waited for."""
        if not self._shown or time.monotonic() < self._next:
            return
        text = messages.progress(done=done, total=self._total, name=fitted(compound.name, WIDEST_NAME))
        self._stream.write(f"\r\033[K{text}" if self._terminal else f"{text}\n")
        self._stream.flush()
        self._drawn = self._terminal
        self._next = time.monotonic() + (0.2 if self._terminal else 30.0)

    def clear(self) -> None:
        """Takes the line away, so that something else can be written."""
        if self._drawn:
            self._stream.write("\r\033[K")
            self._stream.flush()
            self._drawn = False


def summary(results: Sequence[Result], compared: Sequence[Compared], against: str | None, blend: Blend | None = None) -> str:
    """What became of the list, in a line; and in lines of their own its blend, and how it compares with the old numbers."""
    counts = Counter(result.status for result in results)
    text = messages.summary(total=len(results), counts=[(status.value, counts[status]) for status in Status])
    if blend is not None:
        text += "\n" + _summary_of(blend)
    if any(result.at_most for result in (*results, *([] if blend is None else [blend.result]))):
        text += "\n" + messages.summary_at_most()
    if against is not None:
        old = Counter(compared)
        text += "\n" + messages.summary_compared(column=against, counts=[(word.value, old[word]) for word in Compared])
    return text


def _summary_of(blend: Blend) -> str:
    """What the compounds score together, or why they do not."""
    if blend.result.score is None:
        return messages.summary_of_no_blend(status=blend.result.status.value, reason=blend.result.reason)
    return messages.summary_of_blend(score=blend.result.score, own=blend.sum, shared=blend.shared)
