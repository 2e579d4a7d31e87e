"""The proved engine: its four calls by ctypes, with tables that the caller sizes.

docs/ANSWERS.md has the meaning of records, numbers, places and tables; host/pazgelk.h has the calls.
"""

from __future__ import annotations

import ctypes
import functools
import mmap
import os
from collections.abc import Sequence
from dataclasses import dataclass
from pathlib import Path
from typing import Any, NamedTuple

from . import messages
from .model import NotReady, Removal

LIBRARY = "libpazgelk.so"
MOST_REMOVALS = 32
TRAIL_NUMBERS = 2 * MOST_REMOVALS
DESK_WORDS = 4096
LABEL_BYTES = 454
WORD = 8


class Reply(NamedTuple):
    """The answer to check, label and matches: number 0, or a row; and the place, the label's length or the matches."""

    number: int
    place: int


@dataclass(frozen=True)
class Answer:
    """The answer to score: number 0 with a score, or a row and its place."""

    number: int
    place: int = 0
    index: int = 0
    matches: int = 0
    states: int = 0
    removals: tuple[Removal, ...] = ()


class Table:
    """Words that a call is lent. The machine gives memory only for what is touched, and gets it back when the table goes."""

    def __init__(self, words: int) -> None:
        self.words = words
        self._memory = mmap.mmap(-1, max(words * WORD, mmap.PAGESIZE))
        self._first = ctypes.c_char.from_buffer(self._memory)
        self.address = ctypes.addressof(self._first)


@dataclass(frozen=True)
class Lengths:
    """How many words of each table a search is lent; the desk's length is always the same."""

    parts: int
    pairs: int
    memo: int = 0

    @property
    def bytes(self) -> int:
        """What all tables take."""
        return (self.parts + self.pairs + self.memo + DESK_WORDS) * WORD


class _Reply(ctypes.Structure):
    _fields_ = [("number", ctypes.c_uint32), ("place", ctypes.c_uint64)]


class _Score(ctypes.Structure):
    _fields_ = [
        ("number", ctypes.c_uint32),
        ("index", ctypes.c_uint32),
        ("place", ctypes.c_uint64),
        ("matches", ctypes.c_uint64),
        ("states", ctypes.c_uint32),
        ("length", ctypes.c_uint32),
    ]


_LENT: list[Any] = [ctypes.c_void_p, ctypes.c_size_t]
_RECORD: list[Any] = [ctypes.c_char_p, ctypes.c_size_t]
_CALLS: dict[str, tuple[list[Any], Any]] = {
    "assembly_check": (_RECORD, _Reply),
    "assembly_label": (_RECORD + [ctypes.c_uint64] + _LENT, _Reply),
    "assembly_matches": (_RECORD + _LENT * 2, _Reply),
    "assembly_score": (_RECORD + [ctypes.c_uint32] * 3 + _LENT * 5, _Score),
}


def places() -> list[Path]:
    """Where the shared library is looked for: PAZGELK_LIBRARY, beside the package, and where the repository builds it."""
    named = os.environ.get("PAZGELK_LIBRARY")
    if named:
        return [Path(named)]
    package = Path(__file__).resolve().parent
    return [package / LIBRARY, package.parent.parent / "target" / LIBRARY]


@functools.cache
def library() -> ctypes.CDLL:
    """The shared library, with its calls declared. Raises NotReady where there is none that serves."""
    path = next((place for place in places() if place.is_file()), None)
    if path is None:
        raise NotReady(messages.no_library(places()))
    try:
        loaded = ctypes.CDLL(str(path))
        for name, (arguments, result) in _CALLS.items():
            call = getattr(loaded, name)
            call.argtypes, call.restype = arguments, result
    except (OSError, AttributeError) as error:
        raise NotReady(messages.library_not_loaded(path, error)) from error
    return loaded


def check(record: bytes) -> Reply:
    """Whether the bytes are a record that is answered: number 0, or one of rows 1 to 6 and 15."""
    reply = library().assembly_check(record, len(record))
    return Reply(reply.number, reply.place)


def label(record: bytes, bonds: int) -> bytes | Reply:
    """The label of a connected set of the record's bonds (bit i is bond i), or one of rows 1 to 6, 13 and 15."""
    buffer = ctypes.create_string_buffer(LABEL_BYTES)
    reply = library().assembly_label(record, len(record), bonds, buffer, LABEL_BYTES)
    return Reply(reply.number, reply.place) if reply.number else buffer.raw[: reply.place]


def matches(record: bytes, parts: int, pairs: int) -> Reply:
    """How many matches the record has, with so many words of tables, or one of rows 1 to 6, 9, 10 and 15."""
    tables = [Table(parts), Table(pairs)]
    reply = library().assembly_matches(record, len(record), *_lent(*tables))
    return Reply(reply.number, reply.place)


def score(record: bytes, *, bounds: int, memo: int, budget: int, lengths: Lengths) -> Answer:
    """The score of the record, searched with tables of these lengths, or one of rows 1 to 12 and 15."""
    trail = (ctypes.c_uint32 * TRAIL_NUMBERS)()
    tables = [Table(words) for words in (lengths.parts, lengths.pairs, lengths.memo, DESK_WORDS)]
    reply = library().assembly_score(
        record, len(record), bounds, memo, budget, ctypes.addressof(trail), TRAIL_NUMBERS, *_lent(*tables)
    )
    if reply.number:
        return Answer(reply.number, reply.place)
    return Answer(0, 0, reply.index, reply.matches, reply.states, _removals(trail[:], reply.length))


def _removals(trail: Sequence[int], length: int) -> tuple[Removal, ...]:
    """The removals of a trail: two arrays, match numbers and then sizes, with so many of each."""
    numbers, sizes = trail[:MOST_REMOVALS], trail[MOST_REMOVALS:]
    return tuple(map(Removal, numbers[:length], sizes[:length]))


def _lent(*tables: Table) -> list[int]:
    """Address and length of each table, as a call takes them."""
    return [number for table in tables for number in (table.address, table.words)]
