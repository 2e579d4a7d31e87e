"""The old list's numbers beside today's scores (--against)."""

from __future__ import annotations

import re
from decimal import Decimal
from enum import Enum

from .model import Result, Status


class Compared(str, Enum):
    """What an old number and today's answer say of each other."""

    SAME = "same"
    OLD_ZERO = "old 0 was no score"
    DIFFERS = "differs"
    NOTHING = "nothing to compare"
    NOT_SCORED = "not scored now"


NUMBER = re.compile(r"[+-]?\d+(?:[.,]\d+)?")


def old_number(text: str) -> Decimal | None:
    """The number in a cell of the old list, with a decimal point or comma; None where there is none."""
    return Decimal(text.strip().replace(",", ".")) if NUMBER.fullmatch(text.strip()) else None


def compare(text: str, result: Result) -> Compared:
    """Compares a cell of the old list with today's answer. A 0 is a true score where today's score is 0 too (one bond, or none)."""
    old = old_number(text)
    if old is None:
        return Compared.NOTHING
    if result.status is not Status.SCORED:
        return Compared.NOT_SCORED
    if old == result.score:
        return Compared.SAME
    return Compared.OLD_ZERO if old == 0 else Compared.DIFFERS
