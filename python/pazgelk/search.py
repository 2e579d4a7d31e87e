"""One search, with tables that grow as it needs them."""

from __future__ import annotations

import dataclasses

from . import engine, messages
from .engine import Answer, Lengths
from .model import Result, Settings, Status

# The tables that a search is first lent, in words. They are short, since a call clears every word that it is lent.
FIRST_PARTS = 12 * 1024
FIRST_PAIRS = 4 * 4096
FIRST_MEMO = 80 * 1024
MOST_BUDGET = 2**32 - 1

ROW_PARTS, ROW_PAIRS, ROW_BUDGET, ROW_MEMO = 9, 10, 11, 12


def search(record: bytes, settings: Settings) -> Result:
    """The result of a record, here and now: the tables grow up to the settings' memory, and the time is not looked at."""
    lengths = Lengths(FIRST_PARTS, FIRST_PAIRS, FIRST_MEMO if settings.memo else 0)
    while True:
        try:
            answer = engine.score(
                record, bounds=settings.bounds, memo=settings.memo, budget=settings.budget, lengths=lengths
            )
        except (OSError, MemoryError, OverflowError):
            return Result(Status.CUT_OFF, reason=messages.machine_has_no_memory(lengths.bytes))
        if answer.number not in (ROW_PARTS, ROW_PAIRS, ROW_MEMO):
            return _result(answer, settings)
        lengths = _grown(lengths, answer)
        if lengths.bytes > settings.memory:
            reason = messages.needs_memory(lengths.bytes, exact=answer.number == ROW_PAIRS)
            return Result(Status.CUT_OFF, reason=reason, row=answer.number, place=answer.place)


def _grown(lengths: Lengths, answer: Answer) -> Lengths:
    """The lengths with which the search that was refused may go further. Row 10 tells what it needs."""
    if answer.number == ROW_PARTS:
        return dataclasses.replace(lengths, parts=2 * lengths.parts)
    if answer.number == ROW_PAIRS:
        return dataclasses.replace(lengths, pairs=4 * answer.place)
    return dataclasses.replace(lengths, memo=2 * lengths.memo)


def _result(answer: Answer, settings: Settings) -> Result:
    """What an answer that no table can change says."""
    if answer.number == 0:
        at_most = bool(settings.memo) and answer.index > 0
        return Result(
            Status.SCORED,
            score=answer.index,
            matches=answer.matches,
            states=answer.states,
            removals=answer.removals,
            note=messages.note_of_memo() if at_most else "",
            at_most=at_most,
        )
    if answer.number == ROW_BUDGET:
        reason = messages.budget_spent(settings.budget, MOST_BUDGET)
        return Result(Status.CUT_OFF, reason=reason, row=answer.number, place=answer.place)
    reason = messages.refused_by_engine(answer.number, answer.place)
    return Result(Status.UNREADABLE, reason=reason, row=answer.number, place=answer.place)
