"""The columns that are appended to a list."""

from __future__ import annotations

import re
from collections.abc import Sequence

from .. import messages
from ..blends import Blend
from ..compare import Compared
from ..model import Result, Status

COLUMNS = ("pz_score", "pz_status", "pz_bonds", "pz_reason", "pz_note")
DETAILS = ("pz_matches", "pz_states", "pz_removals", "pz_row", "pz_place")
BLEND = ("pz_sum", "pz_shared")
COMPARE = "pz_compare"
ALL = (*COLUMNS, *DETAILS, *BLEND, COMPARE)

Answer = int | str


def columns(*, details: bool, against: bool, taken: Sequence[str], blended: bool = False) -> tuple[str, ...]:
    """The names of the appended columns, told from those that the list has already."""
    names = COLUMNS + (DETAILS if details else ()) + (BLEND if blended else ()) + ((COMPARE,) if against else ())
    return tuple(_free(name, {column.strip() for column in taken}) for name in names)


def tells_blend(column: str) -> bool:
    """Whether an earlier run wrote a column of this name, in which the row of a blend alone has something."""
    return re.fullmatch(rf"{BLEND[1]}(_\d+)?", column.strip()) is not None


def _free(name: str, taken: set[str]) -> str:
    """The name, or with the first number that makes it another than those taken."""
    number = 1
    while (name if number == 1 else f"{name}_{number}") in taken:
        number += 1
    return name if number == 1 else f"{name}_{number}"


def _or_empty(number: int | None) -> Answer:
    return "" if number is None else number


def _or_words(number: int | None) -> Answer:
    return messages.not_known() if number is None else number


def cells(result: Result, compared: Compared | None, *, details: bool, blended: bool = False, blend: Blend | None = None) -> tuple[Answer, ...]:
    """What is appended to a row. The score is a number or the status in words: an empty cell would be read as 0.

    Where a blend is asked for (blended) its row has the sum of the own scores and what is shared, and other rows have neither.
    """
    scored = result.status is Status.SCORED and result.score is not None
    score: Answer = result.score if scored and result.score is not None else result.status.value
    found: tuple[Answer, ...] = (score, result.status.value, _or_empty(result.bonds), result.reason, result.note)
    if details:
        removals = " ".join(str(removal) for removal in result.removals)
        found += (_or_empty(result.matches), _or_empty(result.states), removals, _or_empty(result.row), _or_empty(result.place))
    if blended:
        found += ("", "") if blend is None else (_or_words(blend.sum), _or_words(blend.shared))
    return found if compared is None else (*found, compared.value)
