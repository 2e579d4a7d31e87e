"""Old numbers beside today's scores."""

from __future__ import annotations

import pytest

from pazgelk.compare import compare
from pazgelk.model import Result, Status

SCORED, ZERO = Result(Status.SCORED, score=3), Result(Status.SCORED, score=0)
RING, CUT_OFF = Result(Status.RING), Result(Status.CUT_OFF)


@pytest.mark.parametrize(
    ("old", "result", "said"),
    [
        ("3", SCORED, "same"),
        (" 3.0 ", SCORED, "same"),
        ("3,0", SCORED, "same"),
        ("0", ZERO, "same"),
        ("0", SCORED, "old 0 was no score"),
        ("0.00", SCORED, "old 0 was no score"),
        ("-0", SCORED, "old 0 was no score"),
        ("4", SCORED, "differs"),
        ("3.5", SCORED, "differs"),
        ("1", ZERO, "differs"),
        ("", SCORED, "nothing to compare"),
        ("n/a", SCORED, "nothing to compare"),
        ("3?", SCORED, "nothing to compare"),
        ("", RING, "nothing to compare"),
        ("0", RING, "not scored now"),
        ("0", CUT_OFF, "not scored now"),
        ("7", CUT_OFF, "not scored now"),
    ],
)
def test_compare(old: str, result: Result, said: str) -> None:
    assert compare(old, result).value == said
