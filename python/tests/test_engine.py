"""The four calls, with the examples of docs/ANSWERS.md."""

from __future__ import annotations

from pathlib import Path

import pytest

from pazgelk import engine
from pazgelk.engine import Answer, Lengths, Reply
from pazgelk.model import NotReady, Removal

CHAIN = bytes.fromhex("050406060606060101010101000101020203030401010101")
ARGON = bytes.fromhex("01001201")
TRIANGLE = bytes.fromhex("04030606060601010101000101020200010101")
CHAINS = bytes.fromhex("0907060606060606060606010101010101010101000101020203030405060607070801010101010101")


def chain(*classes: int) -> bytes:
    """The chain of four bonds with these classes."""
    return CHAIN[:7] + bytes(classes) + CHAIN[12:]


MARKED = chain(13, 1, 1, 1, 1)


def score(lengths: Lengths, record: bytes = CHAIN, *, bounds: int = 3, memo: int = 0, budget: int = 100) -> Answer:
    return engine.score(record, bounds=bounds, memo=memo, budget=budget, lengths=lengths)


def test_check() -> None:
    assert engine.check(CHAIN) == Reply(0, 0)
    assert engine.check(TRIANGLE) == Reply(6, 2)
    assert engine.check(b"") == Reply(1, 0)
    assert engine.check(b"\0\0") == Reply(2, 0)
    assert engine.check(ARGON) == Reply(0, 0)
    assert engine.check(bytes.fromhex("0800" + "12" * 8 + "01" * 8)) == Reply(0, 0)
    assert engine.check(bytes.fromhex("0900" + "12" * 9 + "01" * 9)) == Reply(2, 0)
    assert engine.check(bytes.fromhex("0201060601010001 01".replace(" ", ""))) == Reply(0, 0)
    assert engine.check(bytes.fromhex("0303" + "06" * 3 + "01" * 3 + "000101020200" + "010101")) == Reply(2, 0)
    assert engine.check(CHAIN[:7] + CHAIN[12:]) == Reply(1, 19)


def test_classes() -> None:
    """Row 15, the lowest atom of class 0 or 255, comes after row 3 and before row 4, from every call."""
    for record, reply in (
        (MARKED, Reply(0, 0)),
        (chain(2, 254, 1, 1, 1), Reply(0, 0)),
        (chain(1, 1, 0, 255, 1), Reply(15, 2)),
        (chain(1, 1, 1, 1, 255), Reply(15, 4)),
        (chain(0, 1, 1, 1, 1).replace(b"\6", b"\xff", 1), Reply(3, 0)),
        (chain(1, 0, 1, 1, 1)[:-1] + b"\0", Reply(15, 1)),
        (ARGON[:3] + b"\xfe", Reply(0, 0)),
        (ARGON[:3] + b"\xff", Reply(15, 0)),
        (b"\1\0\xff\xff", Reply(3, 0)),
    ):
        assert engine.check(record) == reply
    wrong = chain(1, 1, 0, 255, 1)
    assert engine.label(wrong, 0) == engine.matches(wrong, 0, 0) == Reply(15, 2)
    assert score(Lengths(0, 0), wrong, bounds=9) == Answer(15, 2)


def test_label() -> None:
    label = bytes.fromhex("00010006ffff00010006ffff0006ff")
    assert engine.label(CHAIN, 0b0011) == engine.label(CHAIN, 0b0110) == label
    assert engine.label(CHAIN, 0b0101) == Reply(13, 0)
    assert engine.label(TRIANGLE, 1) == Reply(6, 2)
    assert engine.label(MARKED, 0b0011) == bytes.fromhex("000100060dffff00010006ffff0006ff")
    assert engine.label(MARKED, 0b0110) == label


def test_longest_label() -> None:
    """Two atoms with 33 and 32 bonds, all 65 atoms marked: 454 bytes, which the buffer has."""
    ends = [(0, 1)] + [(0, leaf) for leaf in range(2, 34)] + [(1, leaf) for leaf in range(34, 65)]
    record = bytes([65, 64] + [6] * 65 + [13] * 65 + [end for bond in ends for end in bond] + [1] * 64)
    found = engine.label(record, 2**64 - 1)
    assert isinstance(found, bytes) and len(found) == engine.LABEL_BYTES == 454


def test_matches() -> None:
    assert engine.matches(CHAIN, 72, 4) == Reply(0, 1)
    assert engine.matches(CHAIN, 71, 4) == Reply(9, 2)
    assert engine.matches(CHAIN, 72, 3) == Reply(10, 1)
    assert engine.matches(MARKED, 72, 4) == Reply(0, 0)
    assert engine.matches(chain(13, 1, 1, 1, 13), 72, 4) == Reply(0, 1)
    assert engine.matches(chain(13, 1, 1, 1, 14), 72, 4) == Reply(0, 0)


def test_score() -> None:
    assert score(Lengths(72, 4)) == Answer(0, index=2, matches=1, states=2, removals=(Removal(0, 2),))
    assert score(Lengths(72, 4), MARKED) == Answer(0, index=3, matches=0, states=1)
    assert score(Lengths(71, 4)) == Answer(9, 2)
    assert score(Lengths(72, 3)) == Answer(10, 1)
    assert score(Lengths(0, 0)) == Answer(9, 1)
    assert score(Lengths(72, 4), budget=1) == Answer(11, 1)
    assert score(Lengths(72, 4), memo=1) == Answer(12, 1)
    assert score(Lengths(72, 4, 160), memo=1).index == 2
    assert score(Lengths(72, 4), bounds=4) == Answer(7)


@pytest.mark.parametrize("lengths", [Lengths(0, 0), Lengths(72, 4, 160)])
@pytest.mark.parametrize("budget", [0, 1, 2**32 - 1])
@pytest.mark.parametrize("memo", [0, 1])
def test_lone_atom(memo: int, budget: int, lengths: Lengths) -> None:
    """It is scored 0 whatever budget and tables are, and has no set of bonds that has a label."""
    assert score(lengths, ARGON, memo=memo, budget=budget) == Answer(0, index=0, matches=0, states=0, removals=())
    assert score(lengths, ARGON, bounds=4, memo=memo, budget=budget) == Answer(7)
    assert engine.matches(ARGON, lengths.parts, lengths.pairs) == Reply(0, 0)
    assert engine.label(ARGON, 0) == engine.label(ARGON, 1) == Reply(13, 0)


def test_several_trees() -> None:
    """Chains of four and of three bonds: the chain of three is shared, or two bonds twice."""
    assert engine.check(CHAINS) == Reply(0, 0)
    assert engine.matches(CHAINS, 12 * 64, 4 * 64) == Reply(0, 9)
    assert score(Lengths(12 * 64, 4 * 64), CHAINS).index == 3
    assert score(Lengths(12 * 64, 4 * 64), CHAINS, budget=0) == Answer(11)
    assert engine.label(CHAINS, 0b0110000) == engine.label(CHAIN, 0b0011)
    assert engine.label(CHAINS, 0b0011000) == Reply(13, 0)
    assert score(Lengths(0, 0), bytes.fromhex("0200060b0101"), budget=0) == Answer(0)


def test_library_that_is_missing(monkeypatch: pytest.MonkeyPatch, tmp_path: Path) -> None:
    engine.library.cache_clear()
    try:
        monkeypatch.setenv("PAZGELK_LIBRARY", str(tmp_path / "none.so"))
        with pytest.raises(NotReady, match="tools/build"):
            engine.check(CHAIN)
        broken = tmp_path / "broken.so"
        broken.write_bytes(b"no library")
        monkeypatch.setenv("PAZGELK_LIBRARY", str(broken))
        with pytest.raises(NotReady, match="cannot be used"):
            engine.check(CHAIN)
    finally:
        engine.library.cache_clear()
