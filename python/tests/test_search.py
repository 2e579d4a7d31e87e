"""One search: its tables, its limits, and the child process that it runs in."""

from __future__ import annotations

import _thread
import os
import signal
import threading
import time
from collections.abc import Iterator
from pathlib import Path

import pytest

import pazgelk
from compounds import ENDLESS, MANY_STATES, roast
from pazgelk import engine, search
from pazgelk import searcher as searchers
from pazgelk.messages import enough, size
from pazgelk.model import Settings, Status
from pazgelk.searcher import Searcher
from pazgelk.structures import Structure, read_smiles

MEGABYTE = 1 << 20


def record(smiles: str) -> bytes:
    structure = read_smiles(smiles)
    assert isinstance(structure, Structure)
    return structure.record


@pytest.fixture
def searcher() -> Iterator[Searcher]:
    searcher = Searcher()
    yield searcher
    searcher.close()


def children() -> set[int]:
    """The child processes of this one that run searches."""
    found = set()
    for folder in Path("/proc").glob("[0-9]*"):
        try:
            parent = int((folder / "stat").read_text().rsplit(")", 1)[1].split()[1])
            if parent == os.getpid() and b"pazgelk.child" in (folder / "cmdline").read_bytes():
                found.add(int(folder.name))
        except OSError:
            continue
    return found


def test_chain_of_64_bonds() -> None:
    result = pazgelk.score("C" * 65)
    assert (result.status, result.score, result.bonds) == (Status.SCORED, 6, 64)


@pytest.mark.parametrize("memo", [0, 1])
def test_tables_grow(monkeypatch: pytest.MonkeyPatch, memo: int) -> None:
    """However short the first tables are, the answers are the same."""
    settings = Settings(memo=memo, budget=2000)
    records = [found.record for _, smiles in roast() if isinstance(found := read_smiles(smiles), Structure)]
    usual = [search.search(one, settings) for one in records]
    monkeypatch.setattr(search, "FIRST_PARTS", 12)
    monkeypatch.setattr(search, "FIRST_PAIRS", 0)
    monkeypatch.setattr(search, "FIRST_MEMO", 80)
    assert [search.search(one, settings) for one in records] == usual
    assert {result.status for result in usual} == {Status.SCORED, Status.CUT_OFF}


def test_memory_names_what_would_do() -> None:
    """Who follows the advice comes through; what row 10 tells is exact."""
    hungry, memory, rows = record("C[Si](C)(C)" + "O[Si](C)(C)" * 9 + "C"), MEGABYTE, []
    while (result := search.search(hungry, Settings(memory=memory, budget=10))).row in (9, 10):
        assert result.status is Status.CUT_OFF and result.score is None
        assert ("or more" in result.reason) == (result.row == 9)
        rows.append(result.row)
        memory = int(result.reason.rsplit("--memory ", 1)[1].removesuffix("M")) * MEGABYTE
    assert result.row == 11
    assert rows.count(10) == 1 and rows[-1] == 10 and 9 in rows


@pytest.mark.parametrize("error", [OSError(12, "Cannot allocate memory"), MemoryError(), OverflowError()])
def test_machine_without_memory(monkeypatch: pytest.MonkeyPatch, error: Exception) -> None:
    def refuse(words: int) -> None:
        raise error

    monkeypatch.setattr(engine, "Table", refuse)
    result = search.search(record("CCO"), Settings())
    assert result.status is Status.CUT_OFF and "the machine has not" in result.reason


def test_sizes_in_words() -> None:
    assert size(481 * MEGABYTE) == "481 MB" and enough(481 * MEGABYTE) == "500M"
    assert enough(1) == "1M" and enough(7 * MEGABYTE + 1) == "8M" and enough(73 * MEGABYTE) == "75M" and enough(1234 * MEGABYTE) == "1500M"
    assert size(1000) == "1000 bytes" and size(1 << 20) == "1 MB" and size(3 << 29) == "1.5 GB"


def test_budget() -> None:
    result = pazgelk.score(MANY_STATES, Settings(budget=1000))
    assert (result.status, result.score, result.row, result.place) == (Status.CUT_OFF, None, 11, 1000)
    assert "1,000 states" in result.reason and result.reason.endswith("--budget 10000")
    most = search._result(search.Answer(11, 2**32 - 1), Settings(budget=2**32 - 1))
    assert "no larger budget" in most.reason


def test_memo_is_at_most() -> None:
    result = pazgelk.score("CCCCC", Settings(memo=1))
    assert result.score == 2 and result.at_most and "at most" in result.note
    assert not pazgelk.score("CCCCC").at_most


@pytest.mark.parametrize("smiles", ["CC", "[Ar]"])
def test_no_score_is_below_0(smiles: str) -> None:
    """So with the memo on 0 is not 'at most'."""
    result = pazgelk.score(smiles, Settings(memo=1))
    assert (result.score, result.at_most) == (0, False) and "at most" not in result.note


def test_least_limits_do_for_a_lone_atom() -> None:
    result = pazgelk.score("[Ar]", Settings(budget=0, memory=MEGABYTE))
    assert (result.status, result.score) == (Status.SCORED, 0)
    assert pazgelk.score("CC", Settings(budget=0, memory=MEGABYTE)).status is Status.CUT_OFF


def test_time(searcher: Searcher) -> None:
    began = time.monotonic()
    result = searcher.search(record(ENDLESS), Settings(time=0.5))
    assert 0.5 <= time.monotonic() - began < 10
    assert result.status is Status.CUT_OFF and result.reason == "not finished after 0.5 s: --time 5"
    assert searcher.search(record("CCO"), Settings()).score == 1


def test_no_end_of_time(searcher: Searcher) -> None:
    assert searcher.search(record("CCO"), Settings(time=float("inf"))).score == 1


@pytest.mark.parametrize("number", [signal.SIGKILL, signal.SIGSEGV])
def test_death_is_a_result(searcher: Searcher, number: signal.Signals) -> None:
    assert searcher.search(record("CCO"), Settings()).score == 1
    child = searcher._child
    assert child is not None
    threading.Timer(0.3, child.process.send_signal, [number]).start()
    result = searcher.search(record(ENDLESS), Settings())
    assert result.status is Status.CUT_OFF and result.score is None
    assert "ended unexpectedly" in result.reason and number.name in result.reason
    assert searcher.search(record("CCO"), Settings()).score == 1


def test_child_that_cannot_start(monkeypatch: pytest.MonkeyPatch, searcher: Searcher) -> None:
    monkeypatch.setattr(searchers.sys, "executable", "/bin/false")
    assert "ended unexpectedly" in searcher.search(record("CCO"), Settings()).reason
    monkeypatch.setattr(searchers.sys, "executable", "/nowhere/python3")
    assert "ended unexpectedly" in searcher.search(record("CCO"), Settings()).reason


def test_interrupted_search_is_not_answered_later(searcher: Searcher) -> None:
    """The result of a search that was interrupted never becomes that of the next one."""
    searcher.search(record("CCO"), Settings())
    threading.Timer(0.3, _thread.interrupt_main).start()
    with pytest.raises(KeyboardInterrupt):
        searcher.search(record(MANY_STATES), Settings(budget=2**32 - 1))
    assert searcher.search(record("CCO"), Settings()).score == 1


def test_forked_process_has_its_own_child(searcher: Searcher) -> None:
    assert searcher.search(record("CCCC"), Settings()).score == 2
    pid = os.fork()
    if pid == 0:
        good = searcher.search(record("CCO"), Settings()).score == 1
        searcher.close()
        os._exit(0 if good else 1)
    assert os.waitstatus_to_exitcode(os.waitpid(pid, 0)[1]) == 0
    assert searcher.search(record("CCCCC"), Settings()).score == 2


def test_closing_ends_the_child(searcher: Searcher) -> None:
    before = children()
    searcher.search(record("CCO"), Settings())
    assert len(children() - before) == 1
    thread = threading.Thread(target=searcher.search, args=(record(ENDLESS), Settings()))
    thread.start()
    time.sleep(0.2)
    searcher.close()
    thread.join(5)
    assert not thread.is_alive() and children() == before
    assert "ended unexpectedly" in searcher.search(record("CCO"), Settings()).reason


def test_settings_in_words() -> None:
    for wrong, words in (
        ({"bounds": 4}, "bounds is a whole number from 0 to 3"),
        ({"memo": 2}, "memo"),
        ({"budget": -1}, "budget"),
        ({"memory": 1000}, "at least 1 MB"),
        ({"time": 0}, "above 0"),
        ({"time": float("nan")}, "above 0"),
    ):
        with pytest.raises(ValueError, match=words):
            Settings(**wrong)


def test_row_of_our_own_fault() -> None:
    result = search.search(bytes.fromhex("04030606060601010101000101020200010101"), Settings())
    assert result.status is Status.UNREADABLE and result.row == 6
    assert "a fault of Pazgelk" in result.reason
