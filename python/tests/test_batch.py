"""Lists of compounds: one result for each, in order, wherever the searches run."""

from __future__ import annotations

import os
import signal
import threading
import time
from collections import Counter
from concurrent.futures import Executor, Future, ProcessPoolExecutor, ThreadPoolExecutor
from concurrent.futures import wait as wait_until
from multiprocessing import get_context

import pytest
from rdkit import Chem

from compounds import ENDLESS, roast
from pazgelk import Compound, NotReady, Result, Settings, Status, score, score_many
from pazgelk import batch
from pazgelk.model import Stopped
from test_search import children

MIXED = ["CCO", "", "CCCCC", "c1ccccc1", "OCC", "CCCC–C", "C" * 30, "O", "CCCCC"]


def kinds(results: list[Result]) -> list[object]:
    """Of each result its score, or its status where it has none."""
    return [result.score if result.status is Status.SCORED else result.status.value for result in results]


MIXED_KINDS = [1, "no structure", 2, "ring", 1, "unreadable", 7, 0, 2]


def test_roast() -> None:
    results = list(score_many(Compound(name, smiles) for name, smiles in roast()))
    counts = Counter(result.status.value for result in results)
    assert counts == {"scored": 75, "ring": 21, "too large": 2}
    named = {name: result for (name, _), result in zip(roast(), results)}
    assert named["3-methylbutanal"].score == 3
    assert named["2,3-butanedione (diacetyl)"].score == named["2,3-butanedione-13C4"].score == 3
    assert named["2,3-butanedione-1,2-13C2"].score == 4
    assert named["sodium acetate"].score == named["acetic acid"].score == 2
    assert named["2- and 3-methylbutanal, 1:1"].score == 4
    assert named["tristearin"].bonds == 62
    assert named["geraniol"].score == named["nerol"].score
    assert all((result.score is None) == (result.status is not Status.SCORED) for result in results)


@pytest.mark.parametrize("jobs", [1, 2, 5, None])
def test_order(jobs: int | None) -> None:
    assert kinds(list(score_many(MIXED, jobs=jobs))) == MIXED_KINDS


def test_kinds_of_compounds() -> None:
    """A SMILES, a mol block, an RDKit molecule, and what its reader has turned back."""
    molecule = Chem.MolFromSmiles("CCO")
    problem = Result(Status.UNREADABLE, reason="the record has no end")
    compounds = ["CCO", Compound(smiles="CCO"), molecule, Compound(mol_block=Chem.MolToMolBlock(molecule)), Compound(problem=problem), Compound()]
    results = list(score_many(compounds))
    assert [result.score for result in results] == [1, 1, 1, 1, None, None]
    assert results[4] is problem and results[5].status is Status.NO_STRUCTURE
    assert results[0] == score("CCO")


def test_nothing() -> None:
    assert list(score_many([])) == []


class Counting(Executor):
    """Runs all in the calling thread, and counts."""

    def __init__(self) -> None:
        self.calls: list[tuple[object, ...]] = []

    def submit(self, call, /, *words, **named):  # type: ignore[no-untyped-def, override]
        self.calls.append(words)
        future: Future[object] = Future()
        future.set_result(call(*words, **named))
        return future


def test_doubles_are_searched_once() -> None:
    writings = ["CC(N)C(=O)O", "OC(=O)C(C)N", "C[C@H](N)C(=O)O", "C[C@@H]([NH3+])C(=O)[O-]", "[2H]OC(=O)C(C)N"]
    executor = Counting()
    results = list(score_many(writings, executor=executor))
    assert len([words for words in executor.calls if words]) == 1
    assert {result.score for result in results} == {4} and [bool(result.note) for result in results] == [False] * 4 + [True]


def test_mixtures_are_searched_once() -> None:
    executor = Counting()
    results = list(score_many(["CCO.CC(=O)[O-].[Na+]", "[Na+].[O-]C(C)=O.OCC", "CC([O-])=O.[Na+].[CH3]CO"], executor=executor))
    assert len([words for words in executor.calls if words]) == 1
    assert {result.score for result in results} == {2} and len({result.note for result in results}) == 3


def test_list_that_is_longer_than_may_wait(monkeypatch: pytest.MonkeyPatch) -> None:
    monkeypatch.setattr(batch, "WAITING", 3)
    assert kinds(list(score_many(MIXED * 3, jobs=2))) == MIXED_KINDS * 3


def test_results_come_before_the_list_ends() -> None:
    def endless():  # type: ignore[no-untyped-def]
        while True:
            yield "CCO"

    results = score_many(endless(), jobs=1)
    assert [next(results).score for _ in range(3)] == [1, 1, 1]
    results.close()  # type: ignore[attr-defined]


@pytest.mark.parametrize("late", [False, True])
def test_progress(monkeypatch: pytest.MonkeyPatch, late: bool) -> None:
    """Late: it is told when the search is done already, whose compound it still names."""
    if late:
        monkeypatch.setattr(batch, "TICK", 0)
        monkeypatch.setattr(batch, "wait", lambda futures, timeout: wait_until(futures))
    told: list[tuple[int, str]] = []
    compounds = [Compound("ethanol", "CCO"), Compound("endless", ENDLESS), Compound("benzene", "c1ccccc1"), Compound("propane", "CCC")]
    results = list(score_many(compounds, Settings(time=1.5), jobs=2, progress=lambda done, now: told.append((done, now.name))))
    assert kinds(results) == [1, "cut off", "ring", 1]
    assert told[-1] == (3, "endless")
    assert [done for done, _ in told] == sorted(done for done, _ in told)


def test_closing_early() -> None:
    before = children()
    results = score_many(["CCO", ENDLESS, *("C" * count for count in range(2, 40))], jobs=2)
    assert next(results).score == 1
    began = time.monotonic()
    results.close()  # type: ignore[attr-defined]
    assert time.monotonic() - began < 5 and children() == before


def test_ctrl_c_keeps_what_is_finished() -> None:
    before = children()
    rows: list[Result] = []
    threading.Timer(1.5, os.kill, [os.getpid(), signal.SIGINT]).start()
    with pytest.raises(Stopped) as stopped:
        for result in score_many(["CCO", ENDLESS, "CCC", "c1ccccc1"], jobs=2):
            rows.append(result)
    assert kinds(rows) == [1]
    assert [(place, result.status.value) for place, result in stopped.value.finished] == [(2, "scored"), (3, "ring")]
    assert children() == before


def test_executor_of_threads() -> None:
    with ThreadPoolExecutor(2) as executor:
        assert kinds(list(score_many(MIXED, executor=executor))) == MIXED_KINDS


@pytest.mark.parametrize("method", ["fork", "spawn"])
def test_executor_of_processes(method: str) -> None:
    score("CCO")
    with ProcessPoolExecutor(2, mp_context=get_context(method)) as executor:
        assert kinds(list(score_many(MIXED, executor=executor))) == MIXED_KINDS


def test_executor_that_breaks() -> None:
    """A worker that is lost is a row, and so is every later one."""
    with ProcessPoolExecutor(1, mp_context=get_context("fork")) as executor:
        executor.submit(int).result()
        (worker,) = executor._processes
        threading.Timer(1.0, os.kill, [worker, signal.SIGKILL]).start()
        results = list(score_many(["CCO", ENDLESS, "CCC", "c1ccccc1"], executor=executor))
    assert kinds(results) == [1, "cut off", "cut off", "ring"]
    assert "ended unexpectedly" in results[1].reason and "ended unexpectedly" in results[2].reason


def test_executor_that_is_not_ready() -> None:
    class Broken(Counting):
        def submit(self, call, /, *words, **named):  # type: ignore[no-untyped-def, override]
            future: Future[object] = Future()
            future.set_exception(ModuleNotFoundError("No module named 'pazgelk'"))
            return future

    with pytest.raises(NotReady, match="No module named"):
        score_many(["CCO"], executor=Broken())
