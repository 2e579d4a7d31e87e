"""Searches on a Dask cluster."""

from __future__ import annotations

from pathlib import Path

import pytest

from compounds import ENDLESS, roast
from pazgelk import Compound, NotReady, Settings, Status, batch, score_many

distributed = pytest.importorskip("distributed")


def test_two_workers(monkeypatch: pytest.MonkeyPatch) -> None:
    """The same rows in the same order, also where a search is cut off."""
    monkeypatch.setenv("PYTHONPATH", str(Path(__file__).resolve().parents[1]))
    compounds = [Compound(name, smiles) for name, smiles in roast()]
    compounds.insert(5, Compound("endless", ENDLESS))
    settings = Settings(time=2)
    with distributed.LocalCluster(n_workers=2, threads_per_worker=1, dashboard_address=None, host="127.0.0.1") as workers:
        with batch.cluster(workers.scheduler_address) as executor:
            there = list(score_many(compounds, settings, executor=executor))
    assert there == list(score_many(compounds, settings))
    assert there[5].status is Status.CUT_OFF


@pytest.mark.parametrize("address", ["tcp://127.0.0.1:1", "nonsense", "", "tcp://no-such-host.invalid:8786"])
def test_no_cluster(address: str) -> None:
    with pytest.raises(NotReady, match="no Dask cluster"):
        with batch.cluster(address):
            pass


def test_no_dask(monkeypatch: pytest.MonkeyPatch) -> None:
    monkeypatch.setitem(__import__("sys").modules, "distributed", None)
    with pytest.raises(NotReady, match="python3-distributed"):
        with batch.cluster("tcp://127.0.0.1:8786"):
            pass
