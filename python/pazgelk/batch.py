"""Lists of compounds: read, searched side by side, and answered in order."""

from __future__ import annotations

import dataclasses
import os
import queue
import socket
import threading
import time
from collections import deque
from collections.abc import Iterable, Iterator
from concurrent.futures import Executor, Future, wait
from contextlib import contextmanager
from dataclasses import dataclass
from itertools import islice
from typing import TYPE_CHECKING, Protocol

from . import blends, engine, messages, structures, toolkit
from .blends import Blend
from .model import Compound, NotReady, Progress, Result, Settings, Status, Stopped
from .searcher import Searcher, ready, search_in_child
from .structures import Structure

if TYPE_CHECKING:
    from rdkit import Chem

# How many rows may wait for one that is still searched.
WAITING = 20_000
# Seconds between two words to the progress, and for a cluster to answer.
TICK = 0.1
CLUSTER_TIME = 20.0


def score_many(
    compounds: Iterable[Compound | str | Chem.Mol],
    settings: Settings = Settings(),
    *,
    executor: Executor | None = None,
    jobs: int | None = None,
    progress: Progress | None = None,
) -> Iterator[Result]:
    """The results of compounds, one for each and in their order.

    A compound is a Compound, a SMILES or an RDKit molecule. One that stands in the list several times is searched once. Searches
    run side by side: `jobs` at a time (as many as there are processors where it is None), or where the executor runs them, which
    may be any of concurrent.futures. `progress` is told how far the list is (see model.Progress). Where the iterator is closed
    early, the searches end.

    Raises NotReady where the engine, RDKit or the executor's workers are missing, and Stopped, with the rows that are finished and
    not yet given, where the user stops it (Ctrl-C).
    """
    engine.library()
    toolkit.chem()
    place = _place(executor, jobs)
    return _results(map(compound_of, compounds), settings, place, _Ticker(progress))


def score_blend(
    compounds: Iterable[Compound | str | Chem.Mol],
    settings: Settings = Settings(),
    *,
    executor: Executor | None = None,
    jobs: int | None = None,
    progress: Progress | None = None,
) -> Blend:
    """Compounds scored together, where what is made for one may be used for another, and each on its own.

    Its words are those of score_many, and it raises the same. Where a compound has no structure that is searched, the blend is
    turned back, and its reason names that compound.

    >>> blend = score_blend(["CCCCC", "CCCC"])
    >>> blend.result.score, blend.sum, blend.shared
    (3, 4, 1)
    """
    members = tuple(map(compound_of, compounds))
    found = score_many((*members, Compound(blend=members)), settings, executor=executor, jobs=jobs, progress=progress)
    *own, joint = found
    return blends.blend_of(joint, members, own)


def read(compound: Compound) -> Structure | Result:
    """The structure of a compound, or the result of one that is turned back."""
    if compound.problem is not None:
        return compound.problem
    if compound.blend is not None:
        return blends.read(compound.blend, read)
    if compound.molecule is not None:
        return structures.read_molecule(compound.molecule)
    if compound.mol_block is not None:
        return structures.read_mol_block(compound.mol_block)
    return structures.read_smiles(compound.smiles or "")


def read_given(given: Compound | str | Chem.Mol) -> Structure | Result:
    """The structure of what a caller may give."""
    return read(compound_of(given))


def compound_of(given: Compound | str | Chem.Mol) -> Compound:
    """The compound of what a caller may give."""
    if isinstance(given, Compound):
        return given
    if isinstance(given, str):
        return Compound(name=given, smiles=given)
    return Compound(molecule=given)


def with_structure(result: Result, structure: Structure) -> Result:
    """The result of a search, with what reading the structure told."""
    note = "; ".join(filter(None, [structure.note, result.note]))
    return dataclasses.replace(result, bonds=structure.bonds, note=note)


def processors() -> int:
    """How many processors this process may use."""
    return len(os.sched_getaffinity(0))


@contextmanager
def cluster(address: str) -> Iterator[Executor]:
    """The executor of the Dask cluster whose scheduler is at the address. Raises NotReady where there is none."""
    try:
        from distributed import Client
        from distributed.comm.addressing import get_address_host_port
    except ImportError as error:
        raise NotReady(messages.no_distributed()) from error
    try:
        # a client that finds no scheduler is slow to give up, and noisy: so somebody must answer first
        socket.create_connection(get_address_host_port(address), CLUSTER_TIME).close()
        client = Client(address, timeout=CLUSTER_TIME, set_as_default=False)
    except (OSError, TimeoutError, ValueError) as error:
        raise NotReady(messages.no_cluster(address, error)) from error
    with client:
        yield client.get_executor()


# Where searches run


class _Place(Protocol):
    """Where searches run."""

    def submit(self, record: bytes, settings: Settings) -> Future[Result]:
        """Begins a search, at once or later."""

    def close(self) -> None:
        """Ends what can be ended."""


def _place(executor: Executor | None, jobs: int | None) -> _Place:
    """Where the searches of a list run."""
    if executor is None:
        return _Local(jobs or processors())
    return _Elsewhere(executor)


_Request = tuple[Future[Result], bytes, Settings]


class _Local:
    """On this machine: so many searches at a time, each in the child process of a thread.

    The threads are daemons, so that a program that leaves a list half read ends at once.
    """

    def __init__(self, jobs: int) -> None:
        self._requests: queue.SimpleQueue[_Request | None] = queue.SimpleQueue()
        self._searchers = [Searcher() for _ in range(jobs)]
        self._closed = False
        self._threads = [
            threading.Thread(target=self._serve, args=(searcher,), name="pazgelk", daemon=True) for searcher in self._searchers
        ]
        for thread in self._threads:
            thread.start()

    def submit(self, record: bytes, settings: Settings) -> Future[Result]:
        future: Future[Result] = Future()
        self._requests.put((future, record, settings))
        return future

    def close(self) -> None:
        self._closed = True
        for _ in self._threads:
            self._requests.put(None)
        for searcher in self._searchers:
            searcher.close()
        for thread in self._threads:
            thread.join()

    def _serve(self, searcher: Searcher) -> None:
        """Searches one request after the other; those that are left at the end are dropped."""
        while (request := self._requests.get()) is not None and not self._closed:
            future, record, settings = request
            try:
                future.set_result(searcher.search(record, settings))
            except BaseException as error:
                future.set_exception(error)


class _Elsewhere:
    """Where an executor runs them. It is another's: at the end only searches that have not begun are taken back."""

    def __init__(self, executor: Executor) -> None:
        self._executor = executor
        self._begun: list[Future[Result]] = []
        try:
            executor.submit(ready).result()
        except NotReady:
            raise
        except Exception as error:
            raise NotReady(messages.executor_not_ready(error)) from error

    def submit(self, record: bytes, settings: Settings) -> Future[Result]:
        future = self._executor.submit(search_in_child, record, settings)
        self._begun.append(future)
        return future

    def close(self) -> None:
        for future in self._begun:
            future.cancel()


# Rows on their way


@dataclass(frozen=True)
class _Row:
    """A compound with its number in the list, from 0, and its result or the search that will give it."""

    number: int
    compound: Compound
    found: Result | Future[Result]
    structure: Structure | None = None

    def done(self) -> bool:
        """Whether the result is there."""
        return isinstance(self.found, Result) or self.found.done()

    def result(self) -> Result:
        """The result, with what reading the structure told."""
        result = self.found if isinstance(self.found, Result) else _outcome(self.found)
        return result if self.structure is None else with_structure(result, self.structure)


class _Ticker:
    """Tells the progress how far the list is, not too often."""

    def __init__(self, progress: Progress | None) -> None:
        self._progress = progress
        self._told = time.monotonic()

    def tell(self, waiting: deque[_Row]) -> None:
        """These rows wait; those before them are given. The first is the one that is named, so it is not counted, even where it is just done."""
        now = time.monotonic()
        if self._progress is None or not waiting or now - self._told < TICK:
            return
        self._told = now
        done = sum(row.done() for row in islice(waiting, 1, None))
        self._progress(waiting[0].number + done, waiting[0].compound)


def _results(compounds: Iterator[Compound], settings: Settings, place: _Place, ticker: _Ticker) -> Iterator[Result]:
    """Reads ahead, and gives each row as soon as it and all before it are done."""
    waiting: deque[_Row] = deque()
    begun: dict[bytes, Future[Result]] = {}
    try:
        for number, compound in enumerate(compounds):
            waiting.append(_row(number, compound, settings, place, begun))
            ticker.tell(waiting)
            while waiting and (waiting[0].done() or len(waiting) > WAITING):
                yield _first(waiting, ticker)
        while waiting:
            yield _first(waiting, ticker)
    except KeyboardInterrupt:
        raise Stopped([(row.number, row.result()) for row in waiting if row.done()]) from None
    finally:
        place.close()


def _first(waiting: deque[_Row], ticker: _Ticker) -> Result:
    """Waits until the first row is done, and takes it off."""
    found = waiting[0].found
    while isinstance(found, Future) and not found.done():
        wait([found], timeout=TICK)
        ticker.tell(waiting)
    return waiting.popleft().result()


def _row(number: int, compound: Compound, settings: Settings, place: _Place, begun: dict[bytes, Future[Result]]) -> _Row:
    """Reads a compound and begins its search, where it is not begun already."""
    structure = read(compound)
    if isinstance(structure, Result):
        return _Row(number, compound, structure)
    if structure.record not in begun:
        try:
            begun[structure.record] = place.submit(structure.record, settings)
        except RuntimeError as error:
            return _Row(number, compound, _lost(error), structure)
    return _Row(number, compound, begun[structure.record], structure)


def _outcome(future: Future[Result]) -> Result:
    """What a search gave. One that was lost is a result too."""
    try:
        return future.result()
    except Exception as error:
        return _lost(error)


def _lost(error: BaseException) -> Result:
    """The result of a search whose process or machine is gone."""
    detail = f"{type(error).__name__}: {error}".rstrip(": ")
    return Result(Status.CUT_OFF, reason=messages.ended_unexpectedly(detail))
