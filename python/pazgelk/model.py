"""What the parts of the front end hand to each other."""

from __future__ import annotations

import math
from collections.abc import Callable
from dataclasses import dataclass
from enum import Enum
from typing import TYPE_CHECKING, NamedTuple

from . import messages
from .errors import NotStarted

if TYPE_CHECKING:
    from rdkit import Chem

LEAST_MEMORY = 1024 * 1024


class NotReady(NotStarted):
    """Something without which nothing can be scored is missing: the engine, RDKit, a cluster. The text says what to do."""


class Status(str, Enum):
    """What became of a compound. Nothing else reaches the user."""

    SCORED = "scored"
    CUT_OFF = "cut off"
    RING = "ring"
    HYDROGEN_ONLY = "hydrogen only"
    TOO_LARGE = "too large"
    TOO_MANY_PARTS = "too many parts"
    INCOMPLETE = "incomplete"
    NO_STRUCTURE = "no structure"
    UNREADABLE = "unreadable"


class Removal(NamedTuple):
    """A removal of the trail: the number of the match removed, and the bonds of its fragment. Shown as number(size)."""

    match: int
    size: int

    def __str__(self) -> str:
        """As a cell shows it: a spreadsheet reads 4(2) as text, where it would read 4:2 as a time and 4/2 as a date."""
        return f"{self.match}({self.size})"


@dataclass(frozen=True)
class Result:
    """The answer to one compound. `score` is None unless the status is scored."""

    status: Status
    score: int | None = None
    bonds: int | None = None
    reason: str = ""
    note: str = ""
    matches: int | None = None
    states: int | None = None
    removals: tuple[Removal, ...] = ()
    row: int | None = None
    place: int | None = None
    at_most: bool = False


class Stopped(KeyboardInterrupt):
    """The user has stopped a list. `finished` has the rows, by their place, that were finished before one that was not."""

    def __init__(self, finished: list[tuple[int, Result]]) -> None:
        super().__init__()
        self.finished = finished


@dataclass(frozen=True)
class Settings:
    """How compounds are searched: bounds and memo for experts, and the limits of one search."""

    bounds: int = 3
    memo: int = 0
    budget: int = 1_000_000
    memory: int = 256 * 1024 * 1024
    time: float = 60.0

    def __post_init__(self) -> None:
        """Refuses, by a ValueError in words, what no search can be run with."""
        for name, value, least, most in (
            ("bounds", self.bounds, 0, 3),
            ("memo", self.memo, 0, 1),
            ("budget", self.budget, 0, 2**32 - 1),
        ):
            if not least <= value <= most:
                raise ValueError(messages.setting_out_of_range(name, least, most))
        if self.memory < LEAST_MEMORY:
            raise ValueError(messages.too_little_memory(LEAST_MEMORY))
        if math.isnan(self.time) or self.time <= 0:
            raise ValueError(messages.no_time())


@dataclass(frozen=True)
class Compound:
    """A compound of a list: a SMILES, a mol block, an RDKit molecule, a blend of others, or a problem that its reader found."""

    name: str = ""
    smiles: str | None = None
    mol_block: str | None = None
    problem: Result | None = None
    molecule: Chem.Mol | None = None
    blend: tuple[Compound, ...] | None = None


Progress = Callable[[int, Compound], None]
"""What score_many tells while it works: how many rows are finished, and the compound that is waited for, which is none of them.

It is called when a row is finished and several times a second while a search runs, in the thread that asks for rows.
"""


@dataclass(frozen=True)
class Checked:
    """Whether a compound is one that is searched. `status` and `reason` say why not; `record` is what the engine is given."""

    accepted: bool
    status: Status | None = None
    bonds: int | None = None
    reason: str = ""
    note: str = ""
    record: bytes = b""
