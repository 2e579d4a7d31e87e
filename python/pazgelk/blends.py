"""Blends: compounds that are scored together, where what is made for one may be used for another."""

from __future__ import annotations

import dataclasses
from collections.abc import Callable, Sequence
from dataclasses import dataclass

from . import messages
from .model import Compound, Result, Status
from .records import MOST_BONDS, MOST_TREES
from .structures import Structure


@dataclass(frozen=True)
class Blend:
    """What compounds score together, and what each of them scores on its own."""

    result: Result
    own: tuple[Result, ...]

    @property
    def sum(self) -> int | None:
        """The own scores added up, or None where one is missing, or all are."""
        scores = [one.score for one in self.own if one.score is not None]
        return sum(scores) if scores and len(scores) == len(self.own) else None

    @property
    def shared(self) -> int | None:
        """How many joins fewer the blend needs than its compounds one by one, or None where that is not known."""
        if self.sum is None or self.result.score is None or self._at_most:
            return None
        return self.sum - self.result.score

    @property
    def _at_most(self) -> bool:
        """Whether there may be lower scores than those found."""
        return any(one.at_most for one in (self.result, *self.own))


def blend_of(result: Result, compounds: Sequence[Compound], own: Sequence[Result]) -> Blend:
    """The blend whose search gave this result; its note says what is shared."""
    blend = Blend(result, tuple(own))
    note = "; ".join(filter(None, [result.note, *_notes(blend, compounds)]))
    return dataclasses.replace(blend, result=dataclasses.replace(result, note=note))


def _notes(blend: Blend, compounds: Sequence[Compound]) -> list[str]:
    """The sum of the own scores and what is shared, or why that is not known."""
    scored = blend.result.status is Status.SCORED
    if blend.sum is None:
        return [messages.note_of_no_sum(_named(compounds, blend.own))] if scored else []
    notes = [messages.note_of_sum(blend.sum, at_most=any(one.at_most for one in blend.own))]
    if blend.shared is not None:
        return [*notes, messages.note_of_shared(blend.shared)]
    return [*notes, messages.note_of_no_share()] if scored else notes


def _named(compounds: Sequence[Compound], found: Sequence[Structure | Result]) -> list[str]:
    """Those of the compounds that have no score, or no structure, each with what became of it."""
    return [
        messages.compound(number, compound.name, one.status.value)
        for number, (compound, one) in enumerate(zip(compounds, found), 1)
        if isinstance(one, Result) and one.score is None
    ]


def read(compounds: Sequence[Compound], read_one: Callable[[Compound], Structure | Result]) -> Structure | Result:
    """The structure of a blend of compounds, or the result of one that is turned back: it is of all its compounds or of none."""
    if not compounds:
        return Result(Status.NO_STRUCTURE, reason=messages.empty_blend())
    if len(compounds) > MOST_TREES:
        return Result(Status.TOO_MANY_PARTS, reason=messages.too_many_compounds(len(compounds), MOST_TREES))
    found = [read_one(compound) for compound in compounds]
    faults = _named(compounds, found)
    if faults:
        return Result(Status.INCOMPLETE, reason=messages.blend_not_whole(faults))
    trees = tuple(tree for one in found if isinstance(one, Structure) for tree in one.trees)
    whole = Structure(trees, messages.note_of_blend(len(compounds)))
    if whole.bonds > MOST_BONDS:
        return Result(Status.TOO_LARGE, bonds=whole.bonds, reason=messages.blend_too_large(whole.bonds, MOST_BONDS))
    if len(trees) > MOST_TREES:
        return Result(Status.TOO_MANY_PARTS, bonds=whole.bonds, reason=messages.blend_of_too_many_parts(len(trees), MOST_TREES))
    return whole
