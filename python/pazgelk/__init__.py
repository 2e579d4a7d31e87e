"""Assembly scores of ring-free molecules, with proofs.

>>> import pazgelk
>>> pazgelk.score("CC(C)CC=O").score
3
>>> pazgelk.score("c1ccccc1").reason
'it has a ring: only ring-free molecules are scored'

A compound is a SMILES, an RDKit molecule or a Compound. One of several parts is scored as a mixture, and score_blend scores several
compounds together. Nothing is scored that the engine does not score: a result whose status is not scored has no score, and says why.
"""

from __future__ import annotations

from collections.abc import Iterable
from typing import TYPE_CHECKING

from . import batch, engine, messages
from .batch import score_blend, score_many
from .blends import Blend
from .model import Checked, Compound, NotReady, Removal, Result, Settings, Status
from .searcher import search_in_child
from .structures import Structure

if TYPE_CHECKING:
    from rdkit import Chem

__version__ = "0.1.0"
__all__ = [
    "Blend",
    "Checked",
    "Compound",
    "NotReady",
    "Removal",
    "Result",
    "Settings",
    "Status",
    "check",
    "label",
    "score",
    "score_blend",
    "score_many",
]


def score(compound: Compound | str | Chem.Mol, settings: Settings = Settings()) -> Result:
    """The result of one compound: its score, or why it has none.

    >>> result = score("CCCCC")
    >>> result.status.value, result.score, result.bonds
    ('scored', 2, 4)
    >>> result.removals
    (Removal(match=0, size=2),)
    >>> score("[Ar]").score, score("[Ar]").note
    (0, 'one atom besides hydrogen: there is nothing to join')
    """
    structure = batch.read_given(compound)
    if isinstance(structure, Result):
        return structure
    return batch.with_structure(search_in_child(structure.record, settings), structure)


def check(compound: Compound | str | Chem.Mol) -> Checked:
    """Whether a compound is one that is searched, and if not, why; nothing is searched.

    >>> check("CCO").accepted, check("C1CC1").status.value
    (True, 'ring')
    """
    structure = batch.read_given(compound)
    if isinstance(structure, Result):
        return Checked(False, structure.status, structure.bonds, structure.reason, structure.note)
    reply = engine.check(structure.record)
    if reply.number:
        reason = messages.refused_by_engine(reply.number, reply.place)
        return Checked(False, Status.UNREADABLE, structure.bonds, reason, structure.note, structure.record)
    return Checked(True, None, structure.bonds, "", structure.note, structure.record)


def label(compound: Compound | str | Chem.Mol, bonds: Iterable[int] | None = None) -> bytes:
    """The label of a connected set of a compound's bonds: all of them, or those with the given numbers.

    Bonds are numbered from 0, as RDKit numbers them; bonds to hydrogen have no part. Two sets, of one compound or of two, have equal
    labels exactly when an isomorphism that keeps elements, isotopes and kinds of bonds joins them. Raises ValueError for a compound that is
    not searched, and for a set that is empty (a lone atom has no other) or not connected or has a bond that is not there.

    >>> label("CCO") == label("OCC"), label("CCCO", [0, 1]) == label("CCCO", [1, 2])
    (True, False)
    """
    structure = batch.read_given(compound)
    if isinstance(structure, Result):
        raise ValueError(structure.reason)
    chosen = _set(structure, bonds)
    found = engine.label(structure.record, chosen)
    if isinstance(found, engine.Reply):
        raise ValueError(messages.no_fragment(empty=not chosen))
    return found


def _set(structure: Structure, bonds: Iterable[int] | None) -> int:
    """The set of bonds as the engine has it: bit i is bond i of the record."""
    if bonds is None:
        return (1 << structure.bonds) - 1
    places = {number: place for place, number in enumerate(structure.bond_numbers)}
    try:
        return sum({1 << places[number] for number in bonds})
    except KeyError as error:
        raise ValueError(messages.no_such_bond(error.args[0])) from None
