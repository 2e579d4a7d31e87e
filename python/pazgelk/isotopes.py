"""Mass numbers: which of them are classes, and which RDKit reads as others, or as none, without a word.

RDKit keeps 16 bits of a mass number, takes one of V2000 that is blank or below 0 for none, and drops the decimals of V3000.
"""

from __future__ import annotations

import re
from typing import TYPE_CHECKING

from . import messages

if TYPE_CHECKING:
    from rdkit import Chem

NATURAL = 1
"""The class of an atom without a mass number."""
LEAST, MOST = 2, 254
"""The mass numbers that are classes."""

_LONG_IN_SMILES = re.compile(r"\[(\d{5,})")
_LINE_OF_V2000 = re.compile(r"^M  ISO *(\d+)(.*)$", re.MULTILINE)
_IN_V3000 = re.compile(r"^M  V30.*\sMASS=(\S*)", re.MULTILINE)
_KEPT = re.compile(r"\d{1,4}(\.0*)?")
_ENTRY = 8


def class_of(atom: Chem.Atom) -> int:
    """The class of an atom: its mass number, or 1 where it has none."""
    return atom.GetIsotope() or NATURAL


def fault_of_atom(atom: Chem.Atom) -> str:
    """What is wrong with the mass number of an atom, or nothing."""
    mass = atom.GetIsotope()
    return _fault(messages.atom(atom.GetIdx() + 1, atom.GetSymbol()), str(mass)) if mass and not LEAST <= mass <= MOST else ""


def fault_in_smiles(text: str) -> str:
    """What is wrong with the first mass number of a SMILES that RDKit does not keep, or nothing."""
    found = _LONG_IN_SMILES.search(text)
    return _fault(messages.atom_at_character(found.start() + 1), found[1]) if found else ""


def fault_in_mol_block(block: str, molecule: Chem.Mol) -> str:
    """The same of a mol block that RDKit has read as this molecule."""
    for count, entries in _LINE_OF_V2000.findall(block):
        for place in range(0, _ENTRY * int(count), _ENTRY):
            number, mass = entries[place : place + 4].strip(), entries[place + 4 : place + _ENTRY].strip()
            if not _KEPT.fullmatch(mass):
                return _fault(messages.atom(int(number), molecule.GetAtomWithIdx(int(number) - 1).GetSymbol()), mass)
    return next((_fault(messages.some_atom(), mass) for mass in _IN_V3000.findall(block) if not _KEPT.fullmatch(mass)), "")


def _fault(where: str, mass: str) -> str:
    return messages.no_mass_number(where, mass, LEAST, MOST)
