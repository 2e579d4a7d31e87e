"""From a SMILES, a mol block or an RDKit molecule to the record that the engine is given, or to the reason why there is none.

Hydrogens of any isotope are left out with their bonds, so deuterium marks nothing. An atom's class is its mass number, or 1 where none
is given. Stereo, charges and map numbers are not seen. Several parts are one record, which is scored as a mixture. Atoms and bonds of
each part go into the record in RDKit's canonical order, so that one compound or mixture gives one record however it is written.
"""

from __future__ import annotations

import re
from collections import defaultdict
from collections.abc import Sequence
from dataclasses import dataclass
from functools import cached_property
from typing import TYPE_CHECKING, Any

from . import isotopes, messages, records, toolkit
from .model import Result, Status
from .records import MOST_BONDS, MOST_TREES, Tree

if TYPE_CHECKING:
    from rdkit import Chem

HYDROGEN = 1
HYDROGEN_ISOTOPES = {2: "deuterium", 3: "tritium"}
# Groups of a drawing that only name or describe atoms that are all there: data, abbreviations, and mixtures with their components.
HARMLESS_GROUPS = {"DAT", "SUP", "COM", "MIX", "FOR"}
# Elements whose unpaired electron may be a hydrogen left out; a metal's seldom is.
OF_HYDRIDES = frozenset({5, 6, 7, 8, 9, 14, 15, 16, 17, 32, 33, 34, 35, 50, 51, 52, 53})
# The highest atomic number that an element has.
MOST_ELEMENT = 118
_NUMBERED_ATOM = re.compile(r"\[\d*#(\d+)")
_SYMBOL = re.compile(r"[A-Z][a-z]?")
_SMILES_FAULT = re.compile(r"SMILES Parse Error: (.*?)(?: while parsing| for input|: |$)")
_REACTION = re.compile(r"(?<!-)>[^>]*>")
_LONE_DOT = re.compile(r"^\.|\.(?=\.|$)")
_VALENCE = re.compile(r"[Vv]alence for atom # \d+ \w+, (\d+),")


@dataclass(frozen=True)
class Structure:
    """A molecule or a mixture that is searched."""

    trees: tuple[Tree, ...]
    note: str = ""
    # for each bond of the record its number, from 0, in what was read
    bond_numbers: tuple[int, ...] = ()

    @cached_property
    def record(self) -> bytes:
        """What the engine is given."""
        return records.record_of(self.trees)

    @property
    def bonds(self) -> int:
        """How many bonds it has."""
        return sum(len(tree.bonds) for tree in self.trees)


@dataclass(frozen=True)
class _Part:
    """What bonds join: atoms besides hydrogen and the bonds between them, by their numbers in what was read."""

    atoms: tuple[int, ...]
    bonds: tuple[int, ...]

    @property
    def rings(self) -> int:
        """How many bonds could be taken away without taking the part apart."""
        return len(self.bonds) - len(self.atoms) + 1


@dataclass(frozen=True)
class _Graph:
    """All atoms besides hydrogen and all bonds between them, and the parts that they make, by their lowest atoms."""

    atoms: tuple[int, ...]
    bonds: tuple[int, ...]
    parts: tuple[_Part, ...]


class _TurnedBack(Exception):
    """Carries the result of a structure that is not searched."""

    def __init__(self, status: Status, reason: str, bonds: int | None = None) -> None:
        super().__init__(reason)
        self.result = Result(status, reason=reason, bonds=bonds)


def read_smiles(text: str) -> Structure | Result:
    """The structure of a SMILES, or the result of one that is turned back."""
    text = text.strip()
    if not text:
        return Result(Status.NO_STRUCTURE, reason=messages.no_smiles())
    for place, character in enumerate(text, 1):
        if not "!" <= character <= "~":
            told = messages.space_inside(place) if character == " " else messages.stray_character(place, character)
            return Result(Status.UNREADABLE, reason=told)
    fault = isotopes.fault_in_smiles(text) or _atomic_number_fault(text)
    if fault:
        return Result(Status.UNREADABLE, reason=fault)
    with toolkit.silent():
        molecule = _parse_smiles(text)
        if molecule is not None:
            return read_molecule(molecule)
    return Result(Status.UNREADABLE, reason=_smiles_fault(text))


def read_mol_block(block: str) -> Structure | Result:
    """The structure of a mol block (V2000 or V3000), or the result of one that is turned back."""
    if not block.strip():
        return Result(Status.NO_STRUCTURE, reason=messages.no_atoms())
    plain = "".join(character if character in "\t\n\r" or " " <= character <= "~" else "?" for character in block)
    with toolkit.silent():
        molecule = _parse_mol_block(plain)
        if molecule is not None:
            fault = isotopes.fault_in_mol_block(plain, molecule)
            return Result(Status.UNREADABLE, reason=fault) if fault else read_molecule(molecule)
    words = toolkit.words_of(lambda: _parse_mol_block(plain))
    return Result(Status.UNREADABLE, reason=messages.mol_block_not_read(words[-1] if words else ""))


def read_molecule(molecule: Chem.Mol) -> Structure | Result:
    """The structure of an RDKit molecule, which is left as it is, or the result of one that is turned back."""
    left_out = told = ""
    try:
        with toolkit.silent():
            copy = toolkit.chem().RWMol(molecule)
            left_out = _notes_of_hydrogen(copy)
            _look_for_open_places(copy)
            graph = _graph(copy)
            _look_at_size(graph)
            _sanitize(copy)
            _look_at_isotopes(copy, graph)
            told = _notes_of_atoms(copy, graph)
            _look_for_rings(copy, graph)
            _look_at_bonds(copy, graph)
            trees, numbers = _trees(copy, graph)
    except _TurnedBack as turned_back:
        result = turned_back.result
        return Result(result.status, bonds=result.bonds, reason=result.reason, note=_joined(left_out, told))
    return Structure(trees, _joined(left_out, _notes_of_parts(graph), told), numbers)


# Reading with RDKit


def _parse_smiles(text: str) -> Chem.Mol | None:
    parameters = toolkit.chem().SmilesParserParams()
    parameters.sanitize = parameters.removeHs = parameters.allowCXSMILES = parameters.parseName = False
    return toolkit.chem().MolFromSmiles(text, parameters)


def _parse_mol_block(block: str) -> Chem.Mol | None:
    return toolkit.chem().MolFromMolBlock(block, sanitize=False, removeHs=False)


def _atomic_number_fault(text: str) -> str:
    """What is wrong with the first atomic number of a SMILES that no element has, or nothing. RDKit keeps 8 bits of it without a word."""
    for found in _NUMBERED_ATOM.finditer(text):
        if len(found[1]) > len(str(MOST_ELEMENT)) or int(found[1]) > MOST_ELEMENT:
            return messages.no_atomic_number(messages.atom_at_character(found.start() + 1), found[1], MOST_ELEMENT)
    return ""


def _is_symbol(text: str) -> bool:
    """Whether a text is an element's symbol and nothing else."""
    with toolkit.silent():
        return bool(_SYMBOL.fullmatch(text)) and _parse_smiles(f"[{text}]") is not None


def _smiles_fault(text: str) -> str:
    """Why RDKit could not read a SMILES."""
    if text.startswith("InChI="):
        return messages.inchi_not_read()
    if _is_symbol(text):
        return messages.symbol_without_brackets(text)
    if _REACTION.search(text):
        return messages.reaction()
    lone = _LONE_DOT.search(text)
    if lone:
        return messages.lone_dot(lone.start() + 1)
    faults = [_SMILES_FAULT.search(line) for line in toolkit.words_of(lambda: _parse_smiles(text))]
    return messages.smiles_not_read(next((fault[1] for fault in faults if fault), ""))


# What turns a structure back


def _look_for_open_places(molecule: Chem.Mol) -> None:
    """No atom or bond stands for several, no group for a count of units, and no hydrogen joins atoms."""
    if molecule.GetNumAtoms() == 0:
        raise _TurnedBack(Status.NO_STRUCTURE, messages.no_atoms())
    for atom in molecule.GetAtoms():
        if atom.GetAtomicNum() == 0 or atom.HasQuery():
            raise _TurnedBack(Status.UNREADABLE, messages.atom_is_open(_atom(atom)))
        if atom.HasProp("molAttchpt"):
            raise _TurnedBack(Status.UNREADABLE, messages.attachment_point(_atom(atom)))
        if atom.GetAtomicNum() == HYDROGEN and atom.GetDegree() > 1:
            raise _TurnedBack(Status.UNREADABLE, messages.hydrogen_between(_atom(atom), atom.GetDegree()))
    for bond in molecule.GetBonds():
        if bond.HasQuery():
            raise _TurnedBack(Status.UNREADABLE, messages.bond_is_open(_bond(bond)))
    kinds = [group.GetProp("TYPE") for group in toolkit.chem().GetMolSubstanceGroups(molecule)]
    kinds += ["link node"] * molecule.HasProp("_molLinkNodes")
    for kind in kinds:
        if kind not in HARMLESS_GROUPS:
            raise _TurnedBack(Status.UNREADABLE, messages.repeating_unit(kind))


def _look_at_size(graph: _Graph) -> None:
    """There is something besides hydrogen, and not too much of it."""
    if not graph.atoms:
        raise _TurnedBack(Status.HYDROGEN_ONLY, messages.hydrogen_only(), 0)
    count, parts = len(graph.bonds), len(graph.parts)
    if count > MOST_BONDS:
        rings = sum(part.rings for part in graph.parts)
        raise _TurnedBack(Status.TOO_LARGE, messages.too_large(count, MOST_BONDS, parts, rings), count)
    if parts > MOST_TREES:
        raise _TurnedBack(Status.TOO_MANY_PARTS, messages.too_many_parts(parts, MOST_TREES), count)


def _sanitize(molecule: Chem.RWMol) -> None:
    """RDKit takes it for a molecule."""
    chem = toolkit.chem()
    try:
        chem.SanitizeMol(molecule)
    except chem.MolSanitizeException as error:
        raise _TurnedBack(Status.UNREADABLE, _chemical_fault(molecule, error)) from error
    except (RuntimeError, ValueError) as error:
        raise _TurnedBack(Status.UNREADABLE, messages.not_chemistry(str(error).strip().splitlines()[0])) from error


def _look_at_isotopes(molecule: Chem.Mol, graph: _Graph) -> None:
    """Every mass number is one that a class can be."""
    fault = next(filter(None, (isotopes.fault_of_atom(molecule.GetAtomWithIdx(index)) for index in graph.atoms)), "")
    if fault:
        raise _TurnedBack(Status.UNREADABLE, fault, len(graph.bonds))


def _chemical_fault(molecule: Chem.Mol, error: Any) -> str:
    """What RDKit found, with the atoms as we count them."""
    chem, cause = toolkit.chem(), error.cause
    if isinstance(error, chem.KekulizeException):
        return messages.not_kekule([str(index + 1) for index in cause.GetAtomIndices()])
    if not isinstance(error, chem.AtomSanitizeException):
        return messages.not_chemistry(cause.Message())
    where = _atom(molecule.GetAtomWithIdx(cause.GetAtomIdx()))
    valence = _VALENCE.search(cause.Message())
    if valence:
        return messages.too_many_bonds(where, valence[1])
    if isinstance(error, chem.AtomKekulizeException):
        return messages.aromatic_outside(where)
    return messages.not_chemistry(f"{where}: {cause.Message()}")


def _look_for_rings(molecule: Chem.Mol, graph: _Graph) -> None:
    """No part has a ring."""
    rings = sum(part.rings for part in graph.parts)
    if not rings:
        return
    ringed = [
        messages.part(number, len(graph.parts), _atom(molecule.GetAtomWithIdx(part.atoms[0])))
        for number, part in enumerate(graph.parts, 1)
        if part.rings
    ]
    raise _TurnedBack(Status.RING, messages.ring(rings, ringed if len(graph.parts) > 1 else []), len(graph.bonds))


def _look_at_bonds(molecule: Chem.Mol, graph: _Graph) -> None:
    """Every bond is single, double or triple."""
    codes = _bond_codes()
    for number in graph.bonds:
        bond = molecule.GetBondWithIdx(number)
        if bond.GetBondType() not in codes:
            kind = str(bond.GetBondType()).lower()
            raise _TurnedBack(Status.UNREADABLE, messages.other_bond(_bond(bond), kind), len(graph.bonds))


def _bond_codes() -> dict[object, int]:
    """The code that each kind of bond has in a record."""
    kinds = toolkit.chem().BondType
    return {kinds.SINGLE: 1, kinds.DOUBLE: 2, kinds.TRIPLE: 3}


# Names and notes


def _atom(atom: Chem.Atom) -> str:
    return messages.atom(atom.GetIdx() + 1, atom.GetSymbol())


def _bond(bond: Chem.Bond) -> str:
    return messages.bond(bond.GetIdx() + 1, _atom(bond.GetBeginAtom()), _atom(bond.GetEndAtom()))


def _joined(*notes: str) -> str:
    return "; ".join(note for note in notes if note)


def _notes_of_hydrogen(molecule: Chem.Mol) -> str:
    """Which hydrogens are left out that a reader might look for."""
    hydrogens = [atom for atom in molecule.GetAtoms() if atom.GetAtomicNum() == HYDROGEN]
    masses = sorted({atom.GetIsotope() for atom in hydrogens} - {0, 1})
    names = [HYDROGEN_ISOTOPES.get(mass, f"{mass}H") for mass in masses]
    loose = len(hydrogens) < molecule.GetNumAtoms() and any(
        all(neighbour.GetAtomicNum() == HYDROGEN for neighbour in atom.GetNeighbors()) for atom in hydrogens
    )
    return _joined(
        messages.note_of_hydrogen_isotopes(names) if names else "",
        messages.note_of_loose_hydrogen() if loose else "",
    )


def _notes_of_parts(graph: _Graph) -> str:
    """Several parts, which are a mixture; and that there is no bond, which explains a score of 0."""
    return _joined(
        messages.note_of_parts([len(part.bonds) for part in graph.parts]) if len(graph.parts) > 1 else "",
        messages.note_of_no_bond(len(graph.atoms)) if not graph.bonds else "",
    )


def _notes_of_atoms(molecule: Chem.Mol, graph: _Graph) -> str:
    """Isotopes, which are told apart; and radicals, which are often a slip."""
    atoms = [molecule.GetAtomWithIdx(index) for index in graph.atoms]
    marks = [f"{atom.GetIsotope()}{atom.GetSymbol()} at atom {atom.GetIdx() + 1}" for atom in atoms if atom.GetIsotope()]
    radicals = [_atom(atom) for atom in atoms if atom.GetNumRadicalElectrons() and atom.GetAtomicNum() in OF_HYDRIDES]
    return _joined(
        messages.note_of_isotopes(marks) if marks else "",
        messages.note_of_radicals(radicals) if radicals else "",
    )


# The record


def _graph(molecule: Chem.Mol) -> _Graph:
    """The molecule without its hydrogens."""
    atoms = tuple(atom.GetIdx() for atom in molecule.GetAtoms() if atom.GetAtomicNum() != HYDROGEN)
    kept = set(atoms)
    ends = {bond.GetIdx(): (bond.GetBeginAtomIdx(), bond.GetEndAtomIdx()) for bond in molecule.GetBonds()}
    bonds = {number: pair for number, pair in ends.items() if kept.issuperset(pair)}
    return _Graph(atoms, tuple(bonds), _parts(atoms, bonds))


def _parts(atoms: Sequence[int], bonds: dict[int, tuple[int, int]]) -> tuple[_Part, ...]:
    """The parts into which the bonds join the atoms."""
    parent = {atom: atom for atom in atoms}

    def root(atom: int) -> int:
        while parent[atom] != atom:
            parent[atom] = parent[parent[atom]]
            atom = parent[atom]
        return atom

    for first, second in bonds.values():
        parent[root(first)] = root(second)
    of_root: defaultdict[int, tuple[list[int], list[int]]] = defaultdict(lambda: ([], []))
    for atom in atoms:
        of_root[root(atom)][0].append(atom)
    for number, (first, _) in bonds.items():
        of_root[root(first)][1].append(number)
    return tuple(_Part(tuple(one), tuple(other)) for one, other in of_root.values())


def _trees(molecule: Chem.Mol, graph: _Graph) -> tuple[tuple[Tree, ...], tuple[int, ...]]:
    """The parts in the order in which a record has them, and for each of its bonds the number in the molecule."""
    read = sorted((_tree(molecule, part) for part in graph.parts), key=lambda one: records.rank(one[0]))
    return tuple(tree for tree, _ in read), tuple(number for _, numbers in read for number in numbers)


def _tree(molecule: Chem.Mol, part: _Part) -> tuple[Tree, tuple[int, ...]]:
    """A part in its canonical order, and for each of its bonds the number in the molecule."""
    codes = _bond_codes()
    place = _canonical_places(molecule, part)
    atoms = [molecule.GetAtomWithIdx(index) for index in sorted(part.atoms, key=place.__getitem__)]
    bonds = []
    for number in part.bonds:
        bond = molecule.GetBondWithIdx(number)
        low, high = sorted((place[bond.GetBeginAtomIdx()], place[bond.GetEndAtomIdx()]))
        bonds.append((low, high, codes[bond.GetBondType()], number))
    bonds.sort()
    tree = Tree(
        tuple((atom.GetAtomicNum(), isotopes.class_of(atom)) for atom in atoms),
        tuple((low, high, code) for low, high, code, _ in bonds),
    )
    return tree, tuple(number for *_, number in bonds)


def _canonical_places(molecule: Chem.Mol, part: _Part) -> dict[int, int]:
    """Each atom's place in RDKit's canonical order of a molecule that has elements, mass numbers and bonds alone."""
    chem = toolkit.chem()
    bare, index = chem.RWMol(), {}
    for number in part.atoms:
        atom = chem.Atom(molecule.GetAtomWithIdx(number).GetAtomicNum())
        atom.SetIsotope(molecule.GetAtomWithIdx(number).GetIsotope())
        atom.SetNoImplicit(True)
        index[number] = bare.AddAtom(atom)
    for number in part.bonds:
        bond = molecule.GetBondWithIdx(number)
        bare.AddBond(index[bond.GetBeginAtomIdx()], index[bond.GetEndAtomIdx()], bond.GetBondType())
    bare.UpdatePropertyCache(False)
    ranks = chem.CanonicalRankAtoms(bare, includeChirality=False, includeIsotopes=True)
    return {number: ranks[index[number]] for number in part.atoms}
