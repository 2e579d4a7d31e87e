"""From structures to records, with the real RDKit."""

from __future__ import annotations

import random
import time

import pytest
from rdkit import Chem

from compounds import PEPTIDE
from pazgelk import engine
from pazgelk.model import Result, Status
from pazgelk.structures import Structure, read_mol_block, read_molecule, read_smiles


def record(smiles: str) -> bytes:
    """The record of a SMILES that is searched."""
    structure = read_smiles(smiles)
    assert isinstance(structure, Structure), structure
    return structure.record


def turned_back(found: Structure | Result) -> Result:
    assert isinstance(found, Result), found
    assert found.score is None and found.reason
    return found


@pytest.mark.parametrize(
    ("smiles", "status", "bonds", "words"),
    [
        ("", Status.NO_STRUCTURE, None, "empty"),
        (" \t\u00a0\n", Status.NO_STRUCTURE, None, "empty"),
        ("CCCC–CCCC", Status.UNREADABLE, None, "character 5 ('–', U+2013 en dash)"),
        ("CC\u200bC", Status.UNREADABLE, None, "character 3 (U+200B zero width space)"),
        ("CC\x00C", Status.UNREADABLE, None, "character 3 (U+0000)"),
        ("\ufeffCC", Status.UNREADABLE, None, "character 1 (U+FEFF"),
        ("ССО", Status.UNREADABLE, None, "U+0421 cyrillic capital letter es"),
        ("CC\ud800", Status.UNREADABLE, None, "character 3 (U+D800)"),
        ("CCO ethanol", Status.UNREADABLE, None, "character 4 is a blank"),
        ("CCO |^1:0|", Status.UNREADABLE, None, "character 4 is a blank"),
        ("C(C", Status.UNREADABLE, None, "extra open parentheses"),
        ("CC)", Status.UNREADABLE, None, "extra close parentheses"),
        ("C1CC", Status.UNREADABLE, None, "unclosed ring"),
        ("n/a", Status.UNREADABLE, None, "syntax error"),
        ("hexanal", Status.UNREADABLE, None, "cannot be read as a SMILES"),
        ("InChI=1S/CH4/h1H4", Status.UNREADABLE, None, "InChI"),
        ("CCO>>CC=O", Status.UNREADABLE, None, "this is a reaction"),
        ("CCO.O>[Na+]>CC=O.O", Status.UNREADABLE, None, "this is a reaction"),
        ("CCO.", Status.UNREADABLE, None, "character 4 is a dot with no part beside it"),
        (".CCO", Status.UNREADABLE, None, "character 1 is a dot with no part beside it"),
        ("CCO..O", Status.UNREADABLE, None, "character 4 is a dot with no part beside it"),
        ("CCO.O(", Status.UNREADABLE, None, "cannot be read as a SMILES"),
        ("CN(C)(C)C", Status.UNREADABLE, None, "atom 2 (N) has a valence of 4"),
        ("[CH5]C", Status.UNREADABLE, None, "atom 1 (C) has a valence of 6"),
        ("c1cccn1", Status.UNREADABLE, None, "aromatic atoms 1, 2, 3, 4, 5"),
        ("CcC", Status.UNREADABLE, None, "atom 2 (C) is written as aromatic"),
        ("*CC", Status.UNREADABLE, None, "atom 1 (*)"),
        ("*", Status.UNREADABLE, None, "atom 1 (*)"),
        ("[*H2]", Status.UNREADABLE, None, "atom 1 (*)"),
        ("[#0]", Status.UNREADABLE, None, "atom 1 (*)"),
        ("[#119]", Status.UNREADABLE, None, "the atom at character 1 has the atomic number 119: elements have 1 to 118"),
        ("[#300]", Status.UNREADABLE, None, "the atom at character 1 has the atomic number 300"),
        ("C[#262]", Status.UNREADABLE, None, "the atom at character 2 has the atomic number 262"),
        ("[#6H3][13#262H3]", Status.UNREADABLE, None, "the atom at character 7 has the atomic number 262"),
        ("[#" + "9" * 5000 + "]", Status.UNREADABLE, None, "the atom at character 1 has the atomic number 999"),
        ("[Xx]", Status.UNREADABLE, None, "cannot be read as a SMILES"),
        ("Ar", Status.UNREADABLE, None, "write [Ar]"),
        ("Xx", Status.UNREADABLE, None, "cannot be read as a SMILES: syntax error"),
        ("CC[*:1]", Status.UNREADABLE, None, "atom 3 (*)"),
        ("CC~C", Status.UNREADABLE, None, "bond 2 (from atom 2 (C) to atom 3 (C))"),
        ("C[Fe]<-O", Status.UNREADABLE, 2, "is dative"),
        ("CCO.C[Fe]<-O", Status.UNREADABLE, 4, "bond 4 (from atom 6 (O) to atom 5 (Fe)) is dative"),
        ("C$C", Status.UNREADABLE, 1, "is quadruple"),
        ("C:C", Status.UNREADABLE, 1, "is aromatic"),
        ("C[300CH3]", Status.UNREADABLE, 1, "atom 2 (C) has the mass number 300: write one from 2 to 254"),
        ("C[255CH3]", Status.UNREADABLE, 1, "atom 2 (C) has the mass number 255"),
        ("C[1CH3]", Status.UNREADABLE, 1, "atom 2 (C) has the mass number 1:"),
        ("[1OH]C[999CH3]", Status.UNREADABLE, 2, "atom 1 (O) has the mass number 1:"),
        ("[300CH4]", Status.UNREADABLE, 0, "mass number 300"),
        ("[1OH2]", Status.UNREADABLE, 0, "atom 1 (O) has the mass number 1:"),
        ("[255Ar]", Status.UNREADABLE, 0, "atom 1 (Ar) has the mass number 255:"),
        ("[65576Ar]", Status.UNREADABLE, None, "the atom at character 1 has the mass number 65576"),
        ("[300CH2]1CC1", Status.UNREADABLE, 3, "mass number 300"),
        ("C[65536CH3]", Status.UNREADABLE, None, "the atom at character 2 has the mass number 65536"),
        ("C[65549CH3]", Status.UNREADABLE, None, "the atom at character 2 has the mass number 65549"),
        ("C[99999999999CH3]", Status.UNREADABLE, None, "the mass number 99999999999"),
        ("[-13CH3]C", Status.UNREADABLE, None, "cannot be read as a SMILES"),
        ("[13CH5]C", Status.UNREADABLE, None, "atom 1 (C) has a valence of 6"),
        ("[CH5]", Status.UNREADABLE, None, "atom 1 (C) has a valence of 5"),
        ("C[H]C", Status.UNREADABLE, None, "atom 2 (H) is a hydrogen with 2 bonds"),
        ("[H]1[BH2][H][BH2]1", Status.UNREADABLE, None, "hydrogen with 2 bonds"),
        ("[H][H]", Status.HYDROGEN_ONLY, 0, "nothing but hydrogen"),
        ("[2H][2H]", Status.HYDROGEN_ONLY, 0, "nothing but hydrogen"),
        ("[H+]", Status.HYDROGEN_ONLY, 0, "nothing but hydrogen"),
        ("[H].[H]", Status.HYDROGEN_ONLY, 0, "nothing but hydrogen"),
        ("CCO.CN(C)(C)C", Status.UNREADABLE, None, "atom 5 (N) has a valence of 4"),
        ("CCO.*", Status.UNREADABLE, None, "atom 4 (*)"),
        ("CCO.[300CH4]", Status.UNREADABLE, 2, "atom 4 (C) has the mass number 300"),
        ("C" + ".C" * 8, Status.TOO_MANY_PARTS, 0, "9 parts that no bond joins: at most 8 are scored together"),
        ("C1CC1" + ".CC" * 8, Status.TOO_MANY_PARTS, 11, "9 parts"),
        ("C." * 5000 + "C", Status.TOO_MANY_PARTS, 0, "5,001 parts"),
        ("CCO.C1CC1", Status.RING, 5, "part 2 of 2 (from atom 4 (C)) has a ring: only ring-free molecules are scored"),
        ("[H+].C1CC1.O", Status.RING, 3, "part 1 of 2 (from atom 2 (C)) has a ring"),
        ("C1CC1.O.C1CC1", Status.RING, 6, "part 1 of 3 (from atom 1 (C)) and part 3 of 3 (from atom 5 (C)) have 2 rings"),
        ("c1ccccc1", Status.RING, 6, "a ring"),
        ("C1CC1C1CC1", Status.RING, 7, "2 rings"),
        ("Cn1cnc2c1c(=O)n(C)c(=O)n2C", Status.RING, 15, "2 rings"),
        ("C" * 66, Status.TOO_LARGE, 65, "65 bonds: at most 64"),
        ("C" * 2000, Status.TOO_LARGE, 1999, "1,999 bonds"),
        ("C1CC1" * 40, Status.TOO_LARGE, 159, "with 40 rings"),
        ("C" * 40 + "." + "C" * 40, Status.TOO_LARGE, 78, "78 bonds in 2 parts: at most 64 are scored together; give parts"),
        ("C" * 34 + "." + "C" * 33, Status.TOO_LARGE, 65, "65 bonds in 2 parts"),
        ("CC." * 70 + "C", Status.TOO_LARGE, 70, "70 bonds in 71 parts"),
    ],
)
def test_turned_back(smiles: str, status: Status, bonds: int | None, words: str) -> None:
    began = time.monotonic()
    found = turned_back(read_smiles(smiles))
    assert (found.status, found.bonds) == (status, bonds)
    assert words in found.reason
    assert time.monotonic() - began < 2


@pytest.mark.parametrize(
    ("smiles", "bonds", "note"),
    [
        ("CCO", 2, ""),
        ("  CCO\r\n", 2, ""),
        ("[CH3][CH2][OH]", 2, ""),
        ("[H]C([H])([H])C([H])([H])O[H]", 2, ""),
        ("C" * 65, 64, ""),
        ("[CH3:7]C", 1, ""),
        ("N#N", 1, ""),
        ("CS(C)(=O)=O", 4, ""),
        ("[2H]C([2H])([2H])SC([2H])([2H])[2H]", 2, "deuterium left out as hydrogen"),
        ("[3H]CC", 1, "tritium left out as hydrogen"),
        ("[1H]CC", 1, ""),
        ("[300H]CC", 1, "300H left out as hydrogen"),
        ("[2H][13CH2]C", 1, "deuterium left out as hydrogen, which marks nothing; isotopes are told apart: 13C at atom 2"),
        ("[15NH3+]CC([O-])=O", 4, "15N at atom 1"),
        ("[0CH3]C", 1, ""),
        ("[13CH3][13C](=O)O", 3, "13C at atom 1, 13C at atom 2"),
        ("C[CH2]", 1, "radical at atom 2 (C)"),
        ("[O][O]", 1, "radical at atom 1 (O), atom 2 (O)"),
        ("[O-]S([O-])(=O)=O.[Cu+2]", 4, "2 parts scored together as one mixture, with 4 and 0 bonds"),
        ("C[Hg]", 1, ""),
        ("CC(=O)[O-].[H+]", 3, "hydrogen beside the molecule left out"),
        ("CCO.[H][H].[2H][2H]", 2, "deuterium left out as hydrogen, which marks nothing; hydrogen beside the molecule left out"),
        ("C1.O1.C", 1, "2 parts scored together as one mixture, with 1 and 0 bonds"),
        ("CCO.O", 2, "2 parts scored together as one mixture, with 2 and 0 bonds"),
        ("O.CCO", 2, "2 parts scored together as one mixture, with 0 and 2 bonds"),
        ("CC(=O)[O-].[Na+]", 3, "2 parts scored together as one mixture, with 3 and 0 bonds"),
        ("CC.CC.CC.CC.CC.CC.CC.CC", 8, "8 parts scored together as one mixture, with 1, 1, 1, 1, 1, 1, 1 and 1 bonds"),
        ("C" * 33 + "." + "C" * 33 + ".O" * 6, 64, "8 parts scored together"),
        ("C.C1CC.[13CH3]1", 3, "2 parts scored together as one mixture, with 0 and 3 bonds; isotopes are told apart: 13C at atom 5"),
    ],
)
def test_read(smiles: str, bonds: int, note: str) -> None:
    found = read_smiles(smiles)
    assert isinstance(found, Structure)
    assert found.bonds == bonds == found.record[1]
    assert (note in found.note) if note else found.note == ""
    assert ("radical" in note) == ("radical" in found.note)
    assert engine.check(found.record) == (0, 0)


LONE = "one atom besides hydrogen: there is nothing to join"


@pytest.mark.parametrize(
    ("smiles", "atom", "note"),
    [
        ("[Ar]", "1201", LONE),
        ("[#18]", "1201", LONE),
        ("[Og]", "7601", LONE),
        ("O", "0801", LONE),
        ("[OH2]", "0801", LONE),
        ("[H]O[H]", "0801", LONE),
        ("[OH-]", "0801", LONE),
        ("C", "0601", LONE),
        ("S", "1001", LONE),
        ("[NH4+]", "0701", LONE),
        ("[Na+]", "0b01", LONE),
        ("[2H]O[2H]", "0801", f"deuterium left out as hydrogen, which marks nothing; {LONE}"),
        ("[3H]Cl", "1101", f"tritium left out as hydrogen, which marks nothing; {LONE}"),
        ("[H+].[Cl-]", "1101", f"hydrogen beside the molecule left out; {LONE}"),
        ("[13CH4]", "060d", f"{LONE}; isotopes are told apart: 13C at atom 1"),
        ("[254Hg]", "50fe", f"{LONE}; isotopes are told apart: 254Hg at atom 1"),
        ("[O]", "0801", f"{LONE}; radical at atom 1 (O): is a hydrogen missing?"),
    ],
)
def test_lone_atoms(smiles: str, atom: str, note: str) -> None:
    """Their record is that of one atom without a bond, which the engine takes."""
    found = read_smiles(smiles)
    assert isinstance(found, Structure)
    assert (found.record, found.bonds, found.note) == (bytes.fromhex("0100" + atom), 0, note)
    assert engine.check(found.record) == (0, 0)


@pytest.mark.parametrize(
    ("smiles", "written"),
    [
        ("[Na+].[Cl-]", "0200 0b11 0101"),
        ("[Cl-].[Na+]", "0200 0b11 0101"),
        ("[Na+].[13CH4].[H+]", "0200 060b 0d01"),
        ("O.CCO", "0402 06080608 01010101 0002 0102 0101"),
    ],
)
def test_records_of_mixtures(smiles: str, written: str) -> None:
    """Parts with more bonds come first, and atoms and bonds are numbered part by part."""
    assert record(smiles) == bytes.fromhex(written.replace(" ", ""))


MIXTURE = ["CC(C)CC=O", "CCC(C)C=O", "CC(C)CC=O", "CC([O-])=O", "[Na+]", "O", "[13CH3]CO", "O"]


def test_writings_of_a_mixture() -> None:
    """However its parts are ordered and written, a mixture is one record, which holds those of its parts."""
    numbers = random.Random(9)
    found = set()
    for _ in range(60):
        parts = numbers.sample(MIXTURE, len(MIXTURE))
        written = [Chem.MolToSmiles(Chem.MolFromSmiles(part), doRandom=True, canonical=False) for part in parts]
        found.add(record(".".join(written)))
    assert len(found) == 1
    (one,) = found
    assert (one[0], one[1]) == (28, 20) and engine.check(one) == (0, 0)
    assert one != record(".".join(MIXTURE[1:])) and one != record(".".join([*MIXTURE[:-1], "N"]))


def test_most_atoms() -> None:
    """64 bonds in 8 parts: 72 atoms."""
    one = record(".".join(["C" * 9] * 8))
    assert (one[0], one[1], len(one)) == (72, 64, 2 + 2 * 72 + 3 * 64) and engine.check(one) == (0, 0)


@pytest.mark.parametrize(
    ("one", "other"),
    [
        ("CSC", "[2H]C([2H])([2H])SC([2H])([2H])[2H]"),
        ("CC(C)C[C@H](N)C(=O)O", "CC(C)CC([NH3+])C(=O)[O-]"),
        (r"CCCCCC/C=C/C=O", "CCCCCCC=CC=O"),
        ("CC(C)=CCC/C(C)=C/CO", r"CC(C)=CCC/C(C)=C\CO"),
        ("CC(=O)O", "CC(=O)[OH:3]"),
        ("[13CH3]CO", "OC[13CH3]"),
        ("[13CH3]CO", "[2H]OC([2H])[13C]([2H])([2H])[2H]"),
        ("[13CH3]C([15NH3+])C([O-])=O", "OC(=O)[C@H]([15NH2])[13CH3]"),
        ("[0CH3]CO", "CCO"),
        ("CN(=O)=O", "C[N+](=O)[O-]"),
    ],
)
def test_one_compound_one_record(one: str, other: str) -> None:
    assert record(one) == record(other)


@pytest.mark.parametrize("marked", [{}, {1: 13, 2: 13, 8: 15}, {number: 13 + number % 2 for number in range(20)}])
def test_writings_of_a_peptide(marked: dict[int, int]) -> None:
    molecule = Chem.MolFromSmiles(PEPTIDE)
    for number, mass in marked.items():
        molecule.GetAtomWithIdx(number).SetIsotope(mass)
    writings = {Chem.MolToSmiles(molecule, doRandom=True, canonical=False) for _ in range(60)}
    assert len(writings) > 40
    assert len({record(writing) for writing in writings} | {record(Chem.MolToSmiles(molecule))}) == 1


def test_classes() -> None:
    """The class bytes stand behind the element codes, in the same order; without an isotope each is 1."""

    def atoms(smiles: str) -> list[tuple[int, int]]:
        found = record(smiles)
        count = found[0]
        assert len(found) == 2 + 2 * count + 3 * found[1] and engine.check(found) == (0, 0)
        return sorted(zip(found[2 : 2 + count], found[2 + count : 2 + 2 * count]))

    assert atoms("CCO") == [(6, 1), (6, 1), (8, 1)]
    assert atoms("C[13CH2]O") == [(6, 1), (6, 13), (8, 1)]
    assert atoms("[12CH3][254CH2][18OH]") == [(6, 12), (6, 254), (8, 18)]
    assert atoms("[2CH3]C") == [(6, 1), (6, 2)]


def test_a_natural_record_is_the_one_without_isotopes() -> None:
    """Marks aside, a marked compound has the atoms and bonds of the natural one."""
    plain, marked = record("CC(=O)O"), record("[13CH3][13C](=O)[18OH]")
    assert plain != marked and sorted(plain[2:6]) == sorted(marked[2:6]) and len(plain) == len(marked)


def test_different_compounds_have_different_records() -> None:
    smiles = ["CCO", "CCS", "COC", "CC=O", "C=CO", "CCN", "C#CO", "CC(C)O", "CCCO", "[13CH3]CO", "[14CH3]CO", "C[13CH2]O", "CC[18OH]"]
    assert len({record(text) for text in smiles}) == len(smiles)


def test_rdkit_molecules() -> None:
    molecule = Chem.AddHs(Chem.MolFromSmiles("CCO"))
    before = Chem.MolToMolBlock(molecule)
    found = read_molecule(molecule)
    assert isinstance(found, Structure) and found.record == record("OCC")
    assert Chem.MolToMolBlock(molecule) == before
    assert turned_back(read_molecule(Chem.MolFromSmiles("c1ccccc1"))).status is Status.RING
    assert "atom 1" in turned_back(read_molecule(Chem.MolFromSmarts("[C,N]C"))).reason
    assert turned_back(read_molecule(Chem.Mol())).status is Status.NO_STRUCTURE


def test_numbers_of_bonds() -> None:
    """The record's bonds, by their numbers in what was read, are the molecule's bonds between atoms besides hydrogen."""
    molecule = Chem.MolFromSmiles("[H]OC(=O)C")
    found = read_molecule(Chem.AddHs(molecule))
    assert isinstance(found, Structure)
    assert sorted(found.bond_numbers) == [bond.GetIdx() for bond in molecule.GetBonds()]


def test_numbers_of_bonds_of_a_mixture() -> None:
    """They lead from the record, whose parts stand in another order, to the molecule's bonds."""
    molecule = Chem.MolFromSmiles("O.N#C.CC(=O)S")
    found = read_molecule(molecule)
    assert isinstance(found, Structure)
    atoms, bonds = found.record[:2]
    elements, ends = found.record[2 : 2 + atoms], found.record[2 + 2 * atoms : 2 + 2 * atoms + 2 * bonds]
    written = [{elements[ends[2 * place]], elements[ends[2 * place + 1]]} for place in range(bonds)]
    assert sorted(found.bond_numbers) == [0, 1, 2, 3] and written[-1] == {6, 7}
    for place, number in enumerate(found.bond_numbers):
        bond = molecule.GetBondWithIdx(number)
        assert written[place] == {bond.GetBeginAtom().GetAtomicNum(), bond.GetEndAtom().GetAtomicNum()}


def test_rdkit_is_silent(capfd: pytest.CaptureFixture[str]) -> None:
    for text in ("C(C", "CN(C)(C)C", "CCO"):
        read_smiles(text)
    read_mol_block("no mol block\n")
    read_mol_block(block(["C", "C"], [(1, 2, 0)]))
    assert capfd.readouterr() == ("", "")


def block(
    atoms: list[str], bonds: list[tuple[int, int, int]], *properties: str, title: str = "title", offsets: dict[int, int] = {}
) -> str:
    """A mol block of version V2000. Offsets are the mass differences of its atoms, by their numbers."""
    lines = [title, "  drawn", "", f"{len(atoms):3}{len(bonds):3}  0  0  0  0  0  0  0  0999 V2000"]
    lines += [
        f"{0:10.4f}{0:10.4f}{0:10.4f} {symbol:<3}{offsets.get(number, 0):2}  0  0  0  0  0  0  0  0  0  0  0"
        for number, symbol in enumerate(atoms, 1)
    ]
    lines += [f"{first:3}{second:3}{kind:3}  0" for first, second, kind in bonds]
    return "\n".join([*lines, *properties, "M  END", ""])


CHAIN = (["C", "C", "C"], [(1, 2, 1), (2, 3, 1)])


@pytest.mark.parametrize(
    "text",
    [
        block(*CHAIN),
        block(*CHAIN).replace("\n", "\r\n"),
        block(*CHAIN, title="Kümmel – 'oil' \udce4"),
        block(["C", "C", "C", "H"], [(1, 2, 1), (2, 3, 1), (3, 4, 1)]),
        block(["C", "C", "C", "D"], [(1, 2, 1), (2, 3, 1), (3, 4, 1)]),
        block(*CHAIN, "M  STY  1   1 SUP", "M  SAL   1  1   1", "M  SBL   1  1   1", "M  SMT   1 Me"),
        block(*CHAIN, "M  STY  1   1 DAT", "M  SAL   1  1   1", "M  SDT   1 x", "M  SED   1 hello"),
        Chem.MolToV3KMolBlock(Chem.MolFromSmiles("CCC")),
    ],
)
def test_mol_blocks(text: str) -> None:
    found = read_mol_block(text)
    assert isinstance(found, Structure), found
    assert found.record == record("CCC")


@pytest.mark.parametrize(
    ("text", "status", "words"),
    [
        ("", Status.NO_STRUCTURE, "no atoms"),
        (block([], []), Status.NO_STRUCTURE, "no atoms"),
        ("only a title\n", Status.UNREADABLE, "Counts line too short"),
        (block(*CHAIN)[:150], Status.UNREADABLE, "EOF hit while reading atoms"),
        (block(["C", "Xx"], [(1, 2, 1)]), Status.UNREADABLE, "Element 'Xx' not found"),
        (block(["C", "C"], [(1, 1, 1)]), Status.UNREADABLE, "self-bond"),
        (block(["C", "R#"], [(1, 2, 1)], "M  RGP  1   2   1"), Status.UNREADABLE, "atom 2 (R1)"),
        (block(["C", "A"], [(1, 2, 1)]), Status.UNREADABLE, "atom 2"),
        (block(["C", "L"], [(1, 2, 1)], "M  ALS   2  2 F N   O   "), Status.UNREADABLE, "atom 2"),
        (block(["C", "Pol"], [(1, 2, 1)]), Status.UNREADABLE, "atom 2 (Pol)"),
        (block(["C", "C"], [(1, 2, 1)], "M  SUB  1   1   2"), Status.UNREADABLE, "atom 1 (C)"),
        (block(["C", "C"], [(1, 2, 5)]), Status.UNREADABLE, "bond 1"),
        (block(["C", "C"], [(1, 2, 8)]), Status.UNREADABLE, "bond 1"),
        (block(["C", "C"], [(1, 2, 0)]), Status.UNREADABLE, "bond 1"),
        (block(["C", "C"], [(1, 2, 1)], "M  ZBO  1   1   0"), Status.UNREADABLE, "is zero"),
        (block(["C", "C"], [(1, 2, 1)], "M  APO  1   1   1"), Status.UNREADABLE, "attachment point"),
        (block(*CHAIN, "M  LIN  1   2   4   1   3"), Status.UNREADABLE, "link node"),
        (block(*CHAIN, "M  STY  1   1 SRU", "M  SAL   1  1   2", "M  SBL   1  2   1   2", "M  SMT   1 n"), Status.UNREADABLE, "SRU"),
        (block(*CHAIN, "M  STY  1   1 MUL", "M  SAL   1  1   1", "M  SPA   1  1   1", "M  SMT   1 2"), Status.UNREADABLE, "MUL"),
        (block(["C", "C", "C"], [(1, 2, 1), (2, 3, 1), (3, 1, 1)]), Status.RING, "a ring"),
        (block(["C"] * 9, []), Status.TOO_MANY_PARTS, "9 parts"),
        (block(["C", "C", "C", "O"], [(1, 2, 1), (2, 3, 1), (3, 1, 1)]), Status.RING, "part 1 of 2 (from atom 1 (C)) has a ring"),
        (block(["H", "H"], [(1, 2, 1)]), Status.HYDROGEN_ONLY, "hydrogen"),
        (block(["D"], []), Status.HYDROGEN_ONLY, "hydrogen"),
        (block(["A"], []), Status.UNREADABLE, "atom 1"),
        (block(["Xx"], []), Status.UNREADABLE, "Element 'Xx' not found"),
        (block(["R#"], [], "M  RGP  1   1   2"), Status.UNREADABLE, "atom 1 (R2)"),
        (block(["Ar"], [], "M  ISO  1   1 255"), Status.UNREADABLE, "atom 1 (Ar) has the mass number 255:"),
        (block(["Ar"], [], "M  ISO  1   1   1"), Status.UNREADABLE, "atom 1 (Ar) has the mass number 1:"),
    ],
)
def test_mol_blocks_turned_back(text: str, status: Status, words: str) -> None:
    found = turned_back(read_mol_block(text))
    assert found.status is status
    assert words in found.reason


@pytest.mark.parametrize(
    ("text", "smiles"),
    [
        (block(["Ar"], []), "[Ar]"),
        (block(["O"], []), "O"),
        (block(["O", "D", "D"], [(1, 2, 1), (1, 3, 1)]), "[2H]O[2H]"),
        (block(["O"], [], "M  CHG  1   1  -1"), "[OH-]"),
        (block(["C"], [], "M  ISO  1   1  13"), "[13CH4]"),
        (block(["C"], [], offsets={1: 1}), "[13CH4]"),
        (Chem.MolToV3KMolBlock(Chem.MolFromSmiles("[Ar]")), "[Ar]"),
        (Chem.MolToV3KMolBlock(Chem.MolFromSmiles("[13CH4]")), "[13CH4]"),
    ],
)
def test_lone_atoms_of_mol_blocks(text: str, smiles: str) -> None:
    found = read_mol_block(text)
    assert isinstance(found, Structure), found
    assert found == read_smiles(smiles)


@pytest.mark.parametrize(
    ("text", "smiles"),
    [
        (block(["C", "C"], []), "C.C"),
        (block(["C", "O", "C", "C"], [(1, 4, 1), (4, 3, 1)]), "CCC.O"),
        (block(["C", "Na"], [], "M  CHG  2   1  -1   2   1"), "[CH3-].[Na+]"),
        (block([*CHAIN[0], "O"], CHAIN[1], "M  STY  1   1 COM", "M  SAL   1  1   4"), "CCC.O"),
        (block([*CHAIN[0], "O"], CHAIN[1], "M  STY  1   1 MIX", "M  SAL   1  4   1   2   3   4"), "CCC.O"),
        (block([*CHAIN[0], "O"], CHAIN[1], "M  STY  1   1 FOR", "M  SAL   1  4   1   2   3   4"), "CCC.O"),
        (Chem.MolToV3KMolBlock(Chem.MolFromSmiles("CCO.[Na+].[13CH3]C")), "[13CH3]C.OCC.[Na+]"),
    ],
)
def test_mol_blocks_of_mixtures(text: str, smiles: str) -> None:
    found = read_mol_block(text)
    assert isinstance(found, Structure), found
    assert found.record == record(smiles) and "parts scored together" in found.note


def v3000(mass: str) -> str:
    """A mol block of version V3000 of a chain of three carbons, the first with this mass number."""
    return Chem.MolToV3KMolBlock(Chem.MolFromSmiles("[13CH3]CC")).replace("MASS=13", f"MASS={mass}")


@pytest.mark.parametrize(
    ("text", "smiles"),
    [
        (block(*CHAIN, "M  ISO  1   1  13"), "[13CH3]CC"),
        (block(*CHAIN, "M  ISO  2   1  13   2 254"), "[13CH3][254CH2]C"),
        (block(*CHAIN, "M  ISO  1   1  13", "M  ISO  1   3  14"), "[13CH3]C[14CH3]"),
        (block(*CHAIN, "M  ISO  1   1  13").replace("\n", "\r\n"), "[13CH3]CC"),
        (block(*CHAIN, "M  ISO  1   1  13   2 -13"), "[13CH3]CC"),
        (block(*CHAIN, "M  ISO  1   1   0"), "CCC"),
        (block(*CHAIN, title="M  ISO, MASS=x"), "CCC"),
        (block(*CHAIN, offsets={1: 1}), "[13CH3]CC"),
        (block(*CHAIN, offsets={1: -1}), "[11CH3]CC"),
        (block(*CHAIN, "M  ISO  1   1  14", offsets={1: 1}), "[14CH3]CC"),
        (block(["C", "C", "C", "H"], [(1, 2, 1), (2, 3, 1), (3, 4, 1)], "M  ISO  2   1  13   4   2"), "[13CH3]CC"),
        (block(["C", "C", "C", "D"], [(1, 2, 1), (2, 3, 1), (3, 4, 1)], "M  ISO  1   4   3"), "CCC"),
        (v3000("13"), "[13CH3]CC"),
        (v3000("13.0"), "[13CH3]CC"),
        (v3000("254"), "[254CH3]CC"),
        (v3000("0"), "CCC"),
        (v3000("-\nM  V30 MASS=14").replace("MASS=-\n", "-\n"), "[14CH3]CC"),
    ],
)
def test_isotopes_of_mol_blocks(text: str, smiles: str) -> None:
    found = read_mol_block(text)
    assert isinstance(found, Structure), found
    assert found.record == record(smiles)


@pytest.mark.parametrize(
    ("text", "words"),
    [
        (block(*CHAIN, "M  ISO  1   2 -13"), "atom 2 (C) has the mass number -13: write one from 2 to 254"),
        (block(*CHAIN, "M  ISO  2   1  13   3  -1"), "atom 3 (C) has the mass number -1:"),
        (block(*CHAIN, "M  ISO  1   2    "), "atom 2 (C) has the mass number (blank)"),
        (block(*CHAIN, "M  ISO  1   2   1"), "atom 2 (C) has the mass number 1:"),
        (block(*CHAIN, "M  ISO  1   2 255"), "atom 2 (C) has the mass number 255:"),
        (block(*CHAIN, "M  ISO  1   2 999"), "atom 2 (C) has the mass number 999:"),
        (block(*CHAIN, "M  ISO  1   9  13"), "cannot be read as a mol block"),
        (block(*CHAIN, "M  ISO  1   1  xx"), "cannot be read as a mol block"),
        (block(*CHAIN, "M  ISO  2   1  13"), "cannot be read as a mol block"),
        (v3000("1"), "atom 1 (C) has the mass number 1:"),
        (v3000("255"), "atom 1 (C) has the mass number 255:"),
        (v3000("65549"), "an atom has the mass number 65549:"),
        (v3000("13.9"), "an atom has the mass number 13.9:"),
        (v3000("1e9"), "cannot be read as a mol block: Bad value for MASS"),
        (v3000(""), "an atom has the mass number (blank)"),
        (v3000("-13"), "cannot be read as a mol block: Bad value for MASS"),
        (v3000("-\nM  V30 MASS=65549").replace("MASS=-\n", "-\n"), "an atom has the mass number 65549:"),
    ],
)
def test_mass_numbers_of_mol_blocks_that_are_none(text: str, words: str) -> None:
    found = turned_back(read_mol_block(text))
    assert found.status is Status.UNREADABLE
    assert words in found.reason
