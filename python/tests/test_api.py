"""The package as a program uses it."""

from __future__ import annotations

import dataclasses
import doctest
import subprocess
import sys
from pathlib import Path

import pytest
from rdkit import Chem

import pazgelk
from pazgelk import Status, toolkit

PYTHON = Path(__file__).resolve().parents[1]


def test_examples_of_the_docstrings() -> None:
    for module, least in ((pazgelk, 5), (pazgelk.batch, 2)):
        tried = doctest.testmod(module)
        assert tried.attempted >= least and tried.failed == 0


def test_score() -> None:
    result = pazgelk.score("CC(C)CC=O")
    assert (result.status, result.score, result.bonds, result.reason) == (Status.SCORED, 3, 5, "")
    assert result == pazgelk.score(Chem.MolFromSmiles("O=CCC(C)C"))
    with pytest.raises(dataclasses.FrozenInstanceError):
        result.score = 0  # type: ignore[misc]


def test_score_of_a_labelled_standard() -> None:
    """A marked half no longer matches its like; two halves that are marked alike do."""
    natural, half, whole = ("CC(=O)C(C)=O", "[13CH3][13C](=O)C(C)=O", "[13CH3][13C](=O)[13C]([13CH3])=O")
    assert [pazgelk.score(smiles).score for smiles in (natural, half, whole)] == [3, 4, 3]
    assert "13C at atom 1, 13C at atom 2" in pazgelk.score(half).note
    assert pazgelk.score("[2H]C([2H])([2H])C(=O)C(C)=O").score == 3


def test_score_of_a_mixture() -> None:
    """What is made for one part may be used for another; equal parts are made once, and lone atoms need no join."""
    scores = {
        "CCCCC.CCCC": 3,
        "CCCC.CCCCC": 3,
        "CCCCC.CCCCC": 2,
        "CCCCC.NCCN": 4,
        "CC(C)CC=O.CCC(C)C=O": 4,
        "CC(=O)[O-].[Na+]": 2,
        "CCO.O": 1,
        "CC.CC": 0,
        "[Na+].[Cl-]": 0,
        "CCO.[H][H]": 1,
    }
    for smiles, score in scores.items():
        result = pazgelk.score(smiles)
        assert (result.status, result.score, result.reason) == (Status.SCORED, score, ""), smiles
        assert result == pazgelk.score(Chem.MolFromSmiles(smiles))
    assert pazgelk.score("CCO.O").note == "2 parts scored together as one mixture, with 2 and 0 bonds"
    nothing = pazgelk.score("[Na+].[Cl-]")
    assert (nothing.bonds, nothing.matches, nothing.states, nothing.removals) == (0, 0, 0, ())
    assert nothing.note.endswith("2 atoms besides hydrogen and no bond: there is nothing to join")


def test_trail_of_a_mixture() -> None:
    """Index and removals make up the bonds, less one for each part that has any."""
    result = pazgelk.score("CCCCC.CCCC.CC.O")
    assert result.score is not None and result.removals
    assert 8 - 3 == result.score + sum(removal.size - 1 for removal in result.removals)


def test_nothing_to_join_scores_0() -> None:
    """One bond, or a lone atom; hydrogen alone is neither."""
    assert pazgelk.score("CS").score == 0
    for smiles in ("[Ar]", "O", "C", "S", "[2H]O[2H]", "[3H]Cl", "[13CH4]"):
        result = pazgelk.score(smiles)
        assert (result.status, result.score, result.bonds, result.reason) == (Status.SCORED, 0, 0, "")
        assert (result.matches, result.states, result.removals) == (0, 0, ())
        assert "one atom besides hydrogen" in result.note
    for smiles in ("[H][H]", "[H+]", "[2H][2H]"):
        assert (pazgelk.score(smiles).status, pazgelk.score(smiles).score) == (Status.HYDROGEN_ONLY, None)


def test_score_many_of_lone_atoms() -> None:
    """Water, heavy water and a hydroxide ion are one record, and each has its own note."""
    assert len({pazgelk.check(smiles).record for smiles in ("O", "[2H]O[2H]", "[OH-]")}) == 1
    results = list(pazgelk.score_many(["O", "[2H]O[2H]", "[OH-]", Chem.MolFromSmiles("[Ar]"), "[H][H]", "*", "[300CH4]"]))
    assert [result.score for result in results] == [0, 0, 0, 0, None, None, None]
    assert [result.status.value for result in results[4:]] == ["hydrogen only", "unreadable", "unreadable"]
    assert "deuterium" in results[1].note and results[0].note == results[2].note == results[3].note != results[1].note


def test_check() -> None:
    good, ring = pazgelk.check("CCO"), pazgelk.check("C1CC1")
    assert good.accepted and good.bonds == 2 and good.record[:2] == b"\x03\x02" and good.status is None
    assert len(good.record) == 2 + 2 * 3 + 3 * 2
    assert not ring.accepted and ring.status is Status.RING and ring.reason
    argon = pazgelk.check("[Ar]")
    salt = pazgelk.check("CC(=O)[O-].[Na+]")
    assert salt.accepted and salt.bonds == 3 and salt.record[:2] == b"\x05\x03" and "2 parts" in salt.note
    many = pazgelk.check("C" + ".C" * 8)
    assert not many.accepted and many.status is Status.TOO_MANY_PARTS and many.record == b""
    assert argon.accepted and argon.bonds == 0 and argon.record == bytes.fromhex("01001201") and "nothing to join" in argon.note


def test_label() -> None:
    assert pazgelk.label("CC") == bytes.fromhex("0100" + "0006ffff" + "00" + "0006ffff")
    assert pazgelk.label("CCO") == pazgelk.label("OCC") != pazgelk.label("COC")
    assert pazgelk.label("CCCCO", [0, 1]) == pazgelk.label("CCCCO", [2, 1]) != pazgelk.label("CCCCO", [2, 3])
    assert pazgelk.label("CCO", [0, 0]) == pazgelk.label("CC")
    assert pazgelk.label("[13CH3]C") == pazgelk.label("C[13CH3]") == bytes.fromhex("0100" + "00060dffff" + "00" + "0006ffff")
    assert pazgelk.label("[13CH3]CC", [1]) == pazgelk.label("CC") != pazgelk.label("[14CH3]C") != pazgelk.label("[13CH3]C")
    assert pazgelk.label("[2H]CC") == pazgelk.label("CC")
    for bonds, words in (([], "no bond to label"), ([0, 2], "connected"), ([4], "no bond 4"), ([-1], "no bond -1")):
        with pytest.raises(ValueError, match=words):
            pazgelk.label("CCCC", bonds)
    for chosen, words in ((None, "no bond to label: a label is of one bond or more"), ([0], "no bond 0")):
        with pytest.raises(ValueError, match=words):
            pazgelk.label("[Ar]", chosen)
    with pytest.raises(ValueError, match="ring"):
        pazgelk.label("C1CC1")


def test_labels_of_a_mixture() -> None:
    """Any connected set of its bonds has one, in whichever part; two parts together have none."""
    assert pazgelk.label("CC(=O)[O-].[Na+]") == pazgelk.label("CC(=O)O")
    assert pazgelk.label("O.CS.CCO", [1, 2]) == pazgelk.label("CCO") and pazgelk.label("O.CS.CCO", [0]) == pazgelk.label("CS")
    for smiles, bonds in (("CCO.CC", None), ("CCO.CC", [1, 2])):
        with pytest.raises(ValueError, match="the bonds are no connected set"):
            pazgelk.label(smiles, bonds)
    with pytest.raises(ValueError, match="no bond to label"):
        pazgelk.label("[Na+].[Cl-]")


def test_labels_of_bonds_as_rdkit_numbers_them() -> None:
    """A fragment's label is the label of the molecule that it is."""
    molecule = Chem.MolFromSmiles("CC(=O)CS")
    ends = {frozenset((bond.GetBeginAtom().GetSymbol(), bond.GetEndAtom().GetSymbol())): bond.GetIdx() for bond in molecule.GetBonds()}
    assert pazgelk.label(molecule, [ends[frozenset("CO")]]) == pazgelk.label("C=O")
    assert pazgelk.label(molecule, [ends[frozenset("CS")]]) == pazgelk.label("CS")


def test_without_rdkit(monkeypatch: pytest.MonkeyPatch) -> None:
    toolkit.chem.cache_clear()
    monkeypatch.setitem(sys.modules, "rdkit", None)
    try:
        for call in (pazgelk.score, pazgelk.check, pazgelk.label, lambda text: pazgelk.score_many([text])):
            with pytest.raises(pazgelk.NotReady, match="python3-rdkit"):
                call("CCO")
    finally:
        toolkit.chem.cache_clear()


def test_importing_it_does_not_import_rdkit() -> None:
    """The child processes need no RDKit, and start fast."""
    told = "import sys, pazgelk, pazgelk.child; print('rdkit' in sys.modules or 'openpyxl' in sys.modules)"
    said = subprocess.run([sys.executable, "-c", told], cwd=PYTHON, capture_output=True, text=True, check=True).stdout
    assert said == "False\n"


def test_python_modules_of_the_working_folder_do_no_harm(tmp_path: Path) -> None:
    (tmp_path / "json.py").write_text("raise SystemExit('the wrong json')\n")
    told = f"import sys; sys.path[0] = {str(PYTHON)!r}; import pazgelk; print(pazgelk.score('CCO').score)"
    said = subprocess.run([sys.executable, "-c", told], cwd=tmp_path, capture_output=True, text=True, check=True).stdout
    assert said == "1\n"
