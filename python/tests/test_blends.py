"""Compounds that are scored together."""

from __future__ import annotations

from concurrent.futures import ThreadPoolExecutor

import pytest
from rdkit import Chem

import pazgelk
from compounds import ENDLESS, MANY_STATES
from pazgelk import Compound, Result, Settings, Status, batch, engine, score_blend
from pazgelk.blends import blend_of
from pazgelk.structures import Structure

DIACETYL, PENTANEDIONE, ACETOIN = "CC(=O)C(C)=O", "CCC(=O)C(C)=O", "CC(O)C(C)=O"


def read(*members: Compound | str) -> Structure | Result:
    """The structure of a blend of these."""
    return batch.read(Compound(blend=tuple(map(batch.compound_of, members))))


def test_what_is_shared() -> None:
    blend = score_blend([DIACETYL, PENTANEDIONE, ACETOIN])
    assert [result.score for result in blend.own] == [3, 4, 4]
    assert (blend.result.status, blend.result.score, blend.result.bonds) == (Status.SCORED, 6, 16)
    assert (blend.sum, blend.shared) == (11, 5)
    assert blend.result.note == "3 compounds scored together; their own scores add up to 11; 5 joins are shared"
    assert 13 == blend.result.score + sum(removal.size - 1 for removal in blend.result.removals)


@pytest.mark.parametrize(
    ("compounds", "score", "apart", "note"),
    [
        (["CCO", "NC#N"], 2, 2, "their own scores add up to 2; nothing is shared"),
        (["CCO", "OCC"], 1, 2, "their own scores add up to 2; 1 join is shared"),
        (["CCO", "OCC", "CCO"], 1, 3, "3 compounds scored together; their own scores add up to 3; 2 joins are shared"),
        (["CCCCC", "CCCC"], 3, 4, "1 join is shared"),
        (["CCO", "[13CH3]CO"], 2, 2, "nothing is shared"),
        (["CCO", "O", "[Na+]"], 1, 1, "nothing is shared"),
        (["CC", "CC", "CC"], 0, 0, "nothing is shared"),
        (["O", "[Ar]"], 0, 0, "nothing is shared"),
        (["CCO"], 1, 1, "1 compound scored together; their own scores add up to 1; nothing is shared"),
        (["CCO.OCC", "CCO"], 1, 2, "2 compounds scored together; their own scores add up to 2; 1 join is shared"),
    ],
)
def test_blends(compounds: list[str], score: int, apart: int, note: str) -> None:
    blend = score_blend(compounds)
    assert (blend.result.score, blend.sum, blend.shared) == (score, apart, apart - score)
    assert note in blend.result.note
    assert blend.own == tuple(pazgelk.score(compound) for compound in compounds)


def test_a_blend_is_the_mixture_of_its_compounds() -> None:
    """Its record is that of one SMILES with dots between them, in whatever order."""
    molecule = Chem.MolFromSmiles(DIACETYL)
    found = read(Compound(molecule=molecule), Compound(mol_block=Chem.MolToMolBlock(molecule)), "O", f"{ACETOIN}.[Na+]")
    mixture = batch.read_given(f"[Na+].O.{ACETOIN}.{DIACETYL}.{DIACETYL}")
    assert isinstance(found, Structure) and isinstance(mixture, Structure)
    assert found.record == mixture.record == read(f"{ACETOIN}.[Na+]", DIACETYL, DIACETYL, "O").record  # type: ignore[union-attr]
    assert engine.check(found.record) == (0, 0)


def test_blends_of_blends() -> None:
    inner = Compound("inner", blend=(Compound(smiles="CCO"), Compound(smiles="O")))
    found = read(inner, "CC")
    assert isinstance(found, Structure) and found.record == read("CC", "CCO", "O").record  # type: ignore[union-attr]


@pytest.mark.parametrize(
    ("compounds", "status", "bonds", "words"),
    [
        ([], Status.NO_STRUCTURE, None, "there is no compound in the blend"),
        (["C"] * 9, Status.TOO_MANY_PARTS, None, "9 compounds: at most 8 are scored together; take some out"),
        (["C1CC1"] * 9, Status.TOO_MANY_PARTS, None, "9 compounds"),
        (["CC.O"] * 5, Status.TOO_MANY_PARTS, 5, "10 parts in all: at most 8 are scored together"),
        (["C" * 40, "C" * 27], Status.TOO_LARGE, 65, "65 bonds in all: at most 64 are scored together"),
        (["CCO", "C1CC1"], Status.INCOMPLETE, None, "the blend is not whole without C1CC1 (ring): mend this compound or take it out"),
        (["CC(", "C1CC1", "CCO"], Status.INCOMPLETE, None, "without CC( (unreadable), C1CC1 (ring): mend these compounds or take them out"),
        (["CCO", ""], Status.INCOMPLETE, None, "without compound 2 (no structure)"),
        (["CCO", "[H][H]"], Status.INCOMPLETE, None, "without [H][H] (hydrogen only)"),
        (["CCO", "C" * 66], Status.INCOMPLETE, None, f"without {'C' * 38}.. (too large)"),
        ([Compound("argon\n", "Ar"), "C"], Status.INCOMPLETE, None, "without argon (unreadable)"),
        ([Compound(molecule=Chem.MolFromSmiles("c1ccccc1")), "C"], Status.INCOMPLETE, None, "without compound 1 (ring)"),
        (["C1CC1"] * 8, Status.INCOMPLETE, None, "(ring), C1CC1 (ring) and 3 more"),
    ],
)
def test_turned_back(compounds: list[Compound | str], status: Status, bonds: int | None, words: str) -> None:
    """A blend is of all its compounds, or has no score."""
    blend = score_blend(compounds)
    assert (blend.result.status, blend.result.score, blend.result.bonds) == (status, None, bonds)
    assert words in blend.result.reason and len(blend.own) == len(compounds) and blend.shared is None


def test_most_that_is_scored() -> None:
    """8 compounds, 72 atoms, 64 bonds."""
    found = read(*["C" * 9] * 8)
    assert isinstance(found, Structure) and found.bonds == 64 and found.record[0] == 72
    assert engine.check(found.record) == (0, 0)
    blend = score_blend(["C" * 9] * 8)
    assert (blend.result.score, blend.sum, blend.shared) == (3, 24, 21)


def test_sum_of_what_is_turned_back() -> None:
    """Where all compounds have a score, their sum is told, also where together they are too many or too large."""
    blend = score_blend(["C" * 40, "C" * 27])
    assert (blend.sum, blend.shared) == (13, None) and blend.result.note == "their own scores add up to 13"
    assert score_blend(["CCO"] * 9).sum == 9
    assert score_blend(["CCO", "C1CC1"]).sum is None


def test_own_score_that_is_cut_off() -> None:
    """The blend has its score; what is shared is not known."""
    own = [Result(Status.SCORED, 3), Result(Status.CUT_OFF), Result(Status.CUT_OFF)]
    names = [Compound("a"), Compound("slow"), Compound()]
    blend = blend_of(Result(Status.SCORED, 9, note="3 compounds scored together"), names, own)
    assert (blend.result.score, blend.sum, blend.shared) == (9, None, None)
    told = "what is shared is not known without the score of slow (cut off), compound 3 (cut off)"
    assert blend.result.note == f"3 compounds scored together; {told}"


def test_blend_that_is_cut_off() -> None:
    blend = score_blend([MANY_STATES, "CCO"], Settings(budget=50))
    assert (blend.result.status, blend.result.score, blend.result.row, blend.result.place) == (Status.CUT_OFF, None, 11, 50)
    assert blend.sum is None and blend.shared is None and blend.result.reason.endswith("--budget 500")
    endless = score_blend(["CCO", ENDLESS], Settings(time=0.5))
    assert [result.status for result in (*endless.own, endless.result)] == [Status.SCORED, Status.CUT_OFF, Status.CUT_OFF]


def test_blend_with_the_memo() -> None:
    """The difference of two scores that are 'at most' says nothing."""
    blend = score_blend(["CCCCC", "CCCC"], Settings(memo=1))
    assert (blend.result.score, blend.result.at_most, blend.sum, blend.shared) == (3, True, 4, None)
    assert blend.result.note.endswith("their own scores add up to at most 4; what is shared is not known with the memo on")
    assert score_blend(["CC", "O"], Settings(memo=1)).shared == 0


def test_where_searches_run() -> None:
    blend = score_blend([DIACETYL, PENTANEDIONE, ACETOIN], jobs=1)
    with ThreadPoolExecutor(2) as executor:
        assert score_blend([DIACETYL, PENTANEDIONE, ACETOIN], executor=executor) == blend


def test_blends_as_compounds() -> None:
    """A list may have one among other compounds, and it is searched once with the mixture that it is."""
    blend = Compound("blend", blend=(Compound(smiles="CCO"), Compound(smiles="CCO")))
    results = list(pazgelk.score_many(["CCO", blend, "OCC.CCO"]))
    assert [result.score for result in results] == [1, 1, 1]
    assert [result.note for result in results] == ["", "2 compounds scored together", "2 parts scored together as one mixture, with 2 and 2 bonds"]
    assert pazgelk.score(blend) == results[1] and pazgelk.check(blend).record == pazgelk.check("OCC.CCO").record
