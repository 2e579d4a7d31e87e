"""The command line, as a user meets it."""

from __future__ import annotations

import csv
import io
import os
import pty
import re
import signal
import subprocess
import sys
import time
from collections import Counter
from pathlib import Path

import openpyxl
import pytest

from pazgelk import cli

TOP = Path(__file__).resolve().parents[2]
ROAST = TOP / "samples" / "roast.csv"
SLOW = "CC(C)C(C(N)CC(O)C)C(C(N)CC(O)CC)CC(C(N)CC(O)C)CCC(C(N)CC(O)CCC)C(N)CC(O)CC(C)CC(O)CC(N)CC"
ENDLESS = ("--bounds", "0", "--budget", "4294967295")

Captured = pytest.CaptureFixture[str]


@pytest.fixture(autouse=True)
def inside(tmp_path: Path, monkeypatch: pytest.MonkeyPatch) -> None:
    """Each test runs in a folder of its own, without the launcher's set-up."""
    monkeypatch.chdir(tmp_path)
    monkeypatch.delenv("PAZGELK_HOME", raising=False)


def run(capfd: Captured, *words: str) -> tuple[int, str, str]:
    """Exit status, standard output and standard error of a run."""
    try:
        status = cli.main(words)
    except SystemExit as ended:
        status = int(ended.code or 0)
    out, error = capfd.readouterr()
    return status, out, error


def table(text: str) -> list[dict[str, str]]:
    """The rows of a text with commas."""
    return list(csv.DictReader(io.StringIO(text)))


def environment(**more: str) -> dict[str, str]:
    """The environment of a run in a process of its own."""
    return {**os.environ, "PYTHONPATH": str(TOP / "python"), "TERM": "xterm", **more}


COMMAND = [sys.executable, "-m", "pazgelk"]


def on_terminal(*words: str, columns: int = 100) -> tuple[int, str]:
    """Exit status of a run on a terminal, and what stands there."""
    child, terminal = pty.fork()
    if child == 0:
        os.execve(sys.executable, [*COMMAND, *words], environment(COLUMNS=str(columns)))
    shown = b""
    while True:
        try:
            part = os.read(terminal, 65536)
        except OSError:
            break
        if not part:
            break
        shown += part
    status = os.waitstatus_to_exitcode(os.waitpid(child, 0)[1])
    return status, shown.decode().replace("\r\n", "\n")


# The laboratory's list


def test_roast(capfd: Captured) -> None:
    status, out, error = run(capfd, "score", str(ROAST))
    rows = table(out)
    assert status == 0 and len(rows) == 98
    assert Counter(row["pz_status"] for row in rows) == {"scored": 75, "ring": 21, "too large": 2}
    assert error == "98 structures: 75 scored, 21 rings, 2 too large, 0 cut off\n"
    scores = {row["name"]: row["pz_score"] for row in rows}
    assert scores["methanethiol"] == scores["nitrogen"] == "0"
    assert scores["dimethyl sulfide"] == scores["dimethyl sulfide-d6"] == "1"
    assert scores["sodium acetate"] == scores["acetic acid"] == "2"
    assert scores["geraniol"] == scores["nerol"] and scores["L-leucine"] == scores["L-leucine, zwitterion"]
    zeros = ["hydrogen sulfide", "methanethiol", "nitrogen", "water", "heavy water", "argon"]
    assert [name for name, score in scores.items() if score == "0"] == zeros
    assert all(row["pz_score"] == (row["pz_score"] if row["pz_status"] == "scored" else row["pz_status"]) for row in rows)
    with ROAST.open(newline="") as lines:
        assert [list(row.values())[:3] for row in rows] == list(csv.reader(lines))[1:]


def test_printed_sample(capfd: Captured) -> None:
    assert run(capfd, "score", str(ROAST), "--quiet")[1] == (TOP / "samples" / "printed" / "roast.csv").read_text()


@pytest.mark.parametrize(("number", "words"), [(0, ["roast.csv"]), (1, ["butter.csv", "--blend"])])
def test_tables_of_the_readme(number: int, words: list[str]) -> None:
    """Each line of README's sample tables stands on the terminal, in that order; .. stands for lines left out."""
    found = re.findall(r"\n(    name +score .*\n(?:    .*\n)*)", (TOP / "README.md").read_text())
    assert len(found) == 2, "README has not its sample tables"
    status, shown = on_terminal("score", str(ROAST.parent / words[0]), *words[1:])
    lines = iter(re.sub(r"\033\[[0-9;]*[mK]", "", shown).split("\n"))
    for line in found[number].rstrip("\n").split("\n"):
        assert line == "    .." or line[4:] in lines, f"not printed, or not there: {line}"
    assert status == 0


# Formats


def test_every_format_gives_the_same_scores(tmp_path: Path, capfd: Captured) -> None:
    from rdkit import Chem

    squalene = "CC(C)=CCC/C(C)=C/CC/C(C)=C/CC/C=C(C)/CC/C=C(C)/CCC=C(C)C"
    compounds = [("ethanol", "CCO"), ("squalene", squalene), ("furan", "c1ccoc1"), ("salt", "CC(=O)[O-].[Na+]"), ("argon", "[Ar]")]
    (tmp_path / "a.csv").write_text("name;smiles\n" + "".join(f"{name};{text}\n" for name, text in compounds))
    (tmp_path / "a.tsv").write_text("smiles\tname\n" + "".join(f"{text}\t{name}\n" for name, text in compounds))
    (tmp_path / "a.smi").write_text("".join(f"{text} {name}\n" for name, text in compounds))
    with Chem.SDWriter(str(tmp_path / "a.sdf")) as writer:
        for name, text in compounds:
            molecule = Chem.MolFromSmiles(text)
            molecule.SetProp("_Name", name)
            writer.write(molecule)
    (tmp_path / "a.mol").write_text(Chem.MolToMolBlock(Chem.MolFromSmiles("CCO")))
    book = openpyxl.Workbook()
    for row in [("name", "smiles"), *compounds]:
        book.active.append(row)
    book.save(tmp_path / "a.xlsx")
    status, out, _ = run(capfd, "score", "a.csv", "a.tsv", "a.smi", "a.sdf", "a.xlsx", "a.mol", "-o", "all.csv")
    rows = table((tmp_path / "all.csv").read_text().replace(";", ","))
    assert (status, out, len(rows)) == (0, "", 26)
    for place in range(0, 25, 5):
        assert [row["pz_score"] for row in rows[place : place + 5]] == ["1", "8", "ring", "2", "0"]
    assert rows[25]["pz_score"] == "1" and [row["pz_file"] for row in rows[::5]] == ["a.csv", "a.tsv", "a.smi", "a.sdf", "a.xlsx", "a.mol"]


def test_every_format_reads_isotopes(tmp_path: Path, capfd: Captured) -> None:
    """A labelled compound beside the natural one, one that no class tells, and one with deuterium alone, in each kind of file."""
    from rdkit import Chem

    smiles = ["CC(=O)C(C)=O", "[13CH3][13C](=O)C(C)=O", "[300CH3]C(=O)C(C)=O", "[2H]CC(=O)C(C)=O"]
    (tmp_path / "a.csv").write_text("name,smiles\n" + "".join(f"x,{text}\n" for text in smiles))
    (tmp_path / "a.tsv").write_text("name\tsmiles\n" + "".join(f"x\t{text}\n" for text in smiles))
    (tmp_path / "a.smi").write_text("".join(f"{text} x\n" for text in smiles))
    book = openpyxl.Workbook()
    for row in [("name", "smiles"), *(("x", text) for text in smiles)]:
        book.active.append(row)
    book.save(tmp_path / "a.xlsx")
    molecules = [Chem.MolFromSmiles(text) for text in smiles]
    for name, blocks in (
        ("v2000.sdf", [Chem.MolToMolBlock(molecule) for molecule in molecules]),
        ("v3000.sdf", [Chem.MolToV3KMolBlock(molecule) for molecule in molecules]),
    ):
        (tmp_path / name).write_text("".join(f"{block}$$$$\n" for block in blocks))
    (tmp_path / "a.mol").write_text(Chem.MolToMolBlock(molecules[1]))
    lists = ["a.csv", "a.tsv", "a.smi", "a.xlsx", "v2000.sdf", "v3000.sdf"]
    status, _, _ = run(capfd, "score", *lists, "a.mol", "-o", "all.csv")
    rows = table((tmp_path / "all.csv").read_text())
    assert status == 1 and len(rows) == 4 * len(lists) + 1
    for place in range(0, 4 * len(lists), 4):
        natural, marked, wrong, deuterium = rows[place : place + 4]
        assert [row["pz_score"] for row in (natural, marked, wrong, deuterium)] == ["3", "4", "unreadable", "3"], natural["pz_file"]
        assert "atom 1 (C) has the mass number 300: write one from 2 to 254" in wrong["pz_reason"]
        assert "13C at atom 1, 13C at atom 2" in marked["pz_note"] and "deuterium" in deuterium["pz_note"]
    assert rows[-1]["pz_score"] == "4"


GASES = """\
name,smiles,old
argon,[Ar],0
water,O,1
heavy water,[2H]O[2H],
methane-13C,[13CH4],0
hydrogen,[H][H],0
no gas,*,
symbol,Ar,
nothing,,0
ethane,CC,0
propane,CCC,0
"""
LONE = "one atom besides hydrogen: there is nothing to join"
MARKED = f"{LONE}; isotopes are told apart: 13C at atom 1"
HEAVY = f"deuterium left out as hydrogen, which marks nothing; {LONE}"


def test_gas_standards(tmp_path: Path, capfd: Captured) -> None:
    """A lone atom is scored 0, with no matches, no states and no removals; what is none is turned back in words."""
    (tmp_path / "a.csv").write_text(GASES)
    status, out, error = run(capfd, "score", "a.csv", "--details", "--against", "old")
    rows = table(out)
    scores = ["0", "0", "0", "0", "hydrogen only", "unreadable", "unreadable", "no structure", "0", "1"]
    assert [row["pz_score"] for row in rows] == scores and status == 1
    counted = ("pz_status", "pz_bonds", "pz_matches", "pz_states", "pz_removals", "pz_row", "pz_place", "pz_reason")
    for row in rows[:4]:
        assert [row[column] for column in counted] == ["scored", "0", "0", "0", "", "", "", ""]
    assert [row["pz_note"] for row in rows] == [LONE, LONE, HEAVY, MARKED, "", "", "", "", "", ""]
    compared = ["same", "differs", "nothing to compare", "same", "not scored now", "nothing to compare", "nothing to compare"]
    assert [row["pz_compare"] for row in rows] == [*compared, "not scored now", "same", "old 0 was no score"]
    assert error.startswith("10 structures: 6 scored, 1 hydrogen only, 1 no structure, 2 unreadable, 0 cut off\n")


def test_gas_standards_sorted(tmp_path: Path, capfd: Captured) -> None:
    """A score of 0 stands below every other score, and above what has none."""
    (tmp_path / "a.csv").write_text(GASES)
    names = [row["name"] for row in table(run(capfd, "score", "a.csv", "--sort", "score")[1])]
    assert names == ["propane", "argon", "water", "heavy water", "methane-13C", "ethane", "hydrogen", "no gas", "symbol", "nothing"]


def test_lone_atom_in_a_workbook(tmp_path: Path, capfd: Captured) -> None:
    """Score, bonds, matches and states are the number 0, which is no empty cell and no text."""
    (tmp_path / "a.csv").write_text("smiles\n[Ar]\n[H][H]\n")
    assert run(capfd, "score", "a.csv", "-o", "out.xlsx", "--details")[0] == 0
    cells = list(openpyxl.load_workbook(tmp_path / "out.xlsx").active.iter_rows())
    row = dict(zip((cell.value for cell in cells[0]), cells[1]))
    for column in ("pz_score", "pz_bonds", "pz_matches", "pz_states"):
        assert (row[column].value, row[column].data_type) == (0, "n")
    assert row["pz_status"].value == "scored" and row["pz_note"].value == LONE
    assert cells[2][1].value == "hydrogen only"


def test_lone_atom_in_an_sdf(tmp_path: Path, capfd: Captured) -> None:
    from rdkit import Chem

    blocks = [Chem.MolToMolBlock(Chem.MolFromSmiles("[Ar]")), Chem.MolToV3KMolBlock(Chem.MolFromSmiles("O"))]
    (tmp_path / "in.sdf").write_text("".join(f"{block}$$$$\n" for block in blocks))
    assert run(capfd, "score", "in.sdf", "-o", "out.sdf")[0] == 0
    text = (tmp_path / "out.sdf").read_text()
    assert text.count(f"> <pz_score>\n0\n\n> <pz_status>\nscored\n\n> <pz_bonds>\n0\n\n> <pz_note>\n{LONE}\n\n$$$$\n") == 2


# Blends


LOT = """\
name,cas,smiles
diacetyl,431-03-8,CC(=O)C(C)=O
"2,3-pentanedione",600-14-6,CCC(=O)C(C)=O
acetoin,513-86-0,CC(O)C(C)=O
"""
SHARED = "3 compounds scored together; their own scores add up to 11; 5 joins are shared"
TOGETHER = "Blend: 6 together, 11 on their own, 5 shared\n"


def test_blend(tmp_path: Path, capfd: Captured) -> None:
    """Every compound has its row as without it; the blend stands last, with its score, the sum of theirs and what is shared."""
    (tmp_path / "lot.csv").write_text(LOT)
    plain = run(capfd, "score", "lot.csv", "--details")[1].splitlines()
    status, out, error = run(capfd, "score", "lot.csv", "--blend", "--details")
    assert status == 0 and error == "3 structures: 3 scored, 0 cut off\n" + TOGETHER
    assert [line.removesuffix(",,") for line in out.splitlines()[1:4]] == plain[1:]
    assert out.splitlines()[0] == plain[0] + ",pz_sum,pz_shared"
    *_, blend = table(out)
    assert list(blend.values())[:5] == ["blend of lot.csv", "", "", "6", "scored"]
    assert (blend["pz_bonds"], blend["pz_note"], blend["pz_sum"], blend["pz_shared"]) == ("16", SHARED, "11", "5")
    sizes = [int(removal.partition("(")[2][:-1]) for removal in blend["pz_removals"].split()]
    assert 16 - 3 == 6 + sum(size - 1 for size in sizes)


def test_blend_stays_last(tmp_path: Path, capfd: Captured) -> None:
    """Where rows are sorted and compared too. There is no old number for it, and no old 0."""
    (tmp_path / "lot.csv").write_text("name,smiles,old\nlow,CCCC,0\nhigh,CCCCC,2\nring,C1CC1,\n")
    status, out, error = run(capfd, "score", "lot.csv", "--blend", "--sort", "score", "--against", "old")
    assert [row["name"] for row in table(out)] == ["low", "high", "ring", "blend of lot.csv"]
    blend = table(out)[-1]
    assert status == 0 and (blend["pz_score"], blend["pz_compare"]) == ("incomplete", "nothing to compare")
    told = "the blend is not whole without ring (ring): mend this compound or take it out"
    assert blend["pz_reason"] == told
    assert error.splitlines() == [
        "3 structures: 2 scored, 1 ring, 0 cut off",
        f"Blend: incomplete, {told}",
        "Against old: 1 same, 1 old 0 was no score, 0 differs, 1 nothing to compare, 0 not scored now",
    ]
    (tmp_path / "lot.csv").write_text("name,smiles\na,CCO\nb,CCCC\n")
    rows = table(run(capfd, "score", "lot.csv", "--blend", "--sort", "score")[1])
    assert [(row["pz_score"], row["pz_sum"], row["pz_shared"]) for row in rows] == [("2", "", ""), ("1", "", ""), ("3", "3", "0")]


@pytest.mark.parametrize(
    ("rows", "score", "reason", "status"),
    [
        ("", "no structure", "there is no compound in the blend", 0),
        ("a,CCO\n", "1", "", 0),
        ("a,CCO\nb,C1CC1\n", "incomplete", "without b (ring): mend", 0),
        ("a,CCO\nb,CC(\n", "incomplete", "without b (unreadable): mend", 1),
        ("a,CCO\nb,\n", "incomplete", "without b (no structure): mend", 0),
        ("a,CCO\n,\nb,CC\n", "incomplete", "without row 2 (no structure): mend", 0),
        ("a,CCO\n" * 8, "1", "", 0),
        ("a,CCO\n" * 9, "too many parts", "9 compounds: at most 8", 0),
        (f"a,{'C' * 34}\nb,{'C' * 33}\n", "too large", "65 bonds in all: at most 64", 0),
    ],
)
def test_blends_of_ugly_lists(tmp_path: Path, capfd: Captured, rows: str, score: str, reason: str, status: int) -> None:
    """The blend has a row, whatever the list is; it is of the whole list, or has no score."""
    (tmp_path / "a.csv").write_text("name,smiles\n" + rows)
    ended, out, error = run(capfd, "score", "a.csv", "--blend")
    *others, blend = table(out)
    assert ended == status and len(others) == rows.count("\n") and blend["name"] == "blend of a.csv"
    assert blend["pz_score"] == score and reason in blend["pz_reason"] and bool(reason) == bool(blend["pz_reason"])
    assert all(row["pz_sum"] == row["pz_shared"] == "" for row in others)
    assert (blend["pz_sum"] == "not known") == (not rows or score == "incomplete")
    assert (blend["pz_shared"] == "not known") == bool(reason) and error.splitlines()[1].startswith("Blend: ")


def test_blend_of_two_lists(tmp_path: Path, capfd: Captured) -> None:
    """One blend of all, where each list has its names in another column."""
    (tmp_path / "a.csv").write_text("smiles\nCC(=O)C(C)=O\n")
    (tmp_path / "b.csv").write_text("compound,smiles\npentanedione,CCC(=O)C(C)=O\nacetoin,CC(O)C(C)=O\n")
    rows = table(run(capfd, "score", "a.csv", "b.csv", "--blend")[1])
    assert [row["pz_score"] for row in rows] == ["3", "4", "4", "6"]
    assert [row["smiles"] for row in rows] == ["CC(=O)C(C)=O", "CCC(=O)C(C)=O", "CC(O)C(C)=O", ""]
    assert [row["compound"] for row in rows] == ["", "pentanedione", "acetoin", "blend of a.csv, b.csv"]
    assert [row["pz_file"] for row in rows] == ["a.csv", "b.csv", "b.csv", ""]


@pytest.mark.parametrize("kind", ["csv", "tsv", "smi", "sdf", "xlsx"])
def test_column_with_the_name_of_a_blend(tmp_path: Path, capfd: Captured, kind: str) -> None:
    """It is that of the names, in each kind of file, and nothing else of the row is filled but what is appended."""
    from rdkit import Chem

    (tmp_path / "a.csv").write_text("ID,smiles,name\n1,CCO,ethanol\n")
    (tmp_path / "a.tsv").write_text("smiles\tname\nCCO\tethanol\n")
    (tmp_path / "a.smi").write_text("CCO ethanol\n")
    (tmp_path / "a.sdf").write_text("ethanol" + Chem.MolToMolBlock(Chem.MolFromSmiles("CCO")) + "$$$$\n")
    book = openpyxl.Workbook()
    for row in [("smiles", "amount", "name"), ("CCO", 1, "ethanol")]:
        book.active.append(row)
    book.save(tmp_path / "a.xlsx")
    run(capfd, "score", f"a.{kind}", "--blend", "-o", "out.csv")
    ethanol, blend = table((tmp_path / "out.csv").read_text())
    column = "title" if kind == "sdf" else "name"
    assert ethanol[column] == "ethanol" and blend[column] == f"blend of a.{kind}"
    assert not any(blend[other] for other in blend if other != column and not other.startswith("pz_"))


def test_blend_of_a_list_without_names(tmp_path: Path, capfd: Captured) -> None:
    """Its name does not go into the column with the structures."""
    (tmp_path / "a.csv").write_text("smiles\nCCO\nOCC\n")
    for words in ((), ("--name", "smiles")):
        blend = table(run(capfd, "score", "a.csv", "--blend", *words)[1])[-1]
        assert (blend["smiles"], blend["pz_score"], blend["pz_sum"]) == ("", "1", "2")


def test_blend_of_typed_smiles() -> None:
    status, shown = on_terminal("score", "--smiles", "CCO", "--smiles", "OCC", "--blend")
    lines = shown.split("\n")
    assert status == 0 and [line.split()[:2] for line in lines[1:4]] == [["CCO", "1"], ["OCC", "1"], ["blend", "1"]]
    assert lines[-3:] == ["2 structures: 2 scored, 0 cut off", "Blend: 1 together, 2 on their own, 1 shared", ""]


def test_blend_again(tmp_path: Path, capfd: Captured) -> None:
    """In a list that was scored before, the row of its blend stays, and is no compound of the new one."""
    (tmp_path / "lot.csv").write_text(LOT)
    run(capfd, "score", "lot.csv", "--blend", "-o", "one.csv")
    run(capfd, "score", "one.csv", "--blend", "-o", "two.csv")
    status, out, error = run(capfd, "score", "two.csv", "--blend")
    rows = table(out)
    names = ["diacetyl", "2,3-pentanedione", "acetoin", "blend of lot.csv", "blend of one.csv", "blend of two.csv"]
    assert [row["name"] for row in rows] == names and status == 0
    assert [row["pz_score_3"] for row in rows] == ["3", "4", "4", "no structure", "no structure", "6"]
    assert [row["pz_shared_3"] for row in rows] == ["", "", "", "", "", "5"] and error.endswith(TOGETHER)
    assert [row["pz_score_4"] for row in table(run(capfd, "score", "two.csv", "--blend", "-o", "3.tsv")[1])] == []


def test_blend_in_every_format(tmp_path: Path, capfd: Captured) -> None:
    from rdkit import Chem

    (tmp_path / "lot.csv").write_text(LOT)
    with Chem.SDWriter(str(tmp_path / "lot.sdf")) as writer:
        for row in table(LOT):
            molecule = Chem.MolFromSmiles(row["smiles"])
            molecule.SetProp("_Name", row["name"])
            writer.write(molecule)
    assert run(capfd, "score", "lot.csv", "--blend", "-o", "out.xlsx")[0] == 0
    *_, blend = [[cell.value for cell in row] for row in openpyxl.load_workbook(tmp_path / "out.xlsx").active.iter_rows()]
    assert blend == ["blend of lot.csv", None, None, 6, "scored", 16, None, SHARED, 11, 5]
    assert run(capfd, "score", "lot.csv", "--blend", "-o", "out.tsv")[0] == 0
    assert (tmp_path / "out.tsv").read_text().splitlines()[-1] == f"blend of lot.csv\t\t\t6\tscored\t16\t\t{SHARED}\t11\t5"
    assert run(capfd, "score", "lot.sdf", "--blend", "-o", "out.sdf") == (0, "", "3 structures: 3 scored, 0 cut off\n" + TOGETHER)
    *others, blend = (tmp_path / "out.sdf").read_text().removesuffix("$$$$\n").split("$$$$\n")
    assert len(others) == 3 and all("pz_shared" not in record for record in others)
    assert blend.startswith("blend of lot.sdf\n") and "> <pz_score>\n6\n\n" in blend and "> <pz_shared>\n5\n\n" in blend
    again = table(run(capfd, "score", "out.sdf", "--blend")[1])
    assert [row["pz_score_2"] for row in again] == ["3", "4", "4", "no structure", "6"]
    assert again[3]["pz_reason"].startswith("the structure has no atoms")


def test_blend_that_is_cut_off(tmp_path: Path, capfd: Captured) -> None:
    (tmp_path / "a.csv").write_text(f"name,smiles\na,CCO\nslow,{SLOW}\n")
    status, out, error = run(capfd, "score", "a.csv", *ENDLESS, "--blend", "--time", "1")
    a, slow, blend = table(out)
    assert status == 1 and (a["pz_score"], slow["pz_score"], blend["pz_score"]) == ("1", "cut off", "cut off")
    assert (blend["pz_sum"], blend["pz_shared"]) == ("not known", "not known") and "--time 10" in blend["pz_reason"]
    assert "Blend: cut off, not finished after 1 s" in error


def test_blend_stopped_by_the_user(tmp_path: Path) -> None:
    """The blend is finished before a compound of it, whose score is then missing from the sum."""
    (tmp_path / "a.csv").write_text(f"name,smiles\na,CCO\nslow,{SLOW}\nring,C1CC1\n")
    words = [*COMMAND, "score", "a.csv", *ENDLESS, "--blend"]
    with subprocess.Popen(words, stdout=subprocess.PIPE, stderr=subprocess.PIPE, env=environment(), start_new_session=True) as program:
        time.sleep(4)
        os.killpg(program.pid, signal.SIGINT)
        out, error = program.communicate(timeout=20)
    assert program.returncode == 130 and b"Traceback" not in error
    rows = table(out.decode())
    assert [(row["name"], row["pz_score"]) for row in rows] == [("a", "1"), ("ring", "ring"), ("blend of a.csv", "incomplete")]
    assert rows[-1]["pz_sum"] == "not known" and b"stopped after 3 of 4" in error


def test_workbook_to_workbook(tmp_path: Path, capfd: Captured) -> None:
    book = openpyxl.Workbook()
    for row in [["Title"], [], ["name", "SMILES", "score"], ["=A1", "CCO", 0], ["x", "=B4", 5], ["y", None, None]]:
        book.active.append(row)
    book.active["A4"].data_type = "s"
    book.save(tmp_path / "in.xlsx")
    status, _, error = run(capfd, "score", "in.xlsx", "-o", "out.xlsx", "--against", "score")
    rows = [[cell.value for cell in row] for row in openpyxl.load_workbook(tmp_path / "out.xlsx").active.iter_rows(min_row=4)]
    assert status == 1 and "1 old 0 was no score" in error
    assert rows[0][:5] == ["=A1", "CCO", 0, 1, "scored"] and rows[0][-1] == "old 0 was no score"
    assert rows[1][:5] == ["x", "=B4", 5, "unreadable", "unreadable"] and rows[1][-1] == "not scored now"
    assert rows[2][3:5] == ["no structure", "no structure"] and rows[2][-1] == "nothing to compare"


def test_standard_input() -> None:
    told = subprocess.run([*COMMAND, "score", "-", "--format", "smi"], input=b"CCO a\nC1CC1 b\n", capture_output=True, env=environment())
    assert told.returncode == 0
    assert [row["pz_score"] for row in table(told.stdout.decode())] == ["1", "ring"]
    assert told.stderr.decode() == "2 structures: 1 scored, 1 ring, 0 cut off\n"


def test_typed_smiles(capfd: Captured) -> None:
    status, out, _ = run(capfd, "score", "--smiles", "CC(C)CC=O")
    assert (status, table(out)[0]["pz_score"]) == (0, "3")


def test_only_a_header(tmp_path: Path, capfd: Captured) -> None:
    (tmp_path / "a.csv").write_text("name,smiles\n")
    status, out, error = run(capfd, "score", "a.csv")
    assert (status, out) == (0, "name,smiles,pz_score,pz_status,pz_bonds,pz_reason,pz_note\n")
    assert error.startswith("0 structures")


# What comes back


def test_details_sort_and_memo(tmp_path: Path, capfd: Captured) -> None:
    (tmp_path / "a.csv").write_text(f"name,smiles\nring,C1CC1\nlow,CCO\ncut,{SLOW}\nhigh,CC(C)=CCCC(C)(O)C=C\n")
    status, out, error = run(capfd, "score", "a.csv", "--details", "--sort", "score", "--memo", "1", "--budget", "50")
    rows = table(out)
    assert [row["name"] for row in rows] == ["high", "low", "cut", "ring"]
    assert rows[0]["pz_matches"] == "14" and "at most" in rows[0]["pz_note"]
    sizes = [int(removal.partition("(")[2][:-1]) for removal in rows[0]["pz_removals"].split()]
    assert sizes and int(rows[0]["pz_bonds"]) - 1 == int(rows[0]["pz_score"]) + sum(size - 1 for size in sizes)
    assert (rows[2]["pz_row"], rows[2]["pz_place"], status) == ("11", "50", 1)
    assert "--budget" in rows[2]["pz_reason"] and "at most" in error


def test_time_is_a_limit_and_later_rows_come(tmp_path: Path, capfd: Captured) -> None:
    (tmp_path / "a.csv").write_text(f"name,smiles\na,CCO\nslow,{SLOW}\nb,CC\n")
    status, out, _ = run(capfd, "score", "a.csv", *ENDLESS, "--time", "1", "--jobs", "1")
    rows = table(out)
    assert status == 1 and [row["pz_score"] for row in rows] == ["1", "cut off", "0"] and "--time" in rows[1]["pz_reason"]


def test_terminal(tmp_path: Path) -> None:
    (tmp_path / "a.csv").write_text("name,smiles,old\n乙醇,CCO,0\nring,C1CC1,\nbad,CC(,3\nAr,[Ar],0\n")
    status, shown = on_terminal("score", "a.csv", "--against", "old")
    lines = shown.split("\n")
    assert status == 1 and lines[0].startswith("\033[1mname  score")
    assert lines[1].startswith("\033[31m乙醇      1  scored") and "old 0 was no score" in lines[1]
    assert lines[2].startswith("\033[33mring      -  ring")
    assert any(line.startswith("Ar        0  scored              0       0  same") for line in lines)
    assert lines[-3] == "4 structures: 2 scored, 1 ring, 1 unreadable, 0 cut off"
    assert lines[-2] == "Against old: 1 same, 1 old 0 was no score, 0 differs, 1 nothing to compare, 1 not scored now"


# How it ends


@pytest.mark.parametrize(
    ("words", "said"),
    [
        ((), "usage: pazgelk"),
        (("scores", "a.csv"), "invalid choice: 'scores'"),
        (("a.csv",), "pazgelk score a.csv"),
        (("score",), "nothing to score"),
        (("score", "none.csv"), "none.csv cannot be read: there is no such file"),
        (("score", "."), "it is a folder"),
        (("score", "a.csv", "--smiles", "C"), "do not go together"),
        (("score", "-"), "--format"),
        (("score", "-", "-", "--format", "csv"), "once only"),
        (("score", "a.csv", "--col", "x"), "unrecognized arguments: --col"),
        (("score", "a.csv", "--column", "x"), "has no column 'x'. Its columns: 'name', 'smiles'"),
        (("score", "a.csv", "--against", "x"), "has no column 'x'. Its columns: 'name', 'smiles'"),
        (("score", "a.csv", "-o", "a.csv"), "never written over"),
        (("score", "a.csv", "-o", "b.doc"), "ends in .csv"),
        (("score", "a.csv", "-o", "b.sdf"), "SDF"),
        (("score", "a.csv", "-o", "none/b.csv"), "no such folder"),
        (("score", "a.csv", "--bounds", "4"), "bounds is a whole number from 0 to 3"),
        (("score", "a.csv", "--budget", "4294967296"), "budget is a whole number"),
        (("score", "a.csv", "--budget"), "expected one argument"),
        (("score", "a.csv", "--memory", "12"), "memory is at least"),
        (("score", "a.csv", "--memory", "much"), "no size"),
        (("score", "a.csv", "--time", "0"), "time is"),
        (("score", "a.csv", "--jobs", "0"), "no whole number"),
        (("score", "a.csv", "--encoding", "morse"), "no encoding"),
        (("score", "a.csv", "--delimiter", "ab"), "no delimiter"),
        (("ask", "a.csv"), "in the repository only"),
    ],
)
def test_not_started(tmp_path: Path, capfd: Captured, words: tuple[str, ...], said: str) -> None:
    (tmp_path / "a.csv").write_text("name,smiles\na,CC\n")
    status, out, error = run(capfd, *words)
    assert (status, out) == (2, "") and said in error
    assert sorted(os.listdir(tmp_path)) == ["a.csv"]


@pytest.mark.parametrize("words", [("--help",), ("score", "--help"), ("--version",)])
def test_help_and_version(capfd: Captured, words: tuple[str, ...]) -> None:
    status, out, error = run(capfd, *words)
    assert status == 0 and out and not error


def test_quiet(tmp_path: Path, capfd: Captured) -> None:
    assert run(capfd, "score", "--smiles", "CC", "--quiet")[2] == ""


def test_nobody_reads_on() -> None:
    program = subprocess.Popen([*COMMAND, "score", str(ROAST)], stdout=subprocess.PIPE, stderr=subprocess.PIPE, env=environment())
    assert program.stdout is not None and program.stderr is not None
    assert program.stdout.readline().startswith(b"name,cas,smiles")
    program.stdout.close()
    assert b"Traceback" not in program.stderr.read()
    assert program.wait() in (0, 141)
    program.stderr.close()


@pytest.mark.parametrize("output", [(), ("-o", "out.csv")])
def test_stopped_by_the_user(tmp_path: Path, output: tuple[str, ...]) -> None:
    (tmp_path / "a.csv").write_text(f"name,smiles\na,CCO\nslow,{SLOW}\nb,CC\nc,{SLOW}\n")
    words = [*COMMAND, "score", "a.csv", *ENDLESS, "--jobs", "2", *output]
    with subprocess.Popen(words, stdout=subprocess.PIPE, stderr=subprocess.PIPE, env=environment(), start_new_session=True) as program:
        time.sleep(4)
        os.killpg(program.pid, signal.SIGINT)
        out, error = program.communicate(timeout=20)
    assert program.returncode == 130 and b"Traceback" not in error
    rows = table((tmp_path / "out.csv").read_text() if output else out.decode())
    assert [(row["name"], row["pz_score"]) for row in rows] == [("a", "1"), ("b", "0")]
    assert b"stopped after 2 of 4" in error
    assert sorted(os.listdir(tmp_path)) == (["a.csv", "out.csv"] if output else ["a.csv"])
