"""Lists are written as they were read, with the answers behind."""

from __future__ import annotations

import io
import os
from pathlib import Path

import openpyxl
import pytest

from pazgelk import tables
from pazgelk.blends import Blend
from pazgelk.compare import Compared
from pazgelk.errors import NotStarted
from pazgelk.model import Removal, Result, Status
from pazgelk.tables import Table, answers, output
from test_tables import block

SCORED = Result(Status.SCORED, 3, 5, matches=1, states=2, removals=(Removal(0, 3), Removal(14, 2)))
CUT_OFF = Result(Status.CUT_OFF, None, 52, "the budget is spent", row=11, place=100)


def written(kind: str, table: Table, *results: Result) -> bytes:
    """The bytes of the table with these results."""
    stream = io.BytesIO()
    writer = output.writer(kind, stream, table, answers.columns(details=False, against=False, taken=table.columns))
    for row, result in zip(table.rows, results):
        writer.row(row, answers.cells(result, None, details=False))
    writer.close()
    return stream.getvalue()


def read(tmp_path: Path, name: str, content: bytes) -> Table:
    """The table of a file with this content."""
    (tmp_path / name).write_bytes(content)
    return tables.read(str(tmp_path / name))


@pytest.mark.parametrize("delimiter", [",", ";", "\t"])
@pytest.mark.parametrize(
    ("newline", "mark", "encoding"),
    [("\n", "", "utf-8"), ("\r\n", "\ufeff", "utf-8"), ("\r\n", "\ufeff", "utf-16-le"), ("\n", "", "cp1252")],
)
def test_style_is_kept(tmp_path: Path, delimiter: str, newline: str, mark: str, encoding: str) -> None:
    rows = [f"Name{delimiter}smiles", f"Käse{delimiter}CCO", f'"a{delimiter}b"{delimiter}CC']
    table = read(tmp_path, "list.csv", (mark + newline.join(rows) + newline).encode(encoding))
    tail = delimiter.join(["pz_score", "pz_status", "pz_bonds", "pz_reason", "pz_note"])
    said = [rows[0] + delimiter + tail]
    said.append(rows[1] + delimiter + delimiter.join(["3", "scored", "5", "", ""]))
    said.append(rows[2] + delimiter + delimiter.join(["cut off", "cut off", "52", "the budget is spent", ""]))
    assert written("csv", table, SCORED, CUT_OFF) == (mark + newline.join(said) + newline).encode(encoding)


def test_what_stands_above_the_header_is_kept(tmp_path: Path) -> None:
    table = read(tmp_path, "list.csv", b"sep=;\nMay;\nname;smiles\na;CC\n")
    assert written("csv", table, SCORED).decode().split("\n")[:2] == ["sep=;", "May;"]


def test_tab_and_comma_follow_the_ending(tmp_path: Path) -> None:
    comma = read(tmp_path, "list.csv", b"name,smiles\na,CC\n")
    assert written("tsv", comma, SCORED).startswith(b"name\tsmiles\tpz_score")
    tab = read(tmp_path, "list.tsv", b"name\tsmiles\na\tCC\n")
    assert written("tsv", tab, SCORED).startswith(b"name\tsmiles\tpz_score")
    assert written("csv", tab, SCORED).startswith(b"name,smiles,pz_score")


def test_workbook(tmp_path: Path) -> None:
    table = read(tmp_path, "list.csv", b'name,smiles,old\n=1+1,CC,007\n#N/A,CCO,\n"bad\x01",C,0\n')
    book = openpyxl.load_workbook(io.BytesIO(written("xlsx", table, SCORED, CUT_OFF, CUT_OFF)))
    sheet = book.active
    rows = [[cell.value for cell in row] for row in sheet.iter_rows()]
    assert rows[1][:5] == ["=1+1", "CC", "007", 3, "scored"]
    assert rows[2][:4] == ["#N/A", "CCO", None, "cut off"]
    assert rows[3][0] == "bad\ufffd"
    assert [sheet.cell(2, place).data_type for place in (1, 2, 3, 4)] == ["s", "s", "s", "n"]
    assert sheet.cell(3, 1).data_type == "s"


def test_numbers_of_a_workbook_stay_numbers(tmp_path: Path) -> None:
    book = openpyxl.Workbook()
    for row in (["smiles", "n"], ["CC", 1.5]):
        book.active.append(row)
    book.save(tmp_path / "list.xlsx")
    table = tables.read(str(tmp_path / "list.xlsx"))
    made = openpyxl.load_workbook(io.BytesIO(written("xlsx", table, SCORED))).active
    assert made["B2"].value == 1.5
    assert written("csv", table, SCORED).decode().split("\n")[1].startswith("CC,1.5,3,scored")


def test_sdf(tmp_path: Path) -> None:
    table = read(tmp_path, "list.sdf", f"{block('one')}> <ID>\n17\n\n$$$$\n{block('two')}".encode())
    text = written("sdf", table, SCORED, CUT_OFF).decode()
    assert text.count("$$$$\n") == 2
    again = read(tmp_path, "again.sdf", text.encode())
    assert again.columns[:4] == ("title", "ID", "pz_score", "pz_status")
    assert [row.cells[2] for row in again.rows] == ["3", "cut off"]
    with pytest.raises(NotStarted):
        written("sdf", tables.from_smiles(["C"]), SCORED)


def test_score_is_never_empty_and_never_zero_without_one() -> None:
    for status in Status:
        score = answers.cells(Result(status, 0 if status is Status.SCORED else None), None, details=False)[0]
        assert score == (0 if status is Status.SCORED else status.value)


def test_details_and_comparison() -> None:
    names = answers.columns(details=True, against=True, taken=["pz_score", "name"])
    assert names[0] == "pz_score_2" and names[-1] == "pz_compare" and len(names) == 11
    assert answers.cells(SCORED, Compared.SAME, details=True)[5:] == (1, 2, "0(3) 14(2)", "", "", "same")
    assert answers.cells(CUT_OFF, None, details=True)[5:] == ("", "", "", 11, 100)


def test_columns_of_a_blend() -> None:
    """Only its own row has something in them, and never a number that is not known."""
    names = answers.columns(details=False, against=True, taken=["pz_sum"], blended=True)
    assert names[5:] == ("pz_sum_2", "pz_shared", "pz_compare")
    assert answers.cells(SCORED, Compared.SAME, details=False, blended=True)[5:] == ("", "", "same")
    blend = Blend(SCORED, (SCORED, Result(Status.SCORED, 1)))
    assert answers.cells(SCORED, None, details=False, blended=True, blend=blend)[5:] == (4, 1)
    unknown = Blend(CUT_OFF, (SCORED, CUT_OFF))
    assert answers.cells(CUT_OFF, None, details=False, blended=True, blend=unknown)[5:] == ("not known", "not known")
    zero = Result(Status.SCORED, 0, 0)
    assert answers.cells(zero, None, details=False, blended=True, blend=Blend(zero, (zero, zero)))[5:] == (0, 0)
    assert answers.tells_blend(" pz_shared ") and answers.tells_blend("pz_shared_12") and not answers.tells_blend("pz_shared_x")


def test_output_takes_its_name_when_it_is_whole(tmp_path: Path) -> None:
    path = tmp_path / "out.csv"
    path.write_text("old")
    path.chmod(0o640)
    with pytest.raises(RuntimeError), output.replacing(path) as stream:
        stream.write(b"half")
        raise RuntimeError
    assert path.read_text() == "old" and os.listdir(tmp_path) == ["out.csv"]
    with output.replacing(path) as stream:
        stream.write(b"new")
        assert path.read_text() == "old"
    assert path.read_text() == "new" and os.listdir(tmp_path) == ["out.csv"] and path.stat().st_mode & 0o777 == 0o640


def test_outputs_that_are_refused(tmp_path: Path) -> None:
    source, link = tmp_path / "list.csv", tmp_path / "link.csv"
    source.write_text("smiles\nC\n")
    link.symlink_to(source)
    (tmp_path / "folder.csv").mkdir()
    for path in (source, link, tmp_path / "folder.csv", tmp_path / "none" / "out.csv"):
        with pytest.raises(NotStarted):
            output.refuse_target(path, [str(source)])
    output.refuse_target(tmp_path / "out.csv", [str(source), "-"])
    with pytest.raises(NotStarted):
        output.kind_of(Path("out.doc"))
