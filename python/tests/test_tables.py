"""Files as laboratories have them: what is read from them, and what is refused in one line."""

from __future__ import annotations

import datetime
import zipfile
from collections.abc import Callable
from pathlib import Path

import openpyxl
import pytest

from pazgelk import tables
from pazgelk.errors import NotStarted
from pazgelk.model import Status
from pazgelk.tables import Reading, Table

Make = Callable[..., str]


@pytest.fixture
def make(tmp_path: Path) -> Make:
    """Makes a file of a text or of bytes, and gives its name."""

    def made(name: str, content: str | bytes, encoding: str = "utf-8") -> str:
        path = tmp_path / name
        path.write_bytes(content if isinstance(content, bytes) else content.encode(encoding))
        return str(path)

    return made


def smiles(table: Table) -> list[str | None]:
    """The SMILES of each row."""
    return [row.compound.smiles for row in table.rows]


def names(table: Table) -> list[str]:
    """The name of each row."""
    return [row.compound.name for row in table.rows]


def problems(table: Table) -> list[str | None]:
    """The status of each row that is turned back by its reader."""
    return [row.compound.problem.status.value if row.compound.problem else None for row in table.rows]


def reason(table: Table, place: int) -> str:
    """The reason of a row that is turned back."""
    problem = table.rows[place].compound.problem
    assert problem is not None
    return problem.reason


def refusal(source: str, **words: str) -> str:
    """The one line with which a file is refused."""
    with pytest.raises(NotStarted) as caught:
        tables.read(source, Reading(**words))
    assert "\n" not in str(caught.value)
    return str(caught.value)


# Text tables


@pytest.mark.parametrize("delimiter", [",", ";", "\t"])
@pytest.mark.parametrize("newline", ["\n", "\r\n", "\r"])
@pytest.mark.parametrize("mark", [True, False])
def test_delimiter_line_ends_and_mark_are_found(make: Make, delimiter: str, newline: str, mark: bool) -> None:
    rows = [["Nr", "Name", "SMILES"], ["1", '"2,3; dione"', "CC(=O)C(C)=O"], ["2", "ethanol", "CCO"]]
    text = ("\ufeff" if mark else "") + newline.join(delimiter.join(row) for row in rows) + newline
    table = tables.read(make("list.csv", text))
    assert table.columns == ("Nr", "Name", "SMILES")
    assert smiles(table) == ["CC(=O)C(C)=O", "CCO"]
    assert names(table) == ["2,3; dione", "ethanol"]
    assert (table.style.delimiter, table.style.newline, table.style.bom) == (delimiter, newline, mark)
    assert table.warnings == ()


@pytest.mark.parametrize("encoding", ["utf-16-le", "utf-16-be", "utf-8"])
def test_marked_encodings(make: Make, encoding: str) -> None:
    table = tables.read(make("list.csv", "\ufeffName;SMILES\r\nÄthanol;CCO\r\n", encoding))
    assert names(table) == ["Äthanol"]
    assert (table.style.encoding, table.style.bom, table.style.newline) == (encoding, True, "\r\n")


@pytest.mark.parametrize("named", ["utf-16", "utf-8-sig"])
def test_named_encodings_that_eat_their_mark(make: Make, named: str) -> None:
    table = tables.read(make("list.csv", "name,smiles\nÄ,CCO\n", named), Reading(encoding=named))
    assert (table.columns, names(table), table.style.bom) == (("name", "smiles"), ["Ä"], True)


def test_windows_letters_are_read_with_a_warning(make: Make) -> None:
    table = tables.read(make("list.csv", "Name;SMILES\nÄthanol – rein;CCO\n", "cp1252"))
    assert names(table) == ["Äthanol – rein"]
    assert table.style.encoding == "cp1252"
    assert len(table.warnings) == 1 and "cp1252" in table.warnings[0]


def test_named_encoding(make: Make) -> None:
    source = make("list.csv", "Name,SMILES\nétain,CCO\n", "mac-roman")
    assert names(tables.read(source, Reading(encoding="mac-roman"))) == ["étain"]
    assert "not in ascii" in refusal(source, encoding="ascii")


def test_utf16_without_a_mark_is_refused_with_help(make: Make) -> None:
    source = make("list.csv", "Name;SMILES\na;CCO\n", "utf-16-le")
    assert "--encoding utf-16-le" in refusal(source)
    assert smiles(tables.read(source, Reading(encoding="utf-16-le"))) == ["CCO"]


def test_line_that_tells_excel_the_delimiter(make: Make) -> None:
    table = tables.read(make("list.csv", "sep=;\r\nname;smiles\r\na,b;CCO\r\n"))
    assert (names(table), table.style.first_line) == (["a,b"], "sep=;\r\n")


@pytest.mark.parametrize("header", ["SMILES", "smiles", " Smiles ", "structure", "Structure", "canonical_smiles", "Isomeric SMILES"])
def test_structures_are_found_by_their_header(make: Make, header: str) -> None:
    assert smiles(tables.read(make("list.csv", f"id,{header},note\n1,CCO,x\n"))) == ["CCO"]


def test_surest_header_is_taken(make: Make) -> None:
    assert smiles(tables.read(make("list.csv", "structure,SMILES old,smiles\na,b,CCO\n"))) == ["CCO"]


def test_several_columns_are_asked_about(make: Make) -> None:
    source = make("list.csv", "SMILES a,SMILES b\nC,CC\n")
    assert "'SMILES a', 'SMILES b'" in refusal(source) and "--column" in refusal(source)
    assert smiles(tables.read(source, Reading(column="smiles B"))) == ["CC"]
    assert "more than one column called 'smiles'" in refusal(make("same.csv", "smiles,smiles\nC,CC\n"))


def test_missing_column_names_those_there_are(make: Make) -> None:
    source = make("list.csv", "Name;CAS;Formel\na;b;c\n")
    assert "'Name', 'CAS', 'Formel'" in refusal(source)
    assert "no column 'x'" in refusal(source, column="x")
    assert "no column 'y'" in refusal(make("other.csv", "name,smiles\na,C\n"), name="y")


def test_header_below_the_first_row(make: Make) -> None:
    table = tables.read(make("list.csv", "Export of 3 May;;\n;;\nNr;SMILES;Name\n1;CCO;ethanol\n"))
    assert table.above == (("Export of 3 May", "", ""), ("", "", ""))
    assert (smiles(table), names(table)) == (["CCO"], ["ethanol"])


def test_each_row_stays_one_row(make: Make) -> None:
    table = tables.read(make("list.csv", "name,smiles,x\na,CCO,1\n\nb,,2\nc\n,,\n d , CC ,\ne,n/a,\n\n,,\n"))
    assert len(table.rows) == 7
    assert smiles(table) == ["CCO", None, None, None, None, " CC ", None]
    assert set(problems(table)) == {None, "no structure"}
    assert all(len(row.cells) == 3 for row in table.rows)
    assert names(table) == ["a", "row 2", "b", "c", "row 5", " d ", "e"]


def test_moved_cells_are_not_scored(make: Make) -> None:
    table = tables.read(make("list.csv", "name,smiles\nN,N-dimethyl,CN(C)C\nok,CC,\nx,CCC,,\n"))
    assert problems(table) == ["unreadable", None, None]
    assert "3 cells under 2 columns" in reason(table, 0)
    assert table.columns == ("name", "smiles", "", "") and table.rows[0].cells == ("N", "N-dimethyl", "CN(C)C", "")


def test_columns_called_like_ours_are_kept(make: Make) -> None:
    table = tables.read(make("list.csv", "score,status,smiles,score\n0,x,CCO,7\n"))
    assert table.rows[0].cells == ("0", "x", "CCO", "7")


def test_open_quotation_mark(make: Make) -> None:
    assert "line 3" in refusal(make("list.csv", 'name,smiles\na,C\n"b,CC\nc,CCC\n'))
    assert smiles(tables.read(make("inch.csv", 'name,smiles\n5" tube,C\n"b ""x""",CC\n'))) == ["C", "CC"]


def test_swallowed_rows_are_told(make: Make) -> None:
    table = tables.read(make("list.csv", 'name,smiles\n"a,C\nb,CC\nc",CCC\n'))
    assert len(table.rows) == 1 and "lines 2 to 4" in table.warnings[0]
    assert tables.read(make("note.csv", 'name,smiles\n"two\nlines",C\n')).warnings == ()


def test_only_a_header(make: Make) -> None:
    table = tables.read(make("list.csv", "name,smiles\n"))
    assert (table.columns, table.rows) == (("name", "smiles"), ())


@pytest.mark.parametrize("content", [b"", b"\n\n", b"\xef\xbb\xbf", b"  \r\n"])
def test_empty_files(make: Make, content: bytes) -> None:
    assert "is empty" in refusal(make("list.csv", content))
    assert "is empty" in refusal(make("list.smi", content))
    assert "is empty" in refusal(make("list.sdf", content))


def test_other_files(make: Make) -> None:
    assert "workbook" in refusal(make("list.csv", b"PK\x03\x04rest"))
    assert "save it as .xlsx" in refusal(make("list.xlsx", b"\xd0\xcf\x11\xe0rest"))
    assert "save it as .xlsx" in refusal(make("list.xls", b"\xd0\xcf\x11\xe0rest"))
    assert "no text" in refusal(make("list.tsv", bytes(range(256))))
    assert "--format" in refusal(make("list.dat", "x"))
    assert "--format" in refusal("-")
    assert "cannot be read" in refusal("no such file.csv")
    assert "--sheet" in refusal(make("sheet.csv", "smiles\nC\n"), sheet="a")


def test_long_cells(make: Make) -> None:
    assert len(smiles(tables.read(make("list.csv", "smiles\n" + "C" * 300_000 + "\n")))[0] or "") == 300_000


def test_one_column(make: Make) -> None:
    assert smiles(tables.read(make("list.csv", "SMILES\nCC\nCCO"))) == ["CC", "CCO"]


def test_named_delimiter(make: Make) -> None:
    assert smiles(tables.read(make("list.txt", "a|smiles\nb|CC\n"), Reading(delimiter="|"))) == ["CC"]


# Lists of SMILES


def test_smiles_list(make: Make) -> None:
    table = tables.read(make("list.smi", "CCO ethyl alcohol\r\nCC\t\r\n\r\n# seen\r\nCCC |c:0| odd name\r\n"))
    assert smiles(table) == ["CCO", "CC", None, "CCC |c:0|"]
    assert names(table) == ["ethyl alcohol", "row 2", "row 3", "odd name"]
    assert "1 lines that begin with #" in table.warnings[0]


def test_smiles_list_with_a_header(make: Make) -> None:
    assert smiles(tables.read(make("list.smi", "SMILES Name\nCC a\n"))) == ["CC"]


# Workbooks


def workbook(path: Path, **sheets: list[list[object]]) -> openpyxl.Workbook:
    """A workbook with these sheets."""
    book = openpyxl.Workbook()
    book.remove(book.active)
    for name, rows in sheets.items():
        sheet = book.create_sheet(name)
        for row in rows:
            sheet.append(row)
    book.save(path)
    return book


def test_workbook(tmp_path: Path) -> None:
    path = tmp_path / "list.xlsx"
    day = datetime.datetime(2024, 5, 3)
    workbook(path, a=[["name", "smiles", "n", "day"], ["x", "CCO", 1.5, day], [None, None], ["y", "C#N", 0, None], [None, " "]])
    table = tables.read(str(path))
    assert smiles(table) == ["CCO", None, "C#N"]
    assert table.rows[0].cells == ("x", "CCO", 1.5, day)
    assert [tables.text_of(cell) for cell in table.rows[0].cells] == ["x", "CCO", "1.5", "2024-05-03"]
    assert names(table) == ["x", "row 2", "y"]


def test_header_below_and_number_as_name(tmp_path: Path) -> None:
    path = tmp_path / "list.xlsx"
    workbook(path, a=[["Results of May"], [], [None, "ID", "Structure"], [None, 17, "CC"]])
    table = tables.read(str(path))
    assert (names(table), smiles(table), len(table.above)) == (["17"], ["CC"], 2)


def test_sheets_are_chosen(tmp_path: Path) -> None:
    path = tmp_path / "list.xlsx"
    rows: list[list[object]] = [["name", "smiles"], ["x", "CC"]]
    workbook(path, notes=[["hello"]], data=rows)
    assert smiles(tables.read(str(path))) == ["CC"]
    workbook(path, one=rows, two=rows)
    assert "'one', 'two'" in refusal(str(path)) and "--sheet" in refusal(str(path))
    assert smiles(tables.read(str(path), Reading(sheet="TWO"))) == ["CC"]
    assert "no sheet 'three'" in refusal(str(path), sheet="three")
    workbook(path, one=[["a"]], two=[["b"]])
    assert "no visible sheet with" in refusal(str(path))


@pytest.mark.parametrize("state", ["hidden", "veryHidden"])
def test_hidden_sheets_are_not_read_unasked(tmp_path: Path, state: str) -> None:
    path = tmp_path / "list.xlsx"
    book = workbook(path, shown=[["name", "smiles"], ["x", "CC"]], old=[["name", "smiles"], ["y", "CCC"]])
    book["old"].sheet_state = state
    book.save(path)
    assert smiles(tables.read(str(path))) == ["CC"]
    assert smiles(tables.read(str(path), Reading(sheet="old"))) == ["CCC"]


def test_only_a_hidden_sheet_fits(tmp_path: Path) -> None:
    path = tmp_path / "list.xlsx"
    book = workbook(path, shown=[["a"], ["b"]], old=[["name", "smiles"], ["y", "CCC"]])
    book["old"].sheet_state = "hidden"
    book.save(path)
    assert "Its columns: 'a'" in refusal(str(path))


def test_sheet_that_lies_about_its_size(tmp_path: Path) -> None:
    path, other = tmp_path / "list.xlsx", tmp_path / "other.xlsx"
    workbook(path, a=[["name", "smiles"], *[[f"c{place}", "CC"] for place in range(50)]])
    with zipfile.ZipFile(path) as source, zipfile.ZipFile(other, "w") as target:
        for name in source.namelist():
            target.writestr(name, source.read(name).replace(b'ref="A1:B51"', b'ref="A1:A2"'))
    assert len(tables.read(str(other)).rows) == 50


def test_formulas_without_values_are_told_from_empty_cells(tmp_path: Path) -> None:
    path = tmp_path / "list.xlsx"
    workbook(path, a=[["name", "smiles", "x"], ["f", '=A1&"C"', "=1+1"], ["e", None], ["r", "#REF!"]])
    table = tables.read(str(path))
    assert problems(table) == ["unreadable", "no structure", "unreadable"]
    assert '=A1&"C"' in reason(table, 0) and "save it" in reason(table, 0)
    assert "#REF!" in reason(table, 2)
    assert table.rows[0].cells == ("f", '=A1&"C"', "=1+1")


def test_broken_workbooks(tmp_path: Path) -> None:
    path = tmp_path / "list.xlsx"
    workbook(path, a=[["smiles"], ["C"]])
    whole = path.read_bytes()
    for content in (whole[:200], b"PK\x03\x04", b"name,smiles\n", whole[: len(whole) // 2]):
        path.write_bytes(content)
        assert "cannot be opened as a workbook" in refusal(str(path))
    path.write_bytes(b"")
    assert "is empty" in refusal(str(path))
    workbook(path, a=[])
    assert "is empty" in refusal(str(path))


# SDF


def block(title: str, end: str = "M  END") -> str:
    """A mol block of ethane."""
    atom = "    0.0000    0.0000    0.0000 C   0  0  0  0  0  0  0  0  0  0  0  0"
    return f"{title}\n  test\n\n  2  1  0  0  0  0  0  0  0  0999 V2000\n{atom}\n{atom}\n  1  2  1  0\n{end}\n"


def test_sdf(make: Make) -> None:
    text = f"{block('one')}> <ID>\n17\n\n>  <note> (2)\ntwo\nlines\n\n$$$$\n{block('two')}> <ID>\n18\n\n$$$$\n\n"
    for newline in ("\n", "\r\n"):
        table = tables.read(make("list.sdf", text.replace("\n", newline)))
        assert table.columns == ("title", "ID", "note")
        assert [row.cells for row in table.rows] == [("one", "17", "two\nlines"), ("two", "18", "")]
        assert names(table) == ["one", "two"] and table.style.newline == newline
        assert table.rows[0].compound.mol_block == block("one")
    assert names(tables.read(make("list.sdf", text), Reading(name="id"))) == ["17", "18"]


def test_ugly_sdf(make: Make) -> None:
    parts = [block("one"), "$$$$\n", block("torn", ""), "$$$$\n", block("a"), block("b"), "$$$$\n", "$$$$\n", block("Käse"), "$$$$\n", block("last")]
    table = tables.read(make("list.sdf", "".join(parts), "latin-1"))
    assert names(table) == ["one", "torn", "a", "row 4", "Käse", "last"]
    assert problems(table) == [None, "unreadable", "unreadable", "no structure", None, None]
    assert "M  END" in reason(table, 1) and "2 structures" in reason(table, 2)
    assert any("$$$$" in warning and "last" in warning for warning in table.warnings)
    assert any("cp1252" in warning for warning in table.warnings)


def test_cut_sdf(make: Make) -> None:
    table = tables.read(make("list.sdf", f"{block('one')}$$$$\n{block('two')[:150]}"))
    assert problems(table) == [None, "unreadable"] and "ends inside" in reason(table, 1)


def test_mol_file(make: Make) -> None:
    table = tables.read(make("one.mol", block("one")))
    assert (names(table), table.warnings) == (["one"], ())
    assert "no SDF or mol file" in refusal(make("two.mol", "hello\n"))
    assert "no column is to be named" in refusal(make("three.mol", block("x")), column="smiles")


# Several lists


def test_several_lists_are_joined(make: Make) -> None:
    one = tables.read(make("a.csv", "name,smiles,x\nm,C,1\n"))
    two = tables.read(make("b.csv", "smiles;name;y\nCC;n;2\n"))
    table = tables.joined([one, two])
    assert table.columns == ("name", "smiles", "x", "y", "pz_file")
    assert [row.cells[:4] for row in table.rows] == [("m", "C", "1", ""), ("n", "CC", "", "2")]
    assert [Path(str(row.cells[4])).name for row in table.rows] == ["a.csv", "b.csv"]


def test_typed_smiles() -> None:
    table = tables.from_smiles(["CCO", " "])
    assert names(table) == ["CCO", "row 2"] and table.rows[1].compound.problem is not None
    assert table.rows[1].compound.problem.status is Status.NO_STRUCTURE
