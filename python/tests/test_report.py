"""What is shown on a terminal."""

from __future__ import annotations

import io

import pytest

from pazgelk import report
from pazgelk.blends import Blend
from pazgelk.compare import Compared
from pazgelk.model import Compound, Removal, Result, Status


class Terminal(io.StringIO):
    """A stream that says it is a terminal."""

    def isatty(self) -> bool:
        return True


def layout(*names: str, room: int = 100, **words: bool) -> report.Layout:
    """A layout for these names."""
    return report.Layout.of(names, room=room, **{"colour": False, "against": False, "details": False, **words})


def test_wide_letters_are_aligned() -> None:
    names = ["ethanol", "乙醇 (エタノール)", "e\u0301thanol"]
    table = layout(*names)
    lines = [table.header()] + [table.row(Compound(name), Result(Status.SCORED, 1, 2), "", None) for name in names]
    assert {report.width(line.split("scored")[0]) for line in lines[1:]} == {report.width(lines[0].split("status")[0])}


def test_long_names_are_cut_and_signs_made_harmless() -> None:
    line = layout("x" * 90).row(Compound("x" * 90), Result(Status.SCORED, 1, 2), "", None)
    assert line.startswith("x" * 38 + "..  ")
    line = layout("a").row(Compound("a\n\x1b[2Jb"), Result(Status.SCORED, 1, 2), "", None)
    assert "\x1b" not in line and "\n" not in line


def test_long_remarks_are_broken_below_each_other() -> None:
    result = Result(Status.UNREADABLE, reason="words " * 30)
    lines = layout("a", room=80).row(Compound("a"), result, "", None).split("\n")
    assert len(lines) > 2 and all(report.width(line) <= 80 for line in lines)
    assert len({len(line) - len(line.lstrip()) for line in lines[1:]}) == 1
    assert "\n" not in layout("a", room=40).row(Compound("a"), result, "", None)


@pytest.mark.parametrize(
    ("result", "compared", "colour"),
    [
        (Result(Status.SCORED, 1), None, ""),
        (Result(Status.SCORED, 1), Compared.SAME, ""),
        (Result(Status.SCORED, 1), Compared.OLD_ZERO, "\033[31m"),
        (Result(Status.RING), None, "\033[33m"),
        (Result(Status.CUT_OFF), None, "\033[31m"),
        (Result(Status.UNREADABLE), None, "\033[31m"),
    ],
)
def test_colours(result: Result, compared: Compared | None, colour: str) -> None:
    line = layout("a", colour=True, against=compared is not None).row(Compound("a"), result, "0", compared)
    assert line.startswith(colour + "a") and line.endswith("\033[0m") == bool(colour)


def test_colour_only_where_there_is_one(monkeypatch: pytest.MonkeyPatch) -> None:
    monkeypatch.setenv("TERM", "xterm")
    monkeypatch.delenv("NO_COLOR", raising=False)
    assert report.has_colour(Terminal()) and not report.has_colour(io.StringIO())
    monkeypatch.setenv("NO_COLOR", "1")
    assert not report.has_colour(Terminal())


def test_details_and_comparison_have_columns() -> None:
    result = Result(Status.SCORED, 3, 5, matches=7, states=9, removals=(Removal(0, 3), Removal(14, 2)))
    line = layout("a", details=True, against=True).row(Compound("a"), result, "0", Compared.OLD_ZERO)
    assert line.split()[:2] == ["a", "3"] and "7" in line and "0(3) 14(2)" in line and line.endswith("old 0 was no score")


def test_progress_is_silent_at_first(monkeypatch: pytest.MonkeyPatch) -> None:
    now = [0.0]
    monkeypatch.setattr(report.time, "monotonic", lambda: now[0])
    stream = Terminal()
    progress = report.Progress(4000, stream, shown=True)
    progress(10, Compound("ethanol"))
    assert stream.getvalue() == ""
    now[0] = 2.1
    progress(812, Compound("tristearin"))
    progress(813, Compound("too soon"))
    assert stream.getvalue() == "\r\033[K812 of 4,000, now tristearin"
    progress.clear()
    progress.clear()
    assert stream.getvalue().endswith("tristearin\r\033[K")


def test_progress_into_a_file_is_lines(monkeypatch: pytest.MonkeyPatch) -> None:
    now = [0.0]
    monkeypatch.setattr(report.time, "monotonic", lambda: now[0])
    stream = io.StringIO()
    progress = report.Progress(5, stream, shown=True)
    for second in range(70):
        now[0] = float(second)
        progress(1, Compound("a"))
    assert stream.getvalue() == "1 of 5, now a\n" * 3
    quiet = io.StringIO()
    report.Progress(5, quiet, shown=False)(1, Compound("a"))
    assert quiet.getvalue() == ""


def test_summary() -> None:
    results = [Result(Status.SCORED, 1)] * 66 + [Result(Status.RING)] * 21 + [Result(Status.HYDROGEN_ONLY)]
    assert report.summary(results, [], None) == "88 structures: 66 scored, 21 rings, 1 hydrogen only, 0 cut off"
    assert report.summary([], [], None) == "0 structures: 0 scored, 0 cut off"
    assert report.summary([Result(Status.RING)], [], None) == "1 structure: 0 scored, 1 ring, 0 cut off"
    told = report.summary([Result(Status.SCORED, 3)], [Compared.OLD_ZERO], "old")
    assert told.endswith("Against old: 0 same, 1 old 0 was no score, 0 differs, 0 nothing to compare, 0 not scored now")
    assert "at most" in report.summary([Result(Status.SCORED, 3, at_most=True)], [], None)


def test_summary_of_a_blend() -> None:
    own = (Result(Status.SCORED, 3), Result(Status.SCORED, 4))
    told = report.summary(own, [Compared.SAME] * 2, "old", Blend(Result(Status.SCORED, 5), own))
    head, blend, compared = told.split("\n")
    assert (head, blend) == ("2 structures: 2 scored, 0 cut off", "Blend: 5 together, 7 on their own, 2 shared")
    assert compared.startswith("Against old: 2 same")
    cut = (*own, Result(Status.CUT_OFF))
    assert report.summary(cut, [], None, Blend(Result(Status.SCORED, 5), cut)).endswith("5 together, not known on their own, not known shared")
    ring = Blend(Result(Status.INCOMPLETE, reason="not whole"), own)
    assert report.summary(own, [], None, ring).endswith("\nBlend: incomplete, not whole")
    most = Blend(Result(Status.SCORED, 5, at_most=True), own)
    assert "at most" in report.summary(own, [], None, most)


def test_every_status_has_room() -> None:
    lines = [layout("a").row(Compound("a"), Result(status, bonds=7), "", None) for status in Status]
    assert {line.rindex("7") for line in lines} == {lines[0].rindex("7")}
