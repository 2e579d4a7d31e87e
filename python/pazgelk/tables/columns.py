"""Which column holds the structures, and which the names."""

from __future__ import annotations

import re
from collections.abc import Iterable, Sequence

from .. import messages
from ..errors import NotStarted
from ..model import Compound, Result, Status
from .table import Value, text_of

HEADER_ROWS = 30
"""A header is looked for in so many first rows."""

STRUCTURES = {"structure", "structures", "smi", "molecule", "mol", "struktur", "strukturen"}
NAMES = ("name", "compound", "compoundname", "title", "substance", "moleculename", "chemicalname", "analyte", "stoff", "verbindung", "id")
PLACEHOLDERS = {"-", "--", "–", "—", "?", "n/a", "na", "#n/a", "n.a.", "nan", "none", "null", "nil", "unknown"}


def plain(text: str) -> str:
    """A column's name without case, spaces and signs."""
    return re.sub(r"[\W_]+", "", text.casefold())


def _rank(header: str) -> int:
    """How surely a column of this name holds the structures: 1 is best, 0 is not at all."""
    name = plain(header)
    if name == "smiles":
        return 1
    if "smiles" in name:
        return 2
    return 3 if name in STRUCTURES else 0


def structure_columns(header: Sequence[str]) -> list[int]:
    """The columns that most surely hold the structures, as their names say: none, one or several."""
    ranks = [_rank(text) for text in header]
    best = min((rank for rank in ranks if rank), default=0)
    return [place for place, rank in enumerate(ranks) if best and rank == best]


def named(header: Sequence[str], wanted: str) -> list[int]:
    """The columns called so; where there is none, those called so in other letters."""
    exact = [place for place, text in enumerate(header) if text.strip() == wanted.strip()]
    return exact or [place for place, text in enumerate(header) if text.strip().casefold() == wanted.strip().casefold()]


def find_header(rows: Iterable[Sequence[Value]], wanted: str | None) -> int | None:
    """The first row that has the wanted column, or without one a column whose name says that it holds structures."""
    for place, row in enumerate(rows):
        if place >= HEADER_ROWS:
            break
        header = [text_of(value) for value in row]
        if named(header, wanted) if wanted is not None else structure_columns(header):
            return place
    return None


def structure_column(source: str, header: Sequence[str], wanted: str | None) -> int:
    """The column with the structures."""
    places = structure_columns(header) if wanted is None else named(header, wanted)
    if len(places) == 1:
        return places[0]
    if places and wanted is None and len({header[place].strip() for place in places}) > 1:
        raise NotStarted(messages.several_structure_columns(source=source, columns=[header[place] for place in places]))
    if places:
        raise NotStarted(messages.same_columns(source=source, column=header[places[0]].strip()))
    raise NotStarted(messages.no_column(source=source, wanted=wanted, columns=header))


def wanted_column(source: str, header: Sequence[str], wanted: str) -> int:
    """The column that the user named."""
    places = named(header, wanted)
    if len(places) > 1:
        raise NotStarted(messages.same_columns(source=source, column=wanted))
    if not places:
        raise NotStarted(messages.no_column(source=source, wanted=wanted, columns=header))
    return places[0]


def name_column(source: str, header: Sequence[str], wanted: str | None, structure: int | None) -> int | None:
    """The column with the names: the wanted one, else by its header, else the first that is not the structures'."""
    if wanted is not None:
        return wanted_column(source, header, wanted)
    others = [place for place in range(len(header)) if place != structure]
    for name in NAMES:
        for place in others:
            if plain(header[place]) == name:
                return place
    return next((place for place in others if header[place].strip()), None)


def compound_of(name: str, smiles: str) -> Compound:
    """The compound of a cell with a SMILES, or with nothing."""
    if not smiles.strip():
        return Compound(name, problem=Result(Status.NO_STRUCTURE, reason=messages.empty_cell()))
    if smiles.strip().casefold() in PLACEHOLDERS:
        return Compound(name, problem=Result(Status.NO_STRUCTURE, reason=messages.placeholder(text=smiles.strip())))
    return Compound(name, smiles=smiles)
