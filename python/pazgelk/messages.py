"""Every text that a user reads, in one place."""

from __future__ import annotations

from collections.abc import Iterable

import unicodedata
from collections.abc import Sequence
from pathlib import Path


# Settings


def setting_out_of_range(name: str, least: int, most: int) -> str:
    """A setting that is no number from least to most."""
    return f"{name} is a whole number from {least} to {most}"


def too_little_memory(least: int) -> str:
    """A memory limit below what the smallest search needs."""
    return f"memory is at least {size(least)}"


def no_time() -> str:
    """A time limit that is not positive."""
    return "time is a number of seconds above 0"


# Sizes


def size(count: int) -> str:
    """A number of bytes as a person reads it: 481 MB. A megabyte is 1,048,576 bytes, as --memory counts."""
    for unit, step in (("GB", 1 << 30), ("MB", 1 << 20), ("kB", 1 << 10)):
        if count >= step:
            whole = -(-count // step)
            return f"{whole:,} {unit}" if whole >= 10 or count % step == 0 else f"{count / step:.1f} {unit}"
    return f"{count} bytes"


# What is missing


def no_library(places: Sequence[Path]) -> str:
    """The engine's shared library is nowhere."""
    looked = " or ".join(str(place) for place in places)
    return f"the engine is not there ({looked}): run tools/build in the repository, or install the wheel that tools/wheel writes"


def library_not_loaded(path: Path, error: Exception) -> str:
    """The engine's shared library is there and does not serve."""
    return f"the engine {path} cannot be used ({error}): run tools/build again"


def no_rdkit() -> str:
    """RDKit cannot be imported."""
    return "RDKit, which reads the structures, is not there for this Python (Debian: apt-get install python3-rdkit; else: pip install rdkit)"


def no_distributed() -> str:
    """Dask cannot be imported."""
    return "a cluster needs Dask (Debian: apt-get install python3-distributed; else: pip install distributed)"


def no_cluster(address: str, error: BaseException) -> str:
    """The scheduler does not answer."""
    return f"there is no Dask cluster at {address} ({error})"


def executor_not_ready(error: BaseException) -> str:
    """The other machines or processes cannot search."""
    return f"the workers cannot search ({error}): Pazgelk, in this version, must be installed where they run"


# Structures: why one is turned back, and what to do


def atom(number: int, symbol: str) -> str:
    """An atom, counted from 1 in the order in which the structure is written."""
    return f"atom {number} ({symbol})"


def atom_at_character(place: int) -> str:
    """An atom of a SMILES that is not read, by the place of its bracket, counted from 1."""
    return f"the atom at character {place}"


def some_atom() -> str:
    """An atom of a mol block that cannot be named."""
    return "an atom"


def no_mass_number(where: str, number: str, least: int, most: int) -> str:
    """A mass number that is no class."""
    return f"{where} has the mass number {number or '(blank)'}: write one from {least} to {most}, as 13 for carbon-13, or none for a natural atom"


def no_atomic_number(where: str, number: str, most: int) -> str:
    """An atomic number that no element has."""
    return f"{where} has the atomic number {number}: elements have 1 to {most}"


def no_smiles() -> str:
    """The SMILES is empty."""
    return "the SMILES is empty: fill it in"


def no_atoms() -> str:
    """The structure has no atoms."""
    return "the structure has no atoms: draw it"


def space_inside(place: int) -> str:
    """There is a blank inside a SMILES."""
    return f"character {place} is a blank, which no SMILES has: keep names in a column of their own"


def stray_character(place: int, character: str) -> str:
    """There is a character that no SMILES has."""
    name = unicodedata.name(character, "").lower()
    shown = f"'{character}', " if character.isprintable() and not character.isspace() else ""
    told = f"{shown}U+{ord(character):04X}{' ' + name if name else ''}"
    return f"character {place} ({told}) is none that a SMILES has: type it anew"


def smiles_not_read(why: str) -> str:
    """RDKit cannot read a SMILES."""
    return f"this cannot be read as a SMILES{': ' + why if why else ''}"


def symbol_without_brackets(symbol: str) -> str:
    """An element's symbol without the brackets that a SMILES puts around it."""
    return f"{symbol} is an element's symbol, which stands in brackets in a SMILES: write [{symbol}]"


def reaction() -> str:
    """A reaction stands where a SMILES should."""
    return "this is a reaction, with > between its sides: give each compound a row of its own"


def lone_dot(place: int) -> str:
    """A dot of a SMILES, which stands between two parts, with nothing on one side."""
    return f"character {place} is a dot with no part beside it: take it out, or write the part"


def inchi_not_read() -> str:
    """An InChI stands where a SMILES should."""
    return "this is an InChI: give the compound's SMILES"


def mol_block_not_read(why: str) -> str:
    """RDKit cannot read a mol block."""
    return f"this cannot be read as a mol block{': ' + why if why else ''}"


def atom_is_open(where: str) -> str:
    """An atom stands for any atom or for a group."""
    return f"{where} stands for any atom, a list of atoms or a group: write out the atoms"


def bond_is_open(where: str) -> str:
    """A bond stands for several kinds of bonds."""
    return f"{where} stands for more than one kind of bond: write single, double or triple"


def attachment_point(where: str) -> str:
    """The structure is a piece of a molecule."""
    return f"{where} has an attachment point, so this is a piece of a molecule: write out the whole"


def repeating_unit(kind: str) -> str:
    """The drawing has a bracket whose count is not told, such as a polymer's."""
    return f"the drawing has a bracket or a repeating unit ({kind}): write out the whole molecule"


def bond(number: int, first: str, second: str) -> str:
    """A bond, counted from 1 in the order in which the structure is written."""
    return f"bond {number} (from {first} to {second})"


def other_bond(where: str, kind: str) -> str:
    """A bond is none of the three kinds that are scored."""
    return f"{where} is {kind}: only single, double and triple bonds are scored"


def hydrogen_between(where: str, bonds: int) -> str:
    """A hydrogen joins several atoms."""
    return f"{where} is a hydrogen with {bonds} bonds: hydrogens are left out, and without this one the structure would fall apart"


def too_many_bonds(where: str, valence: str) -> str:
    """An atom has a valence that it cannot have."""
    return f"{where} has a valence of {valence}, more than it can have: check its bonds and its charge"


def aromatic_outside(where: str) -> str:
    """An atom outside a ring is written as aromatic."""
    return f"{where} is written as aromatic, and is in no ring"


def not_kekule(atoms: Sequence[str]) -> str:
    """The aromatic atoms cannot be given alternating double bonds."""
    return f"the aromatic atoms {', '.join(atoms)} cannot have alternating double bonds: a hydrogen or a charge may be missing, as in [nH]"


def not_chemistry(why: str) -> str:
    """RDKit finds another fault."""
    return f"RDKit does not take it for a molecule: {why}"


def hydrogen_only() -> str:
    """There is nothing but hydrogen."""
    return "there is nothing but hydrogen, which is left out"


def part(number: int, count: int, where: str) -> str:
    """A part of a structure that no bond joins to the others, by its first atom."""
    return f"part {number} of {count} (from {where})"


def ring(count: int, parts: Sequence[str]) -> str:
    """The structure has rings; of several parts those that have them."""
    what = "a ring" if count == 1 else f"{count} rings"
    return f"{' and '.join(parts) or 'it'} {'have' if len(parts) > 1 else 'has'} {what}: only ring-free molecules are scored"


def too_large(bonds: int, most: int, parts: int, rings: int) -> str:
    """There are more bonds than can be scored."""
    also = [f"in {parts:,} parts"] if parts > 1 else []
    also += ["with a ring" if rings == 1 else f"with {rings:,} rings"] if rings else []
    told = f"{' '.join([f'{bonds:,} bonds', *also])}: at most {most} are scored"
    return f"{told} together; give parts rows of their own" if parts > 1 else told


def too_many_parts(count: int, most: int) -> str:
    """There are more parts than can be scored together."""
    return f"{count:,} parts that no bond joins: at most {most} are scored together; leave repeats out, or give parts rows of their own"


def refused_by_engine(row: int, place: int) -> str:
    """The engine turns back what was found good: never the structure's fault."""
    return f"a fault of Pazgelk, not of the structure: the engine refused the record by row {row}, place {place}; please report it"


def no_such_bond(number: object) -> str:
    """A bond that the compound does not have between atoms besides hydrogen."""
    return f"there is no bond {number} between atoms besides hydrogen"


def no_fragment(*, empty: bool) -> str:
    """A set of bonds that has no label."""
    return "there is no bond to label: a label is of one bond or more" if empty else "the bonds are no connected set"


# Structures: notes


def note_of_hydrogen_isotopes(names: Sequence[str]) -> str:
    """Deuterium or tritium was left out."""
    return f"{' and '.join(names)} left out as hydrogen, which marks nothing"


def note_of_parts(bonds: Sequence[int]) -> str:
    """Several parts are scored as a mixture; how many bonds each has."""
    *others, last = [str(count) for count in bonds]
    return f"{len(bonds)} parts scored together as one mixture, with {', '.join(others)} and {last} bonds"


def note_of_no_bond(atoms: int) -> str:
    """Why the score is 0 where there is no bond."""
    what = "one atom besides hydrogen" if atoms == 1 else f"{atoms} atoms besides hydrogen and no bond"
    return f"{what}: there is nothing to join"


def note_of_isotopes(marks: Sequence[str]) -> str:
    """Isotopes are told apart."""
    return f"isotopes are told apart: {shortened(marks)}"


def note_of_radicals(atoms: Sequence[str]) -> str:
    """There are unpaired electrons."""
    return f"radical at {shortened(atoms)}: is a hydrogen missing?"


def note_of_loose_hydrogen() -> str:
    """Hydrogen stood beside the molecule."""
    return "hydrogen beside the molecule left out"


# Blends


def blend_name(sources: Sequence[str]) -> str:
    """The name of the row in which the compounds of these lists are scored together."""
    return f"blend of {shortened([one_line(source) for source in sources])}" if sources else "blend"


def compound(number: int, name: str, status: str) -> str:
    """A compound of a blend, counted from 1, and what became of it."""
    shown = one_line(name)
    return f"{(shown if len(shown) <= 40 else shown[:38] + '..') or f'compound {number}'} ({status})"


def empty_blend() -> str:
    """There are no compounds."""
    return "there is no compound in the blend"


def too_many_compounds(count: int, most: int) -> str:
    """A blend of more compounds than can be scored together."""
    return f"{count:,} compounds: at most {most} are scored together; take some out (of equal ones, which are made once, leave one)"


def blend_not_whole(compounds: Sequence[str]) -> str:
    """Compounds of a blend are not scored themselves, so that it has no score."""
    which = "this compound" if len(compounds) == 1 else "these compounds"
    return f"the blend is not whole without {shortened(compounds)}: mend {which} or take {'it' if len(compounds) == 1 else 'them'} out"


def blend_too_large(bonds: int, most: int) -> str:
    """The compounds of a blend have more bonds than can be scored together."""
    return f"{bonds:,} bonds in all: at most {most} are scored together; take compounds out"


def blend_of_too_many_parts(parts: int, most: int) -> str:
    """The compounds of a blend have more parts than can be scored together."""
    return f"{parts:,} parts in all: at most {most} are scored together; take compounds out"


def note_of_blend(compounds: int) -> str:
    """Compounds are scored together."""
    return f"{counted(count=compounds, word='compound', plural='compounds')} scored together"


def note_of_sum(own: int, *, at_most: bool) -> str:
    """What the compounds score on their own."""
    return f"their own scores add up to {'at most ' if at_most else ''}{own:,}"


def note_of_shared(shared: int) -> str:
    """How many joins are spared."""
    return f"{counted(count=shared, word='join is', plural='joins are')} shared" if shared else "nothing is shared"


def note_of_no_sum(compounds: Sequence[str]) -> str:
    """Own scores are missing, without which it is not known what is shared."""
    return f"what is shared is not known without the score of {shortened(compounds)}"


def not_known() -> str:
    """In a cell that would hold a number."""
    return "not known"


def note_of_no_share() -> str:
    """What is shared cannot be told where scores are at most."""
    return "what is shared is not known with the memo on"


# Notes of searches


def note_of_memo() -> str:
    """The score was found with the memo on."""
    return "at most: with the memo a lower score may be missed"


def shortened(words: Sequence[str], most: int = 5) -> str:
    """The first of the words, and how many more there are."""
    more = len(words) - most
    return ", ".join(words[:most]) + (f" and {more:,} more" if more > 0 else "")


# Searches: why one was cut off, and what would do


def needs_memory(need: int, exact: bool) -> str:
    """The tables do not fit into what a search may take."""
    return f"the search needs {size(need)}{'' if exact else ' or more'}: --memory {enough(need)}"


def machine_has_no_memory(need: int) -> str:
    """The machine does not give a search its tables."""
    return f"the machine has not the {size(need)} that the search needs: use fewer --jobs or a larger machine"


def budget_spent(budget: int, most: int) -> str:
    """The search has entered as many states as it may."""
    what = f"--budget {min(10 * max(budget, 1), most)}" if budget < most else "there is no larger budget; try --memo 1"
    return f"the budget of {budget:,} states is spent: {what}"


def time_over(seconds: float) -> str:
    """The search was ended at its time."""
    return f"not finished after {seconds:g} s: --time {10 * seconds:g}"


def ended_unexpectedly(detail: str) -> str:
    """The child process died, or its machine was lost."""
    return f"the search ended unexpectedly{' (' + detail + ')' if detail else ''}: try again, and report it if it comes back"


def ended_by_signal(name: str, killed: bool) -> str:
    """How a child process died."""
    return f"{name}, perhaps for want of memory" if killed else name


def enough(need: int) -> str:
    """A round size in megabytes that holds so many bytes, as --memory takes it: 500M for 481 MB."""
    megabytes = -(-need // (1 << 20))
    step = max(1, 10 ** (len(str(megabytes)) - 1) // 2)
    return f"{-(-megabytes // step) * step}M"


# Reading lists: what keeps a run from starting


def listed(texts: Iterable[str]) -> str:
    """Names in a row, each in quotation marks; of many the first twenty."""
    names = [repr(one_line(text)) for text in texts if text.strip()]
    return ", ".join(names[:20]) + (", .." if len(names) > 20 else "") if names else "none"


def one_line(text: str) -> str:
    """A text without line breaks and signs that a terminal would act on."""
    return "".join(letter if letter.isprintable() else " " for letter in text).strip()


def standard_input() -> str:
    """How standard input is called where a file's name would stand."""
    return "standard input"


def row_name(*, number: int) -> str:
    """The name of a compound that has none."""
    return f"row {number}"


def no_file(*, source: str, error: str) -> str:
    """A file that cannot be read."""
    return f"{source} cannot be read: {error}"


def unknown_ending(*, source: str) -> str:
    """A file whose ending says nothing."""
    return f"{source}: the ending does not tell the format; add --format csv, tsv, xlsx, sdf, mol or smi"


def input_format() -> str:
    """Standard input without a format."""
    return "standard input needs --format csv, tsv, xlsx, sdf, mol or smi"


def empty_file(*, source: str) -> str:
    """A file with nothing in it."""
    return f"{source} is empty"


def other_kind(*, source: str, kind: str) -> str:
    """A file that is something else than its name says."""
    return f"{source} is no text: it is {kind}"


def binary(*, source: str) -> str:
    """A file with bytes that no text has."""
    return f"{source} is no text (it has NUL bytes); where it is UTF-16 without a mark, add --encoding utf-16-le"


def not_encoded(*, source: str, encoding: str, place: int) -> str:
    """A file that is not in the encoding that was named."""
    return f"{source} is not in {encoding}: byte {place + 1:,} does not belong there"


def no_column(*, source: str, wanted: str | None, columns: Iterable[str]) -> str:
    """A column that is not there."""
    which = f"has no column {wanted!r}" if wanted is not None else "has no column whose header says that it holds SMILES"
    help_ = "" if wanted is not None else "; name it with --column"
    return f"{source} {which}{help_}. Its columns: {listed(columns)}"


def several_structure_columns(*, source: str, columns: Iterable[str]) -> str:
    """More than one column that can be meant."""
    return f"{source} has several columns with structures: {listed(columns)}; choose one with --column"


def same_columns(*, source: str, column: str) -> str:
    """A name that two columns have."""
    return f"{source} has more than one column called {column!r}; rename all but one"


def no_columns_here(*, source: str, kind: str) -> str:
    """--column or --name for a file that has no columns."""
    return f"{source} is {kind}, where no column is to be named"


def no_sheets_here(*, source: str) -> str:
    """--sheet for a file that is no workbook."""
    return f"{source} is no workbook: --sheet is for .xlsx"


def open_quote(*, source: str, line: int) -> str:
    """A quotation mark that takes in the rest of the file."""
    return f'{source}, line {line:,}: a cell begins with a quotation mark " that is never closed, so that the rows after it cannot be told apart'


def old_workbook(*, source: str) -> str:
    """A workbook of the old kind, or one with a password."""
    return f"{source} is an old (.xls) or locked workbook; open it in Excel or LibreOffice and save it as .xlsx"


def no_workbook(*, source: str, error: str) -> str:
    """A file that cannot be opened as a workbook."""
    return f"{source} cannot be opened as a workbook (.xlsx): {one_line(error)}"


def no_openpyxl() -> str:
    """The module for workbooks is missing."""
    return "workbooks need openpyxl (Debian: apt-get install python3-openpyxl)"


def sheet_of(*, source: str, sheet: str) -> str:
    """How a sheet is called in other messages."""
    return f"{source}, sheet {sheet!r}"


def no_sheet(*, source: str, wanted: str, sheets: Iterable[str]) -> str:
    """A sheet that is not there."""
    return f"{source} has no sheet {wanted!r}. Its sheets: {listed(sheets)}"


def only_hidden(*, source: str, sheets: Iterable[str]) -> str:
    """A workbook without a visible sheet."""
    return f"{source} has no visible sheet; a hidden one is read with --sheet: {listed(sheets)}"


def several_sheets(*, source: str, sheets: Iterable[str]) -> str:
    """More than one sheet that can be meant."""
    return f"{source} has several sheets with structures: {listed(sheets)}; choose one with --sheet"


def no_fitting_sheet(*, source: str, wanted: str | None, sheets: Iterable[str]) -> str:
    """No visible sheet has the column."""
    which = f"a column {wanted!r}" if wanted is not None else "a column whose header says that it holds SMILES (name it with --column)"
    return f"{source} has no visible sheet with {which}. Its visible sheets: {listed(sheets)}"


def no_sdf(*, source: str) -> str:
    """A file without any mol block."""
    return f"{source} is no SDF or mol file: it has no line M  END"


# Reading lists: warnings


def guessed(*, source: str, encoding: str) -> str:
    """An encoding that was tried with success."""
    return f"{source} is not UTF-8 and was read as {encoding}; look at its umlauts and accents, or say --encoding"


def long_cell(*, source: str, first: int, last: int) -> str:
    """A cell over several lines, which may be an accident."""
    return f"{source}, lines {first:,} to {last:,} are one row: where that is not meant, a quotation mark is missing or too many"


def comments(*, source: str, count: int) -> str:
    """Lines of a list of SMILES that are no rows."""
    return f"{source}: {count:,} lines that begin with # are no rows"


def last_record_open(*, source: str, title: str) -> str:
    """An SDF that may be cut short."""
    return f"{source}: the last record{f' ({one_line(title)})' if title else ''} has no line $$$$ after it; the file may be cut short"


# Reading lists: reasons


def empty_cell() -> str:
    """A row without a SMILES."""
    return "the cell is empty"


def placeholder(*, text: str) -> str:
    """A row with a sign for nothing in the place of a SMILES."""
    return f"the cell says {text}"


def too_many_cells(*, cells: int, columns: int) -> str:
    """A row in which cells have moved."""
    return f"the row has {cells} cells under {columns} columns: a cell with the delimiter in it needs quotation marks around it"


def formula_without_value(*, formula: str) -> str:
    """A formula that was never computed."""
    return f"the cell holds the formula {one_line(formula)[:60]} without a stored value: open the workbook in Excel or LibreOffice, and save it"


def fault_in_cell(*, text: str) -> str:
    """A cell that shows an error."""
    return f"the cell shows {text}: mend the formula in the workbook"


def empty_record() -> str:
    """Nothing between two lines $$$$."""
    return "the record is empty"


def no_end() -> str:
    """A record without the end of its mol block."""
    return "the record has no line M  END: export it again"


def cut_record() -> str:
    """The last record of a file that ends too early."""
    return "the file ends inside this record (neither M  END nor $$$$ follows): export it again"


def missing_separator(*, structures: int) -> str:
    """Records that ran together."""
    return f"the record holds {structures} structures: a line $$$$ is missing between them"


# The command line


def told(text: str) -> str:
    """A line on standard error."""
    return f"pazgelk: {text}"


def warned(text: str) -> str:
    """A line on standard error that stops nothing."""
    return f"pazgelk: warning: {text}"


def misused(error: str) -> str:
    """Words that are not understood."""
    return f"pazgelk: {error}; pazgelk --help says more"


def file_as_command(name: str) -> str:
    """A file in the place of a command."""
    return f"{name} is a file, and a command comes first: pazgelk score {name}"


def nothing_to_score() -> str:
    """No file and no SMILES."""
    return "there is nothing to score: name a file, - for standard input, or --smiles"


def files_and_smiles() -> str:
    """Both a file and a SMILES."""
    return "--smiles and files do not go together"


def input_twice() -> str:
    """Standard input named more than once."""
    return "- (standard input) can be read once only"


def no_size(text: str) -> str:
    """A size that cannot be read."""
    return f"{text!r} is no size, as 500M or 2G"


def no_count(text: str) -> str:
    """A number of processes that is none."""
    return f"{text!r} is no whole number above 0"


def no_delimiter(text: str) -> str:
    """A delimiter that is not one letter."""
    return f"{text!r} is no delimiter: one letter, or tab, comma, semicolon, space"


def no_encoding(text: str) -> str:
    """An encoding that is not known."""
    return f"{text!r} is no encoding, as utf-8, utf-16, cp1252 or latin-1"


def no_questions() -> str:
    """pazgelk ask where the program that answers is not."""
    return "questions are answered in the repository only, by ./pazgelk ask"


def questions_ended_early() -> str:
    """The program that answers questions has died."""
    return "the program ended early: questions may be left without an answer"


# Writing


def output_ending(*, path: str) -> str:
    """An output whose ending names no format."""
    return f"{path}: an output ends in .csv, .tsv, .xlsx or, for lists that are SDF or mol files, .sdf"


def output_is_input(*, path: str) -> str:
    """An output over an input."""
    return f"{path} is an input, which is never written over; choose another name"


def output_no_file(*, path: str) -> str:
    """An output that is a folder or a device."""
    return f"{path} is no file that can be written over"


def output_folder(*, path: str) -> str:
    """An output in a folder that is not there."""
    return f"{path}: there is no such folder"


def output_locked(*, folder: str) -> str:
    """An output in a folder that may not be written to."""
    return f"{folder} may not be written to"


def not_written(*, path: str, error: str) -> str:
    """An output that the machine refuses."""
    return f"{path} cannot be written: {error}"


def sdf_from_table() -> str:
    """An SDF asked of a list that has no records."""
    return "an .sdf can be written only where the lists are SDF or mol files; a .csv or .xlsx always"


def too_many_rows(*, rows: int) -> str:
    """More rows than a sheet has."""
    return f"{rows:,} rows do not go into a workbook's sheet; write a .csv"


def repeated_columns(*, columns: Iterable[str]) -> str:
    """A list that was scored before."""
    return f"the list has columns of these names already, so today's are called {listed(columns)}"


# The report


def row_and_place(*, row: int, place: int) -> str:
    """The engine's refusal, for experts."""
    return f"row {row} place {place:,}"


def progress(*, done: int, total: int, name: str) -> str:
    """How far the work is."""
    return f"{done:,} of {total:,}, now {name}"


def counted(*, count: int, word: str, plural: str | None = None) -> str:
    """So many of something."""
    return f"{count:,} {plural if plural and count != 1 else word}"


def summary(*, total: int, counts: Iterable[tuple[str, int]]) -> str:
    """What became of a list: always how many are scored and cut off, and what else there is."""
    plurals = {"ring": "rings"}
    shown = sorted(((word, count) for word, count in counts if count or word in ("scored", "cut off")), key=lambda pair: pair[0] == "cut off")
    head = counted(count=total, word="structure", plural="structures")
    return f"{head}: {', '.join(counted(count=count, word=word, plural=plurals.get(word)) for word, count in shown)}"


def summary_of_blend(*, score: int, own: int | None, shared: int | None) -> str:
    """What the compounds of a list score together."""
    apart, spared = (not_known() if number is None else f"{number:,}" for number in (own, shared))
    return f"Blend: {score:,} together, {apart} on their own, {spared} shared"


def summary_of_no_blend(*, status: str, reason: str) -> str:
    """Why the compounds of a list are not scored together."""
    return f"Blend: {status}, {reason}"


def summary_at_most() -> str:
    """What a search with the memo on gives."""
    return "The memo was on, which can miss a lower score: each score above 0 is 'at most'."


def summary_compared(*, column: str, counts: Iterable[tuple[str, int]]) -> str:
    """How the old numbers compare."""
    return f"Against {one_line(column)}: {', '.join(f'{count:,} {word}' for word, count in counts)}"


def stopped(*, done: int, total: int, path: str | None) -> str:
    """The user has stopped the work."""
    return f"stopped after {done:,} of {total:,}" + (f"; the finished rows are in {path}" if path else "")
