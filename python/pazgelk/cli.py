"""The command line: pazgelk score, pazgelk ask."""

from __future__ import annotations

import argparse
import codecs
import io
import os
import re
import shutil
import signal
import sys
import threading
from collections.abc import Generator, Iterator, Sequence
from contextlib import ExitStack, contextmanager
from dataclasses import dataclass, field
from pathlib import Path
from typing import NoReturn, cast

from . import ask, batch, messages, report, setup, tables
from .blends import Blend, blend_of
from .compare import Compared, compare
from .errors import NotStarted
from .model import NotReady, Result, Settings, Status, Stopped
from .tables import answers, output

DONE, FAULTS, NOT_STARTED, STOPPED, BROKEN_PIPE = 0, 1, 2, 130, 141
SIZES = {"": 1, "k": 1 << 10, "m": 1 << 20, "g": 1 << 30}
DELIMITERS = {"tab": "\t", "\\t": "\t", "comma": ",", "semicolon": ";", "space": " "}

EXAMPLES = """\
examples:
  pazgelk score list.csv                      the list with its scores, on the terminal
  pazgelk score list.xlsx -o scores.xlsx      the same into a new workbook
  pazgelk score old.csv --against score       beside the scores of an old list
  pazgelk score --smiles 'CC(C)CC=O'          one compound
  pazgelk score lot.csv --blend               the compounds one by one, and all of them together

exit status: 0 each row is scored, or turned back for what it is; 1 something was cut off or unreadable; 2 not started
"""


class Parser(argparse.ArgumentParser):
    """A parser that says in one line what it does not understand."""

    def error(self, message: str) -> NoReturn:
        """Ends with status 2."""
        self.exit(NOT_STARTED, messages.misused(message) + "\n")


def _size(text: str) -> int:
    """A number of bytes, as 500M."""
    found = re.fullmatch(r"(\d+(?:\.\d+)?)\s*([kmg]?)i?b?", text.strip(), re.IGNORECASE)
    if not found:
        raise argparse.ArgumentTypeError(messages.no_size(text))
    return int(float(found[1]) * SIZES[found[2].lower()])


def _count(text: str) -> int:
    """A whole number above 0."""
    if not re.fullmatch(r"\d{1,9}", text) or int(text) == 0:
        raise argparse.ArgumentTypeError(messages.no_count(text))
    return int(text)


def _delimiter(text: str) -> str:
    """One letter, or the name of one."""
    letter = DELIMITERS.get(text.casefold(), text)
    if len(letter) != 1 or letter in '"\r\n':
        raise argparse.ArgumentTypeError(messages.no_delimiter(text))
    return letter


def _encoding(text: str) -> str:
    """The name of an encoding of text."""
    try:
        codecs.lookup(text)
        "".encode(text)
    except (LookupError, ValueError, TypeError):
        raise argparse.ArgumentTypeError(messages.no_encoding(text)) from None
    return text


def _version() -> str:
    from . import __version__

    return __version__


def parser() -> argparse.ArgumentParser:
    """All options."""
    top = Parser(
        prog="pazgelk",
        description="Assembly scores of ring-free molecules. A search that is cut off says so, and is never a score.",
        epilog=EXAMPLES,
        formatter_class=argparse.RawDescriptionHelpFormatter,
        allow_abbrev=False,
    )
    top.add_argument("--version", action="version", version=f"pazgelk {_version()}")
    commands = top.add_subparsers(dest="command", required=True, metavar="COMMAND", parser_class=Parser)
    _score_options(commands)
    question = commands.add_parser("ask", help="answer questions on records (docs/ANSWERS.md)", allow_abbrev=False)
    question.add_argument("files", nargs="*", metavar="FILE", help="files with a question in each line; without one standard input")
    question.set_defaults(run=lambda words: ask.ask(words.files))
    return top


def _score_options(commands: argparse._SubParsersAction[Parser]) -> None:
    """The options of pazgelk score."""
    command = commands.add_parser(
        "score",
        help="score the compounds of lists",
        description="Scores the compounds of lists: each row comes back with its score, or with the reason why it has none.",
        epilog=EXAMPLES,
        formatter_class=argparse.RawDescriptionHelpFormatter,
        allow_abbrev=False,
    )
    command.set_defaults(run=score)
    add = command.add_argument
    add("files", nargs="*", metavar="FILE", help=".csv .tsv .xlsx .sdf .mol .smi, or - for standard input with --format")
    add("--smiles", action="append", metavar="SMILES", help="a compound to score in the place of files")
    add("-o", "--output", metavar="OUT", help="write a .csv, .tsv, .xlsx or .sdf; otherwise a table on a terminal, CSV into a pipe")

    group = command.add_argument_group("the lists")
    add = group.add_argument
    add("--format", choices=tables.FORMATS, help="the format, where the ending does not tell it")
    add("--column", metavar="NAME", help="the column with the SMILES (found by its header)")
    add("--name", metavar="COLUMN", help="the column with the names (found by its header)")
    add("--sheet", metavar="NAME", help="the sheet of a workbook")
    add("--delimiter", type=_delimiter, metavar="C", help="what stands between cells (found: comma, semicolon or tab)")
    add("--encoding", type=_encoding, metavar="E", help="the encoding (found: UTF-8, UTF-16 with its mark, else cp1252)")

    group = command.add_argument_group("what comes back")
    add = group.add_argument
    add("--blend", action="store_true", help="a last row in which all compounds are scored together, and what they share")
    add("--against", metavar="COLUMN", help="compare with the numbers of this column")
    add("--sort", choices=["score"], help="the highest score first, and what has none at the end")
    add("--details", action="store_true", help="matches, states, each removal as match number(size), and the engine's row and place")
    add("--quiet", action="store_true", help="neither progress nor summary")

    usual = Settings()
    group = command.add_argument_group("the limits of a search")
    add = group.add_argument
    add("--budget", type=int, default=usual.budget, metavar="N", help="states that it may enter (%(default)s)")
    add("--memory", type=_size, default=usual.memory, metavar="SIZE", help="memory that it may take (256M)")
    add("--time", type=float, default=usual.time, metavar="SECONDS", help="seconds that it may take (60)")
    add("--jobs", type=_count, metavar="N", help="searches at a time (one for each core)")
    add("--cluster", metavar="ADDRESS", help="search on the Dask cluster whose scheduler has this address")

    group = command.add_argument_group("for experts")
    add = group.add_argument
    add("--bounds", type=int, default=usual.bounds, metavar="B", help="0 none, 1 Int, 2 MatchableEdges, 3 both (%(default)s)")
    add("--memo", type=int, default=usual.memo, metavar="M", help="1 turns the memo on: a score is then 'at most' (%(default)s)")


@dataclass
class Job:
    """What is to be scored and how it is shown, and what has come back so far.

    Where a blend is asked for it is the table's last row, and `members` are the rows of its compounds.
    """

    table: tables.Table
    olds: list[str]
    words: argparse.Namespace
    members: tuple[int, ...] = ()
    results: dict[int, Result] = field(default_factory=dict)
    compared: dict[int, Compared] = field(default_factory=dict)
    blend: Blend | None = None

    @property
    def against(self) -> bool:
        """Whether old numbers stand beside the scores."""
        return self.words.against is not None

    def is_blend(self, place: int) -> bool:
        """Whether this is the row in which the compounds are scored together."""
        return self.table.rows[place].compound.blend is not None

    def take(self, place: int, result: Result) -> None:
        """A row's answer. That of a blend comes last."""
        if self.is_blend(place):
            self.blend = self._blend(result)
            result = self.blend.result
        self.results[place] = result
        if self.against:
            self.compared[place] = compare(self.olds[place], result)

    def _blend(self, result: Result) -> Blend:
        """The blend with this result. A compound whose search the user has not waited for is cut off."""
        compounds = [self.table.rows[place].compound for place in self.members]
        return blend_of(result, compounds, [self.results.get(place, Result(Status.CUT_OFF)) for place in self.members])

    def order(self) -> list[int]:
        """The finished rows as they are shown: as they came, or the highest score first, and the blend last."""
        places = list(self.results)
        if self.words.sort:
            places.sort(key=lambda place: (self.is_blend(place), *_rank(self.results[place])))
        return places

    def summary(self) -> str:
        """What became of the list."""
        places = [place for place in self.results if not self.is_blend(place)]
        compared = [self.compared[place] for place in places if place in self.compared]
        return report.summary([self.results[place] for place in places], compared, self.words.against, self.blend)


def _rank(result: Result) -> tuple[int, int]:
    """Scores come first, the highest of them at the top; then what was cut off, and then the rest."""
    if result.score is not None:
        return 0, -result.score
    return (1 if result.status is Status.CUT_OFF else 2), 0


class TerminalSink:
    """Shows rows as a table."""

    def __init__(self, job: Job, progress: report.Progress) -> None:
        self._job, self._progress = job, progress
        if isinstance(sys.stdout, io.TextIOWrapper):
            sys.stdout.reconfigure(errors="replace")
        self._layout = report.Layout.of(
            [row.compound.name for row in job.table.rows],
            room=_columns(),
            colour=report.has_colour(sys.stdout),
            against=job.against,
            details=job.words.details,
        )
        print(self._layout.header(), flush=True)

    def show(self, place: int) -> None:
        """Shows a finished row."""
        job = self._job
        self._progress.clear()
        old = job.olds[place] if job.against else ""
        print(self._layout.row(job.table.rows[place].compound, job.results[place], old, job.compared.get(place)), flush=True)

    def close(self) -> None:
        """Nothing is left to show."""


def _columns() -> int:
    """How wide the terminal is."""
    return shutil.get_terminal_size((100, 24)).columns


class WriterSink:
    """Writes rows with the appended columns."""

    def __init__(self, job: Job, writer: output.Writer) -> None:
        self._job, self._writer = job, writer

    def show(self, place: int) -> None:
        """Writes a finished row."""
        job = self._job
        found = answers.cells(
            job.results[place],
            job.compared.get(place),
            details=job.words.details,
            blended=job.words.blend,
            blend=job.blend if job.is_blend(place) else None,
        )
        self._writer.row(job.table.rows[place], found)

    def close(self) -> None:
        """Writes what is left."""
        self._writer.close()


def _say(text: str) -> None:
    print(text, file=sys.stderr, flush=True)


def _read(words: argparse.Namespace) -> Job:
    """The list to score, with the old number of each row."""
    if words.smiles is not None:
        found = [tables.from_smiles(words.smiles)]
    else:
        reading = tables.Reading(words.format, words.column, words.name, words.sheet, words.delimiter, words.encoding)
        found = [tables.read(source, reading) for source in words.files]
    olds: list[str] = []
    if words.against is not None:
        for table in found:
            place = tables.wanted_column(table.source, table.columns, words.against)
            olds += [tables.text_of(row.cells[place]) for row in table.rows]
    table = tables.joined(found)
    if not words.blend:
        return Job(table, olds, words)
    sources = [messages.standard_input() if source == tables.INPUT else Path(source).name for source in words.files]
    table, members = tables.blended(table, messages.blend_name(sources))
    return Job(table, [*olds, ""], words, members)


def _refuse(words: argparse.Namespace) -> None:
    """Ends where the words do not fit each other."""
    if words.smiles is not None and words.files:
        raise NotStarted(messages.files_and_smiles())
    if words.smiles is None and not words.files:
        raise NotStarted(messages.nothing_to_score())
    if words.files.count(tables.INPUT) > 1:
        raise NotStarted(messages.input_twice())
    for source in words.files:
        if source != tables.INPUT and not Path(source).is_file() and not Path(source).is_fifo():
            error = "it is a folder" if Path(source).is_dir() else "there is no such file"
            raise NotStarted(messages.no_file(source=source, error=error))
    if words.output not in (None, tables.INPUT):
        output.kind_of(Path(words.output))
        output.refuse_target(Path(words.output), words.files)


def _modules(words: argparse.Namespace) -> list[str]:
    """The modules that these words need."""
    names = [*words.files, words.output or ""]
    books = words.format == "xlsx" or any(name.casefold().endswith((".xlsx", ".xlsm")) for name in names)
    return ["rdkit"] + ["openpyxl"] * books + ["distributed"] * (words.cluster is not None)


def _answers(job: Job, settings: Settings, progress: report.Progress, stack: ExitStack) -> Generator[Result, None, None]:
    """The answers, in order. What they need is there, or this ends; a list without rows needs nothing."""
    compounds = [row.compound for row in job.table.rows]
    if not compounds:
        return _nothing()
    executor = None if job.words.cluster is None else stack.enter_context(batch.cluster(job.words.cluster))
    found = batch.score_many(compounds, settings, executor=executor, jobs=job.words.jobs, progress=progress)
    return cast(Generator[Result, None, None], found)


def _nothing() -> Generator[Result, None, None]:
    """The answers of a list without rows."""
    yield from ()


def _sink(job: Job, progress: report.Progress, stack: ExitStack) -> TerminalSink | WriterSink:
    """Where the rows go."""
    target = job.words.output
    if target is None and sys.stdout.isatty():
        return TerminalSink(job, progress)
    appended = answers.columns(details=job.words.details, against=job.against, taken=job.table.columns, blended=job.words.blend)
    renamed = [name for name in appended if name not in answers.ALL]
    if renamed:
        _say(messages.warned(messages.repeated_columns(columns=renamed)))
    if target in (None, tables.INPUT):
        kind = job.table.kind if job.table.kind == "tsv" else "csv"
        return WriterSink(job, output.writer(kind, sys.stdout.buffer, job.table, appended))
    path = Path(target)
    return WriterSink(job, output.writer(output.kind_of(path), stack.enter_context(output.replacing(path)), job.table, appended))


def _run(job: Job, settings: Settings, progress: report.Progress) -> bool:
    """Scores and shows all rows; False where the user has stopped it. What is finished is shown in either case."""
    with ExitStack() as stack:
        found = _answers(job, settings, progress, stack)
        sink = _sink(job, progress, stack)
        whole = True
        shown = 0
        try:
            for place, result in enumerate(found):
                with _undisturbed():
                    job.take(place, result)
                    if not job.words.sort:
                        sink.show(place)
                        shown += 1
        except KeyboardInterrupt as stop:
            whole = False
            for place, result in _later(stop, found):
                job.take(place, result)
        finally:
            found.close()
            progress.clear()
        for place in job.order()[shown:]:
            sink.show(place)
        sink.close()
    return whole


@contextmanager
def _undisturbed() -> Iterator[None]:
    """Ctrl-C waits until this is done, so that no row is written twice or by half; a second one does not wait."""
    if threading.current_thread() is not threading.main_thread():
        yield
        return
    asked: list[int] = []

    def wait(number: int, _frame: object) -> None:
        if asked:
            raise KeyboardInterrupt
        asked.append(number)

    before = signal.signal(signal.SIGINT, wait)
    try:
        yield
    finally:
        signal.signal(signal.SIGINT, before)
    if asked:
        raise KeyboardInterrupt


def _later(stop: KeyboardInterrupt, found: Generator[Result, None, None]) -> list[tuple[int, Result]]:
    """The rows that were finished before one that the user did not wait for."""
    if not isinstance(stop, Stopped):
        try:
            found.throw(KeyboardInterrupt)
        except (KeyboardInterrupt, StopIteration) as ended:
            return ended.finished if isinstance(ended, Stopped) else []
    return stop.finished if isinstance(stop, Stopped) else []


def score(words: argparse.Namespace) -> int:
    """pazgelk score: the exit status."""
    _refuse(words)
    try:
        settings = Settings(words.bounds, words.memo, words.budget, words.memory, words.time)
    except ValueError as error:
        raise NotStarted(str(error)) from None
    setup.packages(_modules(words))
    job = _read(words)
    rows = len(job.table.rows)
    for warning in job.table.warnings:
        _say(messages.warned(warning))
    if rows:
        setup.engine()
    whole = _run(job, settings, report.Progress(rows, sys.stderr, shown=not words.quiet))
    if not words.quiet:
        _say(job.summary())
    if not whole:
        path = words.output if words.output != tables.INPUT else None
        _say(messages.told(messages.stopped(done=len(job.results), total=rows, path=path)))
        return STOPPED
    return FAULTS if any(result.status in (Status.CUT_OFF, Status.UNREADABLE) for result in job.results.values()) else DONE


def _quietly() -> None:
    """Nobody reads standard output any more: what is still to be written goes nowhere."""
    nowhere = os.open(os.devnull, os.O_WRONLY)
    os.dup2(nowhere, sys.stdout.fileno())


def main(arguments: Sequence[str] | None = None) -> int:
    """Runs the command line; the exit status."""
    for name, mode in (("stdin", "r"), ("stdout", "w"), ("stderr", "w")):
        if getattr(sys, name) is None:  # it is closed
            setattr(sys, name, open(os.devnull, mode, encoding="utf-8"))
    given = list(sys.argv[1:] if arguments is None else arguments)
    if not given:
        parser().print_help(sys.stderr)
        return NOT_STARTED
    if given[0] not in ("score", "ask") and Path(given[0]).is_file():
        _say(messages.misused(messages.file_as_command(given[0])))
        return NOT_STARTED
    words = parser().parse_args(given)
    try:
        status: int = words.run(words)
        sys.stdout.flush()
        return status
    except (NotStarted, NotReady) as error:
        _say(messages.told(str(error)))
        return NOT_STARTED
    except setup.SetupFailed as failed:
        return failed.status
    except BrokenPipeError:
        _quietly()
        return BROKEN_PIPE
    except OSError as error:
        _say(messages.told(messages.not_written(path=error.filename or "the output", error=error.strerror or str(error))))
        return FAULTS
    except KeyboardInterrupt:
        return STOPPED
