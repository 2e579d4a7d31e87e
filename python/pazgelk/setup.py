"""The set-up that a run from the repository does on its way: Debian packages, and the engine."""

from __future__ import annotations

import importlib
import importlib.util
import os
import signal
import subprocess
from collections.abc import Iterator, Sequence
from contextlib import contextmanager
from pathlib import Path

PACKAGES = {"rdkit": "python3-rdkit", "openpyxl": "python3-openpyxl", "distributed": "python3-distributed"}


class SetupFailed(Exception):
    """A part of the set-up ended so; it has said why."""

    def __init__(self, status: int) -> None:
        super().__init__(status)
        self.status = status


def home() -> Path | None:
    """The repository, where the launcher of a repository runs this."""
    named = os.environ.get("PAZGELK_HOME")
    return Path(named) if named else None


@contextmanager
def _left_to_the_tool() -> Iterator[None]:
    """Ctrl-C does nothing here, and reaches what is started meanwhile as ever."""
    before = signal.getsignal(signal.SIGINT)
    if before is not signal.SIG_IGN:
        signal.signal(signal.SIGINT, lambda *_: None)
    try:
        yield
    finally:
        signal.signal(signal.SIGINT, before)


def _run(tool: str, *words: str) -> None:
    """Runs a tool of the repository. Ctrl-C is for the tool, which ends what it has started."""
    folder = home()
    if folder is None:
        return
    with _left_to_the_tool(), subprocess.Popen([str(folder / "tools" / tool), *words], stdin=subprocess.DEVNULL, stdout=2) as process:
        process.wait()
    if process.returncode:
        raise SetupFailed(process.returncode if process.returncode > 0 else 128 - process.returncode)


def packages(modules: Sequence[str]) -> None:
    """Installs the Debian packages of those modules that are missing."""
    missing = [PACKAGES[module] for module in modules if importlib.util.find_spec(module) is None]
    if missing:
        _run("packages", *missing)
        importlib.invalidate_caches()


def engine() -> None:
    """Proves and builds the engine, where that is still to do."""
    _run("build")
