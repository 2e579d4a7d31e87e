"""RDKit: found when it is first needed, silent while it reads, and asked for its words where it could not."""

from __future__ import annotations

import functools
import logging
import re
from collections.abc import Callable, Iterator
from contextlib import contextmanager
from typing import Any

from . import messages
from .model import NotReady

# What RDKit puts around its words: the time of day, and the frame of an inner check that failed.
_CLOCK = re.compile(r"^\[\d\d:\d\d:\d\d\]\s*")
_FRAME = re.compile(r"^(\*+|.*[Vv]iolation.*|Range Error|Failed Expression.*|)$")


@functools.cache
def chem() -> Any:
    """RDKit's module Chem. Raises NotReady where it is not installed."""
    try:
        from rdkit import Chem
    except ImportError as error:
        raise NotReady(messages.no_rdkit()) from error
    return Chem


@contextmanager
def silent() -> Iterator[None]:
    """RDKit writes nothing to standard error meanwhile."""
    chem()
    from rdkit import rdBase

    block = rdBase.BlockLogs()
    try:
        yield
    finally:
        del block


def words_of(attempt: Callable[[], object]) -> list[str]:
    """What RDKit says while it tries again what failed."""
    chem()
    from rdkit import rdBase

    heard: list[str] = []
    logger = logging.getLogger("rdkit")
    handlers, logger.handlers = logger.handlers, [_Listener(heard)]
    rdBase.LogToPythonLogger()
    try:
        attempt()
    finally:
        (rdBase.LogToPythonStderr if _in_notebook() else rdBase.LogToCppStreams)()
        logger.handlers = handlers
    lines = [_CLOCK.sub("", line).strip() for line in heard]
    return [line for line in lines if not _FRAME.match(line)]


class _Listener(logging.Handler):
    """Keeps the lines that are logged."""

    def __init__(self, heard: list[str]) -> None:
        super().__init__()
        self._heard = heard

    def emit(self, record: logging.LogRecord) -> None:
        self._heard.append(record.getMessage())


def _in_notebook() -> bool:
    """Whether RDKit sends its words to a notebook's standard error, as it does on being imported in one."""
    try:
        return bool(get_ipython().__class__.__name__ == "ZMQInteractiveShell")  # type: ignore[name-defined]
    except NameError:
        return False
