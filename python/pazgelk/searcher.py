"""Searches in a child process, which is ended when a search's time is over: a call of the engine cannot be interrupted otherwise.

Through the pipes goes a line of JSON for each request and for each result.
"""

from __future__ import annotations

import dataclasses
import json
import os
import select
import signal
import subprocess
import sys
import threading
import time
import weakref
from pathlib import Path
from typing import IO, Any

from . import engine, messages
from .model import Removal, Result, Settings, Status

# How long a child process may take to start, in seconds.
START_TIME = 60.0
# How long a single wait may be, in seconds: a time limit may be without end.
LONGEST_WAIT = 3600.0
PIECE = 65536


class Searcher:
    """Runs searches one after the other, in a child process that is started when it is needed and again when it has ended."""

    _child: _Child | None
    _end: Any
    _owner: int
    _closed: bool
    _searching: threading.Lock
    _starting: threading.Lock

    def __init__(self) -> None:
        self._reset()

    def search(self, record: bytes, settings: Settings) -> Result:
        """The result of a record. A search that takes too long, or dies, is cut off."""
        if self._owner != os.getpid():
            # in a process that was forked: the child is another's
            if self._end is not None:
                self._end.detach()
            self._reset()
        with self._searching:
            try:
                child = self._running()
                child.send(request_line(record, settings))
                line = child.receive(settings.time)
            except (OSError, EOFError) as error:
                return self._died(str(error))
            except BaseException:
                # the search goes on: the next one must not be given its result
                self._stop()
                raise
            if line is None:
                self._stop()
                return Result(Status.CUT_OFF, reason=messages.time_over(settings.time))
            return result_of(line)

    def close(self) -> None:
        """Ends the child process for good, and with it a search that is under way."""
        with self._starting:
            self._closed = True
            if self._child is not None:
                self._child.process.kill()
        with self._searching:
            self._stop()

    def _reset(self) -> None:
        """No child process yet."""
        self._child = self._end = None
        self._owner = os.getpid()
        self._closed = False
        self._searching = threading.Lock()
        self._starting = threading.Lock()

    def _running(self) -> _Child:
        """The child process, which is ready. Raises EOFError or OSError where there is none to be had."""
        if self._child is not None:
            return self._child
        with self._starting:
            if self._closed:
                raise EOFError
            child = self._child = _Child()
            self._end = weakref.finalize(self, child.end)
        if child.receive(START_TIME) is None:
            raise EOFError
        return child

    def _stop(self) -> None:
        """Ends the child process."""
        if self._end is not None:
            self._end()
        self._end = self._child = None

    def _died(self, detail: str) -> Result:
        """The result of a search whose child process has ended by itself."""
        child = self._child
        self._stop()
        if child is not None and child.process.returncode is not None and child.process.returncode < 0:
            number = -child.process.returncode
            detail = messages.ended_by_signal(_signal_name(number), number == signal.SIGKILL)
        return Result(Status.CUT_OFF, reason=messages.ended_unexpectedly(detail))


class _Child:
    """A child process, and lines to it and from it."""

    def __init__(self) -> None:
        package = str(Path(__file__).resolve().parent.parent)
        path = os.pathsep.join(filter(None, [package, os.environ.get("PYTHONPATH")]))
        self.process = subprocess.Popen(
            [sys.executable, "-m", "pazgelk.child"],
            stdin=subprocess.PIPE,
            stdout=subprocess.PIPE,
            stderr=subprocess.DEVNULL,
            env=dict(os.environ, PYTHONPATH=path, PYTHONSAFEPATH="1"),
            bufsize=0,
        )
        assert self.process.stdin is not None and self.process.stdout is not None
        self._requests: IO[bytes] = self.process.stdin
        self._results: IO[bytes] = self.process.stdout
        self._owner = os.getpid()

    def send(self, line: bytes) -> None:
        """Writes a line. Raises OSError where the process has ended."""
        self._requests.write(line)

    def receive(self, seconds: float) -> bytes | None:
        """The next line, or None where it has not come in time. Raises EOFError where the process has ended."""
        poll = select.poll()
        poll.register(self._results, select.POLLIN)
        until, line = time.monotonic() + seconds, b""
        while not line.endswith(b"\n"):
            left = until - time.monotonic()
            if left <= 0:
                return None
            if poll.poll(min(left, LONGEST_WAIT) * 1000):
                piece = os.read(self._results.fileno(), PIECE)
                if not piece:
                    raise EOFError
                line += piece
        return line

    def end(self) -> None:
        """Kills the process and waits for its end; a process that was forked leaves it alone."""
        if self._owner != os.getpid():
            return
        self.process.kill()
        self.process.wait()
        self._requests.close()
        self._results.close()


def request_line(record: bytes, settings: Settings) -> bytes:
    """A request as it goes to the child process."""
    return json.dumps({"record": record.hex(), "settings": dataclasses.asdict(settings)}).encode() + b"\n"


def request_of(line: bytes) -> tuple[bytes, Settings]:
    """What a request asks: the record and how it is searched."""
    request = json.loads(line)
    return bytes.fromhex(request["record"]), Settings(**request["settings"])


def result_line(result: Result) -> bytes:
    """A result as it comes back."""
    return json.dumps(dataclasses.asdict(result)).encode() + b"\n"


def result_of(line: bytes) -> Result:
    """The result that a line holds."""
    fields: dict[str, Any] = json.loads(line)
    fields.update(status=Status(fields["status"]), removals=tuple(Removal(*removal) for removal in fields["removals"]))
    return Result(**fields)


def _signal_name(number: int) -> str:
    try:
        return signal.Signals(number).name
    except ValueError:
        return f"signal {number}"


# What an executor is given


class _Own(threading.local):
    """The searcher of each thread."""

    def __init__(self) -> None:
        self.searcher = Searcher()


_own = _Own()


def search_in_child(record: bytes, settings: Settings) -> Result:
    """The result of a record, searched in a child process of this thread."""
    return _own.searcher.search(record, settings)


def ready() -> bool:
    """Whether searches can be run in this process. Raises NotReady where the engine is missing."""
    return engine.library() is not None
