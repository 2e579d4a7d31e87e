"""The child process in which searches run (python3 -m pazgelk.child): a request a line, answered by a result a line.

It ends with the thread that started it, also in the middle of a search, and leaves Ctrl-C to it.
"""

from __future__ import annotations

import ctypes
import signal
import sys
from typing import BinaryIO

from .search import search
from .searcher import ready, request_of, result_line

PR_SET_PDEATHSIG = 1


def main() -> None:
    """Answers requests until there are no more."""
    signal.signal(signal.SIGINT, signal.SIG_IGN)
    ctypes.CDLL(None).prctl(PR_SET_PDEATHSIG, signal.SIGKILL)
    ready()
    answer(sys.stdin.buffer, sys.stdout.buffer)


def answer(requests: BinaryIO, results: BinaryIO) -> None:
    """Says that it is ready, and then writes the result of each request."""
    _write(results, b"ready\n")
    for line in requests:
        _write(results, result_line(search(*request_of(line))))


def _write(results: BinaryIO, line: bytes) -> None:
    results.write(line)
    results.flush()


if __name__ == "__main__":
    main()
