"""What all tests need."""

from __future__ import annotations

import signal
import subprocess
from pathlib import Path

import pytest


@pytest.fixture(scope="session", autouse=True)
def engine() -> None:
    """The engine is built, and is that of today's sources."""
    subprocess.run([Path(__file__).resolve().parents[2] / "tools" / "build"], check=True)


@pytest.fixture(autouse=True)
def interrupts() -> None:
    """Ctrl-C interrupts here and in what the tests start, also where a shell that ignores it runs them in the background."""
    signal.signal(signal.SIGINT, signal.default_int_handler)
