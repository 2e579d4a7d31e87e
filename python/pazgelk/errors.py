"""What keeps a run from starting."""

from __future__ import annotations


class NotStarted(Exception):
    """Nothing was scored, for the reason that this says in one line: a missing file or column, a wrong option."""
