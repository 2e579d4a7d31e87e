"""pazgelk ask: the questions that the program `lines` answers (docs/ANSWERS.md)."""

from __future__ import annotations

import shutil
import signal
import subprocess
import sys
from collections.abc import Sequence
from pathlib import Path

from . import messages, setup
from .errors import NotStarted


def ask(files: Sequence[str]) -> int:
    """Answers the questions of the files, or of standard input, one a line; the exit status."""
    home = setup.home()
    if home is None:
        raise NotStarted(messages.no_questions())
    for name in files:
        if name != "-" and not Path(name).is_file():
            raise NotStarted(messages.no_file(source=name, error="there is no such file"))
    setup.engine()
    with subprocess.Popen([str(home / "target" / "bin" / "lines")], stdin=subprocess.PIPE) as program:
        assert program.stdin is not None
        try:
            for name in files or ["-"]:
                if name == "-":
                    shutil.copyfileobj(sys.stdin.buffer, program.stdin)
                else:
                    with open(name, "rb") as questions:
                        shutil.copyfileobj(questions, program.stdin)
            program.stdin.close()
        except BrokenPipeError:
            pass
        ended = program.wait()
    if ended == -signal.SIGPIPE:
        return 128 + signal.SIGPIPE
    if ended:
        print(messages.told(messages.questions_ended_early()), file=sys.stderr)
    return 1 if ended else 0
