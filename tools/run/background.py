"""A long work beside the wrapper, such as a build: it is ended with all that it started, where the wrapper ends first."""

from __future__ import annotations

import os
import signal

from tools.run import running
from tools.run.saying import cannot_build

TYPE_CHECKING = False
if TYPE_CHECKING:
    from types import TracebackType
    from typing import NoReturn


def open_log(path: str) -> int:
    """Opens a file for what a work tells, and empties it."""
    try:
        return os.open(path, os.O_WRONLY | os.O_CREAT | os.O_TRUNC | os.O_APPEND, 0o644)
    except OSError:
        raise cannot_build(f"no right to write to {path}") from None


class Work:
    """A command that runs in a folder, reads a file, and tells all to a log."""

    def __init__(self, words: list[str], folder: str, given: int, log: int, temporary: str = "") -> None:
        environment = dict(os.environ, **({"TMPDIR": temporary} if temporary else {}))

        def becoming() -> NoReturn:
            os.chdir(folder)
            os.execve(words[0], words, environment)

        self.status: int | None = None
        # In a session of its own, so that a signal reaches all that it starts.
        self.child = running.start(becoming, (given, log, log), apart=True)

    def __enter__(self) -> Work:
        return self

    def __exit__(self, kind: type[BaseException] | None, fault: BaseException | None, trace: TracebackType | None) -> None:
        if self.status is None:
            running.stop(self.child, signal.SIGTERM)

    def is_running(self) -> bool:
        if self.status is None:
            self.status = running.ended(self.child, os.WNOHANG)
        return self.status is None
