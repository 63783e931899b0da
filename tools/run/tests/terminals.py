"""Calls of the wrapper on a terminal."""

from __future__ import annotations

import errno
import os
import pty
import re
import select
import signal
import time
from typing import Callable

from tools.run.tests.standins import PATIENCE, Answer, WrapperTest, heed_signals, wait_until


class Terminal:
    """The wrapper on a terminal of its own, and what is typed there. Streams that are given are files."""

    def __init__(self, test: WrapperTest, words: list[str], stdin: str | None = None, stdout: str | None = None,
                 more: dict[str, str] | None = None) -> None:
        environment = {**test.environment, **(more or {})}
        self.test = test
        self.process, self.terminal = pty.fork()
        if self.process == 0:
            try:
                heed_signals()
                os.chdir(test.copy)
                if stdin is not None:
                    os.dup2(os.open(stdin, os.O_RDONLY), 0)
                if stdout is not None:
                    os.dup2(os.open(stdout, os.O_WRONLY | os.O_CREAT | os.O_TRUNC), 1)
                os.execve("./conc_run", ["./conc_run", *words], environment)
            finally:
                os._exit(99)
        self.said = b""

    def type(self, text: bytes) -> None:
        os.write(self.terminal, text)

    def _read(self, seconds: float) -> bool:
        """Reads what there is, and answers whether there may be more."""
        if not select.select([self.terminal], [], [], seconds)[0]:
            return True
        try:
            piece = os.read(self.terminal, 1 << 16)
        except OSError as fault:
            if fault.errno != errno.EIO:
                raise
            piece = b""
        self.said += piece
        return bool(piece)

    def until(self, holds: Callable[[], object]) -> bool:
        """Reads on until something holds."""
        def reads_and_holds() -> object:
            self._read(0.01)
            return holds()

        return wait_until(reads_and_holds)

    def end(self) -> Answer:
        """Waits for the end, and answers what stood on the terminal, as standard error, and the status."""
        until = time.monotonic() + PATIENCE
        while self._read(0.1):
            if time.monotonic() > until:
                os.kill(self.process, signal.SIGKILL)
        status = os.waitstatus_to_exitcode(os.waitpid(self.process, 0)[1])
        os.close(self.terminal)
        return Answer(b"", self.said.replace(b"\r\n", b"\n"), status)


def call_on_terminal(test: WrapperTest, *words: str, stdin: str | None = None, stdout: str | None = None,
                     more: dict[str, str] | None = None) -> Answer:
    return Terminal(test, list(words), stdin, stdout, more).end()


def shown(answer: Answer) -> str:
    """What is left on a terminal: what was rewritten stands before the last clearing of its line."""
    return re.sub(r"(?m)^.*\x1b\[K", "", answer.err)
