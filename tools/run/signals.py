"""Signals that end the wrapper: what it runs is ended first, and its status is 128 and the signal, so 130 for Ctrl-C, 143 for TERM.

That is a status like any other, so a shell that called it goes on as behind any status.
"""

from __future__ import annotations

TYPE_CHECKING = False
if TYPE_CHECKING:
    import signal
else:
    try:
        # The same without the enumerations, which take longer to load than all else that a run needs.
        import _signal as signal
    except ImportError:
        import signal

ENDING = (signal.SIGINT, signal.SIGTERM, signal.SIGHUP, signal.SIGQUIT)
KILL = signal.SIGKILL
# Python ignores these, and a program that it starts is to have them as they are.
IGNORED_BY_PYTHON = (signal.SIGPIPE, signal.SIGXFSZ)


class Stopped(BaseException):
    """A signal is to end the wrapper."""

    def __init__(self, number: int) -> None:
        super().__init__(number)
        self.number = number

    @property
    def status(self) -> int:
        return 128 + self.number


def _stop(number: int, _frame: object) -> None:
    # The first alone counts, so that nothing cuts off what cleans up.
    for it in ENDING:
        signal.signal(it, signal.SIG_IGN)
    raise Stopped(number)


def heed() -> None:
    """From now on a signal that ends the wrapper is raised where it is. One that its caller ignores stays ignored."""
    for it in ENDING:
        if signal.getsignal(it) != signal.SIG_IGN:
            signal.signal(it, _stop)


def restore() -> None:
    """In a program that is to be started: signals are as they were for the wrapper."""
    for it in ENDING:
        if signal.getsignal(it) != signal.SIG_IGN:
            signal.signal(it, signal.SIG_DFL)
    for it in IGNORED_BY_PYTHON:
        signal.signal(it, signal.SIG_DFL)


def hold() -> set[int]:
    """Lets the signals wait, up to `let` with what this answers."""
    return {int(it) for it in signal.pthread_sigmask(signal.SIG_BLOCK, ENDING)}


def let(mask: set[int]) -> None:
    signal.pthread_sigmask(signal.SIG_SETMASK, mask)
