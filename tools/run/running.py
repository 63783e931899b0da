"""Runs a program: in place of the wrapper, or below it where something is to be done behind it."""

from __future__ import annotations

import os
import resource
import time

from tools.run import signals
from tools.run.programs import Program
from tools.run.saying import CANNOT_BUILD, TOO_LITTLE, Refused, cannot_build, say

TYPE_CHECKING = False
if TYPE_CHECKING:
    from typing import Callable, NoReturn

# The stack, in KB, that the deepest script takes.
STACK = 8192
# How long what is to end may take, in seconds.
PATIENCE = 5.0


class Run:
    """A program with the words that it gets, and the MB of memory that it may take, 0 for no limit."""

    def __init__(self, program: Program, words: list[str], memory: int) -> None:
        self.program, self.words, self.memory = program, words, memory

    def with_words(self, words: list[str]) -> Run:
        return Run(self.program, words, self.memory)


def take_stack() -> None:
    """Makes sure of the stack. An unlimited one would leave other threads with 2 MB each."""
    soft, hard = resource.getrlimit(resource.RLIMIT_STACK)
    if soft != resource.RLIM_INFINITY and soft >= STACK * 1024:
        return
    try:
        resource.setrlimit(resource.RLIMIT_STACK, (STACK * 1024, hard))
    except (ValueError, OSError):
        raise Refused(TOO_LITTLE, f"the stack is held to {soft // 1024} KB, and a deep script takes up to {STACK} KB") from None


def is_held() -> bool:
    """Whether the system holds the addresses of a process."""
    return resource.getrlimit(resource.RLIMIT_AS)[0] != resource.RLIM_INFINITY


def environment_of(run: Run) -> dict[str, str]:
    found = dict(os.environ)
    if run.program.is_proved:
        # Each further arena of the C library reserves 64 MB of addresses for a thread, which count.
        found["MALLOC_ARENA_MAX"] = found.get("MALLOC_ARENA_MAX") or "1"
    else:
        # The address sanitizer reserves more addresses than any limit, so that build is held to the memory that it really uses.
        limit = f":quarantine_size_mb=16:soft_rss_limit_mb={run.memory}" if run.memory else ""
        found["ASAN_OPTIONS"] = f"abort_on_error=1:allocator_may_return_null=1:symbolize=0{limit}"
    return found


def hold_addresses(most: int) -> None:
    """Holds this process to so many bytes of addresses. It fails where a lower limit holds already, which then is the limit."""
    try:
        resource.setrlimit(resource.RLIMIT_AS, (most, most))
    except (ValueError, OSError):
        pass


def become(run: Run) -> NoReturn:
    """Becomes the program, held to the memory that it may take."""
    environment = environment_of(run)
    signals.restore()
    try:
        if run.program.is_proved and run.memory:
            hold_addresses(run.memory << 20)
        os.execve(run.program.path, [run.program.path, *run.words], environment)
    except (OSError, MemoryError) as fault:
        reason = getattr(fault, "strerror", None) or "out of memory"
        raise cannot_build(f"{run.program.path} can't be started: {reason}") from None


# What was started and hasn't ended, and whether it has children of its own.
_started: dict[int, bool] = {}


def start(becoming: Callable[[], NoReturn], streams: tuple[int, int, int] = (0, 1, 2), apart: bool = False) -> int:
    """Starts a process that becomes another program, with these streams; `apart` from the terminal where it has children of its own."""
    mask = signals.hold()
    try:
        child = os.fork()
        if child == 0:
            _begin(becoming, streams, apart, mask)
        _started[child] = apart
    finally:
        signals.let(mask)
    return child


def _begin(becoming: Callable[[], NoReturn], streams: tuple[int, int, int], apart: bool, mask: set[int]) -> NoReturn:
    try:
        if apart:
            os.setsid()
        for stream, given in enumerate(streams):
            if given != stream:
                os.dup2(given, stream)
        signals.restore()
        signals.let(mask)
        becoming()
    except Refused as it:
        say(it.sentence)
        os._exit(it.status)
    finally:
        os._exit(CANNOT_BUILD)


def ended(child: int, options: int = 0) -> int | None:
    """The status of what ended, as a shell has it, or None while it goes on and the options let nobody wait."""
    found, state = os.waitpid(child, options)
    if not found:
        return None
    _started.pop(child, None)
    code = os.waitstatus_to_exitcode(state)
    return code if code >= 0 else 128 - code


def wait(child: int) -> int:
    """Waits for the end. A signal that ended the program alone ends the wrapper as well."""
    status = ended(child) or 0
    if status - 128 in signals.ENDING:
        raise signals.Stopped(status - 128)
    return status


def stop(child: int, number: int) -> None:
    """Ends what was started with its children, by a signal, and where that does nothing for long by another."""
    send = os.killpg if _started.get(child) else os.kill
    until = time.monotonic() + PATIENCE
    try:
        send(child, number)
        while ended(child, os.WNOHANG) is None:
            if time.monotonic() > until:
                send(child, signals.KILL)
                ended(child)
                return
            time.sleep(0.01)
    except (ProcessLookupError, ChildProcessError):
        _started.pop(child, None)


def stop_all(number: int) -> None:
    """Ends all that was started, before the wrapper ends."""
    for child in list(_started):
        stop(child, number)


def run_below(run: Run, streams: tuple[int, int, int] = (0, 1, 2)) -> int:
    """Runs the program below the wrapper, which goes on behind it."""
    def becoming() -> NoReturn:
        become(run)

    return wait(start(becoming, streams))
