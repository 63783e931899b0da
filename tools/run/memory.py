"""Whether the program can start with the memory that it may take, and has its stack then. Else it would end by a signal."""

from __future__ import annotations

import os
import resource

from tools.run import running
from tools.run.reading import NOT_UNDERSTOOD
from tools.run.running import STACK, Run
from tools.run.saying import TOO_LITTLE, Refused

TYPE_CHECKING = False
if TYPE_CHECKING:
    from typing import NoReturn

# In MB: the program starts with less, whatever the libraries of a system take.
ENOUGH = 256
# The status of the program where it gets no words: so it has started.
HAS_STARTED = 2
STACK_MB = STACK // 1024


def _starts(run: Run, most: int) -> bool:
    """Whether the program starts with so many bytes of addresses, or with those of the system where that is 0."""
    path, environment = run.program.path, running.environment_of(run)

    def becoming() -> NoReturn:
        if most:
            running.hold_addresses(most)
        os.execve(path, [path], environment)

    nothing = os.open(os.devnull, os.O_RDWR)
    try:
        child = running.start(becoming, (nothing, nothing, nothing))
        return running.wait(child) == HAS_STARTED
    finally:
        os.close(nothing)


def _least(run: Run) -> int:
    """The MB that the program starts with and has its stack besides, or 0 where that is not to be found."""
    low, high = 0, ENOUGH
    if not _starts(run, high << 20):
        return 0
    while high - low > 1:
        middle = (low + high) // 2
        low, high = (low, middle) if _starts(run, middle << 20) else (middle, high)
    return high + STACK_MB


def _addresses(run: Run) -> int:
    """The bytes of addresses that the program is held to."""
    soft, hard = resource.getrlimit(resource.RLIMIT_AS)
    asked = run.memory << 20
    if asked and (hard == resource.RLIM_INFINITY or asked <= hard):
        return asked
    return soft


def check_proved(run: Run) -> None:
    limit = _addresses(run)
    if limit == resource.RLIM_INFINITY or limit >= ENOUGH << 20:
        return
    if limit > STACK << 10 and _starts(run, limit - (STACK << 10)):
        return
    least = _least(run)
    takes = f"takes {least} MB" if least else "does not start"
    if limit == run.memory << 20:
        raise Refused(NOT_UNDERSTOOD, f"{run.memory} MB of memory are too little: the program with its {STACK_MB} MB of stack {takes}; 0 is no limit")
    raise Refused(TOO_LITTLE, f"the system holds the memory to {limit >> 20} MB, and the program with its {STACK_MB} MB of stack {takes}")


def check_checked(run: Run) -> None:
    """The checked build is held by what it really uses, and reserves more addresses than any limit."""
    if resource.getrlimit(resource.RLIMIT_AS)[0] != resource.RLIM_INFINITY and not _starts(run, 0):
        raise Refused(TOO_LITTLE, "the system holds the memory (ulimit -v), and the checked build starts with no such limit; "
                      "./conc_run --prove makes the proved one")
    least = (os.stat(run.program.path).st_size >> 20) + 1 + STACK_MB
    if 0 < run.memory < least:
        raise Refused(NOT_UNDERSTOOD, f"{run.memory} MB of memory are too little: the program with its {STACK_MB} MB of stack takes {least} MB; "
                      "0 is no limit")


def check(run: Run) -> None:
    """Refuses a limit with which the program can't start, or has no room for its stack."""
    if run.program.is_proved:
        check_proved(run)
    else:
        check_checked(run)
