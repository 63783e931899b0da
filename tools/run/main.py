"""What a call of ./conc_run does, from its words to its status."""

from __future__ import annotations

import errno
import os
import sys

from tools.run import input, programs, reading, release, running
from tools.run.reading import Call
from tools.run.running import Run
from tools.run.saying import CANNOT_BUILD, TOO_LITTLE, Refused, hold_closed, is_closed, is_terminal, put, say

TYPE_CHECKING = False
if TYPE_CHECKING:
    from typing import NoReturn


def _other_action(call: Call) -> int:
    """What needs neither a script nor the program."""
    if call.action == "test":
        release.refuse("test")
        from tools.run import gate
        return gate.run_tests(call.words)
    if call.action == "clean":
        from tools.run import cache
        return cache.clean()
    from tools.run import page
    return put(page.help_page() if call.action == "help" else page.version_page())


def _run_program(call: Call, memory: int) -> int:
    """Runs the program: in place of the wrapper, unless something is to be done behind it."""
    run = Run(programs.pick(), call.program_words, memory)
    running.take_stack()
    if memory or running.is_held():
        from tools.run import memory as limits
        limits.check(run)
    explains = call.explains or is_terminal(2)
    if call.takes_several and (len(call.files) > 1 or call.command == "claims"):
        from tools.run import several
        return several.run_several(run, call, explains)
    # A closed standard input is the program's to tell.
    if not is_closed(0) and (explains or call.is_made_up):
        from tools.run import explained
        return explained.run_made_up(run, call, explains) if call.is_made_up else explained.run_explained(run, call)
    input.tell_waiting(call)
    running.become(run)


def run(words: list[str]) -> int:
    call = reading.read(words)
    if call.action in ("help", "version", "clean", "test"):
        return _other_action(call)
    memory = call.megabytes()
    reading.check_order(call)
    input.check_files(call)
    input.open_file(call)
    if call.command == "script":
        from tools.run import haskell
        return haskell.put_script()
    if call.wants_proof:
        release.refuse("--prove")
        from tools.run import building
        building.prove()
        if not call.words:
            return 0
    if call.action == "audit":
        from tools.run import audit
        return audit.run_audit(call, memory)
    if call.action == "litmus":
        from tools.run import by_ghc
        return by_ghc.run_litmus(call, memory)
    return _run_program(call, memory)


def _of_system(fault: OSError) -> Refused:
    """A fault that no part of the wrapper expects, in words."""
    if fault.errno in input.TOO_MANY_OPEN:
        return Refused(TOO_LITTLE, f"the system allows too few open files (ulimit -n): {fault.strerror}")
    if fault.errno in (errno.EAGAIN, errno.ENOMEM):
        return Refused(TOO_LITTLE, f"the system allows no further process: {fault.strerror}")
    return Refused(CANNOT_BUILD, f"{fault.filename or 'a file'}: {fault.strerror}")


def main(words: list[str]) -> NoReturn:
    from tools.run import signals
    try:
        signals.heed()
        hold_closed()
        status = run(words)
    except Refused as it:
        if it.sentence:
            say(it.sentence)
        status = it.status
    except signals.Stopped as it:
        running.stop_all(it.number)
        status = it.status
    except OSError as fault:
        refused = _of_system(fault)
        say(refused.sentence)
        status = refused.status
    # Nothing of the wrapper is left to be done, and Python's own end would tell of streams that are closed.
    os._exit(status)


if __name__ == "__main__":
    main(sys.argv[1:])
