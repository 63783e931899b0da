"""`picture` of a script: it is run and its history written, and then that is drawn."""

from __future__ import annotations

import os

from tools.run import running
from tools.run.input import Kept, room, unnamed_file
from tools.run.running import Run
from tools.run.saying import Refused, cannot_build

HISTORY = b"conc-trace "
# What ran to one of its ends has a history.
HAS_HISTORY = (0, 1, 4, 5, 9)


def is_history(kept: Kept) -> bool:
    return kept.bytes(len(HISTORY)) == HISTORY


def trace_of(run: Run) -> Run:
    """The run that writes the history, with the options of the words."""
    return run.with_words(["trace", *run.words[1:]])


def no_room() -> Refused:
    return cannot_build(f"no room in {room()} to keep what is to be drawn")


def trace_first(traced: Run, script: Kept) -> tuple[int, Kept]:
    """Runs the script, and answers the status of that and its history."""
    try:
        made = unnamed_file()
    except OSError:
        raise no_room() from None
    status = running.run_below(traced, (script.file, made, 2))
    os.lseek(made, 0, os.SEEK_SET)
    return status, Kept(made)
