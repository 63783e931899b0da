"""`haskell`: the module of a script, below a line that says of which script it is and by which version."""

from __future__ import annotations

import os

from tools.run import page, running
from tools.run.input import PIECE, room, unnamed_file
from tools.run.running import Run
from tools.run.saying import WRITE_FAILED, cannot_build, is_closed, write_all

ACCEPTED = 0


def comment(files: list[str], version: str) -> str:
    """The line above the module. A comment of Haskell is characters up to the end of its line."""
    name = "standard input" if files in ([], ["-"]) else files[0]
    return f"-- {''.join(it if it.isprintable() else '?' for it in name)}, conc_run {version}\n"


def _copy(file: int) -> None:
    os.lseek(file, 0, os.SEEK_SET)
    while True:
        piece = os.read(file, PIECE)
        if not piece:
            return
        write_all(1, piece)


def print_module(run: Run, script: int, files: list[str]) -> int:
    """Has the program print the module of the script, and answers the status. Where it is refused nothing is printed."""
    try:
        made = unnamed_file()
    except OSError:
        raise cannot_build(f"no room in {room()} to keep the module") from None
    status = running.run_below(run, (script, made, 2))
    if status != ACCEPTED:
        return status
    try:
        if is_closed(1):
            return WRITE_FAILED
        write_all(1, comment(files, page.version()).encode())
        _copy(made)
    except OSError:
        return WRITE_FAILED
    return status
