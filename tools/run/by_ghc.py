"""`litmus`: tools/litmus does it, and the script around the program lists the outcomes for it."""

from __future__ import annotations

import io
import os
import sys

from tools.crates import TOP
from tools.run import programs
from tools.run.reading import Call
from tools.run.saying import WRITE_FAILED, cannot_build, is_closed

TYPE_CHECKING = False
if TYPE_CHECKING:
    from typing import TextIO

FOLDERS = ("tools/litmus", "litmus")


def ready(stream: TextIO | None) -> TextIO:
    """A stream of Python's that takes each text, and is there also where the system's one is closed."""
    if isinstance(stream, io.TextIOWrapper):
        stream.reconfigure(encoding="utf-8", errors="surrogateescape")
    return stream or open(os.devnull, "w", encoding="utf-8")


def run_litmus(call: Call, memory: int) -> int:
    if not all(os.path.isdir(os.path.join(TOP, it)) for it in FOLDERS):
        raise cannot_build(f"litmus needs the folders {' and '.join(FOLDERS)} of the repository, and they aren't here")
    from tools.litmus import command
    sys.stdout, sys.stderr = ready(sys.stdout), ready(sys.stderr)
    program = [os.path.join(TOP, "conc_run"), "--memory", str(memory)]
    try:
        # What builds the program says so, which the calls for lists don't.
        status = command.main(call.words[1:], program, programs.pick, call.module_words)
    except SystemExit as ended:
        status = ended.code if isinstance(ended.code, int) else 0
    return WRITE_FAILED if is_closed(1) else status
