"""`audit`: tools/audit does it, with the translator of Haskell modules and the program that lists outcomes."""

from __future__ import annotations

import os
import sys

from tools.run import programs, running, translator
from tools.run.by_ghc import ready
from tools.run.reading import Call
from tools.run.running import Run
from tools.run.saying import WRITE_FAILED, cannot_build, is_closed
from tools.crates import TOP

FOLDER = "tools/audit"


def run_audit(call: Call, memory: int) -> int:
    if not os.path.isdir(os.path.join(TOP, FOLDER)):
        raise cannot_build(f"audit needs the folder {FOLDER} of the repository, and it isn't here")
    from tools.audit import command, words
    sys.stdout, sys.stderr = ready(sys.stdout), ready(sys.stderr)
    try:
        asked = words.read(call.words[1:], call.module_words)
        run = Run(programs.pick(), [], memory)
        searcher = command.held(run.program.path, memory if run.program.is_proved else 0)
        tools = command.Tools([translator.program()], searcher, running.environment_of(run))
        status = command.audit(asked, tools)
    except SystemExit as ended:
        status = ended.code if isinstance(ended.code, int) else 0
    return WRITE_FAILED if is_closed(1) else status
