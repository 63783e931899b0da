"""A run with what helps below its own line: on a terminal, or with --explain. And a picture, which may take two runs."""

from __future__ import annotations

import os

from tools.run import input, picture, running
from tools.run.input import Kept
from tools.run.reading import Call
from tools.run.running import Run
from tools.run.saying import is_closed, is_terminal

TYPE_CHECKING = False
if TYPE_CHECKING:
    from typing import NoReturn

NOT_UNDERSTOOD, REFUSED, MAY_BE_OTHERS, NO_OUTCOME = 2, 3, 11, 12


def takes_words(run: Run) -> bool:
    """Whether the program takes the words: on an empty script it says so without a run. So nothing is read where it refuses them."""
    nothing = os.open(os.devnull, os.O_RDWR)
    try:
        return running.run_below(run, (nothing, nothing, nothing)) != NOT_UNDERSTOOD
    finally:
        os.close(nothing)


def _reads(run: Run, call: Call) -> bool:
    """Whether the program would read a document: it is told what it waits for, and no more is read where it refuses its words."""
    if not call.document or is_closed(0) or not (input.is_file(0) or takes_words(run)):
        return False
    input.tell_waiting(call)
    return True


def _refusal(run: Run, kept: Kept) -> str:
    """The line of a refusal. A refused script isn't run, so the same call tells the same line once more."""
    from tools.run import refusals
    kept.rewind()
    told = input.unnamed_file()
    nothing = os.open(os.devnull, os.O_WRONLY)
    try:
        running.run_below(run, (kept.file, nothing, told))
        return refusals.refusal_in(os.pread(told, input.PIECE, 0))
    finally:
        os.close(told)
        os.close(nothing)


def _explain(run: Run, call: Call, status: int, kept: Kept | None) -> None:
    """What stands below the program's own line."""
    if status == NOT_UNDERSTOOD:
        from tools.run import hints
        hints.hint(call.words)
    elif status == REFUSED and kept:
        from tools.run import refusals
        refusals.explain(_refusal(run, kept), input.script_of(run.words[0], kept.bytes(call.document)))
    elif status == NO_OUTCOME:
        from tools.run import search
        search.explain_none()


def _run_search(run: Run, file: int) -> int:
    from tools.run import search
    if is_terminal(2):
        status, head = search.run_search(run, file)
    else:
        status, head = running.run_below(run, (file, 1, 2)), search.Head()
    if status == MAY_BE_OTHERS:
        search.explain_others(head)
    return status


def run_explained(run: Run, call: Call) -> int:
    kept = input.keep_if_can(0, call.document) if _reads(run, call) else None
    file = kept.file if kept else 0
    status = _run_search(run, file) if call.command == "outcomes" else running.run_below(run, (file, 1, 2))
    _explain(run, call, status, kept)
    return status


def run_made_up(run: Run, call: Call, explains: bool) -> int:
    """A command of one file whose answer the wrapper makes."""
    if call.command in ("picture", "story"):
        return run_picture(run, call, explains)
    from tools.run import module
    kept = None
    if not explains:
        input.tell_waiting(call)
    elif _reads(run, call):
        kept = input.keep_if_can(0, call.document)
    status = module.print_module(run, kept.file if kept else 0, call.files)
    if explains:
        _explain(run, call, status, kept)
    return status


def _become_on(run: Run, file: int) -> NoReturn:
    """Becomes the program, with a file as standard input."""
    if file:
        os.dup2(file, 0)
    running.become(run)


def _tell_story(drawing: Run, file: int) -> int:
    from tools.run import story
    return story.tell_story(drawing, file)


def run_picture(run: Run, call: Call, explains: bool) -> int:
    """Draws or tells a history as it is, or that of a script, which is run first."""
    if not _reads(picture.trace_of(run), call):
        status = running.run_below(run)
        if explains:
            _explain(run, call, status, None)
        return status
    try:
        kept = input.keep(0, call.document)
    except input.CannotRead:
        running.become(run)
    except OSError:
        raise picture.no_room() from None
    if picture.is_history(kept):
        return _run_history(run, call, kept, explains)
    traced = picture.trace_of(run)
    status, made = picture.trace_first(traced, kept)
    if status in picture.HAS_HISTORY:
        drawing = run.with_words(["picture"])
        return _tell_story(drawing, made.file) if call.command == "story" else _become_on(drawing, made.file)
    if explains:
        # What is refused is the script itself.
        _explain(traced, call, status, kept)
    return status


def _run_history(run: Run, call: Call, kept: Kept, explains: bool) -> int:
    if call.command == "story":
        status = _tell_story(run, kept.file)
    elif explains:
        status = running.run_below(run, (kept.file, 1, 2))
    else:
        _become_on(run, kept.file)
    if explains:
        _explain(run, call, status, kept)
    return status
