"""The translator of Haskell modules: it is built from from-haskell/ where it isn't there yet, and run."""

from __future__ import annotations

import os
import time

from tools.crates import TOP
from tools.run import input, running
from tools.run.saying import Progress, Refused, as_word, cannot_build, tell

TYPE_CHECKING = False
if TYPE_CHECKING:
    from types import TracebackType
    from typing import NoReturn

PACKAGE = os.path.join(TOP, "from-haskell")
# How often it is looked whether a command has ended, in seconds: at first, and at most.
FIRST_BEAT, LAST_BEAT = 0.005, 0.1


class Script:
    """The script of a module, and the notes that were told."""

    def __init__(self, text: bytes, notes: bytes) -> None:
        self.text, self.notes = text, notes


def as_text(data: bytes) -> str:
    return data.decode("utf-8", "surrogateescape")


def no_room() -> Refused:
    return cannot_build(f"no room in {input.room()} to keep a script")


def read_all(file: int) -> bytes:
    """The whole file, wherever it stands."""
    found = bytearray()
    while True:
        piece = os.pread(file, input.PIECE, len(found))
        if not piece:
            return bytes(found)
        found += piece


class Streams:
    """An empty standard input, and files for what a command writes."""

    def __init__(self) -> None:
        try:
            self.nothing = os.open(os.devnull, os.O_RDONLY)
            self.output, self.errors = input.unnamed_file(), input.unnamed_file()
        except OSError:
            raise no_room() from None

    def __enter__(self) -> Streams:
        return self

    def __exit__(self, kind: type[BaseException] | None, fault: BaseException | None, trace: TracebackType | None) -> None:
        for it in (self.nothing, self.output, self.errors):
            os.close(it)


def _run(words: list[str], streams: Streams, what: str) -> int:
    """Runs a command with all that it starts, and says from the second second on for how long it goes on."""
    def becoming() -> NoReturn:
        os.execv(words[0], words)

    progress, beat = Progress(), FIRST_BEAT
    child = running.start(becoming, (streams.nothing, streams.output, streams.errors), apart=True)
    status = running.ended(child, os.WNOHANG)
    while status is None:
        time.sleep(beat)
        beat = min(LAST_BEAT, beat * 1.5)
        if progress.seconds >= 2:
            progress.show(what)
        status = running.ended(child, os.WNOHANG)
    progress.over()
    return status


def program() -> str:
    """The translator, which is built where it isn't there yet."""
    build = os.path.join(PACKAGE, "build")
    if not os.access(build, os.X_OK):
        raise cannot_build(f"the translator of Haskell modules is not here: there is no {build}")
    with Streams() as streams:
        status = _run([build], streams, "builds the translator of Haskell modules, once")
        if status:
            tell(as_text(read_all(streams.errors)))
            raise Refused(status)
        return as_text(read_all(streams.output)).strip()


def translate(name: str, words: list[str]) -> Script:
    """The script of a module. What the translator refuses it tells itself, and ends this with its status."""
    path = program()
    with Streams() as streams:
        status = _run([path, *words, "--", name], streams, f"translates {as_word(name)}")
        notes = read_all(streams.errors)
        if status:
            tell(as_text(notes))
            raise Refused(status)
        return Script(read_all(streams.output), notes)
