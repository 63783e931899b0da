"""A command on several files, one after the other: each line of an answer begins with the name of its file."""

from __future__ import annotations

import os

from tools.run import input, refusals, running
from tools.run.input import Kept
from tools.run.reading import NOT_UNDERSTOOD, Call
from tools.run.running import Run
from tools.run.saying import WRITE_FAILED, Refused, encoded, is_closed, say, tell, write_all
from tools.run.words import COMMANDS

REFUSED = 3
# What is the same for each file that is still to come.
FOR_ALL = (NOT_UNDERSTOOD, WRITE_FAILED)


def worst(statuses: list[int], order: tuple[int, ...]) -> int:
    """The status of all: the first of the order that there is. One that the order doesn't know comes before all."""
    return min(statuses, key=lambda it: order.index(it) if it in order else -1, default=0)


def lines_of(said: bytes) -> list[bytes]:
    lines = said.split(b"\n")
    if not lines[-1]:
        lines.pop()
    return lines


def put_all(said: bytes) -> bool:
    """Writes to standard output, and answers whether that could be done."""
    try:
        write_all(1, said)
    except OSError:
        return False
    return not is_closed(1)


class Answers:
    """What the program says of each file, which it says to files of the wrapper, and what becomes of that."""

    # Whether something is said of the script itself, also where nothing is explained.
    looks_at_script = False

    def __init__(self, run: Run, call: Call, explains: bool) -> None:
        self.run, self.call, self.explains = run, call, explains
        self.output, self.errors = input.unnamed_file(), input.unnamed_file()
        # What the program reads, where that is wanted again.
        self.kept: Kept | None = None

    def run_on(self, name: str, file: int) -> int:
        """Runs the program on a file, and answers its status."""
        return running.run_below(self.run, (file, self.output, self.errors))

    def named(self, name: str, line: bytes) -> bytes:
        """A line of the program, behind the name of the file that it is about."""
        return encoded(f"{name}: ") + line

    def explain(self, name: str, status: int, said: bytes, told: bytes, kept: Kept | None) -> None:
        """What stands below the program's own lines."""
        if status == REFUSED and kept:
            refusals.explain(refusals.refusal_in(told), input.script_of(self.call.command, kept.bytes(self.call.document)))

    def end(self) -> bool:
        """Says what is to be said behind all files, and answers whether it could be written."""
        return True

    def _open(self, name: str) -> int:
        if name != "-":
            input.check_file(name)
            return input.opened(name, self.call.module_words)
        if not input.is_file(0) and not _takes_words(self.run):
            # Nothing is read where the words are refused.
            return os.open(os.devnull, os.O_RDONLY)
        input.tell_waiting(self.call)
        return 0

    def _keep(self, file: int) -> Kept | None:
        wanted = (self.explains or self.looks_at_script) and not is_closed(file)
        return input.keep_if_can(file, self.call.document) if wanted else None

    def of(self, name: str) -> int:
        """Runs the program on the file of this name, says what it said, and answers the status."""
        file = self._open(name)
        try:
            self.kept = kept = self._keep(file)
            status = self.run_on(name, kept.file if kept else file)
            said, told = _taken(self.output), _taken(self.errors)
            if status == NOT_UNDERSTOOD:
                self._refuse_words(told)
                return status
            if said and not put_all(b"".join(self.named(name, it) + b"\n" for it in lines_of(said))):
                return WRITE_FAILED
            tell(b"".join(self.named(name, it) + b"\n" for it in lines_of(told)).decode("utf-8", "surrogateescape"))
            self.explain(name, status, said, told, kept)
            return status
        finally:
            if file:
                os.close(file)

    def _refuse_words(self, told: bytes) -> None:
        tell(told.decode("utf-8", "surrogateescape"))
        if self.explains:
            from tools.run import hints
            hints.hint(self.call.words)


def _takes_words(run: Run) -> bool:
    from tools.run import explained
    return explained.takes_words(run)


def _taken(stream: int) -> bytes:
    """What a file was given. It is empty then for the next one."""
    said = bytearray()
    while True:
        piece = os.pread(stream, input.PIECE, len(said))
        if not piece:
            break
        said += piece
    os.ftruncate(stream, 0)
    os.lseek(stream, 0, os.SEEK_SET)
    return bytes(said)


def _answers(run: Run, call: Call, explains: bool) -> Answers:
    if call.command == "claims":
        from tools.run import claims
        return claims.Claims(run, call, explains)
    return Answers(run, call, explains)


def run_several(run: Run, call: Call, explains: bool) -> int:
    answers, statuses = _answers(run, call, explains), []
    for name in call.files or ["-"]:
        try:
            statuses.append(answers.of(name))
        except Refused as it:
            if it.sentence:
                say(it.sentence)
            statuses.append(it.status)
        if statuses[-1] in FOR_ALL:
            break
    if not answers.end():
        statuses.append(WRITE_FAILED)
    return worst(statuses, COMMANDS[call.command].status_order)
