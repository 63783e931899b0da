"""What the program is to read: the file that is named, or standard input, and what is kept of it for later."""

from __future__ import annotations

import errno
import os
import stat

from tools.run import signals
from tools.run.reading import Call
from tools.run.saying import Refused, cannot_build, is_terminal, opens, quoted, say, write_all
from tools.run.words import HISTORY_COMMANDS

CANNOT_READ = 66
# Of the process, and of the system.
TOO_MANY_OPEN = (errno.EMFILE, errno.ENFILE)
PIECE = 1 << 16


def bad_input(sentence: str) -> Refused:
    return Refused(CANNOT_READ, sentence)


def check_file(name: str) -> None:
    """Whether the file can be read. It is told before anything is built."""
    folder = os.path.dirname(name) or "."
    if os.path.isdir(folder) and not os.access(folder, os.X_OK):
        raise bad_input(f"no right to enter the folder of {quoted(name)}")
    if not os.path.exists(name):
        raise bad_input(f"there is no file {quoted(name)}")
    if os.path.isdir(name):
        raise bad_input(f"{quoted(name)} is a folder, and a script is a file")
    if not os.access(name, os.R_OK):
        raise bad_input(f"no right to read {quoted(name)}")


def check_files(call: Call) -> None:
    """Whether the words name as many files as the command takes, and each alone can be read."""
    if call.like_option:
        name = call.like_option
        raise bad_input(f"{quoted(name)} is read as an option; the file of that name is given as ./{name} or behind --")
    if len(call.files) > 1 and not call.takes_several:
        raise bad_input(f"one script at a time, and these are {len(call.files)}: {' '.join(quoted(it) for it in call.files)}")
    if len(call.files) == 1 and call.files[0] != "-":
        check_file(call.files[0])
    if call.module_words or call.command == "script" or any(map(is_module, call.files)):
        from tools.run import haskell
        haskell.check_words(call)


def is_module(name: str) -> bool:
    """Whether the file is a Haskell module."""
    return name.endswith((".hs", ".lhs"))


def opened(name: str, module_words: list[str]) -> int:
    """The file, or of a Haskell module the script that it becomes."""
    if is_module(name):
        from tools.run import haskell
        return haskell.opened(name, module_words)
    try:
        return os.open(name, os.O_RDONLY)
    except OSError as fault:
        if fault.errno in TOO_MANY_OPEN:
            raise
        raise bad_input(f"{quoted(name)} can't be opened") from None


def open_file(call: Call) -> None:
    """Makes the file standard input."""
    if len(call.files) == 1 and call.files[0] != "-":
        file = opened(call.files[0], call.module_words)
        os.dup2(file, 0)
        os.close(file)
        opens(0)


def tell_waiting(call: Call) -> None:
    """Who sits at the terminal is told what the program waits for."""
    if call.document and is_terminal(0):
        say(f"waits for a script from the terminal, up to Ctrl-D on a line of its own; ./conc_run {call.command} FILE reads a file")


def room() -> str:
    return os.environ.get("TMPDIR") or "/tmp"


def unnamed_file() -> int:
    """A file that has no name, so that nothing is left of it however the wrapper ends."""
    try:
        return os.open(room(), os.O_TMPFILE | os.O_RDWR | os.O_EXCL, 0o600)
    except (IsADirectoryError, NotImplementedError):
        pass
    except OSError as fault:
        if fault.errno not in (errno.EOPNOTSUPP, errno.EINVAL, errno.ENOENT) or not os.path.isdir(room()):
            raise
    # The folder knows no such files. So it has a name for a moment, in which no signal comes.
    name = os.path.join(room(), f"conc_run.{os.urandom(8).hex()}")
    mask = signals.hold()
    try:
        file = os.open(name, os.O_CREAT | os.O_EXCL | os.O_RDWR, 0o600)
        os.unlink(name)
    finally:
        signals.let(mask)
    return file


class Kept:
    """What the program reads, in a file that can be read again from where it begins."""

    def __init__(self, file: int) -> None:
        self.file = file
        self.begin = os.lseek(file, 0, os.SEEK_CUR)

    def rewind(self) -> None:
        os.lseek(self.file, self.begin, os.SEEK_SET)

    def bytes(self, most: int) -> bytes:
        found, at = bytearray(), self.begin
        while len(found) < most:
            piece = os.pread(self.file, min(PIECE, most - len(found)), at)
            if not piece:
                break
            found += piece
            at += len(piece)
        return bytes(found)


def is_file(stream: int) -> bool:
    return stat.S_ISREG(os.fstat(stream).st_mode)


class CannotRead(Exception):
    """A read failed, which is the program's to tell."""


def _copy(source: int, copy: int, most: int) -> None:
    while most > 0:
        try:
            piece = os.read(source, min(PIECE, most))
        except OSError:
            raise CannotRead from None
        if not piece:
            break
        write_all(copy, piece)
        most -= len(piece)


def keep(source: int, most: int) -> Kept:
    """Keeps what is read there, in a file that can be read twice. Where there is no room at all, nothing was read."""
    if is_file(source):
        return Kept(source)
    copy = unnamed_file()
    try:
        _copy(source, copy, most)
    except CannotRead:
        os.close(copy)
        raise
    except OSError:
        raise cannot_build(f"no room in {room()} to keep the script; for one in a file none is needed") from None
    os.lseek(copy, 0, os.SEEK_SET)
    return Kept(copy)


def keep_if_can(source: int, most: int) -> Kept | None:
    """The same, or nothing where the program is to read it itself."""
    try:
        return keep(source, most)
    except (CannotRead, OSError):
        return None


def script_of(command: str, document: bytes) -> bytes:
    """The script: of a document that has a history too what stands behind its first line `script`."""
    if command not in HISTORY_COMMANDS:
        return document
    if document.startswith(b"script\n"):
        return document[len(b"script\n"):]
    return document.partition(b"\nscript\n")[2]
