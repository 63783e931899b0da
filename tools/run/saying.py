"""What the wrapper says, and how far a long work is. All of it goes to standard error.

A message is lost where that is closed or full, and the program runs all the same.
"""

from __future__ import annotations

import os
import time

from tools.crates import TOP

# How the script is called: by the command that was installed, or by its file.
CALL = "conc_run" if TOP.startswith("/usr/") else "./conc_run"
WRITE_FAILED = 8
CANNOT_BUILD = 70
TOO_LITTLE = 71

# The streams that were closed when the wrapper began.
_closed: set[int] = set()


class Refused(Exception):
    """Ends the wrapper with a status and, where there is one, a sentence."""

    def __init__(self, status: int, sentence: str = "") -> None:
        super().__init__(sentence)
        self.status, self.sentence = status, sentence


def cannot_build(sentence: str) -> Refused:
    return Refused(CANNOT_BUILD, sentence)


def hold_closed() -> None:
    """Puts something on closed streams, so that no file that is opened becomes one. For the program they stay closed."""
    for stream in (0, 1, 2):
        try:
            os.fstat(stream)
        except OSError:
            _closed.add(stream)
            # It takes the least number that is free, and isn't inherited.
            os.open(os.devnull, os.O_RDWR)


def is_closed(stream: int) -> bool:
    return stream in _closed


def opens(stream: int) -> None:
    """A file was made this stream."""
    _closed.discard(stream)


def is_terminal(stream: int) -> bool:
    return not is_closed(stream) and os.isatty(stream)


def write_all(stream: int, data: bytes) -> None:
    while data:
        data = data[os.write(stream, data):]


def encoded(text: str) -> bytes:
    """As bytes, in which a name that is no UTF-8 is as it was given."""
    return text.encode("utf-8", "surrogateescape")


def tell(text: str) -> None:
    try:
        write_all(2, encoded(text))
    except OSError:
        pass


def say(sentence: str) -> None:
    tell(f"conc_run: {sentence.replace('./conc_run', CALL)}\n")


def put(text: str) -> int:
    """Writes to standard output, and answers the status of that."""
    try:
        if is_closed(1):
            return WRITE_FAILED
        write_all(1, encoded(text))
    except OSError:
        return WRITE_FAILED
    return 0


class Progress:
    """How far a work is: on a terminal on one line, else once for each text and then every 20 seconds."""

    def __init__(self) -> None:
        self.began = time.monotonic()
        self.shown, self.shown_at = "", -20

    @property
    def seconds(self) -> int:
        return int(time.monotonic() - self.began)

    def show(self, text: str) -> None:
        if is_terminal(2):
            tell(f"\r\033[Kconc_run: {text}, {self.seconds} s")
        elif text != self.shown or self.seconds - self.shown_at >= 20:
            say(f"{text}, {self.seconds} s")
            self.shown_at = self.seconds
        self.shown = text

    def over(self) -> None:
        if self.shown and is_terminal(2):
            tell("\r\033[K")


def quoted(name: str) -> str:
    """A name between quotes, as a shell reads it."""
    if name.isprintable() or all(it.isprintable() or it > "\ud800" for it in name):
        return "'" + name.replace("'", "'\\''") + "'"
    named = {"\n": "\\n", "\t": "\\t", "\r": "\\r", "\\": "\\\\", "'": "\\'"}
    return "$'" + "".join(named.get(it) or (it if it.isprintable() else f"\\{ord(it):03o}" if ord(it) < 128 else it) for it in name) + "'"


def as_word(name: str) -> str:
    """A name as one would type it: with quotes only where a shell needs them."""
    is_plain = name and all(it.isalnum() or it in "_-./+,:@%=" for it in name)
    return name if is_plain else quoted(name)
