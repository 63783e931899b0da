"""`story`: what happened in a history, a line for each entry but local steps, in the words of the titles of its picture."""

from __future__ import annotations

import html
import os
import re

from tools.run import picture, running
from tools.run.input import PIECE, unnamed_file
from tools.run.running import Run
from tools.run.saying import WRITE_FAILED, encoded, is_closed, write_all

DRAWN = 0
ENTRY = re.compile(rb"<g class='entry'><title>entry ([0-9]+): ([^<]*)</title>")
LOCAL_STEPS = re.compile(r"thread [0-9]+ makes local steps: [0-9]+")


def sentences(drawn: bytes) -> str:
    """A line for each entry that the picture shows, with its number. A control character of a text stands as `?`."""
    found = ((int(it[1]), html.unescape(it[2].decode("utf-8", "replace"))) for it in ENTRY.finditer(drawn))
    shown = ((number, "".join(it if it.isprintable() else "?" for it in text)) for number, text in found if not LOCAL_STEPS.fullmatch(text))
    return "".join(f"{number:5}  {text}\n" for number, text in shown)


def _read(file: int) -> bytes:
    read = bytearray()
    while piece := os.pread(file, PIECE, len(read)):
        read += piece
    return bytes(read)


def tell_story(drawing: Run, history: int) -> int:
    """Has the program draw the history, writes the sentences of that, and answers the status."""
    try:
        made = unnamed_file()
    except OSError:
        raise picture.no_room() from None
    status = running.run_below(drawing, (history, made, 2))
    if status != DRAWN:
        return status
    try:
        if is_closed(1):
            return WRITE_FAILED
        write_all(1, encoded(sentences(_read(made))))
    except OSError:
        return WRITE_FAILED
    return status
