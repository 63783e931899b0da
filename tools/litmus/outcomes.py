"""Outcomes, and the texts that list them: that of `conc_run outcomes`, and that of the program of a script's module."""

from __future__ import annotations

import re
from collections.abc import Sequence
from dataclasses import dataclass

ENDS = ("done", "uncaught", "deadlock")
HEAD_OF_LIST = re.compile(rb"\d+\. (done|uncaught|deadlock), after \d+ entries")
HEAD_OF_COUNT = re.compile(rb"\d+\. (done|uncaught|deadlock), (\d+) of \d+ runs")
NO_END = re.compile(rb"no end, (\d+) of \d+ runs")
FIRST_LINE = re.compile(rb"\d+ outcomes?, and (there are no others|there may be others: .*)")


class Unreadable(Exception):
    """A text that lists no outcomes."""


@dataclass(frozen=True)
class Outcome:
    """How a run ends, its output and its error output."""

    end: str
    output: bytes
    errors: bytes

    def place(self) -> tuple[int, bytes, bytes]:
        """What outcomes are ordered by."""
        return ENDS.index(self.end), self.output, self.errors


@dataclass(frozen=True)
class Listed:
    """A list of outcomes, and what its first line says of others."""

    outcomes: tuple[Outcome, ...]
    others: str

    def is_complete(self) -> bool:
        return self.others == "there are no others"


@dataclass(frozen=True)
class Shown:
    """How often each outcome was met, and how many runs had no end."""

    counts: dict[Outcome, int]
    without_end: int

    def runs(self) -> int:
        return sum(self.counts.values()) + self.without_end


def texts_below(lines: Sequence[bytes]) -> tuple[bytes, bytes]:
    """Output and error output, of the lines below the head of an outcome."""
    texts = {b"   output:": b"", b"   errors:": b""}
    current = b"   output:"
    for line in lines:
        if line.startswith(b"     | "):
            texts[current] += line[7:] + b"\n"
        elif line.startswith(b"     : "):
            texts[current] += line[7:]
        elif line in texts:
            current = line
        elif line != b"   output: none":
            raise Unreadable(f"no line of an outcome: {line!r}")
    return texts[b"   output:"], texts[b"   errors:"]


def blocks_of(text: bytes) -> list[list[bytes]]:
    """The lines of a list: those above its empty line, and then those of each outcome, which begin with its head."""
    above, _, below = text.partition(b"\n\n")
    blocks = [above.removesuffix(b"\n").split(b"\n")]
    for line in below.removesuffix(b"\n").split(b"\n") if below else ():
        if line.startswith(b"   "):
            blocks[-1].append(line)
        else:
            blocks.append([line])
    return blocks


def read_list(text: bytes) -> Listed:
    """What `conc_run outcomes` printed."""
    first, *blocks = blocks_of(text)
    said = FIRST_LINE.fullmatch(first[0]) if first else None
    if said is None:
        raise Unreadable("no list of outcomes")
    found = []
    for head, *below in blocks:
        match = HEAD_OF_LIST.fullmatch(head)
        if match is None:
            raise Unreadable(f"no head of an outcome: {head!r}")
        found.append(Outcome(match[1].decode(), *texts_below(below)))
    return Listed(tuple(found), said[1].decode())


def read_counts(text: bytes) -> Shown:
    """What the program of a script's module printed."""
    _, *blocks = blocks_of(text)
    counts: dict[Outcome, int] = {}
    without_end = 0
    for head, *below in blocks:
        if match := HEAD_OF_COUNT.fullmatch(head):
            counts[Outcome(match[1].decode(), *texts_below(below))] = int(match[2])
        elif match := NO_END.fullmatch(head):
            without_end = int(match[1])
        else:
            raise Unreadable(f"no head of an outcome: {head!r}")
    return Shown(counts, without_end)
