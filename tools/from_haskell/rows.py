"""Rows: what each program of from-haskell/test/programs comes to."""

from __future__ import annotations

import json
import re
from collections.abc import Iterable, Sequence
from pathlib import Path
from typing import NamedTuple

from tools.litmus.outcomes import Outcome

TOP = Path(__file__).resolve().parent.parent.parent
PACKAGE = TOP / "from-haskell"
PROGRAMS = PACKAGE / "test" / "programs"
ROWS = PACKAGE / "test" / "rows"
TEXT = r'"(?:[^"\\]|\\.)*"'
LISTED = re.compile(rf"(done|uncaught|deadlock) ({TEXT}) ({TEXT})")
SHOWN = re.compile(rf"ghc ([\w-]+) (done|uncaught|deadlock) ({TEXT}) ({TEXT})")


class Row(NamedTuple):
    """A program: its name, the options of the translator, what the translation comes to, and what GHC shows beside that."""

    name: str
    options: tuple[str, ...]
    lines: tuple[str, ...]
    # `ghc CLASS OUTCOME`: GHC shows this outcome, which isn't listed, and a note of the class says why.
    shown: tuple[str, ...] = ()

    def listed(self) -> set[Outcome]:
        return {it for it in map(read_outcome, self.lines) if it}

    def is_translated(self) -> bool:
        return bool(self.listed())

    def explained(self) -> dict[Outcome, str]:
        """The outcomes that aren't listed and that GHC may show, with what explains each."""
        matches = filter(None, map(SHOWN.fullmatch, self.shown))
        return {outcome_of(it[2], it[3], it[4]): it[1] for it in matches}


def outcome_of(end: str, output: str, errors: str) -> Outcome:
    return Outcome(end, json.loads(output).encode(), json.loads(errors).encode())


def read_outcome(line: str) -> Outcome | None:
    match = LISTED.fullmatch(line)
    return outcome_of(*match.groups()) if match else None


def write_outcome(outcome: Outcome) -> str:
    texts = (json.dumps(it.decode(errors="backslashreplace"), ensure_ascii=False) for it in (outcome.output, outcome.errors))
    return " ".join([outcome.end, *texts])


def read_rows(text: str) -> list[Row]:
    """The rows of the table: a name with options, and below it, indented, what came."""
    rows: list[Row] = []
    for line in text.splitlines():
        if not line or line.startswith("#"):
            continue
        if not line.startswith("  "):
            name, *options = line.split()
            rows.append(Row(name, tuple(options), ()))
        elif line.startswith("  ghc "):
            rows[-1] = rows[-1]._replace(shown=(*rows[-1].shown, line.strip()))
        else:
            rows[-1] = rows[-1]._replace(lines=(*rows[-1].lines, line.strip()))
    return rows


def write_rows(rows: Iterable[Row]) -> str:
    lines: list[str] = []
    for row in sorted(rows):
        lines.append(" ".join((row.name, *row.options)))
        lines += [f"  {it}" for it in (*row.lines, *row.shown)]
    return "".join(it + "\n" for it in lines)


def rows_of(names: Sequence[str]) -> list[Row]:
    """The rows of these programs, or of all; a program that has none yet has an empty one."""
    rows = read_rows(ROWS.read_text(encoding="utf-8"))
    known = {row.name for row in rows}
    rows += [Row(path.stem, (), ()) for path in sorted(PROGRAMS.glob("*.hs")) if path.stem not in known]
    return [row for row in rows if not names or row.name in names]
