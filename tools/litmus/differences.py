"""The file of known differences: where GHC shows what a list doesn't have, or never comes to what it has, and why."""

from __future__ import annotations

import json
import re
from collections.abc import Iterable
from dataclasses import dataclass
from pathlib import Path
from typing import Any

from tools.litmus.outcomes import Outcome

TOP = Path(__file__).resolve().parent.parent.parent
FILE = TOP / "litmus" / "differences.toml"


# The lines of the file, which is TOML with no more than these: tables, rows of a table below one, texts, comments and empty lines.
TABLE = re.compile(r"\[([\w-]+)\]")
ROW = re.compile(r"\[\[([\w-]+)\.(\w+)\]\]")
TEXT = re.compile(r'(\w+) = (".*")')
NOTHING = re.compile(r"#.*|")


class Unknown(Exception):
    """A line of the file isn't of a form that is read here."""


@dataclass(frozen=True)
class Difference:
    """A difference: its name, the row of LANGUAGE that says it, the reason, and the outcomes of scripts that it explains."""

    name: str
    line: str
    reason: str
    shown: frozenset[tuple[str, Outcome]]
    never: frozenset[tuple[str, Outcome]]


def read_tables(text: str) -> dict[str, dict[str, Any]]:
    """What the file has. Python before 3.11 reads no TOML; its texts are those of JSON."""
    tables: dict[str, dict[str, Any]] = {}
    current: dict[str, Any] = {}
    for number, line in enumerate(text.split("\n"), 1):
        if it := TABLE.fullmatch(line):
            current = tables.setdefault(it[1], {})
        elif it := ROW.fullmatch(line):
            current = {}
            tables[it[1]].setdefault(it[2], []).append(current)
        elif it := TEXT.fullmatch(line):
            current[it[1]] = json.loads(it[2])
        elif not NOTHING.fullmatch(line):
            raise Unknown(f"line {number}: {line}")
    return tables


def read_differences(file: Path = FILE) -> tuple[Difference, ...]:
    read = read_tables(file.read_text(encoding="utf-8"))
    return tuple(
        Difference(name, it["line"], it["reason"], places_of(it.get("shown", ())), places_of(it.get("never", ())))
        for name, it in read.items()
    )


def places_of(tables: Iterable[dict[str, str]]) -> frozenset[tuple[str, Outcome]]:
    return frozenset((it["script"], outcome_of(it)) for it in tables)


def outcome_of(table: dict[str, str]) -> Outcome:
    return Outcome(table["end"], table["output"].encode(), table.get("errors", "").encode())


def known_name(differences: tuple[Difference, ...], script: Path, outcome: Outcome) -> str | None:
    """The name of the difference that explains this outcome of this script: that GHC shows it, or that it never does."""
    resolved = script.resolve()
    if not resolved.is_relative_to(TOP):
        return None
    place = (resolved.relative_to(TOP).as_posix(), outcome)
    return next((it.name for it in differences if place in it.shown or place in it.never), None)
