"""The programs of from-haskell/test/programs, each against its row, and against runs by GHC."""

from __future__ import annotations

import concurrent.futures
from collections.abc import Sequence
from typing import NamedTuple

from tools.from_haskell.beside_ghc import beside, shown_by_ghc
from tools.from_haskell.rows import PROGRAMS, ROWS, Row, rows_of, write_rows
from tools.from_haskell.translator import Translator
from tools.litmus.differences import read_differences
from tools.litmus.programs import Question

# A program with this line has a mistake that somebody made on purpose, and its list shows it.
SEEDED = "-- A mistake:"


class Tried(NamedTuple):
    """A row as it came, the classes of notes, how many runs there were, and what is wrong."""

    row: Row
    notes: frozenset[str]
    runs: int
    wrong: str


def compare(row: Row, notes: set[str], runs: int, told: list[str]) -> tuple[int, str]:
    """How often GHC ran a program, and what is wrong with what it showed."""
    action = row.options[row.options.index("--main") + 1] if "--main" in row.options else "main"
    shown = shown_by_ghc([Question(PROGRAMS / f"{row.name}.hs", action)], [], runs)
    if isinstance(shown, str):
        return 0, shown
    explained = row.explained()
    found = beside(shown[0], row.listed(), set(explained))
    told.append(f"{row.name}: {found.line()}")
    named = notes | {it.name for it in read_differences()}
    missing = sorted(set(explained.values()) - named)
    if missing:
        return shown[0].runs(), f"its row explains outcomes by {', '.join(missing)}, of which no note tells"
    return shown[0].runs(), f"GHC showed what isn't listed: {found.outside}" if found.outside else ""


def try_row(translator: Translator, row: Row, runs: int) -> tuple[Tried, list[str]]:
    translation = translator.translate(f"{row.name}.hs", row.options, PROGRAMS)
    lines = translator.lines_of(translation)
    came = row._replace(lines=lines)
    wrong = "" if lines == row.lines else f"came to {lines}, and its row says {row.lines}"
    told: list[str] = []
    count = 0
    if runs and not wrong and row.is_translated():
        count, wrong = compare(came, translation.notes(), runs, told)
    return Tried(came, frozenset(translation.notes()), count, wrong), told


def has_mistake(row: Row) -> bool:
    return SEEDED in (PROGRAMS / f"{row.name}.hs").read_text(encoding="utf-8", errors="replace")


def summary(tried: Sequence[Tried]) -> str:
    """How many programs there are of which kind."""
    translated = [it for it in tried if it.row.is_translated()]
    several = sum(len(it.row.listed()) >= 3 for it in translated)
    noted = sum(bool(it.notes) for it in translated)
    seeded = sum(has_mistake(it.row) for it in translated)
    runs = sum(it.runs for it in tried)
    return (f"{len(tried)} programs: {len(translated)} translated, {several} with three outcomes or more, {seeded} with a mistake on purpose, "
            f"{noted} with a note; {len(tried) - len(translated)} refused; {runs} runs by GHC; {sum(bool(it.wrong) for it in tried)} wrong")


def try_programs(translator: Translator, names: Sequence[str], runs: int, jobs: int, writes: bool) -> list[str]:
    """What is wrong with the programs of these names, or with all. Their rows are written as they came, where that is asked."""
    tried: list[Tried] = []
    with concurrent.futures.ThreadPoolExecutor(jobs) as pool:
        for found, told in pool.map(lambda row: try_row(translator, row, runs), rows_of(names)):
            tried.append(found)
            for line in told:
                print(line, flush=True)
    print(summary(tried), flush=True)
    if writes:
        came = {it.row.name: it.row for it in tried}
        ROWS.write_text(write_rows(came.get(row.name, row) for row in rows_of([])), encoding="utf-8")
        return [f"{it.row.name}: {it.wrong}" for it in tried if it.wrong and it.runs]
    return [f"{it.row.name}: {it.wrong}" for it in tried if it.wrong]
