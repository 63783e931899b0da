"""The table of a script: what GHC showed beside what is listed."""

from __future__ import annotations

from collections.abc import Callable
from dataclasses import dataclass

from tools.litmus.outcomes import Listed, Outcome, Shown

# The mark of an outcome that GHC showed and the list, though complete, doesn't have; and where a known difference explains it.
UNLISTED, KNOWN = "!", "~"
ESCAPES = {"\n": "\\n", "\t": "\\t", '"': '\\"', "\\": "\\\\", "\r": "\\r"}


@dataclass(frozen=True)
class Row:
    """A row: its mark, how often GHC showed the outcome, its number in the list, the outcome, and a known difference."""

    mark: str
    count: int
    number: int | None
    outcome: Outcome
    known: str | None = None


@dataclass(frozen=True)
class Table:
    """The rows of a script: those that aren't listed, then those that both have, then those that GHC never showed."""

    rows: tuple[Row, ...]
    listed: Listed
    shown: Shown

    def unlisted(self) -> int:
        return sum(row.mark == UNLISTED for row in self.rows)

    def known(self) -> int:
        return sum(row.mark == KNOWN for row in self.rows)

    def seen(self) -> int:
        """How many of the listed outcomes GHC showed."""
        return sum(row.number is not None and row.count > 0 for row in self.rows)


def table_of(listed: Listed, shown: Shown, known_of: Callable[[Outcome], str | None]) -> Table:
    numbers = {outcome: number for number, outcome in enumerate(listed.outcomes, 1)}
    others = sorted(set(shown.counts) - set(numbers), key=Outcome.place)
    rows = [unlisted_row(listed, outcome, shown.counts[outcome], known_of(outcome)) for outcome in others]
    seen = [(outcome, number) for outcome, number in numbers.items() if outcome in shown.counts]
    rows += [Row(" ", shown.counts[outcome], number, outcome) for outcome, number in seen]
    never = [(outcome, number) for outcome, number in numbers.items() if outcome not in shown.counts]
    rows += [Row(" ", 0, number, outcome, known_of(outcome)) for outcome, number in never]
    return Table(tuple(rows), listed, shown)


def unlisted_row(listed: Listed, outcome: Outcome, count: int, known: str | None) -> Row:
    """Where the list isn't complete nothing is marked."""
    mark = " " if not listed.is_complete() else KNOWN if known else UNLISTED
    return Row(mark, count, None, outcome, known)


def quoted(text: bytes) -> str:
    """The text in one line."""
    characters = text.decode(errors="backslashreplace")
    return '"' + "".join(ESCAPES.get(it) or (it if it.isprintable() else f"\\u{{{ord(it):x}}}") for it in characters) + '"'


def row_lines(row: Row) -> list[str]:
    number = "-" if row.number is None else str(row.number)
    errors = f"  errors {quoted(row.outcome.errors)}" if row.outcome.errors else ""
    line = f"{row.mark} {row.count:>8}  {number:>5}  {row.outcome.end:<8}  {quoted(row.outcome.output)}{errors}"
    return [line, f"{'':>29}known difference: {row.known}"] if row.known else [line]


def table_text(name: str, table: Table) -> str:
    """The table, with a line above it, and one below it where something isn't as it should be."""
    listed, shown = table.listed, table.shown
    count = len(listed.outcomes)
    lines = [f"{name}: {shown.runs()} runs; {count} outcome{'' if count == 1 else 's'} listed, and {listed.others}"]
    if table.rows:
        lines.append(f"  {'runs':>8}  {'no.':>5}  {'ends':<8}  output")
    for row in table.rows:
        lines += row_lines(row)
    if shown.without_end:
        lines.append(f"  {shown.without_end:>8}  {'-':>5}  no end within the limit of a run")
    if table.unlisted():
        lines.append(f"{UNLISTED} GHC showed what isn't listed")
    return "\n".join(lines) + "\n"
