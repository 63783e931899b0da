"""What GHC shows of a program in many runs, beside its list."""

from __future__ import annotations

import tempfile
from collections.abc import Sequence
from pathlib import Path
from typing import NamedTuple

from tools.litmus.haskell import Broken, RunOptions, find_compiler
from tools.litmus.outcomes import Outcome, Shown
from tools.litmus.programs import Question, compile_programs, run_question

# In this time a question has to be over.
SECONDS = 600.0


class Beside(NamedTuple):
    """What GHC showed of a program, and what of it isn't listed nor explained."""

    shown: Shown
    listed: frozenset[Outcome]
    outside: tuple[Outcome, ...]

    def line(self) -> str:
        """How much of the list was seen, in how many runs."""
        seen = len(self.listed & set(self.shown.counts))
        ended = f", {self.shown.without_end} without an end" if self.shown.without_end else ""
        counts = {it: self.shown.counts[it] for it in self.outside}
        outside = f", OUTSIDE {counts}" if self.outside else ""
        return f"listed {len(self.listed)}, seen {seen} in {self.shown.runs()} runs{ended}{outside}"


def beside(shown: Shown, listed: set[Outcome], explained: set[Outcome]) -> Beside:
    outside = tuple(it for it in sorted(shown.counts, key=Outcome.place) if it not in listed and it not in explained)
    return Beside(shown, frozenset(listed), outside)


def shown_by_ghc(questions: Sequence[Question], folders: Sequence[str], runs: int, seed: int = 1) -> list[Shown] | str:
    """What GHC shows of each of these questions, which make one program, or why it doesn't compile or run."""
    compiler = find_compiler()
    options = RunOptions(runs, SECONDS, seed, "reported")
    with tempfile.TemporaryDirectory(prefix="beside-ghc-") as room:
        try:
            program = compile_programs(compiler, questions, folders, Path(room))
            return [run_question(program, number, options) for number in range(1, len(questions) + 1)]
        except Broken as fault:
            return str(fault)
