"""Programs that are drawn at random: each is translated or refused in words, and its list is held beside runs by GHC."""

from __future__ import annotations

import tempfile
from collections import Counter
from collections.abc import Sequence
from pathlib import Path
from typing import NamedTuple

from tools.from_haskell.beside_ghc import beside, shown_by_ghc
from tools.from_haskell.generator import program_text
from tools.from_haskell.translator import Translator
from tools.litmus.outcomes import Listed, Outcome
from tools.litmus.programs import Question

# The most states of a search, and how many programs are compiled at once.
STATES, TOGETHER = 200_000, 20


class Drawn(NamedTuple):
    """A program: its file, the cause of its refusal, its list where that is whole, the classes of notes, and what is wrong."""

    path: Path
    cause: str
    listed: frozenset[Outcome] | None
    notes: frozenset[str]
    wrong: str


def draw(translator: Translator, seed: int, folder: Path) -> Drawn:
    name = f"Drawn{seed}"
    path = folder / f"{name}.hs"
    path.write_text(program_text(seed, name), encoding="utf-8")
    translation = translator.translate(path.name, [], folder)
    cause, notes = translation.cause(), frozenset(translation.notes())
    if translation.status:
        return Drawn(path, cause, None, notes, "" if cause else f"{name}: neither translated nor refused in words: {translation.told.strip()[:500]}")
    listed = translator.search(translation.script, ["--states", str(STATES)])
    if not isinstance(listed, Listed):
        return Drawn(path, "", None, notes, f"{name}: {listed}")
    return Drawn(path, "", frozenset(listed.outcomes) if listed.is_complete() else None, notes, "")


def hold(drawn: Sequence[Drawn], runs: int) -> tuple[int, int, list[str]]:
    """How many programs were held beside GHC, in how many runs, and what is wrong."""
    held = count = 0
    wrong: list[str] = []
    shown = shown_by_ghc([Question(it.path) for it in drawn], [], runs)
    if isinstance(shown, str):
        return 0, 0, [shown[:2000]]
    for it, seen in zip(drawn, shown):
        found = beside(seen, set(it.listed or ()), set())
        held, count = held + 1, count + seen.runs()
        if found.outside:
            wrong.append(f"{it.path.stem}: {found.line()}; notes: {', '.join(sorted(it.notes)) or 'none'}")
    return held, count, wrong


def try_generated(translator: Translator, number: int, first: int, runs: int, keep: str) -> list[str]:
    """What is wrong with so many programs that are drawn from this seed on."""
    with tempfile.TemporaryDirectory(prefix="drawn-") as room:
        folder = Path(keep or room)
        folder.mkdir(parents=True, exist_ok=True)
        drawn, wrong, held, count = [], [], 0, 0
        waiting: list[Drawn] = []
        for seed in range(first, first + number):
            it = draw(translator, seed, folder)
            drawn.append(it)
            wrong += [it.wrong] if it.wrong else []
            waiting += [it] if it.listed is not None else []
            if runs and (len(waiting) == TOGETHER or seed == first + number - 1) and waiting:
                more, ran, problems = hold(waiting, runs)
                held, count, wrong, waiting = held + more, count + ran, wrong + problems, []
                print(f"{len(drawn)} drawn, {held} held beside {count} runs by GHC, {len(wrong)} wrong", flush=True)
    causes = Counter(it.cause for it in drawn if it.cause)
    told = ", ".join(f"{count} {cause}" for cause, count in causes.most_common())
    large = sum(it.listed is None and not it.cause and not it.wrong for it in drawn)
    print(f"{number} programs from seed {first}: {number - sum(causes.values())} translated ({large} with a list that isn't whole), refused: {told or 'none'}; "
          f"{held} held beside {count} runs by GHC; {len(wrong)} wrong")
    return wrong
