"""Round trip: the module that is printed of a script, over a support module whose points do nothing, is a script again with the same list."""

from __future__ import annotations

import tempfile
from collections.abc import Sequence
from pathlib import Path
from typing import NamedTuple

from tools.from_haskell.rows import PACKAGE, TOP
from tools.from_haskell.translator import Translator
from tools.litmus.haskell import Broken, module_text

SUPPORT = PACKAGE / "test" / "round-trip"
# The scripts: all examples, and those of the comparison with GHC.
FOLDERS = ("examples", "litmus")
# Such a script's outcomes go by the clock.
READS_THE_CLOCK = b"clockMicros"
STATES = 100_000
# The most states of the script that came, beside those of the script by hand.
TIMES = 1.5


class Tried(NamedTuple):
    """A script: its name, what is wrong, why it is left out, and the states of both searches."""

    name: str
    wrong: str = ""
    left_out: str = ""
    by_hand: int = 0
    translated: int = 0


def try_script(translator: Translator, path: Path, room: Path) -> Tried:
    """What comes of the way there and back."""
    script, name = path.read_bytes(), path.stem
    if READS_THE_CLOCK in script:
        return Tried(name, left_out="reads the clock")
    try:
        text = module_text(script, translator.searcher)
    except Broken as fault:
        return Tried(name, wrong=str(fault))
    module = room / f"{name}.hs"
    module.write_bytes(text)
    came = translator.translate(module.name, ["--strict", f"-i{SUPPORT}"], room)
    if came.status:
        return Tried(name, wrong=came.told.strip()[:400])
    options = ["--states", str(STATES)]
    first, second = translator.search(script.decode(), options), translator.search(came.script, options)
    if isinstance(first, str) or isinstance(second, str):
        return Tried(name, wrong=f"no list: {first if isinstance(first, str) else second}")
    if not (first.is_complete() and second.is_complete()):
        return Tried(name, left_out="its list isn't whole within so many states")
    counts = translator.states(script.decode()), translator.states(came.script)
    if set(first.outcomes) != set(second.outcomes):
        return Tried(name, f"another list: {set(first.outcomes) ^ set(second.outcomes)}", "", *counts)
    return Tried(name, "", "", *counts)


def try_round_trip(translator: Translator, names: Sequence[str]) -> list[str]:
    """What is wrong with the scripts of these names, or of all."""
    paths = [path for folder in FOLDERS for path in sorted((TOP / folder).glob("*.conc")) if not names or path.stem in names]
    tried: list[Tried] = []
    with tempfile.TemporaryDirectory(prefix="round-trip-") as room:
        for path in paths:
            it = try_script(translator, path, Path(room))
            tried.append(it)
            print(f"{it.name}: {it.wrong or it.left_out or f'the same list; {it.translated} states, {it.by_hand} by hand'}", flush=True)
    same = [it for it in tried if not it.wrong and not it.left_out]
    within = sum(it.translated <= TIMES * it.by_hand for it in same)
    print(f"{len(tried)} scripts: {len(same)} come back with the same list, {within} of them with at most {TIMES} times the states; "
          f"{sum(bool(it.left_out) for it in tried)} left out; {sum(bool(it.wrong) for it in tried)} wrong")
    return [f"{it.name}: {it.wrong}" for it in tried if it.wrong]
