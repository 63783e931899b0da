"""Which functions take each other back, by their names."""

from __future__ import annotations

import re
from collections.abc import Sequence

# A word of a function's name, and that of what takes it back. All else in the two names has to be the same.
WORDS = (("acquire", "release"), ("wait", "signal"), ("lock", "unlock"), ("take", "put"), ("enter", "leave"), ("enter", "exit"),
         ("obtain", "release"), ("get", "release"), ("reserve", "release"), ("grab", "release"), ("claim", "release"), ("borrow", "return"),
         ("take", "return"), ("take", "give"), ("checkout", "checkin"), ("check", "return"), ("begin", "end"), ("start", "stop"), ("open", "close"),
         ("push", "pop"), ("increment", "decrement"), ("alloc", "free"), ("allocate", "free"), ("subscribe", "unsubscribe"),
         ("register", "unregister"), ("suspend", "resume"), ("down", "up"), ("p", "v"))


def _parts(name: str) -> list[str]:
    """The words of a name: a capital letter or an underline begins a new one."""
    return [it for it in re.findall(r"[A-Z]+(?![a-z])|[A-Z]?[a-z0-9']+", name) if it]


def is_taken_back(first: str, second: str) -> bool:
    """Whether the names say that the second function takes the first one back."""
    one, other = _parts(first), _parts(second)
    if len(one) != len(other):
        return False
    differences = [(a.lower(), b.lower()) for a, b in zip(one, other) if a != b]
    return len(differences) == 1 and differences[0] in WORDS


def named_pairs(names: Sequence[str], said: Sequence[tuple[str, str]]) -> list[tuple[int, int]]:
    """The pairs of operations, as numbers: those that comments name, or else those of the table above."""
    places = {name: number for number, name in enumerate(names)}
    if said:
        return [(places[first], places[second]) for first, second in said if first in places and second in places]
    return [(one, other) for one, first in enumerate(names) for other, second in enumerate(names) if is_taken_back(first, second)]
