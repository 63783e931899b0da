"""The crates of crates.txt and what they stand on. It loads nothing, since each run of ./conc_run asks it."""

from __future__ import annotations

import os

TOP = os.path.dirname(os.path.dirname(os.path.abspath(__file__)))

_uses: dict[str, list[str]] = {}
_below: dict[str, frozenset[str]] = {}


def uses() -> dict[str, list[str]]:
    """Each crate of crates.txt, in order, with all that its line names."""
    if not _uses:
        with open(os.path.join(TOP, "crates.txt"), encoding="utf-8") as file:
            for line in file:
                line = line.split("#")[0].strip()
                if line:
                    name, _, rest = line.partition(":")
                    _uses[name.split()[0]] = rest.split()
    return _uses


def below(crate: str) -> frozenset[str]:
    """All crates of the repository that this one stands on."""
    if crate not in _below:
        direct = [it for it in uses()[crate] if it in uses()]
        _below[crate] = frozenset(direct).union(*(below(it) for it in direct))
    return _below[crate]
