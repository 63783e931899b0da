"""The version of the repository, and a sum of what the program and its runtime are made of."""

from __future__ import annotations

import hashlib
import os
from typing import Iterator

from tools.sources import TOP, below

PROGRAM = "conc_run"
RUNTIME = "tools/play/site/runtime.c"


def version() -> str:
    with open(os.path.join(TOP, "VERSION"), encoding="utf-8") as file:
        return file.read().strip()


def sources() -> list[str]:
    """What decides the program's code: the sources of its crates, what each stands on, and the runtime below it."""
    found = ["crates.txt", RUNTIME]
    for crate in below(PROGRAM) | {PROGRAM}:
        for folder, _, names in os.walk(os.path.join(TOP, "crates", crate, "src")):
            found += [os.path.relpath(os.path.join(folder, it), TOP) for it in names if it.endswith(".rt")]
    return sorted(found)


def sum_of(paths: list[str]) -> str:
    """A checksum of the files' names and contents, whatever the order of the list."""
    whole = hashlib.sha256()
    for path in sorted(paths):
        with open(os.path.join(TOP, path), "rb") as file:
            whole.update(f"{hashlib.sha256(file.read()).hexdigest()}  {path}\n".encode())
    return whole.hexdigest()


def sum_of_sources() -> str:
    return sum_of(sources())


def newer_than(path: str) -> Iterator[str]:
    """The sources that have changed since the file was made."""
    made = os.path.getmtime(path)
    return (it for it in sources() if os.path.getmtime(os.path.join(TOP, it)) > made and it not in ("crates.txt", RUNTIME))
