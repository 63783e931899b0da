"""The files of a release. Installed or unpacked they have the repository's own shape, so that one script serves both."""

from __future__ import annotations

import os
from typing import NamedTuple

from tools.play import sums
from tools.releasing.facts import Facts, of_git
from tools.sources import TOP

# What runs: the stub, the script around the program, and the list of crates by which it finds that no source is newer.
RUNS = ("conc_run", "VERSION", "crates.txt", "tools/__init__.py", "tools/crates.py", "tools/run/", "tools/litmus/", "from-haskell/", "litmus/")
PROGRAM = f"crates/{sums.PROGRAM}/out/{sums.PROGRAM}"
TEXTS = ("README.md", "CHANGELOG.md", "LICENSE")
DOCUMENTS = ("docs/",)
EXAMPLES = ("examples/",)
# Files for editors, where there are some.
EDITORS = ("editors/",)
NOT_READ = ("docs/edits.txt", "docs/minutes.txt", "docs/play.html")
NOT_RUN = ("/tests/", "/test/")


class Entry(NamedTuple):
    """A file of a release: its place, its bytes, and whether it may be run. A link has what it leads to."""

    place: str
    content: bytes
    runs: bool = False
    link: str = ""


def read_bytes(path: str) -> bytes:
    with open(os.path.join(TOP, path), "rb") as file:
        return file.read()


def tracked(*begins: str) -> list[str]:
    """The files of the commit that begin so, without those of tests."""
    files = [it for it in of_git("ls-files", "-z").split("\0") if it and it.startswith(begins) and it not in NOT_READ]
    return [it for it in files if not any(part in f"/{it}" for part in NOT_RUN)]


def running(facts: Facts) -> list[Entry]:
    """What is needed to run it."""
    with open(facts.program, "rb") as file:
        program = Entry(PROGRAM, file.read(), runs=True)
    folders = tuple(it for it in RUNS if it.endswith("/"))
    paths = [it for it in tracked(*RUNS) if it in RUNS or it.startswith(folders)]
    files = [Entry(it, read_bytes(it), runs=os.access(os.path.join(TOP, it), os.X_OK)) for it in paths]
    return [*files, program, Entry("RELEASE", facts.page().encode())]


def documents() -> list[Entry]:
    return [Entry(it, read_bytes(it)) for it in tracked(*TEXTS, *DOCUMENTS) if it in TEXTS or it.startswith(DOCUMENTS)]


def examples() -> list[Entry]:
    return [Entry(it, read_bytes(it)) for it in tracked(*EXAMPLES)]


def for_editors() -> list[Entry]:
    return [Entry(it, read_bytes(it)) for it in tracked(*EDITORS)]
