"""What the repository has: its crates, files, identifiers and documents."""

from __future__ import annotations

import functools
import glob
import os
import re

from tools.crates import TOP as TOP, below as below, uses as uses

NOT_OURS = {".git", "out", "__pycache__"}
# What stands between backquotes.
SPAN = re.compile(r"`([^`]+)`")


@functools.lru_cache(maxsize=None)
def read(path: str) -> str:
    with open(os.path.join(TOP, path), encoding="utf-8", errors="replace") as file:
        return file.read()


def lines(path: str) -> list[str]:
    return read(path).split("\n")


def here(pattern: str) -> list[str]:
    """The paths that match, as seen from the top."""
    return sorted(os.path.relpath(it, TOP) for it in glob.glob(os.path.join(TOP, pattern)))


@functools.lru_cache(maxsize=None)
def files() -> list[str]:
    """All files of the repository, but for those that git ignores."""
    found: list[str] = []
    for folder, inside, names in os.walk(TOP):
        inside[:] = sorted(it for it in inside if it not in NOT_OURS)
        found += [os.path.relpath(os.path.join(folder, it), TOP) for it in sorted(names)]
    return found


def kit_crates() -> set[str]:
    """The crates of the kit that crates.txt names. `std` comes with each crate, unnamed."""
    return {it for names in uses().values() for it in names if it not in uses()} | {"std"}


def root_of(crate: str) -> str | None:
    """The root file of a crate, or None."""
    return next((it for it in (f"crates/{crate}/src/lib.rt", f"crates/{crate}/src/main.rt") if os.path.isfile(os.path.join(TOP, it))), None)


def code(path: str) -> str:
    """The text of a source file without its comments."""
    mark = "--" if path.endswith(".antt") else "//"
    return "\n".join(it for it in lines(path) if not it.lstrip().startswith(mark))


@functools.lru_cache(maxsize=None)
def words_of(crate: str) -> set[str]:
    """All words in the sources of a crate."""
    found: set[str] = set()
    for path in files():
        if path.startswith(f"crates/{crate}/") and path.endswith((".rt", ".antt")):
            found.update(re.findall(r"\w+", code(path)))
            found.update(os.path.basename(path).split(".")[:1])
    return found


@functools.lru_cache(maxsize=None)
def all_words() -> set[str]:
    """All words that a document may name: of the sources, of the tools, and of the language's page."""
    found = set(uses()) | kit_crates() | {it for it in files() if "/" not in it}
    for text in [*(read(it) for it in ["conc_run", *here("tools/run/*.py")]), *(it.text for it in blocks("docs/LANGUAGE.md") if it.kind == "code")]:
        found.update(re.findall(r"\w+", text))
    for path in files():
        if path.endswith(".hs"):
            found.update(re.findall(r"\w+", read(path)))
    return found.union(*(words_of(it) for it in uses()))


def documents() -> list[str]:
    return here("*.md") + here("docs/*.md")


class Block:
    """A paragraph, an item, a table's row, a heading, or a stretch of code of a document."""

    def __init__(self, path: str, line: int, kind: str) -> None:
        self.path, self.line, self.kind = path, line, kind
        self.lines: list[str] = []

    @property
    def text(self) -> str:
        return "\n".join(self.lines)

    def at(self, offset: int) -> str:
        """File and line of a place in the text."""
        return f"{self.path}:{self.line + self.text[:offset].count(chr(10))}"


@functools.lru_cache(maxsize=None)
def blocks(path: str) -> list[Block]:
    """The blocks of a document, in order."""
    found: list[Block] = []
    block: Block | None = None
    fenced = False
    for number, line in enumerate(lines(path), 1):
        fence = line.lstrip().startswith("```")
        if fence or fenced:
            kind = "code"
        elif not line.strip():
            block = None
            continue
        elif line.startswith("    ") and (block is None or block.kind == "code"):
            kind = "code"
        else:
            kind = "heading" if line.startswith("#") else "row" if line.lstrip().startswith("|") else "text"
        begins = kind in ("heading", "row") or re.match(r"\s*([-*]|\d+\.) ", line) and kind == "text"
        if block is None or begins or block.kind != kind:
            block = Block(path, number, kind)
            found.append(block)
        block.lines.append(line)
        if fence:
            fenced = not fenced
            block = block if fenced else None
    return found
