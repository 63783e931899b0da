"""The map of the crates: the sections of crates.txt, a line for each crate in ARCHITECTURE.md, and how large the graph may be."""

from __future__ import annotations

import functools
import os
import re
from collections.abc import Iterator

from tools.sources import TOP, lines, read, root_of, uses

PAGE = "docs/ARCHITECTURE.md"
FIRST = "<!-- Written by ./check --draw from crates.txt and the first lines of each crate; change those, and draw again. -->"
LAST = "<!-- Here ends what ./check --draw writes. -->"
# A library that comes later raises the bound of crates by one, with its reason in DECISIONS.md.
MOST_CRATES = 81
# `rt` goes down every path of the graph of crates, which a first run waits for.
MOST_PATHS = 2_000_000


@functools.lru_cache(maxsize=None)
def paths(crate: str) -> int:
    """How many paths go down from a crate, the one that stops there among them."""
    return 1 + sum(paths(it) for it in uses()[crate] if it in uses())


def bounds() -> Iterator[str]:
    """Whether the graph of crates is larger than a first run may wait for."""
    if len(uses()) > MOST_CRATES:
        yield f"crates.txt: {len(uses())} crates, and there are {MOST_CRATES} at most"
    if sum(map(paths, uses())) > MOST_PATHS:
        yield f"crates.txt: {sum(map(paths, uses())):,} paths, and there are {MOST_PATHS:,} at most"


def sections() -> list[tuple[str, str, list[str]]]:
    """The sections of crates.txt: the title of each, what its heading says, and its crates."""
    found: list[tuple[str, str, list[str]]] = []
    for line in lines("crates.txt"):
        heading = re.fullmatch(r"# (\w+): (.*)", line)
        if heading and heading[1] != "NAME":
            found.append((heading[1], heading[2], []))
        elif line and not line.startswith("#"):
            if not found:
                return []
            found[-1][2].append(line.partition(":")[0].split()[0])
    return found


def headed() -> Iterator[str]:
    """Crates that stand under no heading, and sections that aren't in the order of what they are for."""
    if not sections():
        yield "crates.txt: a crate stands under no heading `# part: what it is`"
    elif sections()[-1][0] != "tests":
        yield "crates.txt: tests stand at its end"


def head(crate: str) -> list[str]:
    """The first lines of a crate, as paragraphs."""
    said: list[str] = []
    root = root_of(crate)
    for line in lines(root) if root else ():
        if not line.startswith("//!"):
            break
        said.append(line[3:].strip())
    return [" ".join(it.split("\n")) for it in "\n".join(said).split("\n\n")]


def sentences(text: str) -> list[str]:
    return [it.strip() for it in re.split(r"(?<=\.)\s+(?=[A-Z`])", text) if it.strip()]


def line_of(crate: str) -> str:
    """What the crate is, in the words of its first sentence."""
    paragraphs = head(crate)
    what = sentences(paragraphs[0])[0] if paragraphs and paragraphs[0] else "?"
    return f"- `{crate}`: {what}"


def drawn() -> str:
    """The lines of all crates, with what stands round them on the page."""
    parts = [FIRST]
    for title, what, crates in sections():
        parts += ["", f"### {title}: {what}", "", *(line_of(it) for it in crates if root_of(it))]
    return "\n".join([*parts, "", LAST])


def parts() -> tuple[str, str, str] | None:
    """The page before the lines of the crates, these, and the page behind them."""
    text = read(PAGE)
    first, last = text.find(FIRST), text.find(LAST)
    return None if first < 0 or last < first else (text[:first], text[first:last + len(LAST)], text[last + len(LAST):])


def stale() -> Iterator[str]:
    """Whether the page has other lines of the crates than they are."""
    cut = parts()
    if cut is None:
        yield f"{PAGE}: it has no place for the lines of the crates ({FIRST})"
    elif cut[1] != drawn():
        now, wanted = cut[1].split("\n"), drawn().split("\n")
        odd = next((b for a, b in zip(now, wanted) if a != b), "its length")
        yield f"{PAGE}: the lines of the crates are stale ({odd[:60]}..): ./check --draw writes them anew"


def draw() -> int:
    """`./check --draw`."""
    cut = parts()
    if cut is None:
        print(f"{PAGE} has no place for the lines of the crates")
        return 1
    with open(os.path.join(TOP, PAGE), "w", encoding="utf-8") as file:
        file.write(cut[0] + drawn() + cut[2])
    print(f"{PAGE}: the lines of {len(uses())} crates are drawn")
    return 0
