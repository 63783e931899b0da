"""Whose parts the program is linked from: this project's, and those of the kit's crates below it, each with its licence."""

from __future__ import annotations

import glob
import os
import re
from typing import NamedTuple

from tools.bitcode import kit
from tools.play import sums
from tools.sources import TOP, below, uses

# Crates that are named by `use`, or in a path by a name that no module of the standard library has.
USED = re.compile(r"\b(?:use|extern crate)\s+(?:::)?([a-z][a-z0-9_]*)|\b([a-z][a-z0-9]*_[a-z0-9_]+)::")
OURS = "BSD-3-Clause"
# A crate of two licences is taken by the first of these that it has.
FILES = ("LICENSE-MIT", "LICENSE", "LICENSE-UNICODE", "LICENSE-APACHE")
NAMES = {"LICENSE-MIT": "MIT", "LICENSE-APACHE": "Apache-2.0", "LICENSE-UNICODE": "Unicode-3.0"}


class Part(NamedTuple):
    """A crate of the kit: its name, who holds its rights, and its licence, which the kit may not state."""

    name: str
    holders: list[str]
    licence: str
    text: str


def kit_folder(crate: str) -> str:
    return os.path.join(kit(), "rattle", crate)


def used_by(crate: str) -> set[str]:
    """The crates of the kit that one of its crates names."""
    found = set(os.listdir(folder)) if os.path.isdir(folder := os.path.join(kit(), "rlibs", f"{crate}.rlib", "below")) else set()
    for path in glob.glob(os.path.join(kit_folder(crate), "src", "**", "*"), recursive=True):
        if os.path.isfile(path):
            with open(path, encoding="utf-8", errors="replace") as file:
                found.update(name for pair in USED.findall(file.read()) for name in pair if name)
    return {it for it in found if os.path.isdir(kit_folder(it)) and it != crate}


def linked() -> list[str]:
    """All crates of the kit that stand below the program."""
    todo = {it for crate in below(sums.PROGRAM) | {sums.PROGRAM} for it in uses()[crate] if it not in uses()} | {"std"}
    found: set[str] = set()
    while todo:
        crate = todo.pop()
        found.add(crate)
        todo |= used_by(crate) - found
    return sorted(found)


def part(crate: str) -> Part:
    path = next((it for it in (os.path.join(kit_folder(crate), name) for name in FILES) if os.path.isfile(it)), None)
    if path is None:
        return Part(crate, [], "Rattle-kit", "")
    with open(path, encoding="utf-8") as file:
        text = file.read().strip()
    name = NAMES.get(os.path.basename(path)) or ("MIT" if "Permission is hereby granted, free of charge" in text else os.path.basename(path))
    if name == "MIT" and os.path.isfile(os.path.join(kit_folder(crate), "LICENSE-UNICODE")):
        name = "MIT and Unicode-3.0"
    holders = [" ".join(it.split()) for it in re.findall(r"^\s*Copyright\s*(?:©|\(c\))\s*(.*)$", text, flags=re.M)]
    return Part(crate, holders, name, text)


def indented(text: str) -> str:
    return "\n".join(f" {it.rstrip()}" if it.strip() else " ." for it in text.split("\n"))


def without_holders(text: str) -> str:
    """The text of a licence without its lines of who holds the rights, so that one text serves several parts."""
    kept = [it for it in text.split("\n") if not re.match(r"\s*(Copyright\s*(©|\(c\))|The MIT License|MIT License)", it)]
    return "\n".join(kept).strip()


def copyright_file() -> str:
    """debian/copyright: of each linked part its holders and its licence, and the text of each licence."""
    with open(os.path.join(TOP, "LICENSE"), encoding="utf-8") as file:
        own = file.read().strip()
    holder = re.search(r"Copyright \(c\) (.*)", own)
    stanzas = ["Format: https://www.debian.org/doc/packaging-manuals/copyright-format/1.0/\nUpstream-Name: conc_run\n"
               "Source: the repository that RELEASE names by its commit\n"
               "Comment: The program is linked from crates of the Rattle kit beside its own. They are named below, each as if its sources\n"
               " stood in the folder kit/.",
               f"Files: *\nCopyright: {holder[1] if holder else 'the Nezdraupe authors'}\nLicense: {OURS}"]
    parts = [part(it) for it in linked()]
    texts: dict[str, str] = {OURS: own.split("\n\n", 2)[2]}
    for it in (it for it in parts if it.text):
        texts.setdefault(it.licence.split(" and ")[0], without_holders(it.text))
        holders = "\n           ".join(it.holders) or f"the authors of the Rust crate {it.name.replace('_', '-')} and of its port"
        stanzas.append(f"Files: kit/{it.name}/*\nCopyright: {holders}\nLicense: {it.licence}\n"
                       "Comment: linked into the program; of the crate's licences this one is taken")
    unstated = [it.name for it in parts if not it.text] + ["the kit's C parts (libos_c, liblibc_c)"]
    stanzas.append("Files: kit/*\nCopyright: the makers of the Rattle kit\nLicense: Rattle-kit\n"
                   f"Comment: linked into the program: {', '.join(unstated)}")
    texts["Rattle-kit"] = "The kit states no licence of these parts of its own. Whoever hands this package on asks its makers."
    stanzas += [f"License: {name}\n{indented(text)}" for name, text in sorted(texts.items())]
    return "\n\n".join(stanzas) + "\n"
