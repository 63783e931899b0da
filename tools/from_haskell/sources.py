"""Sources of libraries, as Debian has them: they are fetched by apt-get into the cache, and nothing of them is stored here."""

from __future__ import annotations

import hashlib
import os
import re
import shutil
import subprocess
from pathlib import Path
from typing import NamedTuple

from tools.from_haskell.rows import PACKAGE
from tools.litmus.programs import cache

SUITE = "bookworm"
LIST = f"deb-src [signed-by=/usr/share/keyrings/debian-archive-keyring.gpg] http://deb.debian.org/debian {SUITE} main\n"
# Debian's source packages, and where in them the modules stand.
LIBRARIES = {"haskell-concurrent-extra": "", "haskell-safesemaphore": "src", "haskell-safe-exceptions": "src"}
BASE = "ghc"
# Modules of base whose own text is read, in a folder of their own.
BASE_MODULES = ("Control/Concurrent/QSem.hs", "Control/Concurrent/QSemN.hs", "Control/Concurrent/Chan.hs")
# What these libraries import and Debian's GHC doesn't bring: our own text.
STAND_IN = PACKAGE / "test" / "stand-in"


class Missing(Exception):
    """Why the sources can't be had."""


class Source(NamedTuple):
    """A source package: its name and version, its licences, the sum of what the authors have published, and its folder."""

    name: str
    version: str
    licences: str
    sum: str
    folder: Path

    def line(self) -> str:
        return f"{self.name} {self.version}: {self.licences}; sha256 {self.sum}"


def place() -> Path:
    return cache() / "sources"


def options(folder: Path) -> list[str]:
    """Words by which apt-get keeps to this folder, and reads no list of the system's."""
    own = {"Dir::Etc::SourceList": folder / "apt" / "sources.list", "Dir::Etc::SourceParts": folder / "apt" / "none",
           "Dir::State::Lists": folder / "apt" / "lists", "Dir::Cache": folder / "apt" / "cache", "APT::Sandbox::User": ""}
    return [it for name, value in own.items() for it in ("-o", f"{name}={value}")]


def apt(folder: Path, *words: str) -> None:
    try:
        done = subprocess.run(["apt-get", *options(folder), "-q", *words], cwd=folder, capture_output=True, text=True, stdin=subprocess.DEVNULL, check=False)
    except OSError as fault:
        raise Missing(f"there is no apt-get: {fault.strerror}") from None
    if done.returncode != 0:
        raise Missing(f"apt-get {words[0]} ends with status {done.returncode}: {(done.stderr.strip().splitlines() or ['?'])[-1]}")


def fetch(name: str) -> Path:
    """The folder of a source package, which is fetched where it isn't there."""
    folder = place()
    there = sorted(folder.glob(f"{name}-[0-9]*/debian")) or sorted(folder.glob(f"{name.removeprefix('haskell-')}-[0-9]*/debian"))
    if there:
        return there[0].parent
    for part in ("apt/lists/partial", "apt/cache/archives/partial", "apt/none"):
        (folder / part).mkdir(parents=True, exist_ok=True)
    (folder / "apt" / "sources.list").write_text(LIST)
    apt(folder, "update")
    apt(folder, "source", name)
    there = sorted(folder.glob(f"{name}-[0-9]*/debian")) or sorted(folder.glob(f"{name.removeprefix('haskell-')}-[0-9]*/debian"))
    if not there:
        raise Missing(f"apt-get source {name} leaves no folder")
    return there[0].parent


def described(name: str) -> Source:
    """A source package, with what is told of it."""
    folder = fetch(name)
    version = re.search(r"\((\S+)\)", (folder / "debian" / "changelog").read_text(encoding="utf-8", errors="replace"))
    notice = (folder / "debian" / "copyright").read_text(encoding="utf-8", errors="replace")
    licences = dict.fromkeys(re.findall(r"^License: *(\S.*)$", notice, re.MULTILINE))
    published = next(iter(sorted(place().glob(f"{name}_*.orig.tar.*z*"))), None)
    total = hashlib.sha256(published.read_bytes()).hexdigest() if published else "unknown"
    return Source(name, version[1] if version else "unknown", ", ".join(licences) or "in debian/copyright", total, folder)


def library_folders() -> tuple[list[Source], list[str]]:
    """The libraries, and the folders of their modules."""
    found = [described(name) for name in LIBRARIES]
    return found, [*(str(it.folder / LIBRARIES[it.name]) for it in found), str(STAND_IN)]


def base_folder() -> tuple[Source, str]:
    """Modules of base as they are, in a folder without the other ones."""
    source = described(BASE)
    folder = place() / "base-modules"
    for name in BASE_MODULES:
        target = folder / name
        target.parent.mkdir(parents=True, exist_ok=True)
        shutil.copyfile(source.folder / "libraries" / "base" / name, target)
    return source, str(folder)


def is_fetched(name: str) -> bool:
    return os.path.isdir(place()) and any(place().glob(f"{name}-[0-9]*"))
