"""The translator, and the program that lists the outcomes of what it makes."""

from __future__ import annotations

import os
import re
import subprocess
from collections.abc import Sequence
from dataclasses import dataclass
from pathlib import Path

from tools.from_haskell.rows import PACKAGE, write_outcome
from tools.litmus.outcomes import Listed, Unreadable, read_list

# A search, and a translation, are given up after so many seconds.
SEARCH_SECONDS, TRANSLATION_SECONDS = 600, 300
REFUSED = 3
WITH_LIST = (0, 11)
REFUSAL = re.compile(r"^(\S.*?):(\d+:\d+): error: \[([a-z-]+)\]", re.MULTILINE)
REFUSED_BY_GHC = re.compile(r"^(\S.*?):(\d+:\d+)(?:-\d+)?: error:", re.MULTILINE)
STATES = re.compile(rb"^(\d+) states", re.MULTILINE)
NOTE = re.compile(r"^\S.*?:\d+:\d+: note: \[([a-z-]+)\]", re.MULTILINE)


@dataclass(frozen=True)
class Translation:
    """What the translator made of a module: its status, the script, and what it told."""

    status: int
    script: str
    told: str

    def notes(self) -> set[str]:
        """The classes of its notes."""
        return set(NOTE.findall(self.told))

    def refusal(self) -> str:
        """The cause and the place of a refusal, or that GHC told a fault."""
        match = REFUSAL.search(self.told)
        if match:
            return f"refused {match[3]} {match[1]} {match[2]}"
        match = REFUSED_BY_GHC.search(self.told)
        return f"refused by GHC {match[2]}" if match else f"refused without a place: {self.told[-200:]!r}"

    def cause(self) -> str:
        """The cause of a refusal, or nothing where there is none."""
        match = REFUSAL.search(self.told)
        return match[3] if match and self.status == REFUSED else ""


def built() -> str:
    """The translator of this package."""
    return subprocess.run([str(PACKAGE / "build")], stdout=subprocess.PIPE, text=True, check=True).stdout.strip()


class Translator:
    """The translator and the program that lists outcomes."""

    def __init__(self, program: str, searcher: Sequence[str]) -> None:
        self.program, self.searcher = program, list(searcher)

    def translate(self, source: str | Path, options: Sequence[str] = (), folder: Path | None = None) -> Translation:
        """Translates the module of a file; the words name it as it is seen from the folder."""
        words = [self.program, *options, str(source)]
        try:
            done = subprocess.run(words, cwd=folder, capture_output=True, text=True, check=False, timeout=TRANSLATION_SECONDS)
        except subprocess.TimeoutExpired:
            return Translation(-1, "", f"the translation isn't over after {TRANSLATION_SECONDS} seconds")
        return Translation(done.returncode, done.stdout, done.stderr)

    def list_of(self, script: str, options: Sequence[str] = ()) -> bytes | str:
        """The text of a script's list, or why there is none."""
        environment = dict(os.environ, ASAN_OPTIONS="abort_on_error=1:allocator_may_return_null=1:symbolize=0")
        words = [*self.searcher, "outcomes", *options]
        try:
            done = subprocess.run(words, input=script.encode(), capture_output=True, env=environment, timeout=SEARCH_SECONDS, check=False)
        except subprocess.TimeoutExpired:
            return "search not over"
        if done.returncode not in WITH_LIST:
            return "script " + (done.stderr.decode(errors="replace").strip().splitlines() or [f"status {done.returncode}"])[-1]
        return done.stdout

    def search(self, script: str, options: Sequence[str] = ()) -> Listed | str:
        """The list of a script, or why there is none."""
        text = self.list_of(script, options)
        if isinstance(text, str):
            return text
        try:
            return read_list(text)
        except Unreadable as fault:
            return f"script {fault}"

    def states(self, script: str) -> int:
        """How many states the search of a script keeps; 0 where there is no list."""
        text = self.list_of(script)
        match = None if isinstance(text, str) else STATES.search(text)
        return int(match[1]) if match else 0

    def lines_of(self, translation: Translation) -> tuple[str, ...]:
        """What a translation comes to, as the lines of a row."""
        if translation.status == REFUSED:
            return (translation.refusal(),)
        if translation.status != 0:
            return (f"status {translation.status}",)
        listed = self.search(translation.script)
        if isinstance(listed, str):
            return (listed,)
        bound = [] if listed.is_complete() else [listed.others]
        return tuple([*bound, *map(write_outcome, listed.outcomes)])
