"""What the audit has to find, and where it has to find nothing: modules of its own, and libraries of Debian as they are and with a fix."""

from __future__ import annotations

import argparse
import re
import shutil
import subprocess
import tempfile
import time
from collections.abc import Iterator, Sequence
from pathlib import Path
from typing import NamedTuple

from tools.from_haskell import sources
from tools.litmus.haskell import TOP

MODULES = TOP / "tools" / "audit" / "modules"
OWN = {"CounterWrong": ("update",), "GateWrong": ("pass",), "LockWrong": ("release",), "RegionWrong": ("within",), "UnitsWrong": ("using",),
       "CounterRight": (), "GateRight": (), "LockRight": (), "RegionRight": (), "UnitsRight": ()}
EXTRA, SEMAPHORES, OF_BASE = "haskell-concurrent-extra", "haskell-safesemaphore", "base"
FIRST_LINE = re.compile(r"\w+: (\d+) questions?, (?:nothing found|.* when killed: (.*?))(?:, \d+ open)?")
SKIPPED = 77


class Bar(NamedTuple):
    """A library's module, and the functions that are to be found; with a change of its source, none."""

    library: str
    module: str
    causes: tuple[str, ...]
    changes: tuple[tuple[str, str, str], ...] = ()


BLOCKING_RELEASE = "release (RLock mv) = do\n  myTID <- myThreadId\n  mask_ $ do"
BARS = (
    Bar(EXTRA, "RLock", ("release",), (("RLock", BLOCKING_RELEASE, BLOCKING_RELEASE.replace("mask_", "Fix.uninterruptibleMask_")),)),
    Bar(EXTRA, "ReadWriteLock", ("releaseRead", "releaseWrite"), (
        ("ReadWriteLock", "releaseRead (RWLock {state, readLock}) = mask_ $ do", "releaseRead (RWLock {state, readLock}) = Fix.uninterruptibleMask_ $ do"),
        ("ReadWriteLock", "releaseWrite (RWLock {state, writeLock}) = mask_ $ do", "releaseWrite (RWLock {state, writeLock}) = Fix.uninterruptibleMask_ $ do"))),
    Bar(EXTRA, "Event", ("broadcastThen",), (("Broadcast", "    modifyMVar_ mv $ \\mx", "    Fix.mask_ $ modifyMVar_ mv $ \\mx"),)),
    Bar(EXTRA, "Broadcast", ("broadcastThen",), (("Broadcast", "    modifyMVar_ mv $ \\mx", "    Fix.mask_ $ modifyMVar_ mv $ \\mx"),)),
    Bar(SEMAPHORES, "MSemN2", ("signalF",), (("MSemN2", "signalF m f = seq f $ mask_ .", "signalF m f = seq f $ Fix.uninterruptibleMask_ ."),)),
    Bar(OF_BASE, "QSem", ()),
    Bar(SEMAPHORES, "MSem", ()),
    Bar(EXTRA, "Lock", ()),
)


class Came(NamedTuple):
    """What an audit came to."""

    status: int
    questions: int
    causes: tuple[str, ...]
    seconds: float
    told: str

    def text(self) -> str:
        return f"{self.questions} questions, {', '.join(self.causes) or 'nothing'} found, {self.seconds:.0f} s"


def audited(words: Sequence[str]) -> Came:
    """Calls the command."""
    begun = time.monotonic()
    with tempfile.TemporaryDirectory(prefix="test-audit-") as room:
        done = subprocess.run([str(TOP / "conc_run"), "audit", "--keep", f"{room}/found", *words], capture_output=True, text=True, check=False)
    lines = done.stdout.splitlines()
    match = FIRST_LINE.fullmatch(lines[0]) if lines else None
    causes = tuple(match[2].split(", ")) if match and match[2] else ()
    return Came(done.returncode, int(match[1]) if match else 0, causes, time.monotonic() - begun, done.stdout + done.stderr)


def wrong(name: str, came: Came, causes: Sequence[str]) -> Iterator[str]:
    """Tells what came, and yields a line if it isn't as it has to be."""
    print(f"{name}: {came.text()}", flush=True)
    if sorted(came.causes) != sorted(causes) or came.status != (14 if causes else 0) or not came.questions:
        yield f"{name}: status {came.status}, {came.text()}, and {', '.join(causes) or 'nothing'} is to be found\n{came.told}"


def try_own(names: Sequence[str]) -> Iterator[str]:
    for name, causes in OWN.items():
        if not names or name in names:
            yield from wrong(name, audited([str(MODULES / f"{name}.hs")]), causes)


def folders(library: str) -> list[Path]:
    """The folders of a library's modules, and of what they import."""
    if library == OF_BASE:
        return [Path(sources.base_folder()[1])]
    return [sources.described(library).folder / sources.LIBRARIES[library], sources.STAND_IN]


def changed(folder: Path, bar: Bar, room: Path) -> Path:
    """A copy of a library with the bar's changes."""
    copy = room / "changed"
    shutil.copytree(folder, copy)
    for module, old, new in bar.changes:
        path = copy / "Control" / "Concurrent" / f"{module}.hs"
        text = path.read_text(encoding="utf-8")
        if text.count(old) != 1:
            raise SystemExit(f"{path}: {old!r} doesn't stand there once")
        path.write_text(text.replace(old, new).replace("\nimport ", "\nimport qualified Control.Exception as Fix\nimport ", 1), encoding="utf-8")
    return copy


def try_libraries(names: Sequence[str], fixes: bool) -> Iterator[str]:
    for bar in BARS:
        if names and bar.module not in names or fixes and not bar.changes:
            continue
        there = folders(bar.library)
        with tempfile.TemporaryDirectory(prefix="test-audit-") as room:
            if fixes:
                there[0] = changed(there[0], bar, Path(room))
            came = audited([f"Control.Concurrent.{bar.module}", *(f"-i{it}" for it in there)])
        yield from wrong(f"{bar.module}, fixed" if fixes else bar.module, came, () if fixes else bar.causes)


def main(words: Sequence[str]) -> int:
    """Tries a part; 1 where something is wrong, 77 where it can't be tried here."""
    parser = argparse.ArgumentParser(prog="tools/test-audit", description="Tries the audit of modules. It stands outside of the gate.")
    parser.add_argument("part", choices=("own", "libraries", "fixes"), help="modules of its own; libraries of Debian; the same with fixes")
    parser.add_argument("names", nargs="*", help="modules; all, where none is named")
    asked = parser.parse_args(words)
    try:
        found = list(try_own(asked.names) if asked.part == "own" else try_libraries(asked.names, asked.part == "fixes"))
    except sources.Missing as fault:
        print(f"skipped: {fault}")
        return SKIPPED
    print("\n".join(found) or "test-audit: as it has to be")
    return 1 if found else 0
