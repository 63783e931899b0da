"""Modules of scripts: their texts, one program of them all, and its runs."""

from __future__ import annotations

import os
import shutil
import signal
import subprocess
from collections.abc import Sequence
from dataclasses import dataclass
from pathlib import Path

from tools.litmus.outcomes import Shown, read_counts

TOP = Path(__file__).resolve().parent.parent.parent
# Where the support module is.
SUPPORT = TOP / "litmus"
# What the support module imports that doesn't come with GHC.
PACKAGE = "async"
INSTALL = "apt-get install ghc libghc-async-dev, or take GHC by ghcup and `cabal install --lib async`"
RUNTIME = ["+RTS", "-C0", "-V0.001", "-qg", "-RTS"]
# Behind the time of the runs, the last one may have to come to its limit, and the program to begin and to end.
PATIENCE = 60


class Missing(Exception):
    """What has to be installed."""


class Broken(Exception):
    """A module doesn't compile, or its program fails."""


@dataclass(frozen=True)
class Compiler:
    """GHC, where it is and which."""

    path: str
    version: str


@dataclass(frozen=True)
class RunOptions:
    """How a script is run."""

    runs: int
    seconds: float
    seed: int
    forks: str


def find_compiler() -> Compiler:
    """GHC with the package that modules need. Raises Missing with what to install."""
    path = shutil.which("ghc")
    if path is None:
        raise Missing(f"there is no ghc: {INSTALL}")
    version = subprocess.run([path, "--numeric-version"], capture_output=True, text=True, check=False).stdout.strip()
    shown = subprocess.run([path, "-v0", "-package", PACKAGE, "-e", "()"], capture_output=True, text=True, check=False)
    if shown.returncode != 0:
        raise Missing(f"GHC {version} has no package {PACKAGE}: {INSTALL}")
    return Compiler(path, version)


def run_all(words: Sequence[str], room: Path | None = None, seconds: float | None = None) -> subprocess.CompletedProcess[bytes]:
    """Runs a command, with a folder for its files. It is ended with all that it started where it isn't waited for."""
    environment = {**os.environ, "TMPDIR": str(room)} if room else None
    with subprocess.Popen(
        words, stdin=subprocess.DEVNULL, stdout=subprocess.PIPE, stderr=subprocess.PIPE, start_new_session=True, env=environment
    ) as started:
        try:
            output, errors = started.communicate(timeout=seconds)
        except BaseException:
            os.killpg(started.pid, signal.SIGKILL)
            raise
    return subprocess.CompletedProcess(words, started.returncode, output, errors)


def module_text(script: bytes, program: Sequence[str]) -> bytes:
    """The module of an accepted script, by the program's command `haskell`."""
    done = subprocess.run([*program, "haskell"], input=script, capture_output=True, check=False)
    if done.returncode != 0:
        raise Broken(f"no module is made of a script: {done.stderr.decode(errors='replace').strip()}")
    return done.stdout


def main_text(count: int) -> str:
    """The main module of a program of so many scripts."""
    numbers = range(1, count + 1)
    imports = "".join(f"import qualified Script{number}\n" for number in numbers)
    scripts = ", ".join(f'("{number}", Script{number}.script)' for number in numbers)
    return f"module Main (main) where\n\nimport Litmus (runScripts)\n{imports}\nmain :: IO ()\nmain = runScripts [{scripts}]\n"


def compile_scripts(compiler: Compiler, texts: Sequence[bytes], room: Path) -> Path:
    """One program of these modules, in this folder. Each has a name of its own, which stands above its text."""
    for number, text in enumerate(texts, 1):
        (room / f"Script{number}.hs").write_bytes(f"module Script{number} (script) where\n".encode() + text)
    (room / "Main.hs").write_text(main_text(len(texts)))
    program = room / "program"
    words = [compiler.path, "-v0", "-O0", "-threaded", "-rtsopts", "-j4", f"-i{room}:{SUPPORT}"]
    words += ["-outputdir", str(room / "objects"), "-o", str(program), str(room / "Main.hs")]
    done = run_all(words, room)
    if done.returncode != 0:
        raise Broken(f"GHC {compiler.version} doesn't compile it:\n{done.stderr.decode(errors='replace')}")
    return program


def run_script(program: Path, number: int, options: RunOptions) -> Shown:
    """Runs one script of the program on 1, 2 and 4 capabilities, a third of the time on each."""
    words = [f"--script={number}", f"--runs={options.runs}", f"--seconds={options.seconds}"]
    words += [f"--seed={options.seed}", f"--forks={options.forks}"]
    try:
        done = run_all([str(program), *RUNTIME, *words], seconds=options.seconds + PATIENCE)
    except subprocess.TimeoutExpired as fault:
        raise Broken(f"its program goes on {PATIENCE} seconds behind its time") from fault
    if done.returncode != 0:
        raise Broken(f"its program ended with status {done.returncode}: {done.stderr.decode(errors='replace').strip()}")
    return read_counts(done.stdout)
