"""The command: lists the outcomes of scripts, compiles and runs their modules, and prints a table of each."""

from __future__ import annotations

import argparse
import math
import os
import subprocess
import sys
import tempfile
import time
from collections.abc import Callable, Sequence
from dataclasses import dataclass
from pathlib import Path

from tools.litmus import modules
from tools.litmus.differences import TOP, Difference, known_name, read_differences
from tools.litmus.haskell import (
    SUPPORT,
    Broken,
    Compiler,
    Missing,
    RunOptions,
    compile_scripts,
    find_compiler,
    module_text,
    run_script,
)
from tools.litmus.outcomes import Listed, Shown, Unreadable, read_list
from tools.litmus.table import Table, table_of, table_text
from tools.run.saying import CALL, Refused
from tools.run.several import worst
from tools.run.words import STATUS_ORDER

# The statuses: a write failed, a list isn't complete, GHC showed what isn't listed, a file can't be read, no program can be
# built, the command was interrupted.
UNWRITTEN, INCOMPLETE, UNLISTED, UNREADABLE, UNBUILT, INTERRUPTED = 8, 11, 15, 66, 70, 130
# The statuses of `outcomes` with a list.
WITH_LIST = (0, 11)
PROGRAM = TOP / "conc_run"


class Stop(Exception):
    """Ends the command with a line and a status."""

    def __init__(self, status: int, line: str) -> None:
        super().__init__(line)
        self.status = status


@dataclass(frozen=True)
class Script:
    """A script, where it is, and its list."""

    path: Path
    text: bytes
    listed: Listed


def number_above_zero(word: str) -> int:
    if not word.isdecimal() or int(word) == 0:
        raise argparse.ArgumentTypeError(f"not a number above 0: {word}")
    return int(word)


def number(word: str) -> int:
    if not word.isdecimal() or int(word) >= 2**64:
        raise argparse.ArgumentTypeError(f"not a number: {word}")
    return int(word)


def seconds_above_zero(word: str) -> float:
    try:
        seconds = float(word)
    except ValueError:
        seconds = 0.0
    if not (math.isfinite(seconds) and seconds > 0):
        raise argparse.ArgumentTypeError(f"not a number of seconds above 0: {word}")
    return seconds


def read_words(arguments: Sequence[str]) -> argparse.Namespace:
    parser = argparse.ArgumentParser(
        prog=f"{CALL} litmus",
        add_help=False,
        allow_abbrev=False,
        description="Lists the outcomes of each script or Haskell module, runs it many times by GHC, and prints both side by side: first what"
        " GHC showed and the list doesn't have, then what both have, then what GHC never showed.",
        epilog="Status 0: GHC showed nothing that isn't listed, but for known differences; 15: it did; 11: a list isn't"
        " complete.",
    )
    parser.add_argument("files", nargs="*", metavar="FILE", type=Path)
    parser.add_argument("--runs", type=number_above_zero, default=20_000, help="at most so many runs a script (else 20000)")
    parser.add_argument("--seconds", type=seconds_above_zero, default=20.0, help="for at most so long a script (else 20)")
    parser.add_argument("--seed", type=number, default=1, help="where the rows of random numbers begin (else 1)")
    parser.add_argument(
        "--forks",
        choices=("reported", "plain"),
        default="reported",
        help="plain: as GHC has it, what comes before a thread's first step is told by nobody (else reported)",
    )
    parser.add_argument("--where", action="store_true", help="prints where the support module is, and does nothing else")
    words = parser.parse_intermixed_args(arguments)
    if not words.where and not words.files:
        parser.error("no FILE")
    return words


def say(line: str) -> None:
    """A line beside the tables; on a terminal the next one takes its place."""
    if sys.stderr.isatty():
        print(f"\r\x1b[K{line}", end="", file=sys.stderr, flush=True)


def say_nothing() -> None:
    if sys.stderr.isatty():
        print("\r\x1b[K", end="", file=sys.stderr, flush=True)


def read_script(path: Path) -> bytes:
    try:
        return path.read_bytes()
    except OSError as fault:
        raise Stop(UNREADABLE, f"{path}: {fault.strerror}") from fault


def read_module(path: Path, words: Sequence[str]) -> bytes:
    """The script of a Haskell module."""
    read_script(path)
    try:
        return modules.script_text(path, words)
    except Refused as fault:
        raise Stop(fault.status, fault.sentence or f"{path}: no script is made of it") from fault


def list_outcomes(path: Path, program: Sequence[str], words: Sequence[str]) -> Script:
    """The list of a script, by the program. A refusal ends the command, before anything is compiled."""
    text = read_module(path, words) if modules.is_haskell(path) else read_script(path)
    try:
        done = subprocess.run([*program, "outcomes"], input=text, capture_output=True, check=False)
    except OSError as fault:
        raise Stop(UNBUILT, f"{program[0]}: {fault.strerror}") from fault
    if done.returncode not in WITH_LIST:
        lines = done.stderr.decode(errors="replace").strip().splitlines()
        raise Stop(done.returncode if done.returncode > 0 else 1, f"{path}: {lines[-1] if lines else 'no list'}")
    try:
        return Script(path, text, read_list(done.stdout))
    except Unreadable as fault:
        raise Stop(1, f"{path}: {fault}") from fault


def list_all(paths: Sequence[Path], program: Sequence[str], words: Sequence[str]) -> list[Script]:
    """The lists of all scripts. Where some can't be had, each fault is told, and the one that comes first in the order is the status."""
    scripts, faults = [], []
    for place, path in enumerate(paths, 1):
        say(f"{place} of {len(paths)}: lists {path}")
        try:
            scripts.append(list_outcomes(path, program, words))
        except Stop as stop:
            faults.append(stop)
    if faults:
        raise Stop(worst([it.status for it in faults], STATUS_ORDER), "\n".join(map(str, faults)))
    return scripts


def put(text: str) -> None:
    """Writes to standard output."""
    try:
        print(text, flush=True)
    except OSError as fault:
        # What is still to be written has nowhere to go.
        os.dup2(os.open(os.devnull, os.O_WRONLY), sys.stdout.fileno())
        raise Stop(UNWRITTEN, f"the tables can't be written: {fault.strerror}") from fault


def print_table(script: Script, shown: Shown, differences: tuple[Difference, ...]) -> Table:
    table = table_of(script.listed, shown, lambda outcome: known_name(differences, script.path, outcome))
    say_nothing()
    put(table_text(str(script.path), table))
    return table


def print_sum(tables: Sequence[Table], version: str, begun: float) -> None:
    """What all scripts came to, in one line."""
    runs = sum(table.shown.runs() for table in tables)
    listed = sum(len(table.listed.outcomes) for table in tables)
    seen = sum(table.seen() for table in tables)
    unlisted, known = sum(table.unlisted() for table in tables), sum(table.known() for table in tables)
    put(
        f"{len(tables)} script{'' if len(tables) == 1 else 's'}, {runs} runs by GHC {version} on 1, 2 and 4 capabilities, {time.monotonic() - begun:.0f} s: "
        f"{seen} of {listed} listed outcomes seen, {unlisted} unlisted, {known} by known differences"
    )


def status_of(tables: Sequence[Table]) -> int:
    if any(table.unlisted() for table in tables):
        return UNLISTED
    return 0 if all(table.listed.is_complete() for table in tables) else INCOMPLETE


def run_all_of(scripts: Sequence[Script], compiler: Compiler, program: Sequence[str], options: RunOptions, words: Sequence[str]) -> list[Table]:
    """Prints a table of each. Scripts are one program; of a Haskell module it is the module itself that is run."""
    differences, tables = read_differences(), []
    plain = [script for script in scripts if not modules.is_haskell(script.path)]
    with tempfile.TemporaryDirectory(prefix="litmus-") as folder:
        say(f"GHC {compiler.version} compiles {len(scripts)} modules")
        texts = [module_text(script.text, program) for script in plain]
        compiled = compile_scripts(compiler, texts, Path(folder)) if texts else Path(folder)
        for place, script in enumerate(scripts, 1):
            say(f"{place} of {len(scripts)}: runs {script.path}, for {options.seconds:g} s at most")
            if modules.is_haskell(script.path):
                shown = modules.run_module(compiler, script.path, words, options)
            else:
                shown = run_script(compiled, 1 + plain.index(script), options)
            tables.append(print_table(script, shown, differences))
    return tables


def litmus(words: argparse.Namespace, program: Sequence[str], prepare: Callable[[], object], module_words: Sequence[str]) -> int:
    begun = time.monotonic()
    compiler = find_compiler()
    prepare()
    scripts = list_all(words.files, program, module_words)
    options = RunOptions(words.runs, words.seconds, words.seed, words.forks)
    tables = run_all_of(scripts, compiler, program, options, module_words)
    print_sum(tables, compiler.version, begun)
    return status_of(tables)


def main(
    arguments: Sequence[str],
    program: Sequence[str] = (str(PROGRAM),),
    prepare: Callable[[], object] = lambda: None,
    module_words: Sequence[str] = (),
) -> int:
    """Runs the command with these words. `program` lists outcomes, with its first words; `prepare` is called before it is needed;
    `module_words` are for the translator of Haskell modules."""
    words = read_words(arguments)
    try:
        if words.where:
            put(str(SUPPORT))
            return 0
        return litmus(words, program, prepare, module_words)
    except Stop as stop:
        status, lines = stop.status, str(stop)
    except (Missing, Broken, Unreadable) as fault:
        status, lines = UNBUILT, str(fault)
    except KeyboardInterrupt:
        status, lines = INTERRUPTED, "interrupted"
    say_nothing()
    for line in lines.split("\n"):
        print(f"litmus: {line}", file=sys.stderr)
    return status
