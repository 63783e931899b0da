"""Haskell modules: the list of one is that of the script that it becomes, and GHC runs the module itself."""

from __future__ import annotations

import tempfile
from collections.abc import Sequence
from pathlib import Path

from tools.litmus.haskell import Compiler, RunOptions
from tools.litmus.outcomes import Shown
from tools.litmus.programs import Question, compile_programs, run_question
from tools.run import haskell
from tools.run.input import is_module
from tools.run.saying import tell


def is_haskell(path: Path) -> bool:
    """Whether the file is a Haskell module."""
    return is_module(str(path))


def action_of(words: Sequence[str]) -> str:
    """The action that is asked: that of the last of these words for the translator that names one."""
    found = "main"
    for word, after in zip(words, [*words[1:], ""]):
        if word == "--main":
            found = after
        elif word.startswith("--main="):
            found = word.partition("=")[2]
    return found


def folders_of(words: Sequence[str]) -> list[str]:
    """The folders in which modules are looked for, as they are seen from anywhere."""
    names = [name for word in words if word.startswith("-i") for name in word[2:].split(":") if name]
    return [str(Path(name).resolve()) for name in [*names, "."]]


def script_text(path: Path, words: Sequence[str]) -> bytes:
    """The script of a module. Its notes are told; what is refused has been told too, and ends the command."""
    script = haskell.script_of(str(path), list(words))
    tell(script.notes.decode("utf-8", "surrogateescape"))
    return script.text


def run_module(compiler: Compiler, path: Path, words: Sequence[str], options: RunOptions) -> Shown:
    """Compiles the module behind modules that perturb it, and runs it in an empty folder."""
    with tempfile.TemporaryDirectory(prefix="litmus-") as room:
        question = Question(path.resolve(), action_of(words))
        program = compile_programs(compiler, [question], folders_of(words), Path(room))
        return run_question(program, 1, options)
