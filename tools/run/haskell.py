"""Haskell modules among the files: the script of one is handed on in its place.

It is kept with the sums of all files that decided what it is, and made anew where one of them is another one now.
"""

from __future__ import annotations

import hashlib
import json
import os
import time

from tools.run import cache, input
from tools.run.programs import find_command
from tools.run.saying import WRITE_FAILED, Refused, as_word, encoded, is_closed, tell, write_all
from tools.run.translator import PACKAGE, Script, as_text, no_room, read_all, translate

TYPE_CHECKING = False
if TYPE_CHECKING:
    from tools.run.reading import Call

# Of the translator, where its sources stand.
SOURCE_FOLDERS = ("src", "app", "prelude")
# The most scripts that are kept.
MOST_KEPT = 256
NOT_UNDERSTOOD = 2


def _scripts() -> str:
    """The folder of the scripts that are kept."""
    return os.path.join(cache.folder(), "scripts")


def _sum(path: str) -> str | None:
    """The sum of a file's bytes, or None where it can't be read."""
    try:
        with open(path, "rb") as file:
            return hashlib.sha256(file.read()).hexdigest()
    except OSError:
        return None


def _translator_files() -> list[str]:
    found = []
    for folder in SOURCE_FOLDERS:
        for path, _, names in os.walk(os.path.join(PACKAGE, folder)):
            found += [os.path.join(path, it) for it in names]
    return sorted(found)


def _compiler() -> list[str | int]:
    """Which GHC is here."""
    path = find_command("ghc")
    if path is None:
        return []
    found = os.stat(path)
    return [os.path.realpath(path), found.st_mtime_ns, found.st_size]


def _entry_of(name: str, words: list[str]) -> str:
    """The file that keeps the script of a module."""
    asked = [os.getcwd(), name, words, _compiler(), [[it, _sum(it)] for it in _translator_files()]]
    return os.path.join(_scripts(), hashlib.sha256(json.dumps(asked).encode()).hexdigest()[:32])


def _kept(path: str) -> Script | None:
    """The script of an entry, where no file has changed since."""
    try:
        with open(path, encoding="ascii") as file:
            entry = json.load(file)
        if any(_sum(name) != was for name, was in entry["files"].items()):
            return None
        os.utime(path)
        return Script(encoded(entry["script"]), encoded(entry["notes"]))
    except (OSError, ValueError, LookupError, AttributeError, TypeError):
        return None


def _drop_old(folder: str) -> None:
    entries = sorted((os.path.join(folder, it) for it in os.listdir(folder)), key=os.path.getmtime)
    for path in entries[:-MOST_KEPT]:
        os.remove(path)


def _keep(path: str, script: Script, files: list[str], began: int) -> None:
    """Keeps a script, unless a file has changed since its translation began. Where that can't be, nothing is kept."""
    try:
        if any(os.stat(it).st_mtime_ns >= began for it in files if os.path.exists(it)):
            return
        entry = {"files": {it: _sum(it) for it in files}, "script": as_text(script.text), "notes": as_text(script.notes)}
        os.makedirs(os.path.dirname(path), exist_ok=True)
        made = f"{path}.{os.getpid()}"
        with open(made, "w", encoding="ascii") as file:
            json.dump(entry, file)
        os.replace(made, path)
        _drop_old(os.path.dirname(path))
    except (OSError, ValueError):
        pass


def _translated_now(name: str, words: list[str], entry: str) -> Script:
    """The script of a module, made now. The translator tells in a file of which files it was made."""
    told = os.path.join(input.room(), f"conc_run.{os.urandom(8).hex()}")
    began = time.time_ns()
    try:
        script = translate(name, ["--files", told, *words])
        with open(told, "rb") as file:
            files = [os.fsdecode(it) for it in file.read().split(b"\0") if it]
    except FileNotFoundError:
        raise no_room() from None
    finally:
        if os.path.exists(told):
            os.remove(told)
    _keep(entry, script, files, began)
    return script


def script_of(name: str, words: list[str]) -> Script:
    """The script of a module: one that is kept, or one that is made now."""
    if "--trust" in words:
        # Such a module may be made of files that nobody tells.
        return translate(name, words)
    entry = _entry_of(name, words)
    return _kept(entry) or _translated_now(name, words, entry)


def opened(name: str, words: list[str]) -> int:
    """A file that has the script of a module. The notes are told."""
    script = script_of(name, words)
    tell(as_text(script.notes))
    try:
        file = input.unnamed_file()
        write_all(file, script.text)
        os.lseek(file, 0, os.SEEK_SET)
    except OSError:
        raise no_room() from None
    return file


def check_words(call: Call) -> None:
    """Whether the command, the files and the words for the translator fit one another."""
    if call.command == "audit":
        return
    # Those of litmus are no files of the program.
    modules = [it for it in call.files or call.words[1:] if input.is_module(it)]
    if call.command == "script" and not (modules and len(modules) == len(call.files)):
        raise Refused(NOT_UNDERSTOOD, "script takes a Haskell module, a file whose name ends with .hs or .lhs")
    if call.module_words and not modules:
        raise Refused(NOT_UNDERSTOOD, f"{as_word(call.module_words[0])} is for Haskell modules, files whose names end with .hs or .lhs")
    if modules and call.command in ("verify", "report"):
        name = as_word(modules[0])
        raise input.bad_input(f"{call.command} reads a written history, and {name} is a Haskell module; ./conc_run trace {name} writes one")


def put_script() -> int:
    """Writes the script, which is standard input by now, and answers the status of that."""
    try:
        if is_closed(1):
            return WRITE_FAILED
        write_all(1, read_all(0))
    except OSError:
        return WRITE_FAILED
    return 0
