"""Which program there is: the proved one, or the checked build without proof."""

from __future__ import annotations

import os

from tools.crates import TOP, below
from tools.run import release
from tools.run.saying import say

PROGRAM = "conc_run"
PROVED = os.path.join(TOP, "crates", PROGRAM, "out", PROGRAM)
# What is built without proof, with the logs of builds and their lock.
KEPT = os.path.join(TOP, "out")
CHECKED = os.path.join(KEPT, PROGRAM)

# Of a crate, where what a program is made of stands, and what is proved of it. Proofs are none of that, as documents, rows and edits.
SOURCE_FOLDERS = ("src", "specs")
SOURCE_ENDINGS = (".rt", ".antt")


class Program:
    """A program that can be run, and which build it is of."""

    def __init__(self, path: str, is_proved: bool) -> None:
        self.path, self.is_proved = path, is_proved


def crates() -> list[str]:
    """The crates of the program: its own, and all that it stands on."""
    return [PROGRAM, *sorted(below(PROGRAM))]


def find_command(name: str) -> str | None:
    """The file that a command of this name is, by PATH."""
    paths = (os.path.join(it or ".", name) for it in os.get_exec_path())
    return next((it for it in paths if os.path.isfile(it) and os.access(it, os.X_OK)), None)


def _has_newer(folder: str, moment: int) -> bool:
    """Whether a source below the folder is newer. One folder is open at a time, since handles may be few."""
    folders = [folder]
    while folders:
        try:
            entries = os.scandir(folders.pop())
        except (FileNotFoundError, NotADirectoryError, PermissionError):
            continue
        with entries:
            for entry in entries:
                if entry.name.endswith(SOURCE_ENDINGS):
                    if entry.stat(follow_symlinks=False).st_mtime_ns > moment and entry.is_file(follow_symlinks=False):
                        return True
                elif entry.is_dir(follow_symlinks=False):
                    folders.append(entry.path)
    return False


def is_new(program: str) -> bool:
    """Whether the program is there and no source of it is newer."""
    if not os.access(program, os.X_OK):
        return False
    moment = os.stat(program).st_mtime_ns
    return not any(_has_newer(os.path.join(TOP, "crates", crate, it), moment) for crate in crates() for it in SOURCE_FOLDERS)


def pick() -> Program:
    """The program that runs. One is built where none is there."""
    if is_new(PROVED):
        release.check_system()
        return Program(PROVED, is_proved=True)
    if not is_new(CHECKED):
        from tools.run import building
        building.make_checked()
    if os.access(PROVED, os.X_OK):
        say("a source is newer than the proved program, so this is the checked build; ./conc_run --prove proves it anew")
    else:
        say("this is the checked build without proof; ./conc_run --prove makes the proved one")
    return Program(CHECKED, is_proved=False)
