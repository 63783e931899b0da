"""What a release says of itself: version, commit, kit, and which program it holds. Whatever isn't proved and new is refused."""

from __future__ import annotations

import hashlib
import os
import re
import shutil
import subprocess
import sys
from typing import NamedTuple

from tools.play import sums
from tools.rows import is_new
from tools.sources import TOP

PROVED = os.path.join(TOP, "crates", sums.PROGRAM, "out", sums.PROGRAM)
# The program is of this machine.
MACHINE = b"\x7fELF\x02\x01"
X86_64 = 62


class Facts(NamedTuple):
    version: str
    commit: str
    # When the commit was made, in seconds; the date of everything in the release.
    epoch: int
    kit: str
    program: str
    is_proved: bool
    sum_of_program: str
    sum_of_sources: str
    # The C library that the program asks for, and the shared libraries.
    glibc: str
    libraries: list[str]

    @property
    def build(self) -> str:
        return "proved" if self.is_proved else "NOT PROVED, for tests of the package alone"

    @property
    def package_version(self) -> str:
        return self.version if self.is_proved else f"{self.version}~unproved"

    def page(self) -> str:
        """The file RELEASE, which the script around the program shows as its version."""
        return (f"conc_run {self.version}\nbuild: {self.build}\nkit: {self.kit}\ncommit: {self.commit}\nneeds: x86_64, glibc {self.glibc}, python 3.9\n"
                f"program: sha256 {self.sum_of_program}\nsources: sha256 {self.sum_of_sources}\n")


def fail(sentence: str) -> None:
    sys.exit(f"release: {sentence}")


def of_git(*words: str) -> str:
    ran = subprocess.run(["git", "-C", TOP, *words], capture_output=True, text=True, check=False)
    if ran.returncode:
        fail(f"git {words[0]}: {ran.stderr.strip()}")
    return ran.stdout.strip()


def kit() -> str:
    if not shutil.which("rt"):
        fail("no command rt here: the kit has to be named, and its licences are read")
    return (subprocess.run(["rt", "version"], capture_output=True, text=True, check=False).stdout.split() or ["unknown"])[0]


def proved_program() -> str:
    """The program that `./conc_run --prove` leaves, where no source of it is newer."""
    if not os.access(PROVED, os.X_OK):
        fail(f"no proved program at {os.path.relpath(PROVED, TOP)}; ./conc_run --prove makes it, and nothing else is released")
    if not is_new(PROVED, sums.PROGRAM):
        fail("a source is newer than the proved program; ./conc_run --prove proves it anew")
    return PROVED


def look_at(program: str) -> tuple[str, str, list[str]]:
    """The checksum of a program, the least C library that it runs with, and what it is linked to."""
    with open(program, "rb") as file:
        code = file.read()
    if not code.startswith(MACHINE) or int.from_bytes(code[18:20], "little") != X86_64:
        fail(f"{program} is no program for x86-64")
    versions = {tuple(map(int, it.split(b"."))) for it in re.findall(rb"\0GLIBC_([0-9.]+)(?=\0)", code)}
    libraries = sorted({it.decode() for it in re.findall(rb"\0((?:lib[\w+-]+|ld-linux-x86-64)\.so\.\d+)(?=\0)", code)})
    return hashlib.sha256(code).hexdigest(), ".".join(map(str, max(versions, default=(2, 34)))), libraries


def gather(unproved: str | None) -> Facts:
    """All of it. The tree has to be that of the commit, but where a test packs a program without proof."""
    changed = of_git("status", "--porcelain", "--untracked-files=no")
    if changed and not unproved:
        fail(f"the tree isn't that of the commit:\n{changed}")
    program = unproved or proved_program()
    checksum, glibc, libraries = look_at(program)
    return Facts(sums.version(), of_git("rev-parse", "HEAD"), int(of_git("log", "-1", "--format=%ct")), kit(), program, unproved is None,
                 checksum, sums.sum_of_sources(), glibc, libraries)
