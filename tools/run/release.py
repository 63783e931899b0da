"""What a release says of itself: the file RELEASE beside the script, where this is an installed or an unpacked one.

It has a line for each thing that it names, as `version`, `build`, `kit` and `needs`, in the form `NAME: WHAT`; the first line is
the version's.
"""

from __future__ import annotations

import os

from tools.crates import TOP
from tools.run.saying import CALL, CANNOT_BUILD, Refused

RELEASE = os.path.join(TOP, "RELEASE")
IS_INSTALLED = CALL == "conc_run"


def page() -> str | None:
    """The text of RELEASE, or None where this is the repository."""
    try:
        with open(RELEASE, encoding="utf-8") as file:
            return file.read()
    except OSError:
        return None


def refuse(what: str) -> None:
    """Where this is a release, what needs the kit and the sources is refused."""
    if page() is not None:
        raise Refused(CANNOT_BUILD, f"{what} needs the repository and the kit, and this is a release: it has neither sources nor proofs")


def _numbers(version: str) -> tuple[int, ...]:
    return tuple(int(it) for it in version.split(".") if it.isdigit())


def _c_library() -> str:
    """The version of the GNU C library, or nothing where another one is here."""
    try:
        said = (os.confstr("CS_GNU_LIBC_VERSION") or "").split()
    except (ValueError, OSError):
        return ""
    return said[-1] if said[:1] == ["glibc"] else ""


def check_system() -> None:
    """Where this is a release, it says which of the things that it needs is missing, before the system does in its own words."""
    told = page()
    needs: list[str] = next((it.removeprefix("needs: ").split(", ") for it in (told or "").split("\n") if it.startswith("needs: ")), [])
    machine = os.uname().machine
    if needs and needs[0] != machine:
        raise Refused(CANNOT_BUILD, f"this release is for {needs[0]}, and this machine is {machine}; docs/play.html does the same in a browser")
    for need in needs:
        if need.startswith("glibc ") and _numbers(_c_library()) < _numbers(need[len("glibc "):]):
            here = _c_library()
            raise Refused(CANNOT_BUILD, f"this release needs the GNU C library {need[len('glibc '):]} or newer, and here is "
                          f"{here or 'another C library'}; docs/play.html does the same in a browser")
