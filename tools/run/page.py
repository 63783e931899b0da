"""The page of --help, and the version."""

from __future__ import annotations

import os

from tools.crates import TOP
from tools.run import programs, release
from tools.run.saying import CALL
from tools.run.words import COMMAND_OPTIONS, COMMANDS, MODULE_OPTIONS, OWN_OPTIONS, STATUSES

HELP_COLUMN = 60

PAGE = """conc_run: what interrupted and masked Concurrent Haskell code may really do

{commands}

{options}

Options stand before or behind the file. With no FILE, or with -, the script is read from standard input. A file whose name
begins with - is given behind --, or as ./-NAME. A FILE.hs is a Haskell module, of which a script is made first.

{own_options}

{module_options}

What the script prints goes to standard output, and the line of its ending to standard error. The status says how it ended:

{statuses}

Ctrl-C ends it with 130, and the signal TERM with 143. Of several files the status is that of the one that went wrong most.

{documents}
"""
DOCUMENTS = """examples/*.conc are scripts to begin with, and docs/TOUR.md leads through them; docs/LANGUAGE.md has the language and what
each refusal means."""
INSTALLED_DOCUMENTS = """/usr/share/doc/conc-run has scripts to begin with, in examples/, and TOUR.md leads through them; LANGUAGE.md there has the
language and what each refusal means, and play.html does the same in a browser."""


def usage_of(command: str) -> str:
    """The lines of the page on a command."""
    usage = f"  {CALL} {COMMANDS[command].usage} "
    if len(usage) > HELP_COLUMN:
        return f"{usage.rstrip()}\n{' ' * HELP_COLUMN}{COMMANDS[command].help}"
    return f"{usage:{HELP_COLUMN}}{COMMANDS[command].help}"


def _statuses() -> str:
    """The table of statuses, in two columns."""
    lines = []
    for number, text in STATUSES.items():
        first, *more = text.split("\n")
        lines += [(str(number), first), *(("", it) for it in more)]
    half = (len(lines) + 1) // 2
    rows = zip(lines[:half], lines[half:] + [("", "")])
    return "\n".join(f"{number:>3}  {text:26}  {other:>2}  {beside}".rstrip() for (number, text), (other, beside) in rows)


def help_page() -> str:
    return PAGE.format(
        commands="\n".join(usage_of(it) for it in COMMANDS),
        options="\n".join(f"  {it.usage:11}  {it.help}" for it in COMMAND_OPTIONS.values()),
        own_options="\n".join(f"  {it.usage:11}  {it.help}" for it in OWN_OPTIONS.values()),
        module_options="\n".join(f"  {it.usage:11}  {it.help}" for it in MODULE_OPTIONS.values()),
        statuses=_statuses(),
        documents=INSTALLED_DOCUMENTS if release.IS_INSTALLED else DOCUMENTS,
    )


def version() -> str:
    try:
        with open(os.path.join(TOP, "VERSION"), encoding="utf-8") as file:
            return file.read().strip()
    except OSError:
        return "unknown"


def _kit() -> str:
    import subprocess
    rt = programs.find_command("rt")
    if rt is None:
        return "no command rt here"
    try:
        said = subprocess.run([rt, "version"], stdout=subprocess.PIPE, stderr=subprocess.DEVNULL, check=False).stdout
    except OSError:
        return "unknown"
    return (said.decode(errors="replace").split() or ["unknown"])[0]


def version_page() -> str:
    told = release.page()
    if told is not None:
        return told
    build = "none yet; the first run builds one without proof"
    if programs.is_new(programs.PROVED):
        build = "proved"
    elif programs.is_new(programs.CHECKED):
        build = "checked, without proof"
    return f"conc_run {version()}\nkit: {_kit()}\nbuild: {build}\n"
