"""Must-fail edits: that each can be applied; and `./check --edits`, which tries those that stand outside of the gate."""

from __future__ import annotations

import datetime
import os
import re
import shutil
import subprocess
import sys
import tempfile
from collections.abc import Iterator, Sequence

from tools.sources import NOT_OURS, TOP, here, lines, read, uses

RECORD = "docs/edits.txt"
HEAD = "# The edits of crates/NAME/more-edits, which ./check --edits tries: when those of a crate were last all refused.\n# crate, edits, date, kit, commit\n"


def problem(path: str) -> str | None:
    """Why an edit can't be applied, as `rt must-fail` would find after the proof of its crate, or None."""
    crate, changed = path.split("/")[1], False
    file: str | None = None
    old: str | None = None
    texts: dict[str, str] = {}
    for line in lines(path):
        if line.startswith("file: "):
            file = f"crates/{crate}/{line[6:].strip()}"
            if not re.match(rf"crates/{crate}/(src|specs|proofs)/", file) or not os.path.isfile(os.path.join(TOP, file)):
                return f"there is no file {line[6:].strip()}"
            texts.setdefault(file, read(file))
        elif line.startswith("old: "):
            old = line[5:]
        elif line.startswith("new:"):
            if not file or not old:
                return "a `new:` line stands before any `file:` or `old:` line"
            count = texts[file].count(old)
            if count != 1:
                return f"its old text stands {count} times in {file}, and not once: {old.strip()[:60]}"
            texts[file] = texts[file].replace(old, line[4:].removeprefix(" "))
            changed, old = changed or texts[file] != read(file), None
    return None if changed else "it changes nothing"


def edits_of(crate: str, folder: str = "must-fail") -> list[str]:
    return here(f"crates/{crate}/{folder}/*.edit")


def can_be_applied() -> Iterator[str]:
    """Edits that can't be applied, files that are none, and crates of the record that have no wider ones."""
    for folder in ("must-fail", "more-edits"):
        for path in edits_of("*", folder):
            why = problem(path)
            if why:
                yield f"{path}: {why}"
    for path in here("crates/*/must-fail/*") + here("crates/*/more-edits/*"):
        if not path.endswith((".edit", ".md")):
            yield f"{path}: an edit's name ends in .edit"
    for name, *_ in recorded():
        if not edits_of(name, "more-edits"):
            yield f"{RECORD}: {name} has no edits in more-edits"


def wrong_bodies() -> Iterator[str]:
    """Patches of tools/wrong-bodies that can't be applied, or that name a test which isn't there."""
    for path in here("tools/wrong-bodies/*.patch"):
        ran = subprocess.run(["patch", "--dry-run", "-f", "-s", "-p0", "-i", path], cwd=TOP, stdout=subprocess.PIPE, stderr=subprocess.STDOUT,
                             text=True, check=False)
        if ran.returncode:
            yield f"{path}: it can't be applied: {' '.join(ran.stdout.split())}"
        named = re.findall(r"^Refused by: (\w+) (\w+)$", read(path), re.M)
        if not named:
            yield f"{path}: it names no test that refuses it"
        for crate, test in named:
            if not any(f"fn {test}(" in read(it) for it in here(f"crates/{crate}/src/*.rt")):
                yield f"{path}: {crate} has no test {test}"


def recorded() -> list[list[str]]:
    """The rows of the record."""
    if not os.path.isfile(os.path.join(TOP, RECORD)):
        return []
    return [it.split() for it in lines(RECORD) if it.strip() and not it.startswith("#")]


def record(crate: str, count: int) -> None:
    """Writes down that all wider edits of a crate were refused now."""
    kit = said(["rt", "version"]).split()[0]
    commit = said(["git", "-C", TOP, "rev-parse", "--short", "HEAD"]).strip() or "?"
    if said(["git", "-C", TOP, "status", "--porcelain", "--", f"crates/{crate}"]).strip():
        commit += "+"
    read.cache_clear()
    kept = {it[0]: it for it in recorded()}
    kept[crate] = [crate, str(count), datetime.date.today().isoformat(), kit, commit]
    with open(os.path.join(TOP, RECORD), "w", encoding="utf-8") as file:
        file.write(HEAD + "".join(" ".join(kept[it]) + "\n" for it in uses() if it in kept))


def said(command: Sequence[str]) -> str:
    """What a command prints."""
    return subprocess.run(command, stdout=subprocess.PIPE, stderr=subprocess.DEVNULL, check=False).stdout.decode()


def try_edits(names: Sequence[str]) -> int:
    """`./check --edits [NAME..]`: tries them on a copy in which they are the must-fail edits, crate by crate."""
    for name in names:
        if name not in uses() or not edits_of(name, "more-edits"):
            sys.exit(f"check: there are no edits in crates/{name}/more-edits")
    names = names or [it for it in uses() if edits_of(it, "more-edits")]
    if not names:
        print("there are no edits in crates/*/more-edits")
        return 0
    missed = 0
    with tempfile.TemporaryDirectory(prefix="more-edits-") as work:
        copy = os.path.join(work, "repo")
        shutil.copytree(TOP, copy, ignore=shutil.ignore_patterns(*NOT_OURS))
        for crate in uses():
            shutil.rmtree(f"{copy}/crates/{crate}/must-fail", ignore_errors=True)
            if os.path.isdir(f"{copy}/crates/{crate}/more-edits"):
                os.rename(f"{copy}/crates/{crate}/more-edits", f"{copy}/crates/{crate}/must-fail")
        subprocess.run(["git", "init", "-q", copy], check=False)
        for name in names:
            count = len(edits_of(name, "more-edits"))
            print(f"== {name}: {count} edits", flush=True)
            if subprocess.run(["rt", "must-fail", name], cwd=copy, check=False).returncode == 0:
                record(name, count)
            else:
                missed += 1
    print(f"the wider edits of {len(names) - missed} crates were all refused" + (f", those of {missed} not" if missed else ""))
    return 1 if missed else 0
