"""What the gate costs: `./check --gate` says what a change will cost, from a table of processor minutes a crate."""

from __future__ import annotations

import datetime
import os
import re
import subprocess
import sys
import time
from collections.abc import Collection, Iterable, Iterator, Mapping, Sequence

from tools.crates import below
from tools.edits import edits_of
from tools.sources import TOP, lines, uses

TABLE = "docs/minutes.txt"
KINDS = ("proof", "edits", "tests")
# For what the table doesn't have, in processor minutes: a proof, and an edit.
PROOF, EDIT = 0.9, 0.53


# The processor minutes of each crate's proof, edits and tests, as far as they were measured.
Table = dict[str, dict[str, float]]


def table() -> Table:
    """What the table of the repository has."""
    found: Table = {}
    for line in lines(TABLE):
        if line.strip() and not line.startswith("#"):
            name, *figures = line.split()
            found[name] = {kind: float(it) for kind, it in zip(KINDS, figures) if it != "-"}
    return found


def names_are_crates() -> Iterator[str]:
    """Names of the table that are no crates."""
    for name in table():
        if name not in uses():
            yield f"{TABLE}: there is no crate {name}"


def changed_since(commit: str) -> tuple[set[str], set[str]]:
    """The crates whose verdict stands on a file that differs, and those of which only the edits, or what is read at run time, do."""
    ran = subprocess.run(["git", "-C", TOP, "diff", "--name-only", commit], stdout=subprocess.PIPE, stderr=subprocess.PIPE, check=False)
    if ran.returncode:
        sys.exit(f"check: git knows no commit {commit}")
    new = subprocess.run(["git", "-C", TOP, "ls-files", "-o", "--exclude-standard"], stdout=subprocess.PIPE, check=False).stdout
    proved: set[str] = set()
    tried: set[str] = set()
    for path in (ran.stdout + new).decode().split("\n"):
        part = re.match(r"crates/(\w+)/(\w[\w-]*)", path)
        if part and part[1] in uses() and part[2] in ("src", "specs", "proofs"):
            proved.add(part[1])
        elif part and part[1] in uses() and part[2] in ("must-fail", "data", "stdout", "stdin", "args"):
            tried.add(part[1])
        elif path == "crates.txt":
            proved |= lines_changed(commit)
    return proved, tried - proved


def lines_changed(commit: str) -> set[str]:
    """The crates whose line of crates.txt differs."""
    was = subprocess.run(["git", "-C", TOP, "show", f"{commit}:crates.txt"], stdout=subprocess.PIPE, check=False).stdout.decode()
    old = {it.split(":")[0].split()[0]: sorted(it.partition(":")[2].split()) for it in was.split("\n") if re.match(r"\w", it)}
    return {it for it in uses() if sorted(uses()[it]) != old.get(it)}


def minutes_of(name: str, known: Table) -> dict[str, float]:
    """What a crate takes by kind: as it was measured, or as is guessed of one that never was."""
    figures = known.get(name, {})
    proof = 0.0 if "tests" in figures else PROOF
    return {"proof": figures.get("proof", proof), "edits": figures.get("edits", EDIT * len(edits_of(name))), "tests": figures.get("tests", 0.0)}


def cost(commit: str) -> int:
    """`./check --gate [COMMIT]`."""
    changed, tried = changed_since(commit)
    anew = [it for it in uses() if it in changed or below(it) & changed]
    known = table()
    each = {name: minutes_of(name, known) for name in anew}
    sums = {kind: sum(it[kind] for it in each.values()) for kind in KINDS}
    sums["edits"] += sum(EDIT * len(edits_of(it)) for it in tried)
    if not anew and not tried:
        print("no crate differs, so nothing is proved anew but what each run of the gate proves")
        return 0
    print(f"changed: {' '.join(it for it in uses() if it in changed) or 'no source'}")
    if tried:
        print(f"only edits or data: {' '.join(it for it in uses() if it in tried)}")
    dear = sorted(((sum(it.values()), name) for name, it in each.items()), reverse=True)[:6]
    print(f"proved anew: {len(anew)} of {len(uses())} crates; the dearest: " + ", ".join(f"{name} {minutes:.0f}" for minutes, name in dear))
    guessed = sum(it not in known for it in anew)
    print(f"about {sum(sums.values()):.0f} processor minutes: {sums['proof']:.0f} of proofs, {sums['edits']:.0f} of edits, {sums['tests']:.0f} of tests and programs"
          + (f" ({guessed} crates were never measured, and count {PROOF} each)" if guessed else ""))
    print(f"the longest chain of proofs, one after another: {chain(anew, known):.0f} minutes")
    return 0


def chain(names: Collection[str], known: Table) -> float:
    """The minutes of the longest chain of proofs of these crates, each of which waits for those below it."""
    longest: dict[str, float] = {}
    for name in (it for it in uses() if it in names):
        own = known.get(name, {}).get("proof", PROOF)
        longest[name] = own + max((longest.get(it, 0.0) for it in below(name)), default=0.0)
    return max(longest.values(), default=0.0)


def processes(group: str) -> dict[str, tuple[str, str, float]]:
    """The checks that run below this process: for each its crate, its kind, and its processor seconds with its ended children."""
    parents: dict[str, str] = {}
    told: dict[str, tuple[str, str, float]] = {}
    for pid in filter(str.isdigit, os.listdir("/proc")):
        try:
            with open(f"/proc/{pid}/stat", encoding="ascii", errors="replace") as file:
                stat = file.read().rsplit(")", 1)[1].split()
            with open(f"/proc/{pid}/cmdline", encoding="utf-8", errors="replace") as file:
                words = file.read().split("\0")
            parents[pid] = stat[1]
            if "--crate-name" in words and os.path.basename(words[0]).startswith("rattle"):
                name = words[words.index("--crate-name") + 1]
                folder = os.readlink(f"/proc/{pid}/cwd")
                text = " ".join(words)
                kind = "edits" if "rt-edits-" in folder + text else "tests" if " --test" in text or name.endswith("_tests") else "proof"
                told[pid] = (name, kind, sum(map(int, stat[11:15])) / os.sysconf("SC_CLK_TCK"))
        except (OSError, IndexError):
            continue
    return {pid: it for pid, it in told.items() if is_below(pid, group, parents)}


def is_below(pid: str, group: str, parents: Mapping[str, str]) -> bool:
    """Whether a process is this one or descends from it."""
    while pid in parents:
        if pid == group:
            return True
        pid = parents[pid]
    return False


def measure(path: str, command: Sequence[str]) -> int:
    """`./check --measure LOG COMMAND..`: runs a command such as `rt ci` and writes what its checks take, as far as they are seen, to LOG."""
    last: dict[str, tuple[str, str, float]] = {}
    with subprocess.Popen(command, cwd=TOP) as ran:
        while ran.poll() is None:
            last.update(processes(str(ran.pid)))
            time.sleep(2)
    with open(path, "w", encoding="utf-8") as log:
        for name, kind, seconds in last.values():
            log.write(f"{name} {kind} {seconds:.1f}\n")
    return ran.returncode


def minutes_in(log: Iterable[str]) -> Table:
    """The minutes that the lines of a log come to, of the crates that there are."""
    found: Table = {}
    for name, kind, seconds in (it.split() for it in log if len(it.split()) == 3):
        if name in uses() and kind in KINDS:
            figures = found.setdefault(name, {})
            figures[kind] = figures.get(kind, 0.0) + float(seconds) / 60
    return found


def measured(path: str) -> int:
    """`./check --measured LOG`: takes what such a log says, lines of a crate, proof, edits or tests, and seconds, into the table."""
    with open(path, encoding="utf-8") as log:
        found = minutes_in(log)
    known = table()
    for name, figures in found.items():
        known.setdefault(name, {}).update(figures)
    head = [it for it in lines(TABLE) if it.startswith("#") and "last taken" not in it]
    head.append(f"# {len(found)} crates were last taken from a log on {datetime.date.today().isoformat()}, {os.cpu_count()} processors")
    with open(os.path.join(TOP, TABLE), "w", encoding="utf-8") as file:
        file.write("\n".join(head) + "\n")
        for name in (it for it in uses() if it in known):
            file.write(" ".join([name, *(f"{known[name][it]:.1f}" if it in known[name] else "-" for it in KINDS)]) + "\n")
    print(f"{TABLE}: {len(found)} crates are taken from {path}")
    return 0
