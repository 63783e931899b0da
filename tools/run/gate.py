"""./conc_run test: all that the gate does, or the rows alone."""

from __future__ import annotations

import glob
import os
import re
import time

from tools.crates import TOP, uses
from tools.run.background import Work, open_log
from tools.run.building import last_lines, need_kept, need_rt
from tools.run.programs import KEPT
from tools.run.reading import NOT_UNDERSTOOD
from tools.run.saying import Progress, Refused, cannot_build, put, say, tell

TYPE_CHECKING = False
if TYPE_CHECKING:
    from typing import NoReturn

# Lines of `rt ci` that tell of something wrong.
WRONG = re.compile(r"NOT PROVED|NOT REFUSED|NOT TRIED|BAD EDIT|FAILED|, and not [0-9]+; it said:"
                   r"|is not what its file stdout has|had not ended after|was stopped by signal")
DONE = re.compile(r"rt: [a-z0-9_]+ (proved$|NOT PROVED|is kept:)")
BEGUN = re.compile(r"rt: [a-z0-9_]+: trying its must-fail edits.*\(([0-9]+)")
TOLD = re.compile(r"must-fail [a-z0-9_]+/.*: (refused|NOT REFUSED|NOT TRIED|BAD EDIT)")
RAN = re.compile(r"rt: [a-z0-9_]+: its tests (passed|FAILED)")
TEST = re.compile(r"^ *#\[test\]", re.M)


class Gate:
    """What there is to do: crates, wrong bodies, and crates with tests."""

    def __init__(self, crates: int, edits: int, tests: int) -> None:
        self.crates, self.edits, self.tests = crates, edits, tests

    def at(self, lines: list[str]) -> str:
        """What is done by now, from the lines of `rt ci`. It says of a crate when its edits begin and how many they are; of each
        edit only at the end."""
        done = sum(1 for it in lines if DONE.match(it))
        begun = sum(int(it[1]) for it in map(BEGUN.match, lines) if it)
        told = sum(1 for it in lines if TOLD.search(it))
        ran = sum(1 for it in lines if RAN.match(it))
        edits = f"edits {told} of {self.edits}" if told else f"edits {begun} of {self.edits} begun"
        return f"crates {done} of {self.crates}, {edits}, tests {ran} of {self.tests}"


def _has_tests(crate: str) -> bool:
    for path in glob.glob(os.path.join(TOP, "crates", crate, "src", "**", "*.rt"), recursive=True):
        with open(path, encoding="utf-8", errors="replace") as file:
            if TEST.search(file.read()):
                return True
    return False


def count_gate() -> Gate:
    folders = os.listdir(os.path.join(TOP, "crates"))
    edits = glob.glob(os.path.join(TOP, "crates", "**", "must-fail", "*.edit"), recursive=True)
    return Gate(len(uses()), len(edits), sum(map(_has_tests, folders)))


class Log:
    """The lines of a log by now, and how many of those that tell of something wrong were told."""

    def __init__(self, path: str) -> None:
        self.path, self.told = path, 0

    def lines(self) -> list[str]:
        with open(self.path, encoding="utf-8", errors="replace") as file:
            return file.read().split("\n")

    def tell_wrong(self, progress: Progress) -> list[str]:
        lines = self.lines()
        wrong = [it for it in lines if WRONG.search(it)]
        if len(wrong) > self.told:
            progress.over()
            tell("".join(f"{it}\n" for it in wrong[self.told:]))
            self.told = len(wrong)
        return lines


def run_tests(words: list[str]) -> int:
    if words == ["test"]:
        return run_gate()
    if words == ["test", "--quick"]:
        run_rows()
    raise Refused(NOT_UNDERSTOOD, "test takes --quick or nothing")


def run_rows() -> NoReturn:
    check = os.path.join(TOP, "check")
    if not os.access(check, os.X_OK):
        raise cannot_build("there is no ./check here, which tries the rows")
    say("tries the rows that end within a second: about a minute, and two more where the program has to be built")
    from tools.run import signals
    signals.restore()
    os.execv(check, [check, "--rows"])


def run_gate() -> int:
    path = os.path.join(KEPT, "test.log")
    rt = need_rt("prove and to test")
    need_kept()
    told, log = open_log(path), Log(path)
    gate = count_gate()
    say(f"proves {gate.crates} crates, tries {gate.edits} wrong bodies and runs the tests of {gate.tests} crates: from nothing about two hours on four\n"
        "  processors; what passed on this machine before is not proved again. ./conc_run test --quick tries the rows alone, in minutes")
    progress = Progress()
    with Work([rt, "ci"], TOP, 0, told) as work:
        while work.is_running():
            progress.show(gate.at(log.tell_wrong(progress)))
            time.sleep(1 if progress.seconds > 2 else 0.1)
    progress.over()
    log.tell_wrong(progress)
    put(last_lines(path, 2))
    status = work.status or 0
    say(f"ended with status {status} after {progress.seconds} s; the whole of it is in {path}")
    return status
