"""One finding a cause. A cause is a function of the source without whose interruption the finding is gone.

A finding's script is searched again with one function in it under `uninterruptibleMask_`, and then the next one, those that call
the fewest others first. The first one that takes all odd outcomes away is the cause. Of further findings, those that are gone
with the causes that are known have one of these.
"""

from __future__ import annotations

import re
from collections.abc import Callable, Mapping, Sequence
from concurrent.futures import ThreadPoolExecutor
from typing import NamedTuple

from tools.audit.asking import Answer
from tools.audit.judging import Finding, all_seen, odd_of
from tools.audit.offers import Place
from tools.audit.questions import INTERRUPT, KILL, Program, Question
from tools.litmus.outcomes import Listed

PLACED = re.compile(r"^-- (\S+\.l?hs):(\d+)\n([a-z_][\w']*)\b(.*?)(?=^-- |^[a-z_][\w']* |\Z)", re.MULTILINE | re.DOTALL)
ACTION = re.compile(r"(.*?:: IO .*?= )\{(.*)\};\s*", re.DOTALL)
WORD = re.compile(r"[a-z_][\w']*")


class Definition(NamedTuple):
    """A definition of a script that is a function of the source."""

    name: str
    place: Place
    start: int
    end: int

    def text(self, script: str) -> str:
        return script[self.start:self.end]


class Cause(NamedTuple):
    """A function and its place, or no name where no single function is the cause. `ends_waits`: where it can't be interrupted,
    somebody who waits in it can't be killed any more."""

    name: str
    place: Place
    ends_waits: bool = False

    def is_known(self) -> bool:
        return bool(self.name)


class Group(NamedTuple):
    """The findings of one cause; the first is the one that is told."""

    cause: Cause
    findings: list[Finding]


def definitions(script: str) -> list[Definition]:
    """The actions of a script that have a place in the source."""
    found = []
    for it in PLACED.finditer(script):
        if ACTION.fullmatch(script[it.start(3):it.end()]):
            found.append(Definition(it[3], Place(it[1], int(it[2])), it.start(3), it.end()))
    return found


def hardened(script: str, places: Sequence[Place]) -> str:
    """The script in which the functions of these places can't be interrupted."""
    for it in reversed(definitions(script)):
        match = ACTION.fullmatch(it.text(script))
        if match and it.place in places:
            script = f"{script[:it.start]}{match[1]}{{ uninterruptibleMask_ {{{match[2]}}} }};\n{script[it.end:]}"
    return script


def candidates(script: str) -> list[Definition]:
    """A definition of each place, those that call the fewest others first."""
    found = list({it.place: it for it in reversed(definitions(script))}.values())
    calls = {it.name: set(WORD.findall(it.text(script))) & {other.name for other in found} - {it.name} for it in found}

    def below(name: str) -> set[str]:
        known: set[str] = set()
        waiting = [name]
        while waiting:
            for it in calls[waiting.pop()] - known:
                known.add(it)
                waiting.append(it)
        return known

    return sorted(found, key=lambda it: (len(below(it.name)), it.place))


def rank(finding: Finding, answers: Mapping[Program, Answer]) -> tuple[object, ...]:
    """What is told first: main waits for ever, one thread is killed, nobody is beside it, and the script is short."""
    asked = finding.question.asked
    kinds = (KILL, INTERRUPT)
    kind = kinds.index(finding.question.kind) if finding.question.kind in kinds else len(kinds)
    return (not finding.worst().is_stuck(), kind, asked.second is not None, len(answers[asked].script), asked)


class Grouper:
    """Finds the causes of findings. `alone` has the questions of one kill with nobody beside it."""

    def __init__(self, answers: Mapping[Program, Answer], search: Callable[[str], Answer], jobs: int, alone: Sequence[Question]) -> None:
        self.answers, self.search, self.jobs = answers, search, jobs
        self.alone = {(it.asked.maker, it.asked.first): it for it in alone if it.kind == KILL and it.asked.second is None}
        self.kept: dict[str, Answer] = {}

    def hardened_list(self, program: Program, places: Sequence[Place]) -> Listed | None:
        """The list of a program with these functions hardened, or None where none of them is in it or there is no list."""
        plain = self.answers[program].script
        script = hardened(plain, places)
        if script == plain:
            return None
        if script not in self.kept:
            self.kept[script] = self.search(script)
        return self.kept[script].listed

    def is_gone(self, finding: Finding, places: Sequence[Place]) -> bool:
        """Whether nothing of the finding is left with these functions hardened."""
        listed = self.hardened_list(finding.question.asked, places)
        return listed is not None and not odd_of(finding.question, listed, self.answers)

    def ends_waits(self, finding: Finding, place: Place) -> bool:
        """Whether a thread that is killed alone comes to something else with this function hardened."""
        asked = finding.question.asked
        for question in [self.alone[asked.maker, it] for it in (asked.first, asked.second) if (asked.maker, it) in self.alone]:
            plain, listed = self.answers[question.asked].listed, self.hardened_list(question.asked, [place])
            if plain is not None and listed is not None and not set(all_seen(listed)) <= set(all_seen(plain)):
                return True
        return False

    def cause_of(self, finding: Finding, known: Sequence[Place]) -> Cause:
        """The cause of a finding that isn't gone with the known ones hardened. A function in which nobody could be killed any more
        while he waits is one only where no other function is."""
        second: list[Cause] = []
        for it in candidates(self.answers[finding.question.asked].script):
            if it.place not in known and self.is_gone(finding, [*known, it.place]):
                if not self.ends_waits(finding, it.place):
                    return Cause(it.name, it.place)
                second.append(Cause(it.name, it.place, ends_waits=True))
        return second[0] if second else Cause("", Place("", 0))

    def groups(self, findings: Sequence[Finding]) -> list[Group]:
        """The findings by their causes, in the order in which they are told; last those that no function explains."""
        rest = sorted(findings, key=lambda it: rank(it, self.answers))
        found: list[Group] = []
        aside: list[Finding] = []
        known: list[Place] = []
        with ThreadPoolExecutor(self.jobs) as pool:
            while rest:
                cause = self.cause_of(rest[0], known)
                if not cause.is_known():
                    aside.append(rest.pop(0))
                    continue
                known.append(cause.place)
                gone = list(pool.map(lambda it: self.is_gone(it, known), rest))
                found.append(Group(cause, [it for it, is_gone in zip(rest, gone) if is_gone]))
                rest = [it for it, is_gone in zip(rest, gone) if not is_gone]
        return [*found, *unexplained(aside)]


def unexplained(findings: Sequence[Finding]) -> list[Group]:
    """Findings without a function that is their cause: together where the same calls are killed."""
    by_calls: dict[object, list[Finding]] = {}
    for it in findings:
        asked = it.question.asked
        by_calls.setdefault((asked.maker, asked.first, it.worst().end), []).append(it)
    return [Group(Cause("", Place("", 0)), these) for these in by_calls.values()]
