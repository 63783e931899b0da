"""What a kill adds: the outcomes of a question that none of the programs without it has."""

from __future__ import annotations

from collections.abc import Iterable, Mapping
from typing import NamedTuple

from tools.audit.asking import Answer
from tools.audit.questions import BESIDE, GOES_ON, INTERRUPT, KILL_TWO, Program, Question
from tools.litmus.outcomes import Listed, Outcome

BLOCKED = b"thread blocked indefinitely in an MVar operation"
OF_MAIN = b"uncaught exception in main"
ENDED, WAS_KILLED = "first: ends", "first: is killed"


class Seen(NamedTuple):
    """What is compared of an outcome: whether main comes to its end, waits for ever or fails; what was printed; and how it fails."""

    end: str
    lines: tuple[str, ...]
    failure: str

    def is_stuck(self) -> bool:
        return self.end == "waits"

    def without(self, name: str) -> Seen:
        """The same without the line about a thread."""
        return self._replace(lines=tuple(it for it in self.lines if not it.startswith(f"{name}: ")))


def seen(outcome: Outcome) -> Seen:
    """An outcome, as it is compared. What is printed behind a thread that waits for ever doesn't count."""
    lines = tuple(outcome.output.decode(errors="replace").splitlines())
    failures = [it for it in outcome.errors.splitlines() if it.startswith(OF_MAIN)]
    cut = next((number for number, it in enumerate(lines) if it.endswith(" waits for ever")), None)
    if outcome.end == "deadlock" or cut is not None or any(BLOCKED in it for it in failures):
        return Seen("waits", lines[:cut], "")
    if failures or outcome.end == "uncaught":
        return Seen("fails", lines, b"\n".join(failures).decode(errors="replace"))
    return Seen("ends", lines, "")


def all_seen(listed: Listed) -> dict[Seen, int]:
    """All of a list, each with the number of its first outcome."""
    found: dict[Seen, int] = {}
    for number, outcome in enumerate(listed.outcomes, 1):
        found.setdefault(seen(outcome), number)
    return found


class Finding(NamedTuple):
    """A question with outcomes that the kill adds, each with its number in the list."""

    question: Question
    odd: dict[Seen, int]

    def worst(self) -> Seen:
        """The one that is told: a call of main waits for ever, before main waits for a thread, and that before another result."""
        return min(self.odd, key=lambda it: (not it.is_stuck(), GOES_ON not in it.lines, len(it.lines), it))


def _of(programs: Iterable[Program], answers: Mapping[Program, Answer]) -> set[Seen]:
    found: set[Seen] = set()
    for it in programs:
        listed = answers[it].listed
        found |= set(all_seen(listed)) if listed else set()
    return found


def allowed(question: Question, answers: Mapping[Program, Answer]) -> tuple[set[Seen], set[Seen]]:
    """What may be seen where the killed call did nothing, and where it did all."""
    declined = set()
    if question.declined is not None:
        declined = {it._replace(lines=("second: ends", *it.lines)) for it in _of([question.declined], answers)}
    return _of(question.without, answers) | declined, _of(question.whole, answers) | declined


def odd_of(question: Question, listed: Listed, answers: Mapping[Program, Answer]) -> dict[Seen, int]:
    """The outcomes of a list of the question's program that the kill adds."""
    nothing, all_done = allowed(question, answers)
    found = all_seen(listed)
    if question.kind == BESIDE:
        is_odd = {it for it in found if it.is_stuck()} if not any(it.is_stuck() for it in nothing) else set()
    elif question.kind == INTERRUPT:
        is_odd = set()
        for it in found:
            may = all_done if ENDED in it.lines[:1] else nothing if WAS_KILLED in it.lines[:1] else nothing | all_done
            if it.without("first") not in may:
                is_odd.add(it)
    elif question.kind == KILL_TWO:
        may = {it.without("second") for it in nothing | all_done}
        is_odd = {it for it in found if it.without("second") not in may}
    else:
        is_odd = set(found) - nothing - all_done
    return {it: number for it, number in found.items() if it in is_odd}


def programs_of(question: Question) -> list[Program]:
    return [question.asked, *question.without, *question.whole, *([question.declined] if question.declined else [])]


class Verdict(NamedTuple):
    """What came of a question: what the kill adds, or why it is open."""

    question: Question
    odd: dict[Seen, int]
    why_open: str


def judge(question: Question, answers: Mapping[Program, Answer]) -> Verdict:
    for it in programs_of(question):
        answer = answers[it]
        if answer.is_open():
            return Verdict(question, {}, answer.why or f"there may be others: {answer.bound}")
    listed = answers[question.asked].listed
    assert listed is not None
    return Verdict(question, odd_of(question, listed, answers), "")
