"""The report: a line that says it all, a finding for each cause, what is expected, what wasn't asked, and on demand all questions."""

from __future__ import annotations

import os
from collections import Counter
from collections.abc import Mapping, Sequence
from typing import NamedTuple

from tools.audit.asking import Answer
from tools.audit.judging import Verdict, all_seen
from tools.audit.offers import Offer
from tools.audit.questions import Program, Writer
from tools.audit.telling import Told, happening, result
from tools.audit.trying import Behaviour


class Report(NamedTuple):
    """All that an audit has come to."""

    offer: Offer
    behaviours: Mapping[int, Behaviour]
    verdicts: Sequence[Verdict]
    told: Sequence[Told]
    confirmed: Sequence[str]
    folder: str

    def count_open(self) -> int:
        return sum(bool(it.why_open) for it in self.verdicts)


def _many(count: int, one: str, more: str) -> str:
    return f"{count} {one if count == 1 else more}"


def cause_name(told: Told, writer: Writer) -> str:
    """The function that is the cause, by its name in the source, or the calls that are killed."""
    cause, first = told.group.cause, told.finding.question.asked.first
    if cause.is_known():
        own = {it.place: it.name for it in writer.offer.operations}
        by_file = {(os.path.basename(place.file), place.line): name for place, name in own.items()}
        return by_file.get((os.path.basename(cause.place.file), cause.place.line)) or cause.name.rstrip("0123456789")
    return writer.names(first.calls) if first else "?"


def first_line(report: Report, writer: Writer) -> str:
    """How many questions were asked, and which functions are the causes of what was found."""
    name = report.offer.module.rpartition(".")[2]
    parts = [_many(len(report.verdicts), "question", "questions")]
    causes = list(dict.fromkeys(cause_name(it, writer) for it in report.told))
    if not causes:
        parts.append("nothing found")
    else:
        stuck = any(it.outcome().is_stuck() for it in report.told)
        what = "may leave later calls waiting for ever" if stuck else "may leave a result that no whole call gives"
        parts.append(f"{_many(len(causes), 'function', 'functions')} that {what} when killed: {', '.join(causes)}")
    if report.count_open():
        parts.append(f"{report.count_open()} open")
    return f"{name}: {', '.join(parts)}"


def finding_lines(number: int, told: Told, report: Report, writer: Writer) -> list[str]:
    """A finding, for a person."""
    cause = told.group.cause
    name = cause_name(told, writer)
    at = f" ({cause.place.text()})" if cause.is_known() else ""
    lines = [f"{number}. {name}{at}", f"   {happening(told.finding.question, writer)}", f"   {result(told, writer)}"]
    if told.hit():
        lines.append(f"   The kill reaches the thread while it {told.hit()}.")
    if cause.is_known():
        but = ", but then nothing ends a wait in it" if cause.ends_waits else ""
        lines.append(f"   With `uninterruptibleMask_` round the body of {name} this is gone{but}.")
    others = Counter(writer.part_name(it.question.asked.first) for it in told.group.findings if it.question.asked.first)
    names = ", ".join(f"{name} ({count})" for name, count in others.most_common(6))
    lines.append(f"   {_many(len(told.group.findings), 'question comes', 'questions come')} to this; killed: {names}{', ..' if len(others) > 6 else ''}")
    at = f"{report.folder}/{number}"
    lines.append(f"   The program: {at}.hs, as a script {at}.conc; what happens, line by line: {at}.txt")
    lines.append(f"   As a picture: ./conc_run outcomes --witness {told.number} {at}.conc | ./conc_run picture > {at}.svg")
    lines += [f"   {report.confirmed[number - 1]}"] if number <= len(report.confirmed) else []
    return lines


def expected(report: Report, writer: Writer, answers: Mapping[Program, Answer]) -> list[str]:
    """Calls after which, killed or whole, main may wait: nobody takes them back."""
    found: Counter[str] = Counter()
    for it in report.verdicts:
        answer = answers.get(it.question.asked)
        if it.odd or it.why_open or answer is None or answer.listed is None or it.question.asked.second is not None:
            continue
        first = it.question.asked.first
        if first is not None and any(seen.is_stuck() for seen in all_seen(answer.listed)):
            found[writer.part_name(first)] += 1
    if not found:
        return []
    return ["Expected: main may wait behind these, whether they are killed or not: " + ", ".join(found)]


def _beside(report: Report, writer: Writer) -> list[str]:
    """What the questions rest on: the makers, the pairs, and what leaves no trace."""
    lines = [f"Of {report.offer.type_name}: {_many(len(report.offer.operations), 'operation', 'operations')}, made by "
             + ", ".join(report.offer.makers[it].name for it in report.behaviours)]
    pairs = dict.fromkeys(writer.names(it) for found in report.behaviours.values() for it in found.pairs)
    lines.append("Pairs: " + (", ".join(pairs) or "none; a comment `-- audit: acquire; release` names one"))
    for name, why in report.offer.left_out:
        lines.append(f"Not asked: {name}: {why}")
    return lines


def open_lines(report: Report) -> list[str]:
    reasons = Counter(it.why_open.splitlines()[0] for it in report.verdicts if it.why_open)
    return [f"Open: {_many(count, 'question', 'questions')}: {why}" for why, count in reasons.most_common()]


def table(report: Report, writer: Writer, answers: Mapping[Program, Answer]) -> list[str]:
    """All questions, each with what came of it."""
    lines = []
    for it in report.verdicts:
        maker = report.offer.makers[it.question.asked.maker].name
        listed = answers[it.question.asked].listed if it.question.asked in answers else None
        came = f"open: {it.why_open.splitlines()[0]}" if it.why_open else "FOUND" if it.odd else "as without the kill"
        count = f", {_many(len(listed.outcomes), 'outcome', 'outcomes')}" if listed else ""
        lines.append(f"  [{maker}] {happening(it.question, writer)} {came}{count}")
    return lines


def text(report: Report, writer: Writer, answers: Mapping[Program, Answer], shows_all: bool) -> str:
    lines = [first_line(report, writer)]
    for number, it in enumerate(report.told, 1):
        lines += ["", *finding_lines(number, it, report, writer)]
    lines += ["", *expected(report, writer, answers), *open_lines(report), *_beside(report, writer)]
    if shows_all:
        lines += ["", "All questions:", *table(report, writer, answers)]
    return "\n".join(lines) + "\n"
