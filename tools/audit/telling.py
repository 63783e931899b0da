"""Of each cause what a person is told: the smallest program that shows it, its history, and how to see more."""

from __future__ import annotations

import html
import re
import subprocess
from collections.abc import Mapping
from pathlib import Path
from typing import NamedTuple

from tools.audit.asking import Answer, Asker, Tools
from tools.audit.grouping import Group
from tools.audit.judging import Finding, Seen, judge, programs_of
from tools.audit.questions import BOTH, GOES_ON, KILL_TWO, LIMIT, MASKED, Program, Question, Writer

TITLE = re.compile(r"<title>entry (\d+): (.*?)</title>")
DULL = re.compile(r"makes local steps|asks for its number|what its bracket guards|asks for a delay")
HIT = re.compile(r"(thread \d+) receives ThreadKilled from thread 0(?: while (?:it )?(.*))?")


class Told(NamedTuple):
    """A cause with the program that shows it, the number of the outcome, and the history of that."""

    group: Group
    finding: Finding
    script: str
    number: int
    history: str
    story: list[str]

    def outcome(self) -> Seen:
        return self.finding.worst()

    def hit(self) -> str:
        """Where the kill reaches the first thread, in words."""
        for it in self.story:
            match = HIT.fullmatch(it)
            if match:
                return match[2] or "it runs"
        return ""


def _stuck_unit(finding: Finding) -> tuple[tuple[int, ...], ...] | None:
    """The calls of main that wait for ever, or none where it hasn't come to any; None where it comes to its end."""
    worst, asked = finding.worst(), finding.question.asked
    if not worst.is_stuck():
        return None
    done = len(worst.without("first").without("second").lines)
    return asked.probe[done - 1:done] if done else ()


def _with_probe(question: Question, probe: tuple[tuple[int, ...], ...]) -> Question:
    """The question with fewer calls of main behind it."""
    def small(program: Program) -> Program:
        return program._replace(probe=probe)

    declined = small(question.declined) if question.declined else None
    return Question(question.kind, small(question.asked), tuple(map(small, question.without)), tuple(map(small, question.whole)), declined)


def smallest(group: Group, asker: Asker) -> Finding:
    """The first finding of a group, with only the calls of main that it needs."""
    finding = group.findings[0]
    probe = _stuck_unit(finding)
    if probe is None or probe == finding.question.asked.probe:
        return finding
    question = _with_probe(finding.question, probe)
    asker.ask(programs_of(question))
    verdict = judge(question, asker.answers)
    return Finding(question, verdict.odd) if verdict.odd and not verdict.why_open else finding


def run_on(tools: Tools, words: list[str], given: str) -> str:
    done = subprocess.run([*tools.searcher, *words], input=given.encode(), capture_output=True, env=tools.environment, check=False)
    return done.stdout.decode(errors="replace")


def story_of(tools: Tools, history: str) -> list[str]:
    """What happens in a history, a line for each entry that says something."""
    picture = run_on(tools, ["picture"], history)
    lines = sorted((int(number), html.unescape(text)) for number, text in TITLE.findall(picture))
    return [text for _, text in lines if not DULL.search(text)]


def tell(group: Group, asker: Asker) -> Told:
    """A cause with its smallest program and history."""
    finding = smallest(group, asker)
    answer: Answer = asker.answers[finding.question.asked]
    number = finding.odd[finding.worst()]
    history = run_on(asker.tools, ["outcomes", "--states", str(asker.limits.states), "--witness", str(number)], answer.script)
    return Told(group, finding, answer.script, number, history, story_of(asker.tools, history))


def happening(question: Question, writer: Writer) -> str:
    """What the question does, in a sentence."""
    asked = question.asked
    assert asked.first is not None
    first = f"`{writer.short_part(asked.first)}`"
    second = f"`{writer.short_part(asked.second)}`" if asked.second else ""
    if question.kind == KILL_TWO:
        return f"A thread in {first} is killed, and then another one in {second}."
    beside = f" beside another one in {second}" if second else ""
    done = {MASKED: f"is killed under a mask{beside}", LIMIT: f"comes to its time limit{beside}", BOTH: ""}.get(asked.how, f"is killed{beside}")
    if asked.first.throws:
        done = f"ends by an exception of the action{beside}"
    if asked.how == "whole" and not asked.first.throws:
        done = f"runs{beside}"
    return f"A thread in {first} {done}."


def result(told: Told, writer: Writer) -> str:
    """What comes of it, in a sentence."""
    seen, asked = told.outcome(), told.finding.question.asked
    if seen.is_stuck():
        unit = _stuck_unit(told.finding)
        if not unit:
            return "Then main waits for the second thread for ever." if asked.second else "Then main waits for ever."
        return f"Then `{writer.names(unit[0])}` of main may wait for ever."
    lines = [it for it in seen.lines if it != GOES_ON]
    printed = "; ".join([*lines, seen.failure] if seen.failure else lines)
    return f"Then main may print what no order of whole calls gives: {printed}"


def write_files(folder: Path, number: int, told: Told, writer: Writer) -> None:
    """The program, as Haskell and as script, and its history in words."""
    folder.mkdir(parents=True, exist_ok=True)
    module = writer.module({"main": told.finding.question.asked}, "Main").replace("module Main where", "module Main (main) where")
    (folder / f"{number}.hs").write_text(module, encoding="utf-8")
    (folder / f"{number}.conc").write_text(told.script, encoding="utf-8")
    (folder / f"{number}.txt").write_text("".join(f"{it}\n" for it in told.story), encoding="utf-8")


def counts(groups: Mapping[str, int]) -> str:
    return ", ".join(f"{count} {name}" for name, count in groups.items() if count)
