"""From a module to the report of its audit."""

from __future__ import annotations

import itertools
import json
import os
import re
import shutil
import subprocess
import sys
import tempfile
import time
from collections.abc import Mapping, Sequence
from pathlib import Path
from typing import NamedTuple

from tools.audit import confirming, report, telling
from tools.audit.asking import Answer, Asker, Limits, NotTranslated, Tools
from tools.audit.grouping import Grouper
from tools.audit.judging import Finding, Verdict, judge, programs_of
from tools.audit.offers import NothingToAsk, Offer, read_offer
from tools.audit.pairs import named_pairs
from tools.audit.questions import ALWAYS, WHOLE, Part, Program, Question, Writer, questions_of
from tools.audit.trying import Behaviour, Trial, Untried, behaviour

NOTHING, NOT_UNDERSTOOD, REFUSED, OPEN, FOUND, UNREADABLE, UNBUILT = 0, 2, 3, 11, 14, 66, 70
REFUSAL = re.compile(r"(\S.*?):(\d+):\d+: error: \[[a-z-]+\] ?(.*)")
HEADER = re.compile(r"^[ \t>]*module\s+([A-Z][\w.']*)", re.MULTILINE)


class Stop(Exception):
    """Ends the audit with a status and a line."""

    def __init__(self, status: int, line: str) -> None:
        super().__init__(line)
        self.status = status


class Asked(NamedTuple):
    """What the words ask."""

    subject: str
    folders: tuple[str, ...]
    module_words: tuple[str, ...]
    kinds: tuple[str, ...]
    limits: Limits
    keep: str
    shows_all: bool
    confirms: int
    skipped: tuple[str, ...] = ()
    pairs: tuple[tuple[str, str], ...] = ()


def held(program: str, megabytes: int) -> list[str]:
    """The program's words, with the most addresses that it may have where these are held."""
    return ["sh", "-c", f"ulimit -v {megabytes * 1024}; exec \"$0\" \"$@\"", program] if megabytes else [program]


class Subject(NamedTuple):
    """The module that is asked about: its name, its file, and the folders of it and of what it imports."""

    module: str
    path: Path
    folders: tuple[str, ...]


def find_subject(asked: Asked) -> Subject:
    """The module of a name, or that of a file."""
    if asked.subject.endswith((".hs", ".lhs")):
        path = Path(asked.subject)
        if not path.is_file():
            raise Stop(UNREADABLE, f"there is no file {asked.subject}")
        header = HEADER.search(path.read_text(encoding="utf-8", errors="replace"))
        if header is None or header[1] == "Main":
            raise Stop(REFUSED, f"{asked.subject} is a program: an audit asks about what a module exports")
        levels = header[1].split(".")
        root = path.resolve().parents[len(levels) - 1] if list(path.resolve().with_suffix("").parts[-len(levels):]) == levels else path.resolve().parent
        return Subject(header[1], path, (str(root), *asked.folders))
    if not re.fullmatch(r"[A-Z][\w']*(\.[A-Z][\w']*)*", asked.subject):
        raise Stop(NOT_UNDERSTOOD, f"{asked.subject} is neither the name of a module nor a file that ends with .hs or .lhs")
    for folder, ending in itertools.product(asked.folders or (".",), ("hs", "lhs")):
        path = Path(folder, *asked.subject.split(".")).with_suffix(f".{ending}")
        if path.is_file():
            return Subject(asked.subject, path, asked.folders or (".",))
    raise Stop(UNREADABLE, f"there is no source of {asked.subject} below {' or '.join(asked.folders or ('.',))}; -iDIR names its folder")


class Progress:
    """How far it is, on a terminal."""

    def __init__(self) -> None:
        self.shows, self.last = sys.stderr.isatty(), 0.0

    def say(self, text: str, always: bool = False) -> None:
        if self.shows and (always or time.monotonic() - self.last > 0.2):
            self.last = time.monotonic()
            print(f"\r\x1b[Kconc_run: {text}", end="", file=sys.stderr, flush=True)

    def over(self) -> None:
        if self.shows:
            print("\r\x1b[K", end="", file=sys.stderr, flush=True)


def exports_of(translator: Sequence[str], path: Path) -> Mapping[str, object]:
    """What the module exports, by the translator. Where it is refused, its words are told."""
    done = subprocess.run([*translator, "--exports", "--", str(path)], capture_output=True, check=False)
    if done.returncode != 0:
        raise Stop(done.returncode if done.returncode > 0 else 1, done.stderr.decode(errors="replace").strip())
    found: Mapping[str, object] = json.loads(done.stdout)
    return found


class Audit:
    """An audit that goes on."""

    def __init__(self, asked: Asked, subject: Subject, tools: Tools, room: Path, progress: Progress) -> None:
        self.asked, self.subject, self.tools, self.room, self.progress = asked, subject, tools, room, progress

    def run(self) -> tuple[report.Report, Asker]:
        offer = read_offer(self.subject.module, exports_of(self.tools.translator, self.subject.path), self.asked.pairs, self.asked.skipped)
        asker = self.asker(offer)
        offer = self.translated(offer, asker)
        asker = self.asker(offer)
        behaviours = self.tried(offer)
        questions = [it for maker, found in behaviours.items() for it in questions_of(offer, maker, found, self.asked.kinds)]
        asker.ask(program for it in questions for program in programs_of(it))
        verdicts = [judge(it, asker.answers) for it in questions]
        told = self.told(verdicts, asker)
        folder = self.asked.keep or f"audit-{self.subject.module.rpartition('.')[2]}"
        for number, it in enumerate(told, 1):
            telling.write_files(Path(folder), number, it, asker.writer)
        confirmed = [self.confirmed(offer, behaviours, number, it, Path(folder)) for number, it in enumerate(told, 1)] if self.asked.confirms else []
        return report.Report(offer, behaviours, verdicts, told, confirmed, folder), asker

    def confirmed(self, offer: Offer, behaviours: Mapping[int, Behaviour], number: int, told: telling.Told, folder: Path) -> str:
        """How often GHC showed a finding."""
        self.progress.say(f"runs finding {number} by GHC", always=True)
        room = self.room / f"confirm{number}"
        room.mkdir()
        folders = [os.path.abspath(it) for it in self.subject.folders]
        return confirming.confirmed(offer, behaviours[told.finding.question.asked.maker], told, folders, folder, number, room, self.asked.confirms)

    def asker(self, offer: Offer) -> Asker:
        return Asker(self.tools, self.asked.limits, Writer(offer), self.room, lambda done, of: self.progress.say(f"{done} of {of} programs" if of else f"{done} programs translated"))

    def translated(self, offer: Offer, asker: Asker) -> Offer:
        """The offer without what isn't translated. Each call is asked alone first."""
        self.progress.say("translates each function", always=True)
        alone = {Program(0, Part((number,)), None, WHOLE, ()): number for number in range(len(offer.operations))}
        makers = {Program(number, None, None, WHOLE, ()): number for number in range(len(offer.makers))}
        answers = self.alone(asker, [*alone, *makers])
        bad = {number: answers[it].why for it, number in alone.items() if not answers[it].script}
        bad_makers = {number: answers[it].why for it, number in makers.items() if not answers[it].script}
        left_out = [*offer.left_out, *((offer.operations[number].name, _short(why)) for number, why in bad.items()),
                    *((offer.makers[number].name, _short(why)) for number, why in bad_makers.items())]
        offer = Offer(offer.module, offer.type_name, offer.type_text, [it for number, it in enumerate(offer.makers) if number not in bad_makers],
                      [it for number, it in enumerate(offer.operations) if number not in bad], offer.pairs, left_out)
        if not offer.makers or not offer.operations:
            raise NothingToAsk("nothing of it is translated: " + "; ".join(f"{name}: {why}" for name, why in left_out))
        return offer

    def alone(self, asker: Asker, programs: Sequence[Program]) -> dict[Program, Answer]:
        """Answers to programs of one call. Where GHC refuses the module of all, each is asked in a module of its own."""
        try:
            asker.ask(programs)
        except NotTranslated as fault:
            for it in programs:
                try:
                    asker.ask([it])
                except NotTranslated as own:
                    asker.answers[it] = Answer("", None, str(own).strip() or str(fault).strip(), "")
        return {it: asker.answers[it] for it in programs}

    def tried(self, offer: Offer) -> dict[int, Behaviour]:
        """What the operations do, by GHC, of each maker's value."""
        self.progress.say("tries calls by GHC", always=True)
        compiler = shutil.which("ghc")
        if compiler is None:
            raise Stop(UNBUILT, "there is no ghc: apt-get install ghc")
        pairs = named_pairs([it.name for it in offer.operations], offer.pairs)
        trial = Trial(compiler, offer, [os.path.abspath(it) for it in self.subject.folders], self.room)
        try:
            return {maker: behaviour(trial, maker, pairs) for maker in range(len(offer.makers))}
        finally:
            trial.close()

    def told(self, verdicts: Sequence[Verdict], asker: Asker) -> list[telling.Told]:
        """The findings, one for each cause."""
        self.progress.say("looks for causes", always=True)
        grouper = Grouper(asker.answers, asker.search, self.asked.limits.jobs, [it.question for it in verdicts if not it.why_open])
        groups = grouper.groups([Finding(it.question, it.odd) for it in verdicts if it.odd])
        return [telling.tell(it, asker) for it in groups]


def _short(why: str) -> str:
    """What a refusal says, and where."""
    lines = [it.strip() for it in why.splitlines() if it.strip()]
    refusal = REFUSAL.match(lines[0]) if lines else None
    if refusal is None:
        return lines[0] if lines else "it isn't translated"
    return f"{' '.join([refusal[3], *lines[1:2]]).strip()} ({os.path.basename(refusal[1])}:{refusal[2]})"


def audit(asked: Asked, tools: Tools) -> int:
    """Audits a module, prints the report, and answers the status."""
    progress = Progress()
    try:
        subject = find_subject(asked)
        translator = [*tools.translator, *(f"-i{it}" for it in subject.folders), *asked.module_words]
        with tempfile.TemporaryDirectory(prefix="audit-") as room:
            found, asker = Audit(asked, subject, tools._replace(translator=translator), Path(room), progress).run()
            progress.over()
            sys.stdout.write(report.text(found, asker.writer, asker.answers, asked.shows_all))
            sys.stdout.flush()
        return FOUND if found.told else OPEN if found.count_open() else NOTHING
    except Stop as it:
        progress.over()
        print(f"conc_run: {it}", file=sys.stderr)
        return it.status
    except (NothingToAsk, NotTranslated, Untried) as fault:
        progress.over()
        print(f"conc_run: {asked.subject}: {fault}", file=sys.stderr)
        return REFUSED
