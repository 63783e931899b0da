"""Asks programs: many are translated in one session of GHC, alike scripts are searched once, and several at the same time."""

from __future__ import annotations

import re
import subprocess
import threading
from collections.abc import Callable, Iterable, Iterator, Sequence
from concurrent.futures import Future, ThreadPoolExecutor
from pathlib import Path
from typing import NamedTuple

from tools.audit.questions import Program, Writer
from tools.litmus.outcomes import Listed, Unreadable, read_list

REFUSED, WITH_LIST = 3, (0, 11)
# So many programs are translated in the time that a session of GHC takes to begin.
FEW_PROGRAMS = 40
SECTION = re.compile(r"=== question(\d+) (\d+)\n")
# The places of the module of the questions, which differ between questions that are alike.
OWN_PLACE = re.compile(r"^-- Questions\d*\.hs:\d+\n", re.MULTILINE)
MODULE_ERROR = re.compile(r"^\S*Questions\d*\.hs:(\d+):", re.MULTILINE)


class NotTranslated(Exception):
    """GHC refuses the module of the questions, with what it told. `lines` are those of that module which it names."""

    def __init__(self, told: str) -> None:
        super().__init__(told)
        self.lines = [int(it) for it in MODULE_ERROR.findall(told)]


class Answer(NamedTuple):
    """What came of a program: its script and list, or why it has none; and which bound was met, if one was."""

    script: str
    listed: Listed | None
    why: str
    bound: str

    def is_open(self) -> bool:
        return self.listed is None or bool(self.bound)


class Limits(NamedTuple):
    """The most states and seconds of a search, and how many go on at the same time."""

    states: int
    seconds: float
    jobs: int


class Tools(NamedTuple):
    """The translator with its words, the program that searches with its words, and the environment of that."""

    translator: Sequence[str]
    searcher: Sequence[str]
    environment: dict[str, str]


class Asker:
    """Asks programs, and keeps what came of them."""

    def __init__(self, tools: Tools, limits: Limits, writer: Writer, room: Path, progress: Callable[[int, int], None]) -> None:
        self.tools, self.limits, self.writer, self.room = tools, limits, writer, room
        self.progress = progress
        self.answers: dict[Program, Answer] = {}
        self.lists: dict[str, Future[Answer]] = {}
        self.lock = threading.Lock()
        self.searches = 0
        self.running: set[subprocess.Popen[bytes]] = set()

    def search(self, script: str) -> Answer:
        """The list of a script."""
        words = [*self.tools.searcher, "outcomes", "--states", str(self.limits.states)]
        with subprocess.Popen(words, stdin=subprocess.PIPE, stdout=subprocess.PIPE, stderr=subprocess.PIPE, env=self.tools.environment) as started:
            self.running.add(started)
            try:
                output, errors = started.communicate(script.encode(), timeout=self.limits.seconds)
            except subprocess.TimeoutExpired:
                started.kill()
                started.communicate()
                return Answer(script, None, f"its search takes more than {self.limits.seconds:g} seconds", "seconds")
            finally:
                self.running.discard(started)
        if started.returncode not in WITH_LIST:
            last = (errors.decode(errors="replace").strip().splitlines() or [f"status {started.returncode}"])[-1]
            return Answer(script, None, last, "memory" if last == "out of memory" else "script")
        try:
            listed = read_list(output)
        except Unreadable as fault:
            return Answer(script, None, str(fault), "script")
        return Answer(script, listed, "", "" if listed.is_complete() else listed.others.rpartition(": ")[2])

    def searched(self, pool: ThreadPoolExecutor, script: str) -> Future[Answer]:
        """The list of a script, which is searched once for all that are alike."""
        with self.lock:
            if script not in self.lists:
                self.lists[script] = pool.submit(self.search, script)
                self.searches += 1
            return self.lists[script]

    def ask(self, programs: Iterable[Program]) -> None:
        """Asks all of these that weren't asked yet."""
        asked = [it for it in dict.fromkeys(programs) if it not in self.answers]
        if not asked:
            return
        numbered = list(enumerate(asked))
        jobs = min(self.limits.jobs, (len(asked) + FEW_PROGRAMS - 1) // FEW_PROGRAMS)
        waiting: dict[Program, Future[Answer]] = {}
        with ThreadPoolExecutor(self.limits.jobs) as pool, ThreadPoolExecutor(jobs) as translators:
            try:
                parts = [translators.submit(self.translate, pool, dict(numbered[job::jobs]), waiting) for job in range(jobs)]
                for part in parts:
                    part.result()
                for count, (program, future) in enumerate(waiting.items()):
                    self.progress(count, len(asked))
                    self.answers[program] = future.result()
            except BaseException:
                self.stop()
                pool.shutdown(wait=False, cancel_futures=True)
                raise

    def stop(self) -> None:
        for it in list(self.running):
            it.kill()

    def translate(self, pool: ThreadPoolExecutor, part: dict[int, Program], waiting: dict[Program, Future[Answer]]) -> None:
        """Translates some programs in one session of GHC, and has each searched as soon as its script is there."""
        name = f"Questions{min(part)}"
        path = self.room / f"{name}.hs"
        path.write_text(self.writer.module({f"question{number}": it for number, it in part.items()}, name), encoding="utf-8")
        told = self.room / f"{name}.told"
        with told.open("wb") as errors:
            words = [*self.tools.translator, "--each", "question", "--", str(path)]
            with subprocess.Popen(words, stdin=subprocess.DEVNULL, stdout=subprocess.PIPE, stderr=errors) as started:
                self.running.add(started)
                assert started.stdout is not None
                for number, status, text in _sections(line.decode(errors="replace") for line in started.stdout):
                    program = part[number]
                    if status == 0:
                        waiting[program] = self.searched(pool, OWN_PLACE.sub("", text))
                    else:
                        self.answers[program] = Answer("", None, text.strip(), "" if status == REFUSED else "script")
                    self.progress(len(waiting), 0)
                self.running.discard(started)
        if started.returncode != 0:
            raise NotTranslated(told.read_text(encoding="utf-8", errors="replace"))


def _sections(lines: Iterable[str]) -> Iterator[tuple[int, int, str]]:
    """The number, the status and the text of each section of what the translator writes."""
    head: tuple[int, int] | None = None
    text: list[str] = []
    for line in lines:
        match = SECTION.fullmatch(line)
        if match is None:
            text.append(line)
            continue
        if head is not None:
            yield (*head, "".join(text))
        head, text = (int(match[1]), int(match[2])), []
    if head is not None:
        yield (*head, "".join(text))
