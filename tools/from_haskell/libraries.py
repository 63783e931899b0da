"""Programs over libraries in their unchanged source, and single calls of the functions that these export."""

from __future__ import annotations

import re
import tempfile
from collections import Counter
from collections.abc import Sequence
from pathlib import Path
from typing import NamedTuple

from tools.from_haskell.beside_ghc import beside, shown_by_ghc
from tools.from_haskell.rows import PACKAGE, Row, read_rows, write_rows
from tools.from_haskell.sources import Source, base_folder, library_folders
from tools.from_haskell.translator import Translator
from tools.litmus.outcomes import Outcome
from tools.litmus.programs import Question

CALLS = PACKAGE / "test" / "calls"
PROGRAMS = PACKAGE / "test" / "libraries"
ROWS = PACKAGE / "test" / "library-rows"
OF_BASE = "Library: base"
CAUSE = re.compile(r"refused \[([a-z-]+)\] (.*)")


class Libraries(NamedTuple):
    """The sources, and the folders of their modules: those of libraries, and with base's own before them."""

    sources: list[Source]
    folders: list[str]
    folders_of_base: list[str]


def libraries() -> Libraries:
    found, folders = library_folders()
    base, own = base_folder()
    return Libraries([*found, base], folders, [own, *folders])


class Call(NamedTuple):
    """A call: its module, what makes the value, the call, and the cause of its refusal, or nothing."""

    module: str
    maker: str
    call: str
    cause: str

    def text(self, name: str) -> str:
        """A module of this name that does the call in a thread which is killed."""
        return (f"module {name} (main) where\n\nimport Control.Concurrent (forkIO, killThread)\nimport qualified {self.module} as M\n\n"
                f"main :: IO ()\nmain = do\n  x <- {self.maker}\n  t <- forkIO ({self.call})\n  killThread t\n  putStrLn \"end\"\n")

    def is_of_base(self) -> bool:
        return self.module.rpartition(".")[2] in ("QSem", "Chan")


def read_calls() -> list[Call]:
    found: list[Call] = []
    module = maker = ""
    for line in CALLS.read_text(encoding="utf-8").splitlines():
        if line.startswith("  "):
            refused = CAUSE.fullmatch(line.strip())
            found.append(Call(module, maker, refused[2] if refused else line.strip(), refused[1] if refused else ""))
        elif line and not line.startswith("#"):
            module, maker = line.split(" = ", 1)
    return found


def write_calls(calls: Sequence[Call]) -> None:
    """Writes the table with the causes of these calls."""
    head = [it for it in CALLS.read_text(encoding="utf-8").splitlines() if it.startswith("#")]
    lines, last = head, ""
    for call in calls:
        if call.module != last:
            lines += ["", f"{call.module} = {call.maker}"]
            last = call.module
        lines.append("  " + (f"refused [{call.cause}] " if call.cause else "") + call.call)
    CALLS.write_text("\n".join(lines) + "\n", encoding="utf-8")


def try_module(translator: Translator, calls: Sequence[Call], folders: Sequence[str], runs: int, room: Path) -> tuple[list[Call], list[str], int]:
    """The calls of a module as they came, what is wrong, and how often GHC ran them."""
    came: list[Call] = []
    wrong: list[str] = []
    asked: list[tuple[Call, Question, set[Outcome]]] = []
    for number, call in enumerate(calls, 1):
        name = f"Call{number}"
        path = room / f"{name}.hs"
        path.write_text(call.text(name), encoding="utf-8")
        translation = translator.translate(path.name, [f"-i{':'.join(folders)}"], room)
        cause = translation.cause()
        came.append(call._replace(cause=cause))
        if cause != call.cause or (translation.status and not cause):
            wrong.append(f"{call.module}: {call.call}: {translation.told.strip() or 'translated, and its row says ' + call.cause}")
        if translation.status == 0:
            listed = translator.search(translation.script)
            if isinstance(listed, str) or not listed.is_complete():
                wrong.append(f"{call.module}: {call.call}: {listed if isinstance(listed, str) else listed.others}")
            else:
                asked.append((call, Question(path), set(listed.outcomes)))
    count = 0
    if runs and asked:
        shown = shown_by_ghc([question for _, question, _ in asked], folders, runs)
        if isinstance(shown, str):
            return came, [*wrong, shown], 0
        for (call, _, outcomes), it in zip(asked, shown):
            found = beside(it, outcomes, set())
            count += it.runs()
            if found.outside:
                wrong.append(f"{call.module}: {call.call}: GHC showed what isn't listed: {found.outside}")
    return came, wrong, count


def try_calls(translator: Translator, runs: int, writes: bool) -> list[str]:
    """What is wrong with the calls of exported functions."""
    there = libraries()
    for source in there.sources:
        print(source.line())
    calls, count = read_calls(), 0
    came: list[Call] = []
    wrong: list[str] = []
    for module in dict.fromkeys(it.module for it in calls):
        these = [it for it in calls if it.module == module]
        folders = there.folders_of_base if these[0].is_of_base() else there.folders
        with tempfile.TemporaryDirectory(prefix="calls-") as room:
            found, problems, ran = try_module(translator, these, folders, runs, Path(room))
        came, wrong, count = came + found, wrong + problems, count + ran
        print(f"{module}: {sum(not it.cause for it in found)} of {len(found)} translated, {ran} runs by GHC", flush=True)
    causes = Counter(it.cause for it in came if it.cause)
    told = ", ".join(f"{number} {cause}" for cause, number in causes.most_common())
    print(f"{len(came)} calls, {len(came) - sum(causes.values())} translated; refused: {told or 'none'}; {count} runs by GHC; {len(wrong)} wrong")
    if writes:
        write_calls(came)
    return wrong


def try_program(translator: Translator, row: Row, there: Libraries, runs: int) -> tuple[Row, str, int]:
    """A program over a library as it came, what is wrong, and how often GHC ran it."""
    path = PROGRAMS / f"{row.name}.hs"
    folders = there.folders_of_base if OF_BASE in path.read_text(encoding="utf-8") else there.folders
    translation = translator.translate(path.name, [f"-i{':'.join(folders)}", *row.options], PROGRAMS)
    lines = translator.lines_of(translation)
    came = row._replace(lines=lines)
    if lines != row.lines:
        return came, f"{row.name}: came to {lines}, and its row says {row.lines}", 0
    if not runs or not row.is_translated():
        return came, "", 0
    shown = shown_by_ghc([Question(path)], folders, runs)
    if isinstance(shown, str):
        return came, f"{row.name}: {shown}", 0
    found = beside(shown[0], row.listed(), set(row.explained()))
    print(f"{row.name}: {found.line()}", flush=True)
    return came, f"{row.name}: GHC showed what isn't listed: {found.outside}" if found.outside else "", shown[0].runs()


def try_libraries(translator: Translator, names: Sequence[str], runs: int, writes: bool) -> list[str]:
    """What is wrong with the programs over libraries."""
    there = libraries()
    for source in there.sources:
        print(source.line())
    rows = {row.name: row for row in read_rows(ROWS.read_text(encoding="utf-8"))} if ROWS.exists() else {}
    asked = [rows.get(path.stem, Row(path.stem, (), ())) for path in sorted(PROGRAMS.glob("*.hs")) if not names or path.stem in names]
    tried = [try_program(translator, row, there, runs) for row in asked]
    count, wrong = sum(it[2] for it in tried), [it[1] for it in tried if it[1]]
    print(f"{len(tried)} programs, {sum(row.is_translated() for row, _, _ in tried)} translated; {count} runs by GHC; {len(wrong)} wrong")
    if writes:
        ROWS.write_text(write_rows({**rows, **{row.name: row for row, _, _ in tried}}.values()), encoding="utf-8")
    return wrong
