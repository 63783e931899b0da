"""The words of tools/test-from-haskell, and what each part is called with."""

from __future__ import annotations

import argparse
from collections.abc import Callable, Sequence

from tools.from_haskell import edges, generated, libraries, mutants, programs, round_trip, sources, speed
from tools.from_haskell.rows import TOP
from tools.from_haskell.translator import Translator, built

# A part that can't be tried here is told so, and hasn't passed.
SKIPPED = 77


class Skipped(Exception):
    """Why a part can't be tried here."""


def try_programs(words: argparse.Namespace, translator: Translator) -> list[str]:
    return programs.try_programs(translator, words.names, words.ghc, words.jobs, words.write)


def try_edges(words: argparse.Namespace, translator: Translator) -> list[str]:
    return edges.try_edges(translator.program)


def try_calls(words: argparse.Namespace, translator: Translator) -> list[str]:
    try:
        return libraries.try_calls(translator, words.ghc, words.write)
    except sources.Missing as fault:
        raise Skipped(str(fault)) from None


def try_libraries(words: argparse.Namespace, translator: Translator) -> list[str]:
    try:
        return libraries.try_libraries(translator, words.names, words.ghc, words.write)
    except sources.Missing as fault:
        raise Skipped(str(fault)) from None


def try_generated(words: argparse.Namespace, translator: Translator) -> list[str]:
    return generated.try_generated(translator, words.number, words.seed, words.ghc, words.keep)


def try_round_trip(words: argparse.Namespace, translator: Translator) -> list[str]:
    return round_trip.try_round_trip(translator, words.names)


def try_mutants(words: argparse.Namespace, translator: Translator) -> list[str]:
    return mutants.try_mutants(words.searcher, words.numbers)


def try_speed(words: argparse.Namespace, translator: Translator) -> list[str]:
    return speed.try_speed(translator)


def read_words(words: Sequence[str]) -> argparse.Namespace:
    parser = argparse.ArgumentParser(prog="tools/test-from-haskell", description="Tries the translator of Haskell modules. It stands outside of the gate.")
    parser.add_argument("--translator", help="the program that translates; else from-haskell/build makes it")
    parser.add_argument("--searcher", default=str(TOP / "conc_run"), help="the program that lists outcomes")
    parts = parser.add_subparsers(dest="part", required=True, metavar="PART")

    def part(name: str, act: Callable[[argparse.Namespace, Translator], list[str]], text: str) -> argparse.ArgumentParser:
        found = parts.add_parser(name, help=text, description=text)
        found.set_defaults(act=act)
        return found

    def compared(found: argparse.ArgumentParser) -> argparse.ArgumentParser:
        found.add_argument("--ghc", type=int, default=0, metavar="N", help="runs each program N times by GHC")
        found.add_argument("--write", action="store_true", help="writes the rows as they came")
        return found

    found = compared(part("programs", try_programs, "from-haskell/test/programs, each against its row, and against runs by GHC"))
    found.add_argument("--jobs", type=int, default=2, metavar="N", help="so many programs at once")
    found.add_argument("names", nargs="*", help="programs; all, where none is named")
    part("edges", try_edges, "calls on files of their own")
    found = compared(part("libraries", try_libraries, "programs over libraries of Debian, in their unchanged source"))
    found.add_argument("names", nargs="*", help="programs; all, where none is named")
    compared(part("calls", try_calls, "single calls of the functions that libraries of Debian export"))
    found = part("generated", try_generated, "programs that are drawn at random")
    found.add_argument("--number", type=int, default=200, metavar="N", help="so many programs (else 200)")
    found.add_argument("--seed", type=int, default=1, metavar="N", help="the seed of the first one (else 1)")
    found.add_argument("--ghc", type=int, default=0, metavar="N", help="runs each program N times by GHC")
    found.add_argument("--keep", default="", metavar="FOLDER", help="keeps the programs in this folder")
    found = part("round-trip", try_round_trip, "the modules that are printed of scripts, as scripts again")
    found.add_argument("names", nargs="*", help="scripts; all, where none is named")
    found = part("mutants", try_mutants, "translators with a mistake, of which each has to be caught by a row")
    found.add_argument("numbers", nargs="*", type=int, help="their numbers; all, where none is named")
    part("speed", try_speed, "the time of a module of 500 lines")
    return parser.parse_args(words)


def main(words: Sequence[str]) -> int:
    """Tries a part; 1 where something is wrong, 77 where it can't be tried here."""
    asked = read_words(words)
    translator = Translator(asked.translator or built(), [asked.searcher])
    try:
        found: list[str] = asked.act(asked, translator)
    except Skipped as it:
        print(f"skipped: {it}")
        return SKIPPED
    for line in found:
        print(line)
    return 1 if found else 0
