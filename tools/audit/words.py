"""The words of the command, as what is asked."""

from __future__ import annotations

import argparse
import math
from collections.abc import Sequence

from tools.audit.asking import Limits
from tools.audit.command import Asked
from tools.audit.questions import ALWAYS, ON_DEMAND
from tools.run.saying import CALL

STATES, SECONDS, RUNS = 300_000, 60.0, 1000


def number_above_zero(word: str) -> int:
    if not word.isdecimal() or int(word) == 0:
        raise argparse.ArgumentTypeError(f"not a number above 0: {word}")
    return int(word)


def seconds_above_zero(word: str) -> float:
    try:
        seconds = float(word)
    except ValueError:
        seconds = 0.0
    if not (math.isfinite(seconds) and seconds > 0):
        raise argparse.ArgumentTypeError(f"not a number of seconds above 0: {word}")
    return seconds


def processors() -> int:
    import os
    return len(os.sched_getaffinity(0))


def parser() -> argparse.ArgumentParser:
    found = argparse.ArgumentParser(
        prog=f"{CALL} audit",
        add_help=False,
        allow_abbrev=False,
        description="Asks of each function that a Haskell module exports what a kill in it leaves behind.",
        epilog="Status 0: nothing was found; 14: something was; 11: nothing was, and some question is open.",
    )
    found.add_argument("subject", metavar="MODULE", help="the name of a module below the folders of -i, or a file that ends with .hs")
    found.add_argument("--all", action="store_true", help="a line for every question")
    found.add_argument("--confirm", action="store_true", help="runs a program for each finding by GHC many times, over the unchanged module")
    found.add_argument("--runs", type=number_above_zero, default=RUNS, help=f"with --confirm, so many rounds (else {RUNS})")
    found.add_argument("--skip", action="append", default=[], metavar="F", help="asks nothing of this function")
    found.add_argument("--pair", action="append", default=[], metavar="F/G", help="G takes back what F does")
    found.add_argument("--also", action="append", default=[], choices=ON_DEMAND, help="further kinds of questions")
    found.add_argument("--states", type=number_above_zero, default=STATES, help=f"the most states of a search (else {STATES})")
    found.add_argument("--seconds", type=seconds_above_zero, default=SECONDS, help=f"the most seconds of a search (else {SECONDS:g})")
    found.add_argument("--jobs", type=number_above_zero, default=processors(), help="how many go on at the same time (else as many as there are processors)")
    found.add_argument("--keep", default="", metavar="DIR", help="where the programs of the findings go (else audit-NAME)")
    return found


def read(words: Sequence[str], module_words: Sequence[str]) -> Asked:
    """What the words ask. Words that aren't understood end this with status 2."""
    reader = parser()
    found = reader.parse_intermixed_args(list(words))
    folders = [part for it in module_words if it.startswith("-i") for part in it[2:].split(":") if part]
    others = [it for it in module_words if not it.startswith("-i")]
    if any(it.startswith("--main") for it in others):
        reader.error("--main is for one action; an audit asks about all functions")
    pairs = []
    for it in found.pair:
        first, slash, second = it.partition("/")
        if not (first and slash and second):
            reader.error(f"--pair takes two functions, as acquire/release: {it}")
        pairs.append((first, second))
    limits = Limits(found.states, found.seconds, found.jobs)
    return Asked(found.subject, tuple(folders), tuple(others), (*ALWAYS, *found.also), limits, found.keep, found.all,
                 found.runs if found.confirm else 0, tuple(found.skip), tuple(pairs))
