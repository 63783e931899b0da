"""The small programs that are asked: which are made of a module's operations, and their text."""

from __future__ import annotations

import re
from collections.abc import Mapping, Sequence
from typing import NamedTuple

from tools.audit.offers import Offer
from tools.audit.trying import Behaviour

# What may be done to the first thread, or to both.
WHOLE, KILLED, MASKED, BOTH, LIMIT = "whole", "killed", "masked", "both", "limit"
# The kinds of questions that are always asked, and those that are asked on demand.
KILL, INTERRUPT, KILL_TWO = "kill", "interrupt", "kill two"
TIME_LIMIT, THROW, BESIDE = "limit", "throw", "beside"
ALWAYS, ON_DEMAND = (KILL, INTERRUPT, KILL_TWO), (TIME_LIMIT, THROW, BESIDE)

# What main prints once the threads are over.
GOES_ON = "main goes on"
HEAD = """import Control.Concurrent
import Control.Exception
import qualified {module} as M
"""
TIMEOUT = "import System.Timeout (timeout)\n"
ENDED = """
-- How an action ends.
ended :: IO () -> IO String
ended action = (action >> return "ends") `catches`
  [ Handler (\\e -> case e of BlockedIndefinitelyOnMVar -> return "waits for ever")
  , Handler (\\e -> return (case e of { ThreadKilled -> "is killed"; _ -> "fails" }))
  , Handler (\\e -> const (return "fails") (e :: SomeException))
  ]
"""


class Part(NamedTuple):
    """What one thread does: calls in a row, or a pair as a bracket. `throws`: the action that is handed in throws."""

    calls: tuple[int, ...]
    is_bracket: bool = False
    throws: bool = False


class Program(NamedTuple):
    """A program: who makes the value, what up to two threads do, what is done to them, and which calls main does behind it."""

    maker: int
    first: Part | None
    second: Part | None
    how: str
    probe: tuple[tuple[int, ...], ...]


class Question(NamedTuple):
    """A program, and those whose outcomes it may have: without the part that is killed, and with the whole of it.
    `declined` is one in which the second part finds the value busy, and does nothing."""

    kind: str
    asked: Program
    without: tuple[Program, ...]
    whole: tuple[Program, ...]
    declined: Program | None


def _bracket(calls: Sequence[str]) -> str:
    return f"bracket_ ({calls[0]}) ({calls[1]}) (return ())"


class Writer:
    """Writes parts and programs of what a module offers."""

    def __init__(self, offer: Offer) -> None:
        self.offer = offer

    def part(self, part: Part) -> str:
        """What a thread does, as an action of type IO ()."""
        operations = [self.offer.operations[it] for it in part.calls]
        calls = [it.throwing if part.throws else it.call for it in operations]
        if part.is_bracket:
            return _bracket(calls)
        return " >> ".join([*(f"{it}" for it in calls), "return ()"])

    def short_part(self, part: Part) -> str:
        """The same for a person, without what every call has."""
        return re.sub(r"\bM\.", "", self.part(part).removesuffix(" >> return ()"))

    def names(self, calls: Sequence[int]) -> str:
        return "; ".join(self.offer.operations[it].name for it in calls)

    def part_name(self, part: Part) -> str:
        """What a thread does, as a person says it."""
        if part.is_bracket:
            return f"{self.names(part.calls)}, as a bracket"
        return self.names(part.calls) + (", whose action throws," if part.throws else "")

    def probe(self, unit: Sequence[int], number: int) -> list[str]:
        """The lines of some calls of main, which tells that they are over, and what a single one gave."""
        *before, last = (self.offer.operations[it] for it in unit)
        lines = [f"  _ <- {it.call}" for it in before]
        if last.is_shown and not before:
            return [f"  result{number} <- {last.call}", f"  putStrLn (\"{last.name} \" ++ show result{number})"]
        return [*lines, f"  _ <- {last.call}", f"  putStrLn \"{self.names(unit)}\""]

    def forked(self, name: str, part: Part, how: str) -> list[str]:
        """The lines that fork a thread whose end main can wait for. Only what is asked about can be killed in it."""
        action = self.part(part)
        if how == LIMIT and name == "first":
            action = f"timeout 1 ({action}) >> return ()"
        inside = f"({action})" if how == MASKED and name == "first" else f"(restore ({action}))"
        end = f"endOf{name.capitalize()}"
        return [f"  {end} <- newEmptyMVar", f"  {name} <- mask (\\restore -> forkIO (ended {inside} >>= putMVar {end}))"]

    def body(self, program: Program) -> str:
        """The text of the action, without its name."""
        lines = [f"  x <- {self.offer.makers[program.maker].call}"]
        threads = [(name, part) for name, part in (("first", program.first), ("second", program.second)) if part]
        for name, part in threads:
            lines += self.forked(name, part, program.how)
        if program.how in (KILLED, MASKED, BOTH):
            lines.append("  killThread first")
        if program.how == BOTH:
            lines.append("  killThread second")
        lines += [f"  {name}End <- takeMVar endOf{name.capitalize()}" for name, _ in threads]
        if program.how == MASKED:
            lines.append("  putStrLn (\"first: \" ++ firstEnd)")
        if program.second and program.how != BOTH:
            lines.append("  putStrLn (\"second: \" ++ secondEnd)")
        # So that it shows whether main waits for a thread or in a call of its own.
        lines.append(f"  putStrLn \"{GOES_ON}\"")
        for number, unit in enumerate(program.probe, 1):
            lines += self.probe(unit, number)
        return "do\n" + "\n".join([*lines, "  return ()"]) + "\n"

    def module(self, programs: Mapping[str, Program], name: str) -> str:
        """A module of these programs, as actions of these names."""
        limit = TIMEOUT if any(it.how == LIMIT for it in programs.values()) else ""
        head = f"module {name} where\n\n" + HEAD.format(module=self.offer.module) + limit
        return head + ENDED + "".join(f"\n{action} :: IO ()\n{action} = {self.body(it)}" for action, it in programs.items())


def covering(offer: Offer, found: Behaviour) -> tuple[tuple[int, ...], ...]:
    """Of units that leave no trace as many as each operation in them needs: the shorter ones and the pairs first, and what only
    looks at the value last, since a call behind the kill may put right what the kill has left."""
    def looks(unit: tuple[int, ...]) -> bool:
        operation = offer.operations[unit[0]]
        return len(unit) == 1 and operation.is_shown and not operation.throwing and unit[0] not in found.waits

    kept: list[tuple[int, ...]] = []
    for unit in sorted(found.traceless, key=lambda it: (len(it), it not in found.pairs)):
        if not set(unit) <= {it for other in kept for it in other}:
            kept.append(unit)
    return tuple(sorted(kept, key=looks))


def _question(kind: str, how: str, probe: tuple[tuple[int, ...], ...], maker: int, first: Part, second: Part | None, declines: bool) -> Question:
    """The question, with the programs that say what may come of it."""
    plain = Part(first.calls, first.is_bracket)
    without = [Program(maker, None, second, WHOLE, probe)]
    whole = [Program(maker, plain, second, WHOLE, probe)]
    if kind == KILL_TWO:
        without += [Program(maker, None, None, WHOLE, probe), Program(maker, plain, None, WHOLE, probe)]
    if kind == BESIDE:
        without = [Program(maker, plain, None, WHOLE, probe), Program(maker, second, None, WHOLE, probe)]
        whole = []
    declined = Program(maker, None, None, WHOLE, probe) if declines else None
    return Question(kind, Program(maker, first, second, how, probe), tuple(without), tuple(whole), declined)


def questions_of(offer: Offer, maker: int, found: Behaviour, kinds: Sequence[str]) -> list[Question]:
    """The questions about values of one maker."""
    probe = covering(offer, found) or tuple((it,) for it in found.ends[:1])
    brackets = [Part(it, is_bracket=True) for it in found.pairs]
    singles = [Part((it,)) for it in (*found.ends, *found.waits)]
    beside = [None, *(Part((it,)) for it in found.ends), *brackets]

    def ask(kind: str, how: str, first: Part, second: Part | None) -> Question:
        # What the second part alone makes possible is asked for at the end.
        alone = second is not None and len(second.calls) == 1 and kind != BESIDE
        last = found.end_behind(second.calls[0]) if second is not None and alone else None
        declines = second is not None and alone and kind != KILL_TWO and offer.operations[second.calls[0]].may_decline
        return _question(kind, how, (*probe, (last,)) if last is not None else probe, maker, first, second, declines)

    asked = []
    for first in [*singles, *brackets]:
        for second in beside:
            asked += [ask(kind, how, first, second) for kind, how in ((KILL, KILLED), (INTERRUPT, MASKED), (TIME_LIMIT, LIMIT)) if kind in kinds]
    if KILL_TWO in kinds:
        asked += [ask(KILL_TWO, BOTH, first, second) for first in singles for second in singles]
    if THROW in kinds:
        throwing = [Part((it,), throws=True) for it in found.ends if offer.operations[it].throwing]
        asked += [ask(THROW, WHOLE, first, second) for first in throwing for second in beside]
    if BESIDE in kinds:
        quiet = [*(Part(it) for it in found.traceless if len(it) == 1), *brackets]
        asked += [ask(BESIDE, WHOLE, first, second) for place, first in enumerate(quiet) for second in quiet[place:]]
    return asked
