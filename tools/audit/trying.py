"""What calls do one after another, in one thread, by GHC: which end, which wait for ever, and which leave no trace.

GHC runs nothing here but what was translated: that makes threads, waits at cells, throws and prints, and does nothing else.
"""

from __future__ import annotations

import itertools
import subprocess
from collections.abc import Iterable, Sequence
from dataclasses import dataclass
from pathlib import Path
from typing import IO, NamedTuple

from tools.audit.offers import Offer

Sequence_ = tuple[int, ...]
# At most so many operations are called one after another: all sequences up to this length are tried.
DEEP, SHALLOW, FEW_OPERATIONS = 4, 3, 8
# Of calls that go on for so long nothing is known.
PATIENCE = 60.0

TRIAL = """module Main (main) where

import Control.Concurrent
import Control.Exception
import Control.Monad
import Data.IORef
import GHC.Conc (BlockReason (..), ThreadStatus (..), threadStatus)
import System.IO
import qualified {module} as M

-- Each line has sequences of calls, each behind the number of its maker. They are called beside each other, each in a thread.
main :: IO ()
main = do
  hSetBuffering stdout LineBuffering
  let loop = isEOF >>= \\ended -> unless ended (getLine >>= batch . read >> loop)
  loop

batch :: [(Int, [Int])] -> IO ()
batch asked = do
  begun <- forM asked $ \\(maker, calls) -> do
    results <- newIORef []
    end <- newIORef "waits"
    thread <- forkIO ((called maker calls (\\r -> modifyIORef results (r :)) >> writeIORef end "ends") `catch` failed end)
    return (thread, results, end)
  settle (0 :: Int) (0 :: Int) [thread | (thread, _, _) <- begun]
  forM_ begun $ \\(_, results, end) -> do
    how <- readIORef end
    given <- readIORef results
    print (how, reverse given)

failed :: IORef String -> SomeException -> IO ()
failed end e = case fromException e of
  Just BlockedIndefinitelyOnMVar -> return ()
  Nothing -> writeIORef end "fails"

-- Until each thread is over or waits at a cell, and a little longer.
settle :: Int -> Int -> [ThreadId] -> IO ()
settle quiet beats threads = do
  states <- mapM threadStatus threads
  let still s = case s of
        ThreadRunning -> False
        ThreadBlocked reason -> reason == BlockedOnMVar
        _ -> True
      now = if all still states then quiet + 1 else 0
  unless (now >= 4 || beats > 1000) (threadDelay 5000 >> settle now (beats + 1) threads)

called :: Int -> [Int] -> (String -> IO ()) -> IO ()
"""


class Tried(NamedTuple):
    """How a sequence went, `ends`, `waits` or `fails`, and what its calls gave, as far as that can be told."""

    how: str
    results: tuple[str, ...]


class Untried(Exception):
    """Why GHC doesn't try the calls."""


def trial_text(offer: Offer) -> str:
    """The program that tries sequences of calls."""
    lines = [TRIAL.format(module=offer.module)]
    for number, maker in enumerate(offer.makers):
        lines.append(f"called {number} calls tell = {maker.call} >>= \\x -> forM_ calls $ \\call -> case call of\n")
        for place, it in enumerate(offer.operations):
            told = f"{it.call} >>= tell . show" if it.is_shown else f"{it.call} >> tell \"\""
            lines.append(f"  {place} -> {told}\n")
        lines.append("  _ -> return ()\n")
    return "".join([*lines, "called _ _ _ = return ()\n"])


class Trial:
    """GHC with the calls of a module, which it tries on demand."""

    def __init__(self, compiler: str, offer: Offer, folders: Sequence[str], room: Path) -> None:
        path = room / "Trial.hs"
        path.write_text(trial_text(offer), encoding="utf-8")
        self.count = len(offer.operations)
        self.known: dict[tuple[int, Sequence_], Tried] = {}
        self.errors = (room / "trial-errors").open("w+b")
        words = [compiler, "-v0", "-w", "-package-env", "-", f"-i{':'.join(folders)}", "-e", "main", str(path)]
        self.process = subprocess.Popen(words, stdin=subprocess.PIPE, stdout=subprocess.PIPE, stderr=self.errors, text=True, cwd=room)

    def close(self) -> None:
        self.process.kill()
        self.process.wait()
        self.errors.close()

    def _streams(self) -> tuple[IO[str], IO[str]]:
        assert self.process.stdin is not None and self.process.stdout is not None
        return self.process.stdin, self.process.stdout

    def ask(self, maker: int, sequences: Iterable[Sequence_]) -> None:
        """Tries sequences, beside each other."""
        asked = [it for it in sequences if (maker, it) not in self.known]
        if not asked:
            return
        given, said = self._streams()
        try:
            given.write(str([(maker, list(it)) for it in asked]).replace(" ", "") + "\n")
            given.flush()
            for it in asked:
                line = said.readline()
                how, results = eval(line, {"__builtins__": {}})  # A pair of Haskell with texts is one of Python.
                self.known[maker, it] = Tried(how, tuple(results))
        except (OSError, SyntaxError, ValueError, TypeError):
            self.process.kill()
            self.process.wait()
            self.errors.seek(0)
            raise Untried(self.errors.read().decode(errors="replace").strip()) from None

    def of(self, maker: int, calls: Sequence_) -> Tried:
        return self.known[maker, calls]


@dataclass
class Behaviour:
    """Of a value that one maker makes: the operations that end at once, those that wait, those that fail; the sequences that
    leave no trace; and the pairs of a function and what takes it back."""

    ends: list[int]
    waits: list[int]
    fails: list[int]
    traceless: list[Sequence_]
    pairs: list[tuple[int, int]]
    waits_behind: dict[int, tuple[int, ...]]

    def end_behind(self, first: int) -> int | None:
        """An operation that waits on its own and ends behind this one."""
        return next(iter(self.waits_behind.get(first, ())), None)


def _is_traceless(trial: Trial, maker: int, depth: int, calls: Sequence_) -> bool:
    """Whether later calls, one or two, do and give the same as without these calls."""
    if trial.of(maker, calls).how != "ends":
        return False
    for length in range(1, min(2, depth - len(calls)) + 1):
        for later in itertools.product(range(trial.count), repeat=length):
            alone, behind = trial.of(maker, later), trial.of(maker, calls + later)
            if (alone.how, alone.results) != (behind.how, behind.results[len(calls):]):
                return False
    return True


def _keep_together(trial: Trial, maker: int, candidates: Sequence[Sequence_]) -> list[Sequence_]:
    """Of these sequences those that still end and give the same one behind the other, and all of them twice."""
    kept: list[Sequence_] = []
    for it in candidates:
        once = tuple(itertools.chain(*kept, it))
        trial.ask(maker, [once + once])
        tried = trial.of(maker, once + once)
        if tried.how == "ends" and tried.results[:len(once)] == tried.results[len(once):]:
            kept.append(it)
    return kept


def behaviour(trial: Trial, maker: int, named_pairs: Sequence[tuple[int, int]]) -> Behaviour:
    """What the operations do to a value of this maker. Only the named pairs count as such, and of these those whose second part
    takes the first one back and never waits behind it."""
    count = trial.count
    depth = DEEP if count <= FEW_OPERATIONS else SHALLOW
    trial.ask(maker, (it for length in range(1, depth + 1) for it in itertools.product(range(count), repeat=length)))
    single = {it: trial.of(maker, (it,)).how for it in range(count)}
    traceless = [(it,) for it in range(count) if _is_traceless(trial, maker, depth, (it,))]
    rest = [it for it in range(count) if (it,) not in traceless]
    two = [(first, second) for first in rest for second in range(count) if first != second and _is_traceless(trial, maker, depth, (first, second))]
    three = [(first, middle, second) for first, second in two for middle in range(count)
             if single[middle] == "waits" and middle not in (first, second) and _is_traceless(trial, maker, depth, (first, middle, second))]
    kept = _keep_together(trial, maker, [*traceless, *two, *three])
    pairs = [it for it in named_pairs if it in two]
    waits = [it for it in range(count) if single[it] == "waits"]
    behind = {first: tuple(it for it in waits if trial.of(maker, (first, it)).how == "ends") for first in range(count) if single[first] == "ends"}
    return Behaviour([it for it in range(count) if single[it] == "ends"], waits, [it for it in range(count) if single[it] == "fails"], kept, pairs, behind)
