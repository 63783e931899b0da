"""Translators with one mistake each: a row has to catch each of them."""

from __future__ import annotations

import os
import shutil
import subprocess
import tempfile
from collections.abc import Sequence
from pathlib import Path
from typing import NamedTuple

from tools.from_haskell.rows import PACKAGE, PROGRAMS, Row, rows_of
from tools.from_haskell.translator import Translator


class Mutant(NamedTuple):
    """A mistake: what it is, the file, what stands there, what stands there in its place, and programs that may catch it."""

    what: str
    file: str
    old: str
    new: str
    programs: tuple[str, ...]


PRELUDE = "prelude/FromHaskellPrelude.hs"


def of_module(name: str) -> str:
    return f"src/FromHaskell/{name}.hs"


MUTANTS = (
    Mutant("withMVar has no mask", PRELUDE, "withMVar m io = E.mask (\\restore -> C.takeMVar m >>= \\a -> (restore (io a)",
           "withMVar m io = (C.takeMVar m >>= \\a -> (io a", ("LockWith", "Philosophers")),
    Mutant("swapMVar has no mask", PRELUDE, "swapMVar m new = E.mask_ (C.takeMVar m >>= \\old -> C.putMVar m new >> return old)",
           "swapMVar m new = C.takeMVar m >>= \\old -> C.putMVar m new >> return old", ("SwapKilled",)),
    Mutant("an IORef is written as any cell is", PRELUDE, "atomicModifyIORef' r f = E.uninterruptibleMask_ (C.takeMVar",
           "atomicModifyIORef' r f = id (C.takeMVar", ("AtomicReference", "Reference")),
    Mutant("the body of a restore stays masked", of_module("Emit"), 'Script.Form (Word "restore" : Binder r : map Body bs))',
           'Script.Form (Word "mask_" : map Body (drop (length r * 0) bs)))', ("MaskedWait", "AttemptKilled", "MaskingStates", "Promise")),
    Mutant("each mask is uninterruptible", of_module("Emit"), '| word `elem` ["mask", "uninterruptibleMask"], r `notElem` freeOfBlock b -> [Word (word ++ "_"), Body b]',
           '| word `elem` ["mask", "uninterruptibleMask"], r `notElem` freeOfBlock b -> [Word "uninterruptibleMask_", Body b]',
           ("SwallowedKill", "MaskingStates", "AttemptKilled", "Interleaved")),
    Mutant("what may throw is put into a cell early", of_module("Reify"), '  when (mayThrow e) $ strictHere CauseStrict (what ++ " is an', '  when (mayThrow e && null what) $ strictHere CauseStrict (what ++ " is an',
           ("BadLazyPut",)),
    Mutant("an argument that may throw is evaluated early", of_module("Specialise"), "    when (isNothing (lookup index", "    when (name == \"\" && isNothing (lookup index", ("BadLazyArgument",)),
    Mutant("a text's rear that may throw is no matter", of_module("Emit"), "  | not (mayThrow e) = True\n  | otherwise = case e of\n      Builtin \"show\"", "  | otherwise = case e of\n      _ | e /= Unit -> True\n      Builtin \"show\"",
           ("BadPrintedTail",)),
    Mutant("each function always ends", of_module("Total"), "  Nothing -> False\n  Just [] -> True", "  Nothing -> not (any mayThrow (expressionsOf (definitionBody d)))\n  Just [] -> True", ("StructuralRecursion", "LazyEndless", "BadLazyArgument")),
    Mutant("a handler of ErrorCall takes all", of_module("Exceptions"), 'isErrorCall e = Binary "==" e (errorCall (Builtin "show" [e]))', 'isErrorCall e = Binary "==" e e', ("HandlersInOrder", "HandlerByType", "ErrorPattern", "ArithmeticHandlers")),
    Mutant("a handler of AsyncException misses UserInterrupt", of_module("Exceptions"), '"AsyncException" -> oneOf t e ["ThreadKilled", "UserInterrupt"]', '"AsyncException" -> oneOf t e ["ThreadKilled"]',
           ("HandlersInOrder", "HandlerByType", "ThrownAtMain")),
    Mutant("a limit is no asynchronous exception", of_module("Exceptions"), 'isAsync e = Binary "||" (Binary "||" (is "ThreadKilled") (is "UserInterrupt")) isTimeout', 'isAsync e = Binary "||" (Binary "||" (is "ThreadKilled") (is "UserInterrupt")) (Binary "&&" (Truth False) isTimeout)',
           ("LimitSwallowed", "HandlerByType", "AttemptKilled")),
    Mutant("keys of definitions have no names of functions", of_module("Shape"), '    mark ("(\\\\" ++ uniqueName v)\n', '    mark ("(\\\\" ++ take 0 (uniqueName v))\n', ("KeptActions", "Closures", "FilteredJobs", "Supervisor", "HandedOver")),
    Mutant("keys of definitions have no names of actions", of_module("Shape"), "  Doing name as here -> within name as", '  Doing name as here -> within (take 0 name) as', ("JobList", "KeptActions", "HandedOver", "ChosenByMaybe", "Closures")),
    Mutant("of what a cell keeps the first one is always taken", of_module("Join"), "  position key = fromMaybe 0 (findIndex ((== key) . templateKey) templates)", "  position key = 0 * fromMaybe 0 (findIndex ((== key) . templateKey) templates)",
           ("KeptActions", "JobList", "HandedOver", "ChosenByMaybe")),
    Mutant("an enumeration is counted from one", of_module("Reify"), "return (Number (fromIntegral (dataConTag dc - 1)))", "return (Number (fromIntegral (dataConTag dc)))", ("Enumerations", "ArithmeticHandlers")),
    Mutant("calls of an operator are made from the right", of_module("Reify"), '      Binary o a b -> Binary o <$> hoist a <*> hoist b', "      Binary o a b -> hoist b >>= \\b' -> (\\a' -> Binary o a' b') <$> hoist a", ("EvaluatedHere", "ThrowsBeforePrinting", "IntegerBeyond", "CountedTogether", "StructuralRecursion")),
    Mutant("evaluate evaluates nothing", of_module("Emit"), "    Residual e t | mayThrow e -> named e t\n    Chosen choice -> case typeOf", "    Residual e t | mayThrow e, null hint -> named e t\n    Chosen choice -> case typeOf", ("EvaluatedHere", "WorkerPool", "ThrowsBeforePrinting", "ArithmeticHandlers")),
    Mutant("Integers are as Ints", of_module("Integers"), '    Builtin f _ | take 7 f == "integer" -> [e]', '    Builtin f _ | take 8 f == "integer" -> [e]', ("IntegerBeyond", "IntegerProduct")),
    Mutant("a remainder has the divisor's sign", of_module("Primitive"), '  "rem" -> Just (divided rem (\\x y -> towardZero x y (Binary "-" (Builtin "mod" [x, y]) y) (Builtin "mod" [x, y])))', '  "rem" -> Just (divided rem (\\x y -> towardZero x y (Builtin "mod" [x, y]) (Builtin "mod" [x, y])))', ("RoundedDivision",)),
    Mutant("a semaphore's waiter that is killed gives nothing back", PRELUDE, "(if waited then return state else signalOne state)", "return state", ("BaseSemaphore",)),
    Mutant("a scope doesn't stop its child", "prelude/Control/Concurrent/Async.hs", "    stop child end\n    return answer", "    return answer", ("AsyncScope", "AsyncRace")),
    Mutant("forkFinally begins without a mask", PRELUDE, "forkFinally action and_then = E.mask (\\restore -> C.forkIO (try (restore action) >>= and_then))",
           "forkFinally action and_then = C.forkIO (try action >>= and_then)", ("ForkFinally", "Supervisor")),
    Mutant("a choice by a number looks at the next one", of_module("Case"), '        return (Chosen (ChooseIf (Binary "==" e (Number position)) yes no))', '        return (Chosen (ChooseIf (Binary ">" e (Number position)) yes no))', ("Enumerations", "OptionalData", "SumTypes")),
    Mutant("a mask reaches into the thread that is forked without it", of_module("Language"), 'Form "forkIOWithUnmask" [MaskingPart Nothing] AnswerThread True', 'Form "forkIOWithUnmask" [MaskingPart Nothing] AnswerThread False', ("MaskingStates", "Supervisor")),
)


def build(folder: Path) -> str:
    """Builds the translator of this folder, and answers what GHC told where it can't."""
    words = ["ghc", "-v0", "-O0", "-package", "ghc", "-outputdir", "objects", "-isrc:paths", "app/Main.hs", "-o", "from-haskell"]
    done = subprocess.run(words, cwd=folder, capture_output=True, text=True, check=False)
    return "" if done.returncode == 0 else done.stderr[-2000:]


def copied(folder: Path) -> None:
    """A copy of the package's sources."""
    for name in ("src", "app", "prelude"):
        shutil.copytree(PACKAGE / name, folder / name)
    (folder / "paths").mkdir()
    (folder / "paths" / "Paths_from_haskell.hs").write_text(
        f'module Paths_from_haskell (getDataDir) where\n\ngetDataDir :: IO FilePath\ngetDataDir = return "{folder}"\n', encoding="utf-8")


def differs(translator: Translator, row: Row) -> bool:
    return translator.lines_of(translator.translate(f"{row.name}.hs", row.options, PROGRAMS)) != row.lines


def caught_by(translator: Translator, mutant: Mutant) -> str:
    """The program whose row catches the mutant, or nothing."""
    rows = {row.name: row for row in rows_of([])}
    first = [rows[name] for name in mutant.programs]
    others = [row for row in rows.values() if row.name not in mutant.programs]
    return next((row.name for row in [*first, *others] if differs(translator, row)), "")


def try_mutant(folder: Path, searcher: str, number: int, mutant: Mutant) -> str:
    """What is wrong with the mutant: nothing where a row catches it."""
    path = folder / mutant.file
    right = path.read_text(encoding="utf-8")
    if right.count(mutant.old) != 1:
        return f"{number}. {mutant.what}: its text stands {right.count(mutant.old)} times in {mutant.file}"
    path.write_text(right.replace(mutant.old, mutant.new), encoding="utf-8")
    try:
        fault = build(folder)
        if fault:
            return f"{number}. {mutant.what}: it can't be built: {fault}"
        name = caught_by(Translator(str(folder / "from-haskell"), [searcher]), mutant)
    finally:
        path.write_text(right, encoding="utf-8")
        os.utime(path)
    print(f"{number}. {mutant.what}: {'caught by ' + name if name else 'NOT CAUGHT'}", flush=True)
    return "" if name else f"{number}. {mutant.what}: no row catches it"


def try_mutants(searcher: str, numbers: Sequence[int]) -> list[str]:
    """What is wrong with the mutants of these numbers, or with all."""
    wrong: list[str] = []
    with tempfile.TemporaryDirectory(prefix="mutants-") as room:
        folder = Path(room)
        copied(folder)
        fault = build(folder)
        if fault:
            return [fault]
        asked = [(number, it) for number, it in enumerate(MUTANTS, 1) if not numbers or number in numbers]
        for number, mutant in asked:
            wrong.append(try_mutant(folder, searcher, number, mutant))
    wrong = [it for it in wrong if it]
    print(f"{len(asked)} mutants, {len(asked) - len(wrong)} caught")
    return wrong
