"""Confirms findings by GHC, over the unchanged module: first by a loop that keeps it busy while the kill comes, round for round;
and where that shows nothing, by the finding's own program with pauses before the operations of threads."""

from __future__ import annotations

import subprocess
from collections.abc import Sequence
from pathlib import Path

from tools.audit.judging import seen
from tools.audit.offers import Offer
from tools.audit.questions import BOTH, KILL_TWO, MASKED, Part, Program, Writer
from tools.audit.telling import Told
from tools.audit.trying import Behaviour
from tools.litmus.haskell import Broken, Missing, RunOptions, find_compiler
from tools.litmus.programs import Question, compile_programs, run_question

# The most seconds of all rounds of one finding, and of the runs with pauses.
SECONDS = 60.0
# On so many capabilities, each half of the rounds.
CAPABILITIES = (1, 2)
# One round in so many is made without a kill before the others.
CONTROL = 5
RUNTIME = ("-V0.001", "-C0", "-M1g")

STRESS = """module Main (main) where

import Control.Concurrent
import Control.Exception
import Control.Monad
import GHC.Clock (getMonotonicTime)
import System.Environment (getArgs)
import System.Timeout (timeout)
import qualified {module} as M

-- In how many rounds a call of main waits for more than a second, and of how many; for at most so many seconds. The third word
-- is 1 where threads are killed.
main :: IO ()
main = do
  [rounds, seconds, kills] <- map read <$> getArgs
  begun <- getMonotonicTime
  let go number waiting
        | number == rounds = return (number, waiting)
        | otherwise = do
            now <- getMonotonicTime
            if now - begun > fromIntegral seconds then return (number, waiting) else do
              waits <- once (kills == (1 :: Int)) number
              go (number + 1) (if waits then waiting + 1 else waiting)
  (number, waiting) <- go 0 (0 :: Int)
  putStrLn (show waiting ++ " " ++ show number)

once :: Bool -> Int -> IO Bool
once kills number = do
  x <- {maker}
  stopped <- newMVar False
  over <- newEmptyMVar
  _ <- forkIO (repeated stopped (({busy}) >> yield) >> putMVar over ())
{threads}
  replicateM_ (number `mod` 97) yield
  when kills (do
{kills})
  _ <- swapMVar stopped True
  behind <- try (timeout 1000000 (do
    takeMVar over
{probe}
    return ()))
  return (case behind of
    Right (Just ()) -> False
    Right Nothing -> True
    Left BlockedIndefinitelyOnMVar -> True)

repeated :: MVar Bool -> IO () -> IO ()
repeated stopped action = do
  now <- readMVar stopped
  unless now (action >> repeated stopped action)
"""


def _repeats(part: Part, found: Behaviour) -> bool:
    """Whether a thread may do it again and again."""
    return part.is_bracket or part.calls in found.traceless or part.calls[0] in found.waits


def _is_busy(asked: Program, found: Behaviour) -> bool:
    """Whether the second part is what the loop does."""
    second = asked.second
    return second is not None and asked.how != BOTH and _repeats(second, found) and second.calls[0] not in found.waits


def _busy(asked: Program, found: Behaviour, writer: Writer) -> str:
    """What the loop does: the second part where it may be repeated, or else the first call that leaves no trace."""
    if asked.second is not None and _is_busy(asked, found):
        return writer.part(asked.second)
    unit = next((it for it in found.traceless if len(it) == 1), None) or next(iter(found.traceless), None)
    return writer.part(Part(unit)) if unit else "return ()"


def _killed_thread(name: str, part: Part, is_masked: bool, found: Behaviour, writer: Writer) -> str:
    """The line that forks a thread which is killed later."""
    action = writer.part(part) if is_masked or not _repeats(part, found) else f"repeated stopped ({writer.part(part)})"
    inside = action if is_masked else f"restore ({action})"
    return f"  {name} <- mask (\\restore -> forkIO (void (try ({inside}) :: IO (Either SomeException ()))))"


def stress_text(offer: Offer, told: Told, found: Behaviour) -> str:
    """The program that keeps the module busy, kills, and looks whether a call waits."""
    writer, asked = Writer(offer), told.finding.question.asked
    assert asked.first is not None
    threads, kills, behind = [_killed_thread("first", asked.first, asked.how == MASKED, found, writer)], ["    killThread first"], []
    if asked.second is not None and asked.how == BOTH:
        threads.append(_killed_thread("second", asked.second, False, found, writer))
        kills.append("    killThread second")
    elif asked.second is not None and not _is_busy(asked, found):
        threads += ["  secondOver <- newEmptyMVar", f"  _ <- forkIO ({writer.part(asked.second)} >> putMVar secondOver ())"]
        behind.append("    takeMVar secondOver")
    behind += [f"    _ <- {offer.operations[it].call}" for unit in asked.probe for it in unit]
    return STRESS.format(module=offer.module, maker=offer.makers[asked.maker].call, threads="\n".join(threads), kills="\n".join(kills),
                         probe="\n".join(behind), busy=_busy(asked, found, writer)).replace("\n\n    return", "\n    return")


def _rounds(program: Path, count: int, capabilities: int, kills: bool) -> tuple[int, int]:
    """In how many of how many rounds a call waited. A program that doesn't come to its end counts as none."""
    words = [str(program), str(count), f"{SECONDS / len(CAPABILITIES):.0f}", str(int(kills)), "+RTS", f"-N{capabilities}", *RUNTIME, "-RTS"]
    try:
        ran = subprocess.run(words, capture_output=True, text=True, check=False, timeout=2 * SECONDS)
    except subprocess.TimeoutExpired:
        return 0, 0
    found = ran.stdout.split()
    return (int(found[0]), int(found[1])) if ran.returncode == 0 and len(found) == 2 else (0, 0)


def stressed(compiler: str, folders: Sequence[str], source: Path, room: Path, runs: int) -> tuple[int, int]:
    """In how many of how many rounds a call waited."""
    program = room / "stress"
    words = [compiler, "-v0", "-w", "-O0", "-threaded", "-rtsopts", "-package-env", "-", f"-i{':'.join(folders)}", "-outputdir", str(room / "objects"),
             "-o", str(program), str(source)]
    done = subprocess.run(words, capture_output=True, text=True, check=False)
    if done.returncode != 0:
        raise Broken(f"GHC doesn't compile it: {done.stderr.strip()}")
    # Where a call waits without the kill too, such a program shows nothing.
    if any(_rounds(program, max(1, runs // CONTROL), it, kills=False)[0] for it in CAPABILITIES):
        return 0, 0
    came = [_rounds(program, max(1, runs // len(CAPABILITIES)), it, kills=True) for it in CAPABILITIES]
    return sum(waited for waited, _ in came), sum(rounds for _, rounds in came)


def paused(folders: Sequence[str], told: Told, source: Path, room: Path, runs: int) -> tuple[int, int]:
    """In how many of how many runs, with pauses before operations, the finding's own program showed what the kill adds."""
    program = compile_programs(find_compiler(), [Question(source)], list(folders), room)
    shown = run_question(program, 1, RunOptions(runs, SECONDS, 1, "reported"))
    met = sum(count for outcome, count in shown.counts.items() if seen(outcome) in told.finding.odd)
    is_stuck = told.outcome().is_stuck()
    return met + (shown.without_end if is_stuck else 0), shown.runs()


def confirmed(offer: Offer, found: Behaviour, told: Told, folders: Sequence[str], folder: Path, number: int, room: Path, runs: int) -> str:
    """How often GHC showed a finding, in a sentence."""
    try:
        compiler = find_compiler()
        kind = told.finding.question.kind
        if told.outcome().is_stuck() and told.finding.question.asked.how in ("killed", MASKED, BOTH):
            source = folder / f"{number}-stress.hs"
            source.write_text(stress_text(offer, told, found), encoding="utf-8")
            waited, rounds = stressed(compiler.path, folders, source, room, runs)
            if waited:
                kills = "the kills" if kind == KILL_TWO else "the kill"
                return f"GHC {compiler.version}: a call waited behind {kills} in {waited} of {rounds} rounds of {source}"
        (room / "pauses").mkdir()
        met, count = paused(folders, told, folder / f"{number}.hs", room / "pauses", runs)
        return f"GHC {compiler.version}, with pauses before operations: seen in {met} of {count} runs" + ("" if met else "; that says nothing against it")
    except (Broken, Missing) as fault:
        return f"not tried by GHC: {fault}"
