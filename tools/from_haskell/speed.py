"""How long the translation of a module of 500 lines takes."""

from __future__ import annotations

import resource
import tempfile
from pathlib import Path

from tools.from_haskell.translator import Translator

LINES, SECONDS, TIMES = 500, 2.0, 5
HEADER = "module Main (main) where\n\nimport Control.Concurrent\nimport Control.Exception\nimport Control.Monad\n"
# A part of a module: a type, a function on it, and an action that uses both, beside a thread that may be killed.
PART = """
data Account{n} = Closed{n} | Open{n} Int Bool
  deriving (Eq, Show)

-- | What is there, at most so much.
withdraw{n} :: Int -> Account{n} -> (Account{n}, Int)
withdraw{n} wanted account = case account of
  Closed{n} -> (account, 0)
  Open{n} there frozen
    | frozen -> (account, 0)
    | there < wanted -> (Open{n} 0 frozen, there)
    | otherwise -> (Open{n} (there - wanted) frozen, wanted)

customer{n} :: MVar Account{n} -> MVar Int -> IO ()
customer{n} account purse = mask $ \\restore -> do
  before <- takeMVar account
  (after, some) <- restore (evaluate (withdraw{n} {n} before)) `onException` putMVar account before
  putMVar account after
  modifyMVar_ purse (return . (+ some))

part{n} :: IO ()
part{n} = do
  account <- newMVar (Open{n} 10 False)
  purse <- newMVar 0
  thread <- forkIO (customer{n} account purse `catch` \\e -> putStrLn ("stopped: " ++ show (e :: AsyncException)))
  when ({n} > 1) $ killThread thread
  readMVar purse >>= print
"""


def module_of(lines: int) -> str:
    """A module of so many lines, or a few more."""
    parts = [PART.replace("{n}", str(number)) for number in range(1, 2 + lines // PART.count("\n"))]
    names = [f"part{number}" for number in range(1, 1 + len(parts))]
    text = HEADER + "".join(parts) + "\nmain :: IO ()\nmain = do\n" + "".join(f"  {name}\n" for name in names)
    return text


def try_speed(translator: Translator) -> list[str]:
    """What is wrong with the time: the least of some calls, of the processor."""
    text = module_of(LINES)
    with tempfile.TemporaryDirectory(prefix="speed-") as room:
        path = Path(room) / "Main.hs"
        path.write_text(text, encoding="utf-8")
        seconds: list[float] = []
        for _ in range(TIMES):
            before = resource.getrusage(resource.RUSAGE_CHILDREN)
            came = translator.translate(path.name, [], Path(room))
            after = resource.getrusage(resource.RUSAGE_CHILDREN)
            if came.status:
                return [came.told.strip()[:400]]
            seconds.append(after.ru_utime + after.ru_stime - before.ru_utime - before.ru_stime)
    least = min(seconds)
    script_lines = came.script.count("\n")
    print(f"{text.count(chr(10))} lines become {script_lines} of a script in {least:.2f} seconds of the processor")
    return [] if least <= SECONDS else [f"{least:.2f} seconds, where {SECONDS} are the most"]
