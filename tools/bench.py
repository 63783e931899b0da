"""Shapes of scripts at n, 2n and 4n, what each run takes, and how that grows. No gate calls this: no proof speaks of time."""

from __future__ import annotations

import argparse
import os
import re
import shutil
import statistics
import subprocess
import sys
import tempfile
import time
from collections.abc import Iterator, Sequence

from tools import bitcode
from tools.rows import is_new, say
from tools.sources import TOP, here, read

FUEL = 4_000_000
# What is no shape of scripts at three sizes.
OTHERS = ("written", "search", "ghc")

COUNT = """count (n :: Int) :: IO () = {{ if n == {n} then {{ return () }} else {{ count (n + 1) }} }};
main :: IO () = {{ count 0 }};"""

BUILD = """build (n :: Int) (l :: [Int]) :: IO () = {{ if n == {n} then {{ return () }} else {{ build (n + 1) (n : l) }} }};
main :: IO () = {{ build 0 ([] @Int) }};"""

PRINT = """build (n :: Int) (l :: [Int]) :: IO () = {{ if n == {n} then {{ each l }} else {{ build (n + 1) (n : l) }} }};
each (l :: [Int]) :: IO () = {{ case l of {{ [] -> {{ return () }}; x : rest -> {{ putStrLn (show x); each rest }} }} }};
main :: IO () = {{ build 0 ([] @Int) }};"""

HAND = """give (n :: Int) (a :: MVar Int) (b :: MVar Int) (d :: MVar ()) :: IO () = {{
  if n == {n} then {{ putMVar d () }} else {{ putMVar a n; _ <- takeMVar b; give (n + 1) a b d }} }};
take (a :: MVar Int) (b :: MVar Int) :: IO () = {{ x <- takeMVar a; putMVar b x; take a b }};
"""

EXCHANGES = HAND + """main :: IO () = {{
  a <- newEmptyMVar @Int; b <- newEmptyMVar @Int; d <- newEmptyMVar @();
  _ <- forkIO {{ take a b }}; _ <- forkIO {{ give 0 a b d }}; takeMVar d }};"""

WITH_MAIN = HAND + """main :: IO () = {{
  a <- newEmptyMVar @Int; b <- newEmptyMVar @Int; d <- newEmptyMVar @();
  _ <- forkIO {{ take a b }}; give 0 a b d }};"""

COUNTERS = """count (n :: Int) (d :: MVar Int) :: IO () = {{ if n == {n} then {{ putMVar d n }} else {{ count (n + 1) d }} }};
main :: IO () = {{ d <- newEmptyMVar @Int;
  _ <- forkIO {{ count 0 d }}; _ <- forkIO {{ count 0 d }}; _ <- forkIO {{ count 0 d }}; _ <- forkIO {{ count 0 d }};
  w <- takeMVar d; x <- takeMVar d; y <- takeMVar d; z <- takeMVar d; putStrLn (show (w + x + y + z)) }};"""

SLEEPERS = """main :: IO () = {{ threadDelay {n} }};"""

# A list that holds one list twice, and so on as often as the line between stands here; two threads hand it to and fro.
SHARED = ("main :: IO () = { let l0 = [1, 2, 3];", " let l{i} = [l{p}, l{p}];", """
 m <- newMVar l{n}; _ <- forkIO { k <- takeMVar m; putMVar m k }; _ <- myThreadId; j <- takeMVar m;
 case j of { [] -> { return () }; y : rest -> { putStrLn "first" } } };""")

# A counter that a kill may lose, and so many claims of it.
CLAIMS = ("main :: IO () = { m <- newMVar 0; t <- forkIO { x <- takeMVar m; putMVar m (x + 1) }; killThread t; x <- takeMVar m; putStr (show x) };",
          '--! sometimes done and output has "0" and errors ""', "--! never deadlock")

EMPTY = "main :: IO () = { return () };"

# The same programs in Haskell, by their size as an argument.
HASKELL = {
    "empty": "main = return ()\n",
    "count": """count :: Int -> Int -> IO ()
count m n = if n == m then return () else count m (n + 1)
main = do { [m] <- getArgs; count (read m) 0 }
""",
    "ring": """work :: Int -> MVar Int -> MVar Int -> IO ()
work i a b = do { x <- takeMVar a; putMVar b (x + i) }
start :: Int -> Int -> MVar Int -> MVar Int -> IO ()
start m i a z = if i == m then do { x <- takeMVar a; putMVar z x } else do { b <- newEmptyMVar; _ <- forkIO (work i a b); start m (i + 1) b z }
main = do { [m] <- getArgs; a <- newMVar 0; z <- newEmptyMVar; start (read m) 0 a z; r <- takeMVar z; print r }
""",
    "exchanges": """give :: Int -> Int -> MVar Int -> MVar Int -> MVar () -> IO ()
give m n a b d = if n == m then putMVar d () else do { putMVar a n; _ <- takeMVar b; give m (n + 1) a b d }
takes :: MVar Int -> MVar Int -> IO ()
takes a b = do { x <- takeMVar a; putMVar b x; takes a b }
main = do { [m] <- getArgs; a <- newEmptyMVar; b <- newEmptyMVar; d <- newEmptyMVar; _ <- forkIO (takes a b); _ <- forkIO (give (read m) 0 a b d); takeMVar d }
""",
    "with-main": """give :: Int -> Int -> MVar Int -> MVar Int -> MVar () -> IO ()
give m n a b d = if n == m then putMVar d () else do { putMVar a n; _ <- takeMVar b; give m (n + 1) a b d }
takes :: MVar Int -> MVar Int -> IO ()
takes a b = do { x <- takeMVar a; putMVar b x; takes a b }
main = do { [m] <- getArgs; a <- newEmptyMVar; b <- newEmptyMVar; d <- newEmptyMVar; _ <- forkIO (takes a b); give (read m) 0 a b d }
""",
}
HASKELL_HEAD = "import Control.Concurrent\nimport System.Environment\n"

# Five workers that add to one number, which by their order has very many values on the way.
WORKERS = """work (n :: Int) (m :: MVar Int) (d :: MVar ()) :: IO () = {
  x <- takeMVar m; putMVar m (x + n); y <- takeMVar m; putMVar m (y + n); putMVar d () };
main :: IO () = { m <- newMVar 0; d <- newEmptyMVar @();
  _ <- forkIO { work 1 m d }; _ <- forkIO { work 10 m d }; _ <- forkIO { work 100 m d }; _ <- forkIO { work 1000 m d };
  _ <- forkIO { work 10000 m d };
  takeMVar d; takeMVar d; takeMVar d; takeMVar d; takeMVar d; r <- takeMVar m; putStr (show r) };"""
# The threads of this example count, so that a search of it takes longer than that of any other.
LONG_SEARCHES = {"counts"}


class Shape:
    """A script by its size, and the words that run it."""

    def __init__(self, name: str, what: str, size: int, script: str | tuple[str, str, str], *words: str, each: tuple[int, ...] = ()) -> None:
        self.name, self.what, self.size, self.script, self.words, self.each = name, what, size, script, words, each

    def text(self, size: int) -> str:
        """The script of this size."""
        if isinstance(self.script, str):
            return self.script.format(n=size)
        first, between, last = self.script
        lines = (between.replace("{i}", str(it)).replace("{p}", str(it - 1)) for it in range(1, size + 1))
        return "\n".join((first, *lines, last.replace("{n}", str(size))))

    @property
    def capabilities(self) -> tuple[int | None, ...]:
        """On how many each call runs; None where the words say none."""
        return self.each or (None,)

    def calls(self, size: int) -> Iterator[tuple[str, list[str], bytes]]:
        """A label, the words and the input of each call: one for each number of capabilities, or one."""
        script = self.text(size).encode()
        words = [word.format(n=size) for word in self.words]
        for count in self.capabilities:
            yield ("" if count is None else f", {count} capabilities"), [*words, *([] if count is None else ["--caps", str(count)])], script


RUN = ("run", "--fuel", str(FUEL))
SHAPES = [
    Shape("count", "a loop that counts to n", 100_000, COUNT, *RUN),
    Shape("build", "a list of n numbers", 20_000, BUILD, *RUN, each=(1, 4)),
    Shape("print", "a list of n numbers, printed one by one", 10_000, PRINT, *RUN, each=(1, 2, 4, 16)),
    Shape("shared", "a list held twice, n times over", 14, SHARED, *RUN, each=(1, 2, 4, 16)),
    Shape("ring", "a ring of n threads", 250, "", "bench", "{n}", "--fuel", str(FUEL), each=(1, 4)),
    Shape("exchanges", "n exchanges of two forked threads", 25_000, EXCHANGES, *RUN, each=(1, 4, 16)),
    Shape("with-main", "n exchanges of main and a thread", 25_000, WITH_MAIN, *RUN, each=(1, 4)),
    Shape("counters", "four threads that count to n", 25_000, COUNTERS, *RUN, each=(1, 4, 16)),
    Shape("sleeper", "a thread that sleeps for n microseconds", 250_000, SLEEPERS, *RUN, each=(1, 16)),
    Shape("claims", "n claims of a script", 1_000, CLAIMS, "claims"),
]


class Took:
    """What a call took: its status, what it told, seconds by the clock and of the processors, and megabytes."""

    def __init__(self, program: str, words: Sequence[str], given: bytes) -> None:
        begun = time.perf_counter()
        with tempfile.TemporaryFile() as source, tempfile.TemporaryFile() as out:
            source.write(given)
            source.seek(0)
            ran = subprocess.Popen([program, *words], stdin=source, stdout=out, stderr=subprocess.DEVNULL, env={**os.environ, "MALLOC_ARENA_MAX": "1"})
            _, ended, used = os.wait4(ran.pid, 0)
            self.status = ran.returncode = os.waitstatus_to_exitcode(ended)
            self.clock = time.perf_counter() - begun
            out.seek(0)
            self.told = out.read()
        self.processor = used.ru_utime + used.ru_stime
        self.memory = used.ru_maxrss / 1024


def median(program: str, words: Sequence[str], given: bytes, runs: int) -> Took:
    """The median of so many runs, which have to end alike."""
    took = [Took(program, words, given) for _ in range(runs)]
    if len({it.status for it in took}) > 1:
        sys.exit(f"bench: runs of {' '.join(words)} end with different statuses")
    middle = took[0]
    middle.clock = statistics.median(it.clock for it in took)
    middle.processor = statistics.median(it.processor for it in took)
    middle.memory = max(it.memory for it in took)
    return middle


def line(name: str, took: Sequence[Took], growth: Sequence[float]) -> str:
    """A row of the table: milliseconds of each size, processor time and megabytes of the last, and how the time grows."""
    grown = "".join(f"{it:7.2f}" for it in growth)
    cells = "".join(f"{it.clock * 1000:9.0f}" for it in took) + "".join(f"{it.processor * 1000:9.0f}" for it in took[-1:]) + f"{took[-1].memory:8.0f}"
    return f"{name:44}{cells}{grown}"


def head() -> None:
    print(f"{'':44}{'n':>9}{'2n':>9}{'4n ms':>9}{'cpu ms':>9}{'MB':>8}{'2n/n':>7}{'4n/2n':>7}")


def tell(name: str, took: Sequence[Took]) -> None:
    print(line(name, took, [b.clock / a.clock for a, b in zip(took, took[1:])]), flush=True)


def shape(program: str, it: Shape, runs: int) -> None:
    """A shape at n, 2n and 4n, on each number of capabilities."""
    for at in range(len(it.capabilities)):
        took = []
        for size in (it.size, 2 * it.size, 4 * it.size):
            label, words, script = list(it.calls(size))[at]
            took.append(median(program, words, script, runs))
        tell(f"{it.name}, n = {it.size}{label}", took)


def written(program: str, runs: int) -> None:
    """A history: written, checked and reported, beside the run that it is of."""
    size = 25_000
    rows: dict[str, list[Took]] = {name: [] for name in ("run", "trace", "verify", "report")}
    for times in (1, 2, 4):
        script = EXCHANGES.format(n=times * size).encode()
        document = Took(program, ["trace", "--fuel", str(FUEL)], script).told
        for name in rows:
            words, given = ([name, "--fuel", str(FUEL)], script) if name in ("run", "trace") else ([name], document)
            rows[name].append(median(program, words, given, runs))
    for name, took in rows.items():
        tell(f"{name} of exchanges, n = {size}", took)
    print(f"the largest document has {len(document)} bytes")


def compiled(work: str, name: str, text: str) -> str:
    """A program that ghc makes of this text."""
    path = os.path.join(work, name)
    with open(f"{path}.hs", "w", encoding="utf-8") as file:
        file.write(HASKELL_HEAD + text)
    ran = subprocess.run(["ghc", "-v0", "-O1", "-threaded", "-rtsopts", f"{path}.hs", "-o", path], stdout=subprocess.PIPE, stderr=subprocess.STDOUT, text=True, check=False)
    if ran.returncode:
        sys.exit(f"bench: ghc makes no program of {name}: {ran.stdout[-500:]}")
    return path


def beside_ghc(program: str, runs: int) -> None:
    """The largest size of each shape that has a program in Haskell, beside `ghc -O1 -N1`, one run of each after the other."""
    if not shutil.which("ghc"):
        sys.exit("bench: no command ghc here")
    known = {it.name: it for it in SHAPES}
    print(f"{'':44}{'ours ms':>9}{'ghc ms':>9}{'times':>9}")
    with tempfile.TemporaryDirectory() as work:
        for name, text in HASKELL.items():
            other = compiled(work, name, text)
            took: tuple[list[float], list[float]] = ([], [])
            size = 4 * known[name].size if name in known else 0
            words, script = next(known[name].calls(size))[1:] if name in known else (["run"], EMPTY.encode())
            for _ in range(runs):
                took[0].append(Took(program, words, script).clock * 1000)
                took[1].append(Took(other, [str(size), "+RTS", "-N1"], b"").clock * 1000)
            ours, theirs = statistics.median(took[0]), statistics.median(took[1])
            print(f"{name + (f', n = {size}' if size else ', which does nothing'):44}{ours:9.1f}{theirs:9.1f}{ours / theirs:9.2f}", flush=True)


def states_of(told: bytes) -> int:
    """How many states a list of outcomes tells."""
    found = re.search(rb"^(\d+) states; ", told, re.M)
    if found is None:
        sys.exit("bench: this is no list of outcomes")
    return int(found[1])


def search(program: str, runs: int) -> None:
    """A search of workers that meets its bound on states, by that bound; and those of the examples, which end."""
    print(f"{'':44}{'states':>9}{'ms':>9}{'cpu ms':>9}{'MB':>8}{'us each':>9}")
    for bound in (1_000, 10_000, 100_000, 1_000_000):
        told_of("search of workers", median(program, ["outcomes", "--states", str(bound)], WORKERS.encode(), runs if bound < 1_000_000 else 1))
    for path in here("examples/*.conc"):
        name = os.path.basename(path).removesuffix(".conc")
        if name not in LONG_SEARCHES:
            told_of(f"search of {name}.conc", median(program, ["outcomes"], read(path).encode(), runs))


def told_of(name: str, took: Took) -> None:
    states = states_of(took.told)
    print(f"{name:44}{states:9}{took.clock * 1000:9.1f}{took.processor * 1000:9.1f}{took.memory:8.0f}{took.clock * 1e6 / states:9.1f}", flush=True)


def program_of(path: str | None) -> str:
    """The program of this path, else the proved one, else one without proof."""
    if path:
        return path
    proved = os.path.join(TOP, "crates", "conc_run", "out", "conc_run")
    if is_new(proved, "conc_run"):
        say("the proved program")
        return proved
    say("no proved program that is new, so this is one without proof; ./conc_run --prove makes the proved one")
    return bitcode.plain("conc_run")


def count_of_runs(word: str) -> int:
    if not word.isdecimal() or int(word) == 0:
        raise argparse.ArgumentTypeError(f"not a number above 0: {word}")
    return int(word)


def read_words(words: Sequence[str]) -> argparse.Namespace:
    known = [*(it.name for it in SHAPES), *OTHERS]
    parser = argparse.ArgumentParser(
        prog="./bench", allow_abbrev=False,
        description="What runs take, by shape and size. No gate calls this, since no proof speaks of time; docs/MEASURES.md has the last figures.",
        epilog="Each shape runs at n, 2n and 4n, and what is told is the median, the processor time and the memory of the largest, and how the "
               "time grows. `search` is that of `outcomes`: of a script that meets its bound, at 1,000 to 1,000,000 states, and of each example "
               "but one. `ghc`, which has to be named, runs the same programs by `ghc -O1` beside ours. The program is the proved one where it "
               "is new, else one without proof and without a sanitizer, which is built.")
    parser.add_argument("shapes", nargs="*", metavar="SHAPE", help=f"some of {' '.join(known)} (all but ghc)")
    parser.add_argument("--runs", type=count_of_runs, default=5, metavar="N", help="how often each runs (5)")
    parser.add_argument("--program", metavar="PATH", help="another program")
    asked = parser.parse_intermixed_args(words)
    for it in asked.shapes:
        if it not in known:
            parser.error(f"no shape {it}; there are {' '.join(known)}")
    return asked


def main(words: Sequence[str]) -> int:
    asked = read_words(words)
    names, runs, program = asked.shapes, asked.runs, program_of(asked.program)
    if not names or set(names) - {"search", "ghc"}:
        head()
    for it in SHAPES:
        if not names or it.name in names:
            shape(program, it, runs)
    if not names or "written" in names:
        written(program, runs)
    if not names or "search" in names:
        search(program, runs)
    if "ghc" in names:
        beside_ghc(program, runs)
    return 0
