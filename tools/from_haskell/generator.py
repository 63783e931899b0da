"""Haskell programs that are drawn at random: laziness, classes, closures, exceptions and nested masks, with few threads."""

from __future__ import annotations

import random
from collections.abc import Callable, Sequence

HEADER = """{{-# LANGUAGE ScopedTypeVariables #-}}
module {name} (main) where

import Control.Concurrent
import Control.Exception
import Control.Monad
import Data.IORef
import System.Timeout
"""

# Declarations that a program may have, by their names, with the names of those that they need.
DECLARATIONS: dict[str, str] = {
    "Trouble": """
data Trouble = Small | Large
  deriving (Eq, Show)

instance Exception Trouble
""",
    "Shape": """
data Shape = Dot | Line Int | Box Int Bool
  deriving (Eq, Show)

area :: Shape -> Int
area Dot = 0
area (Line n) = n
area (Box n filled) = if filled then n * n else n
""",
    "Job": """
data Job = Job { jobName :: String, jobAction :: IO () }

work :: Job -> IO ()
work job = putStr (jobName job) >> jobAction job
""",
    "Counter": """
class Counter c where
  create :: Int -> IO c
  bump :: c -> IO ()
  bump = bumpBy 1
  bumpBy :: Int -> c -> IO ()
  peek :: c -> IO Int

newtype Locked = Locked (MVar Int)

instance Counter Locked where
  create n = Locked <$> newMVar n
  bumpBy k (Locked m) = modifyMVar_ m (return . (+ k))
  peek (Locked m) = readMVar m

newtype Plain = Plain (IORef Int)

instance Counter Plain where
  create n = Plain <$> newIORef n
  bump (Plain r) = atomicModifyIORef' r (\\n -> (n + 1, ()))
  bumpBy k (Plain r) = readIORef r >>= \\n -> writeIORef r (n + k)
  peek (Plain r) = readIORef r

bumpTwice :: Counter c => c -> IO ()
bumpTwice c = bump c >> bumpBy 10 c
""",
    "Pretty": """
class Pretty a where
  pretty :: a -> String

instance Pretty Int where
  pretty n = if n < 0 then "-" else show n

instance Pretty Bool where
  pretty b = if b then "y" else "n"

instance Pretty a => Pretty (Maybe a) where
  pretty = maybe "_" pretty

instance (Pretty a, Pretty b) => Pretty (a, b) where
  pretty (a, b) = pretty a ++ pretty b
""",
    "total": """
total :: [Int] -> Int
total [] = 0
total (x : xs) = x + total xs
""",
    "count": """
count :: Int -> IO () -> IO ()
count n act = when (n > 0) (act >> count (n - 1) act)
""",
    "careful": """
careful :: MVar a -> (a -> IO b) -> IO b
careful m act = mask $ \\restore -> do
  a <- takeMVar m
  b <- restore (act a) `onException` putMVar m a
  putMVar m a
  return b
""",
    "compose": """
compose :: [a -> a] -> a -> a
compose = foldr (.) id
""",
}

TYPES = ("Int", "Bool", "Maybe Int", "(Int, Bool)", "[Int]", "Shape", "Either Int Bool")


class Program:
    """A program that is being written."""

    def __init__(self, seed: int) -> None:
        self.random = random.Random(seed)
        self.needs: dict[str, None] = {}
        self.names = 0
        self.letters = iter("abcdefghijklmnopqrstuvwxyz" * 4)
        self.depth = 0

    def pick(self, items: Sequence[str]) -> str:
        return self.random.choice(items)

    def chance(self, percent: int) -> bool:
        return self.random.randrange(100) < percent

    def fresh(self, hint: str) -> str:
        self.names += 1
        return f"{hint}{self.names}"

    def need(self, name: str) -> None:
        self.needs[name] = None

    def letter(self) -> str:
        return f'"{next(self.letters)}"'

    # Expressions, each of a type; `scope` has the names of values that are known, with their types.

    def value(self, kind: str, scope: dict[str, str], depth: int = 2) -> str:
        known = [name for name, it in scope.items() if it == kind]
        if known and self.chance(55):
            return self.pick(known)
        if depth <= 0:
            return self.plain(kind)
        if self.chance(18):
            return self.lazy(kind, scope, depth)
        return self.made(kind, scope, depth)

    def plain(self, kind: str) -> str:
        n = self.random.randrange(4)
        if kind == "Shape":
            self.need("Shape")
        return {"Int": f"({n} :: Int)" if self.chance(30) else str(n), "Bool": self.pick(("True", "False")), "Maybe Int": f"Just {n}" if n else "Nothing",
                "(Int, Bool)": f"({n}, True)", "[Int]": f"[{n}, {n + 1}]" if n else "[]", "Shape": ("Dot", "Line 2", "Box 2 True", "Line 1")[n],
                "Either Int Bool": f"Left {n}" if n % 2 else "Right False"}[kind]

    def lazy(self, kind: str, scope: dict[str, str], depth: int) -> str:
        """The value, beside something that must never be evaluated."""
        inner = self.atom(self.value(kind, scope, depth - 1))
        bomb = self.pick(("undefined", 'error "never"', "(throw Overflow)", "(1 `div` (0 :: Int))"))
        return self.pick((f"fst ({inner}, {bomb})", f"const {inner} {self.atom(bomb)}", f"(let bomb = {bomb} :: Int in if True then {inner} else seq bomb {inner})",
                          f"head [{inner}, {bomb if 'div' not in bomb else 'undefined'}]", f"maybe {inner} id Nothing"))

    def made(self, kind: str, scope: dict[str, str], depth: int) -> str:
        def of(it: str) -> str:
            return self.atom(self.value(it, scope, depth - 1))

        if kind == "Int":
            self_made: list[Callable[[], str]] = [
                lambda: f"{of('Int')} + {of('Int')}", lambda: f"{of('Int')} * 2", lambda: f"{of('Int')} - 1", lambda: f"fst {of('(Int, Bool)')}",
                lambda: f"length {of('[Int]')}", lambda: f"maybe 7 (+ 1) {of('Maybe Int')}", lambda: f"(if {of('Bool')} then {of('Int')} else {of('Int')})",
                lambda: f"total {of('[Int]')}", lambda: f"area {of('Shape')}", lambda: f"either id (fromEnum :: Bool -> Int) {of('Either Int Bool')}",
                lambda: f"compose [(+ 1), (* 3)] {of('Int')}", lambda: f"(let z = {of('Int')} in z + z)", lambda: f"{of('Int')} `mod` 5", lambda: f"max {of('Int')} {of('Int')}"]
            made = self.random.choice(self_made)()
            for name in ("total", "compose"):
                if name in made:
                    self.need(name)
            if "area" in made:
                self.need("Shape")
            return made
        if kind == "Bool":
            return self.pick((f"{of('Int')} > {of('Int')}", f"even {of('Int')}", f"not {of('Bool')}", f"{of('Bool')} && {of('Bool')}", f"null {of('[Int]')}", f"snd {of('(Int, Bool)')}"))
        if kind == "Maybe Int":
            return self.pick((f"Just {of('Int')}", f"fmap (+ 1) {of('Maybe Int')}", f"(if {of('Bool')} then Nothing else Just {of('Int')})"))
        if kind == "(Int, Bool)":
            return f"({self.value('Int', scope, depth - 1)}, {self.value('Bool', scope, depth - 1)})"
        if kind == "[Int]":
            return self.pick((f"{of('Int')} : {of('[Int]')}", f"map (+ 1) {of('[Int]')}", f"filter even {of('[Int]')}", f"[{self.value('Int', scope, depth - 1)}]", f"{of('[Int]')} ++ [9]"))
        if kind == "Shape":
            self.need("Shape")
            return self.pick((f"Line {of('Int')}", f"Box {of('Int')} {of('Bool')}", "Dot"))
        return self.pick((f"Left {of('Int')}", f"Right {of('Bool')}"))

    @staticmethod
    def atom(text: str) -> str:
        is_one = text.replace("_", "").replace("'", "").isalnum() or text.startswith(("(", "[")) and text.endswith((")", "]")) and _is_closed(text)
        return text if is_one else f"({text})"

    # Statements; `cells` has the names of cells with the types of what they keep, `threads` those of threads.

    def block(self, size: int, scope: dict[str, str], cells: dict[str, str], threads: list[str], indent: str, masked: str = "") -> list[str]:
        """Lines of a do block of type IO ()."""
        scope = dict(scope)
        lines: list[str] = []
        for _ in range(size):
            lines += self.statement(scope, cells, threads, indent, masked)
        if not lines or "<-" in lines[-1].split("  ")[0] or lines[-1].lstrip().startswith("let ") or self._binds(lines):
            lines.append(f"{indent}putStr {self.letter()}")
        return lines

    @staticmethod
    def _binds(lines: list[str]) -> bool:
        """Whether the last statement binds a name."""
        indent = min(len(it) - len(it.lstrip()) for it in lines)
        last = next(it for it in reversed(lines) if len(it) - len(it.lstrip()) == indent)
        return " <- " in last or last.lstrip().startswith("let ")

    def statement(self, scope: dict[str, str], cells: dict[str, str], threads: list[str], indent: str, masked: str) -> list[str]:
        kinds: list[tuple[int, Callable[[], list[str]]]] = [
            (14, lambda: [f"{indent}putStr {self.letter()}"]), (10, lambda: self.shows(scope, indent)), (22, lambda: self.cell_step(scope, cells, indent)),
            (6, lambda: self.lets(scope, indent)), (4, lambda: self.evaluates(scope, indent))]
        if self.depth < 3:
            nested: list[tuple[int, Callable[[], list[str]]]] = [
                (9, lambda: self.masks(scope, cells, threads, indent, masked)), (9, lambda: self.handles(scope, cells, threads, indent, masked)),
                (6, lambda: self.cleans(scope, cells, threads, indent, masked)), (4, lambda: self.loops(scope, cells, threads, indent, masked)),
                (4, lambda: self.chooses(scope, cells, threads, indent, masked)), (2, lambda: self.limits(scope, cells, threads, indent, masked))]
            kinds += nested
        if masked and masked != "-":
            kinds.append((8, lambda: self.restores(scope, cells, threads, indent, masked)))
        if threads:
            kinds.append((7, lambda: [f"{indent}{self.pick((f'killThread {self.pick(threads)}', f'throwTo {self.pick(threads)} {self.thrown()}'))}"]))
        weights = [weight for weight, _ in kinds]
        return self.random.choices([act for _, act in kinds], weights)[0]()

    def thrown(self) -> str:
        if self.chance(40):
            self.need("Trouble")
            return self.pick(("Small", "Large"))
        return self.pick(('(ErrorCall "hit")', "Overflow", "ThreadKilled"))

    def shows(self, scope: dict[str, str], indent: str) -> list[str]:
        if self.chance(35):
            self.need("Pretty")
            kind = self.pick(("Int", "Bool", "Maybe Int", "(Int, Bool)"))
            text = self.atom(self.value(kind, scope))
            return [f"{indent}putStr (pretty ({text} :: {kind}))"]
        kind = self.pick(TYPES)
        if kind == "Shape":
            self.need("Shape")
        return [f"{indent}putStr (show ({self.value(kind, scope)} :: {kind}))"]

    def lets(self, scope: dict[str, str], indent: str) -> list[str]:
        name, kind = self.fresh("v"), self.pick(TYPES)
        if kind == "Shape":
            self.need("Shape")
        text = self.value(kind, scope)
        scope[name] = kind
        return [f"{indent}let {name} = {text} :: {kind}"]

    def evaluates(self, scope: dict[str, str], indent: str) -> list[str]:
        name = self.fresh("e")
        divisor = self.atom(self.value("Int", scope, 1))
        line = f"{indent}{name} <- evaluate ({self.atom(self.value('Int', scope, 1))} `div` {divisor})"
        scope[name] = "Int"
        return [line]

    def cell_step(self, scope: dict[str, str], cells: dict[str, str], indent: str) -> list[str]:
        cell = self.pick(sorted(cells))
        kind = cells[cell]
        if kind in ("Locked", "Plain"):
            name = self.fresh("p")
            if self.chance(35):
                scope[name] = "Int"
                return [f"{indent}{name} <- peek {cell}"]
            return [f"{indent}{self.pick((f'bump {cell}', f'bumpTwice {cell}', f'bumpBy 5 {cell}'))}"]
        if kind == "IO ()":
            return self.pick_lines((f"join (takeMVar {cell})", f"putMVar {cell} (putStr {self.letter()})", f"tryPutMVar {cell} (putStr {self.letter()}) >>= \\ok -> unless ok (putStr \"full\")"), indent)
        if kind == "Int -> Int":
            return self.pick_lines((f"readMVar {cell} >>= \\f -> putStr (show (f {self.atom(self.value('Int', scope, 1))}))", f"modifyMVar_ {cell} (\\_ -> return (* {self.random.randrange(2, 5)}))"), indent)
        if kind == "Job":
            return self.pick_lines((f"takeMVar {cell} >>= work", f"putMVar {cell} (Job {self.letter()} (putStr {self.letter()}))"), indent)
        if kind.startswith("ref "):
            return self.reference_step(scope, cell, kind[4:], indent)
        return self.plain_cell_step(scope, cell, kind, indent)

    def pick_lines(self, choices: Sequence[str], indent: str) -> list[str]:
        return [indent + self.pick(choices)]

    def reference_step(self, scope: dict[str, str], cell: str, kind: str, indent: str) -> list[str]:
        name = self.fresh("r")
        what = self.random.randrange(4)
        if what == 0:
            scope[name] = kind
            return [f"{indent}{name} <- readIORef {cell}"]
        if what == 1:
            return [f"{indent}writeIORef {cell} {self.atom(self.value(kind, scope))}"]
        if what == 2:
            return [f"{indent}modifyIORef {cell} (\\old -> {self.value(kind, {**scope, 'old': kind}, 1)})"]
        changed = self.value(kind, {**scope, "old": kind}, 1)
        scope[name] = kind
        return [f"{indent}{name} <- atomicModifyIORef {cell} (\\old -> ({changed}, old))"]

    def plain_cell_step(self, scope: dict[str, str], cell: str, kind: str, indent: str) -> list[str]:
        name, new = self.fresh("x"), self.atom(self.value(kind, scope))
        inner = {**scope, "old": kind}
        changed = self.value(kind, inner, 1)
        what = self.random.randrange(9)
        if what < 2:
            scope[name] = kind
            return [f"{indent}{name} <- takeMVar {cell}", f"{indent}putMVar {cell} {self.atom(self.value(kind, scope, 1))}"]
        if what == 2:
            scope[name] = kind
            return [f"{indent}{name} <- readMVar {cell}"]
        if what == 3:
            return [f"{indent}modifyMVar_ {cell} (\\old -> return {self.atom(changed)})"]
        if what == 4:
            scope[name] = kind
            return [f"{indent}{name} <- modifyMVar {cell} (\\old -> return ({changed}, old))"]
        if what == 5:
            return [f"{indent}tryTakeMVar {cell} >>= maybe (putStr {self.letter()}) (putMVar {cell})"]
        if what == 6:
            return [f"{indent}{name} <- tryPutMVar {cell} {new}", f"{indent}unless {name} (putStr {self.letter()})"]
        if what == 7:
            self.need("careful")
            return [f"{indent}careful {cell} (\\old -> putStr {self.letter()})"]
        scope[name] = kind
        return [f"{indent}{name} <- swapMVar {cell} {new}"]

    def inside(self, size: int, scope: dict[str, str], cells: dict[str, str], threads: list[str], indent: str, masked: str) -> list[str]:
        self.depth += 1
        try:
            return self.block(size, scope, cells, threads, indent + "  ", masked)
        finally:
            self.depth -= 1

    def masks(self, scope: dict[str, str], cells: dict[str, str], threads: list[str], indent: str, masked: str) -> list[str]:
        if self.chance(50):
            word = self.pick(("mask_", "mask_", "uninterruptibleMask_"))
            return [f"{indent}{word} $ do", *self.inside(2, scope, cells, threads, indent, masked or "-")]
        name = self.fresh("restore")
        word = self.pick(("mask", "mask", "uninterruptibleMask"))
        return [f"{indent}{word} $ \\{name} -> do", *self.inside(2, scope, cells, threads, indent, name)]

    def restores(self, scope: dict[str, str], cells: dict[str, str], threads: list[str], indent: str, masked: str) -> list[str]:
        return [f"{indent}{masked} $ do", *self.inside(1, scope, cells, threads, indent, masked)]

    def throws(self, scope: dict[str, str], indent: str) -> str:
        self.need("Trouble")
        what = self.pick(('throwIO (ErrorCall "own")', "throwIO Small", "throwIO Large", "throwIO DivideByZero", f"void (evaluate (1 `div` {self.atom(self.value('Int', scope, 1))}))", "throw Small"))
        return f"{indent}  when {self.atom(self.value('Bool', scope, 1))} ({what})"

    def handles(self, scope: dict[str, str], cells: dict[str, str], threads: list[str], indent: str, masked: str) -> list[str]:
        self.need("Trouble")
        handler, answer = self.fresh("handler"), self.letter()
        kind = self.pick(("ErrorCall", "Trouble", "ArithException", "SomeException", "AsyncException", "SomeAsyncException"))
        lines = [f"{indent}let {handler} (_ :: {kind}) = putStr {answer}", f"{indent}handle {handler} $ do"]
        return [*lines, *self.inside(self.random.randrange(1, 3), scope, cells, threads, indent, masked), self.throws(scope, indent)]

    def cleans(self, scope: dict[str, str], cells: dict[str, str], threads: list[str], indent: str, masked: str) -> list[str]:
        behind = self.letter()
        word = self.pick(("finally", "onException", "bracket_"))
        body = self.inside(self.random.randrange(1, 3), scope, cells, threads, indent, masked)
        if word == "bracket_":
            return [f"{indent}bracket_ (putStr {self.letter()}) (putStr {behind}) $ do", *body]
        return [f"{indent}flip {word} (putStr {behind}) $ do", *body]

    def loops(self, scope: dict[str, str], cells: dict[str, str], threads: list[str], indent: str, masked: str) -> list[str]:
        if self.chance(50):
            self.need("count")
            return [f"{indent}count 2 $ do", *self.inside(1, scope, cells, threads, indent, masked)]
        name = self.fresh("i")
        return [f"{indent}forM_ [1, 2 :: Int] $ \\{name} -> do", *self.inside(1, {**scope, name: "Int"}, cells, threads, indent, masked)]

    def chooses(self, scope: dict[str, str], cells: dict[str, str], threads: list[str], indent: str, masked: str) -> list[str]:
        name = self.fresh("m")
        test = self.value("Maybe Int", scope)
        return [f"{indent}case {test} of", f"{indent}  Just {name} | {name} > 0 -> do", *self.inside(1, {**scope, name: "Int"}, cells, threads, indent + "  ", masked),
                f"{indent}  _ -> putStr {self.letter()}"]

    def limits(self, scope: dict[str, str], cells: dict[str, str], threads: list[str], indent: str, masked: str) -> list[str]:
        name = self.fresh("t")
        lines = [f"{indent}{name} <- timeout {self.pick(('0', '5', '1000'))} $ do", *self.inside(1, scope, cells, threads, indent, masked)]
        return [*lines, f"{indent}putStr (maybe {self.letter()} (const {self.letter()}) {name})"]

    # The whole.

    def new_cells(self, lines: list[str]) -> dict[str, str]:
        cells: dict[str, str] = {}
        for _ in range(self.random.randrange(1, 4)):
            what = self.random.randrange(100)
            name = self.fresh("c")
            if what < 45:
                kind = self.pick(TYPES)
                if kind == "Shape":
                    self.need("Shape")
                lines.append(f"  {name} <- newMVar ({self.value(kind, {})} :: {kind})")
            elif what < 62:
                kind = "ref " + self.pick(TYPES[:5])
                lines.append(f"  {name} <- newIORef ({self.value(kind[4:], {})} :: {kind[4:]})")
            elif what < 76:
                kind = self.pick(("Locked", "Plain"))
                self.need("Counter")
                lines.append(f"  {name} <- create 0 :: IO {kind}")
            elif what < 86:
                kind = "IO ()"
                lines.append(f"  {name} <- newMVar (putStr {self.letter()})")
            elif what < 93:
                kind = "Int -> Int"
                lines.append(f"  {name} <- newMVar (+ (1 :: Int))")
            else:
                kind = "Job"
                self.need("Job")
                lines.append(f"  {name} <- newMVar (Job {self.letter()} (return ()))")
            cells[name] = kind
        return cells

    def text(self, name: str) -> str:
        lines: list[str] = []
        cells = self.new_cells(lines)
        threads: list[str] = []
        lines.append("  done <- newEmptyMVar")
        for _ in range(self.random.choice((1, 1, 2))):
            thread = self.fresh("thread")
            lines.append(f"  {thread} <- forkIO $ flip finally (putMVar done ()) $ do")
            lines += self.block(self.random.randrange(1, 4), {}, cells, threads[:1] if self.chance(20) else [], "    ")
            threads.append(thread)
        lines += self.block(self.random.randrange(2, 4), {}, cells, threads, "  ")
        if self.chance(70):
            lines.append("  takeMVar done")
        declarations = "".join(DECLARATIONS[it] for it in sorted(self.needs))
        return HEADER.format(name=name) + declarations + "\nmain :: IO ()\nmain = do\n" + "\n".join(lines) + "\n"


def _is_closed(text: str) -> bool:
    """Whether the first bracket's mate is the last character."""
    depth = 0
    for place, it in enumerate(text):
        depth += it in "([" and 1 or it in ")]" and -1 or 0
        if depth == 0:
            return place == len(text) - 1
    return False


def program_text(seed: int, name: str) -> str:
    """The program of a seed, as a module of this name."""
    return Program(seed).text(name)
