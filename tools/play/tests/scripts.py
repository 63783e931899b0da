"""Scripts of the tests: the examples, the inputs of the rows, hostile ones and deep ones."""

from __future__ import annotations

import os
import re
import shlex
from typing import Iterator

from tools import rows
from tools.sources import TOP, here

LONGEST = 1 << 21
ESCAPES = {"n": b"\n", "r": b"\r", "t": b"\t", '"': b'"', "\\": b"\\"}


def examples() -> dict[str, str]:
    found = {}
    for path in here("examples/*.conc") + here("examples/mistakes/*.conc"):
        with open(os.path.join(TOP, path), encoding="utf-8", newline="") as file:
            found[path.removeprefix("examples/").removesuffix(".conc")] = file.read()
    return found


def quoted(text: str, number: int, case: bytes = b"") -> bytes | None:
    """The bytes of a text in quotes of a row; `\\?` is the byte of a case."""
    inside = re.fullmatch(r'"(.*)"', text.strip())
    if not inside or r"\?" in inside[1] and not case:
        return None
    found = b""
    for it in re.finditer(r"\\x([0-9a-fA-F]{2})|\\(.)|([^\\]+)", inside[1]):
        if it[1]:
            found += bytes([int(it[1], 16)])
        elif it[2]:
            found += {"i": str(number).encode(), "p": str(number - 1).encode(), "?": case}.get(it[2]) or ESCAPES[it[2]]
        else:
            found += it[3].encode()
    return found


def repeated(line: str) -> bytes | None:
    """What a line `repeat N "TEXT"` spells. Longer than any script it isn't wanted."""
    _, times, text = line.split(" ", 2)
    once = quoted(text, 1)
    if once is None or len(once) * int(times) > LONGEST:
        return None
    if r"\i" not in text and r"\p" not in text:
        return once * int(times)
    return b"".join(quoted(text, it) or b"" for it in range(1, int(times) + 1))


def input_of(row: list[str], case: bytes = b"") -> bytes | None:
    """What a row gives to the program in a case, or None where that is longer than any script."""
    found, is_line = b"", False
    for line in row:
        if line.startswith("|"):
            found += (b"\n" if is_line else b"") + line[1:].removeprefix(" ").encode()
            is_line = True
            continue
        piece: bytes | None = b""
        if line.startswith("+"):
            piece = line[1:].removeprefix(" ").encode()
        elif line.startswith('bytes "'):
            piece = quoted(line.removeprefix("bytes "), 0, case)
        elif re.match(r'repeat \d+ "', line):
            piece = repeated(line)
        if piece is None:
            return None
        found += piece
    return found


def words_of(row: list[str]) -> list[str]:
    words = next((it.removeprefix("words:") for it in row if it.startswith("words:")), "run")
    return shlex.split(words)


def bytes_of(line: str) -> list[int]:
    """The bytes that a line `each byte: 00-09 0B` names."""
    ends = [it.split("-") for it in line.removeprefix("each byte:").split()]
    return [it for one in ends for it in range(int(one[0], 16), int(one[-1], 16) + 1)]


def inputs_of(row: list[str]) -> list[bytes]:
    """What a row gives to the program, in each of its cases."""
    each = next((it for it in row if it.startswith("each ")), "")
    whole = input_of(row)
    if each.startswith("each byte:"):
        return [made for it in bytes_of(each) if (made := input_of(row, bytes([it]))) is not None]
    if whole is None:
        return []
    return [whole[:size] for size in range(1, len(whole))] if each == "each part" else [whole]


def of_rows() -> Iterator[tuple[str, list[str], bytes]]:
    """Each row in each of its cases: its name, its words and what it gives to the program. What isn't a script, as a clock or a source that
    fails, is left out, and so are the two documents that are longer than any script."""
    for path in here("crates/conc_rows/data/*.rows"):
        for name, _, row in rows.rows_of(path):
            for script in inputs_of(row):
                yield name, words_of(row), script


def outcomes_of(told: bytes) -> list[tuple[int, bytes, bytes]]:
    """The outcomes of a list: the status, the output and the errors of each."""
    statuses, found, stream = {b"done": 0, b"uncaught": 1, b"deadlock": 4}, [], 0
    for line in told.split(b"\n"):
        head = re.match(rb"\d+\. (done|uncaught|deadlock), after", line)
        if head:
            found.append([statuses[head[1]], b"", b""])
        elif line in (b"   output:", b"   errors:"):
            stream = 1 if line == b"   output:" else 2
        elif line.startswith((b"     | ", b"     : ")):
            found[-1][stream] += line[7:] + (b"\n" if line[5:6] == b"|" else b"")
        elif line == b"     |":
            found[-1][stream] += b"\n"
    return [(it[0], it[1], it[2]) for it in found]


NASTY = '<img src=x onerror=alert(1)><script>alert(2)</script></pre></textarea>&amp;\'"'.replace('"', '\\"')
HOSTILE = {
    "tags": f'main :: IO () = {{ putStrLn "{NASTY}"; hPutStrLn stderr "{NASTY}"; t <- forkIO {{ throwIO @() (ErrorCall "{NASTY}") }}; threadDelay 5; '
            f'throwIO @() (ErrorCall "{NASTY}") }};',
    "emoji, NUL and turned text": 'main :: IO () = { putStrLn "\U0001F600 \u00e9 \u4e2d\u6587 \u202e\u0000\u0007\u2028\u200b\ufeff\u2066"; putStr "\\t\\\\\\"\\n\\t" };',
    "byte order mark first": '\ufeffmain :: IO () = { putStrLn "x" };',
    "refused behind emoji": 'main :: IO () = { putStrLn "\U0001F600\U0001F600"; putStrLn 3 };',
    "refused tags": 'main :: IO () = { putStrLn "a"; <img src=x onerror=alert(1)> };',
    "wrong escape": 'main :: IO () = { putStrLn "\\q" };', "every escape": 'main :: IO () = { putStr "\\n\\t\\"\\\\" };',
    "end": "main :: IO () = {", "empty": "", "open text": 'main :: IO () = { putStrLn "</script>\n};', "comment": "-- </script><!--\n",
}


def deep() -> dict[str, str]:
    """Scripts near the limits of nesting (200 openers) and of height (1,000)."""
    n = 198
    openers = {
        "parentheses": "main :: IO () = { putStrLn " + "(" * n + '"x"' + ")" * n + " };",
        "blocks": "main :: IO () = { " + "mask_ { " * n + "return ()" + " }" * n + " };",
        "ifs": "main :: IO () = { putStrLn (" + "if True then " * (n - 1) + '"x"' + ' else "y"' * (n - 1) + ") };",
        "lets": "f :: Int = " + "let x = " * n + "1" + " in x" * n + "; main :: IO () = { putStrLn (show f) };",
        "too deep": "main :: IO () = { putStrLn " + "(" * 300 + '"x"' + ")" * 300 + " };",
    }
    heights = {
        "calls": "g0 :: Int = 1;\n" + "".join(f"g{i} :: Int = g{i - 1} + 1;\n" for i in range(1, 490)) + "main :: IO () = { putStrLn (show g489) };",
        "too high": "g0 :: Int = 1;\n" + "".join(f"g{i} :: Int = g{i - 1} + 1;\n" for i in range(1, 1100)) + "main :: IO () = { putStrLn (show g1099) };",
        "nots": "f (a :: Bool) :: Bool = " + "not (" * 197 + "a" + ")" * 197 + ";\nmain :: IO () = { putStrLn (show (f (f (f (f True))))) };",
        "lets of calls": "g0 :: Int = 1;\n" + "".join(f"g{i} :: Int = let x = (let y = (if g{i - 1} == 0 then 1 else 2) in y) in x;\n" for i in range(1, 240)) +
                         "main :: IO () = { putStrLn (show g239) };",
    }
    for form in ("if True then " * 190 + "_" + " else a" * 190, "(1 + " * 190 + "_" + ")" * 190, "- (" * 190 + "_" + ")" * 190, "(div " * 190 + "(_)" + " 1)" * 190):
        calls = "".join(f"f{i} (a :: Int) :: Int = {form.replace('_', f'f{i - 1} a')};\n" for i in range(1, 5))
        heights[f"high {form[:9]}"] = f"f0 (a :: Int) :: Int = {form.replace('_', 'a')};\n{calls}main :: IO () = {{ putStrLn (show (f4 1)) }};"
    frames = {
        "frames": "f (n :: Int) :: IO Int = { if n == 0 then { return 0 } else { x <- f (n - 1); return (x + 1) } };\n"
                  "main :: IO () = { x <- f 60000; putStrLn (show x) };",
        "catches": "f (n :: Int) :: IO () = { if n == 0 then { return () } else { catch { f (n - 1) } e { return () } } };\n"
                   'main :: IO () = { f 30000; putStrLn "x" };',
    }
    return {**openers, **heights, **frames}


def long() -> str:
    line = '  putStr "0123456789012345678901234567890123456789"; putStr "x";\n'
    return "main :: IO () = {\n" + line * 15000 + "  return () };\n"


ENDLESS = 'f (n :: Int) :: IO () = { f (n + 1) };\nmain :: IO () = { putStrLn "on"; f 0 };'
SLEEPER = "main :: IO () = { threadDelay 100000000 };"
FORKER = "f :: IO () = { t <- forkIO { threadDelay 1000000000 }; f };\nmain :: IO () = { f };"
GROWER = ("double (t :: Text) (n :: Int) :: IO Text = { if n == 0 then { return t } else { double (t ++ t) (n - 1) } };\n"
          "grow (t :: Text) (n :: Int) (kept :: [Text]) :: IO () = { grow t (n + 1) ((t ++ show n) : kept) };\n"
          'main :: IO () = { t <- double "x" 15; grow t 0 ([] @Text) };\n')
