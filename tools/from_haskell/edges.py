"""Calls of the translator on files of their own: what it refuses, by which status, and what it does where the system is in the way."""

from __future__ import annotations

import functools
import pathlib
import re
import signal
import subprocess
import tempfile
import time
from collections.abc import Callable
from typing import NamedTuple

from tools.from_haskell.rows import PACKAGE, PROGRAMS, TOP

class Edge(NamedTuple):
    """A call on files of its own: the files, the words, the status, and what stands in the output or the errors."""

    name: str
    files: dict[str, str]
    words: tuple[str, ...]
    status: int
    has: str


MAIN = "module Main (main) where\n"

EDGES = (
    Edge("imports in a circle", {"A.hs": MAIN + "import B\nmain :: IO ()\nmain = b\n", "B.hs": "module B where\nimport C\nb :: IO ()\nb = c\n",
                                 "C.hs": "module C where\nimport B\nc :: IO ()\nc = b\n"}, ("A.hs",), 3, "cycle"),
    Edge("two files of one module", {"A.hs": MAIN + "import T\nmain :: IO ()\nmain = print t\n", "d/T.hs": "module T where\nt :: Int\nt = 1\n",
                                     "e/T.hs": "module T where\nt :: Int\nt = 2\n"}, ("-id:e", "A.hs"), 0, 'putStrLn "1"'),
    Edge("carriage returns, tabs and a blank in a path", {"a b/A.hs": MAIN + "main :: IO ()\r\nmain = do\r\n\tputStrLn \"cr\"\r\n\tputStrLn \"lf\"\r\n"},
         ("a b/A.hs",), 0, 'putStrLn "cr"; putStrLn "lf"'),
    Edge("a literate file", {"A.lhs": "Text\n\n> " + MAIN + "> main :: IO ()\n> main = putStrLn \"bird\"\n"}, ("A.lhs",), 0, '"bird"'),
    Edge("a literate file with an option", {"A.lhs": "Text\n\n> {-# OPTIONS_GHC -F -pgmF /bin/false #-}\n> " + MAIN + "> main :: IO ()\n> main = putStrLn \"b\"\n"},
         ("A.lhs",), 3, "A.lhs:3:"),
    Edge("an option in an imported module", {"A.hs": MAIN + "import T\nmain :: IO ()\nmain = print t\n",
                                            "T.hs": "{-# OPTIONS_GHC -pgmP /bin/false #-}\nmodule T where\nt :: Int\nt = 1\n"}, ("A.hs",), 3, "T.hs:1:"),
    Edge("Template Haskell", {"A.hs": "{-# LANGUAGE TemplateHaskell #-}\n" + MAIN + "import Language.Haskell.TH.Syntax (runIO)\nmain :: IO ()\n"
                              + "main = $(runIO (writeFile \"ran\" \"\") >> [| putStrLn \"x\" |])\n"}, ("A.hs",), 3, "A.hs:1:14: error: [unsafe]"),
    Edge("another main", {"A.hs": "module A (f) where\nf :: IO ()\nf = putStrLn \"f\"\n"}, ("--main", "f", "A.hs"), 0, '"f"'),
    Edge("a main that isn't exported", {"A.hs": "module A (f) where\nf, g :: IO ()\nf = g\ng = return ()\n"}, ("--main", "g", "A.hs"), 2, "exports no action g"),
    Edge("a main of another type", {"A.hs": "module A (f) where\nf :: IO Int\nf = return 1\n"}, ("--main=f", "A.hs"), 2, "exports no action f"),
    Edge("no file of the name", {}, ("A.hs",), 66, "can't be read"),
    Edge("an empty file", {"A.hs": ""}, ("A.hs",), 3, "main"),
    Edge("a value that needs itself", {"A.hs": MAIN + "x :: Int\nx = x + 1\nmain :: IO ()\nmain = print x\n"}, ("A.hs",), 3, "[endless]"),
    Edge("characters beyond ASCII", {"A.hs": MAIN + "main :: IO ()\nmain = putStrLn \"ä中\"\n"}, ("A.hs",), 0, '"ä中"'),
    Edge("100,000 lines", {"A.hs": MAIN + "main :: IO ()\nmain = f0\n" + "".join("f%d :: IO ()\nf%d = f%d\n" % (k, k, k + 1) for k in range(30))
                           + "f30 :: IO ()\nf30 = putStrLn \"end\"\n" + "-- a line\n" * 100000}, ("A.hs",), 0, '"end"'),
    Edge("a package environment and a file of GHCi", {"A.hs": MAIN + "main :: IO ()\nmain = putStrLn \"e\"\n", ".ghci": ":! touch ran\n",
                                                    ".ghc.environment.x86_64-linux-9.0.2": "clear-package-db\n"}, ("A.hs",), 0, '"e"'),
)


def try_edge(program: str, edge: Edge) -> str:
    """What is wrong with the call, or nothing."""
    with tempfile.TemporaryDirectory() as folder:
        for name, text in edge.files.items():
            path = pathlib.Path(folder) / name
            path.parent.mkdir(parents=True, exist_ok=True)
            path.write_bytes(text.encode())
        done = subprocess.run([program, *edge.words], cwd=folder, capture_output=True, text=True, check=False)
        if (pathlib.Path(folder) / "ran").exists():
            return "%s: something of the module ran" % edge.name
    if done.returncode != edge.status or edge.has not in done.stdout + done.stderr:
        return "%s: status %d, %r" % (edge.name, done.returncode, (done.stdout + done.stderr)[-300:])
    return ""


def try_full_disk(program: str) -> str:
    """A script that can't be written ends with status 8 and a line."""
    with open("/dev/full", "w", encoding="utf-8") as full:
        done = subprocess.run([program, "TwoPrinters.hs"], cwd=PROGRAMS, stdout=full, stderr=subprocess.PIPE, text=True, check=False)
    return "" if done.returncode == 8 and "can't be written" in done.stderr else "a full disk: status %d, %r" % (done.returncode, done.stderr)


def try_interrupt(program: str) -> str:
    """Ctrl-C ends a translation at once."""
    with tempfile.TemporaryDirectory() as folder:
        path = pathlib.Path(folder) / "A.hs"
        path.write_text(MAIN + "main :: IO ()\nmain = " + " >> ".join(["print (sum [1 .. 2000 :: Int])"] * 400) + "\n", encoding="utf-8")
        with subprocess.Popen([program, str(path)], stdout=subprocess.DEVNULL, stderr=subprocess.DEVNULL) as child:
            time.sleep(1)
            child.send_signal(signal.SIGINT)
            try:
                return "" if child.wait(20) != 0 else "Ctrl-C: the translation was over before it"
            except subprocess.TimeoutExpired:
                child.kill()
                return "Ctrl-C: the translation goes on"


def try_document() -> str:
    """Each cause of a refusal and each class of notes stands in the document."""
    report = (PACKAGE / "src" / "FromHaskell" / "Report.hs").read_text(encoding="utf-8")
    document = (TOP / "docs" / "HASKELL.md").read_text(encoding="utf-8")
    names = re.findall(r'  Cause\w+ ->\s*\(\s*"([a-z-]+)"', report) + re.findall(r'  Note\w+ -> "([a-z-]+)"', report)
    missing = [name for name in names if "| `%s` |" % name not in document]
    return "docs/HASKELL.md lacks %s" % ", ".join(missing) if missing or len(names) < 20 else ""


def try_edges(program: str) -> list[str]:
    """What is wrong with the calls on files of their own."""
    checks: list[Callable[[], str]] = [functools.partial(try_edge, program, edge) for edge in EDGES]
    checks += [functools.partial(try_full_disk, program), functools.partial(try_interrupt, program), try_document]
    found = [wrong for wrong in (check() for check in checks) if wrong]
    print("%d calls on files of their own, %d wrong" % (len(checks), len(found)))
    return found


