"""Syntax files of editors: each reserved word has its colour, and what is no word has none."""

from __future__ import annotations

import json
import os
import re
import shutil
import subprocess
import tempfile
import unittest

from tools import syntax
from tools.play import tables
from tools.tests.repository import TOP, RepositoryTest

LANGUAGE = "**Reserved words**, by number: `if Int True\nputStr show onException ArithException`.\n\n**Symbols**, by number: `->` `-` `*` `(` `)`.\n\n"
SCRIPT = '''--! never output "has"
main :: IO () = { putStr "a\\n\\q"; x' <- takeMVar m12; -- putStr
  mask__; return 12 };
'''


class Groups(RepositoryTest):
    def test_each_word_is_in_one_group(self) -> None:
        self.write("docs/LANGUAGE.md", LANGUAGE)
        self.assertEqual(syntax.groups(tables.reserved_words()), {"keyword": ["if"], "type": ["Int", "ArithException"], "constructor": ["True"],
                                                                  "function": ["show"], "action": ["putStr", "onException"]})
        self.assertEqual(syntax.symbols(), ["->", "-", "*"])
        self.assertEqual(syntax.alternatives(syntax.symbols()), r"\->|\*|\-")

    def test_files_that_are_stale(self) -> None:
        self.write("docs/LANGUAGE.md", LANGUAGE)
        self.assertEqual(len(list(syntax.stale())), len(syntax.files()))
        for path, text in syntax.files().items():
            self.write(path, text)
        self.assertEqual(list(syntax.stale()), [])
        self.write("docs/LANGUAGE.md", LANGUAGE.replace("Int", "Int Text"))
        self.assertEqual([it.split(":")[0] for it in syntax.stale()], ["editors/vim/syntax/conc.vim", "editors/vscode/syntaxes/conc.tmLanguage.json"])


class Grammar(unittest.TestCase):
    """The patterns of VS Code's grammar, as far as Python's are the same."""

    def setUp(self) -> None:
        with open(os.path.join(TOP, "editors/vscode/syntaxes/conc.tmLanguage.json"), encoding="utf-8") as file:
            self.rules = json.load(file)["repository"]
        self.words = [(it["name"], re.compile(it["match"])) for it in self.rules["words"]["patterns"]]

    def scopes(self, text: str) -> list[str]:
        return [name for name, pattern in self.words if pattern.search(text)]

    def test_each_reserved_word_has_one_scope(self) -> None:
        for word in tables.reserved_words():
            for text in (word, f"({word})", f"@{word} ", f"a;{word}\n"):
                self.assertEqual(len(self.scopes(text)), 1, text)
            for text in (f"{word}'", f"x{word}", f"{word}_x", f"{word}1", f"é{word}"):
                found = [pattern.search(text) for _, pattern in self.words]
                self.assertFalse([it for it in found if it], text)

    def test_claims_comments_and_symbols(self) -> None:
        claim = re.compile(self.rules["claim"]["begin"])
        self.assertTrue(claim.match("--! never") and claim.match(" \t--  ! never"))
        self.assertFalse(claim.match("x; --! never") or claim.match("-- x"))
        self.assertTrue(re.fullmatch(self.rules["comment"]["match"], "--> a comment"))
        symbol = re.compile(self.rules["others"]["patterns"][1]["match"])
        self.assertEqual(symbol.findall("a <- b ++ c::d"), ["<-", "++", "::"])

    def test_the_other_files_are_read(self) -> None:
        for name in ("package.json", "language-configuration.json"):
            with open(os.path.join(TOP, "editors/vscode", name), encoding="utf-8") as file:
                self.assertTrue(json.load(file))


@unittest.skipUnless(shutil.which("vim"), "no vim here")
class Vim(unittest.TestCase):
    """What Vim itself makes of a script."""

    def groups(self, *places: tuple[int, int]) -> list[str]:
        """The groups of the characters at these lines and columns."""
        with tempfile.TemporaryDirectory(prefix="test-vim.") as room:
            with open(f"{room}/a.conc", "w", encoding="utf-8") as file:
                file.write(SCRIPT)
            asked = "".join(f"call add(g, synIDattr(synID({line}, {column}, 1), 'name'))\n" for line, column in places)
            with open(f"{room}/ask.vim", "w", encoding="utf-8") as file:
                file.write(f"set runtimepath^={TOP}/editors/vim\nfiletype plugin on\nsyntax on\nedit {room}/a.conc\nlet g = []\n{asked}"
                           f"call add(g, &commentstring)\ncall writefile(g, '{room}/groups')\nqall!\n")
            # (what vim says to the terminal is nothing to test)
            subprocess.run(["vim", "-es", "-u", "NONE", "-i", "NONE", "-S", f"{room}/ask.vim"], stdin=subprocess.DEVNULL, stdout=subprocess.DEVNULL,
                           stderr=subprocess.DEVNULL, check=False, timeout=300)
            with open(f"{room}/groups", encoding="utf-8") as file:
                return file.read().splitlines()

    def test_a_script(self) -> None:
        found = self.groups((1, 5), (1, 18), (2, 1), (2, 6), (2, 9), (2, 19), (2, 28), (2, 30), (2, 36), (2, 58), (3, 3), (3, 11), (3, 18))
        self.assertEqual(found, ["concClaimWord", "concText", "", "concSymbol", "concType", "concAction", "concEscape", "concWrongEscape", "", "concComment", "",
                                 "concAction", "concNumber", "-- %s"])
