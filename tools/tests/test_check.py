"""./check: its words, the tests that it runs, and what is said in two places."""

from __future__ import annotations

import os
import subprocess
from unittest import mock

from tools import same, suites
from tools.run import refusals
from tools.run.words import STATUSES
from tools.tests.repository import TOP, RepositoryTest, said_by, tool

LEXER = '''pub const TEXTS: [&str; 2] = [
    "if",
    "Int",
];
'''
SYMBOLS = '''pub const TEXTS: [&[char]; 2] = [
    &['-', '>'],
    &['('],
];
'''
LANGUAGE = "**Reserved words**, by number: `if Int`.\n\n**Symbols**, by number: `->` `(`.\n\n"


class Words(RepositoryTest):
    def test_each_option_calls_what_does_it(self) -> None:
        check = tool("check")
        for words, module, name, given in ((["--draw"], check.syntax, "draw", ()), (["--rows"], check.rows, "try_rows", ("",)), (["--rows", "tour"], check.rows, "try_rows", ("tour",)),
                                           (["--edits"], check.edits, "try_edits", ([],)), (["--edits", "a", "b"], check.edits, "try_edits", (["a", "b"],)),
                                           (["--gate"], check.gate, "cost", ("HEAD",)), (["--gate", "HEAD~2"], check.gate, "cost", ("HEAD~2",)),
                                           (["--measured", "log"], check.gate, "measured", ("log",)),
                                           (["--measure", "log", "rt", "ci", "--x"], check.gate, "measure", ("log", ["rt", "ci", "--x"]))):
            with self.subTest(words), mock.patch.object(check.crates_map, "draw", return_value=0), mock.patch.object(module, name, return_value=7) as called:
                self.assertEqual(check.main(words), 7)
                self.assertEqual(called.call_args[0], given)

    def test_words_that_are_refused(self) -> None:
        check = tool("check")
        for words in (["rows"], ["--draw", "--gate"], ["--measure"], ["--measure", "log"], ["--measured"], ["--row"], ["--rows", "a", "b"]):
            with self.subTest(words):
                self.assertEqual(said_by(lambda words=words: check.main(words))[2], 2)  # type: ignore[misc]

    def test_the_status_says_whether_something_is_wrong(self) -> None:
        check = tool("check")
        for wrong, said, status in (([], "check: nothing is wrong that can be seen without a proof\n", 0), (["a: wrong", "b: wrong"], "a: wrong\nb: wrong\n", 1)):
            with mock.patch.object(check, "everything", lambda wrong=wrong: iter(wrong)):
                self.assertEqual(said_by(lambda: check.main([])), (said, "", status))

    def test_it_ends_quietly_where_nobody_reads(self) -> None:
        with subprocess.Popen([os.path.join(TOP, "check"), "--help"], stdout=subprocess.PIPE, stderr=subprocess.PIPE) as ran:
            assert ran.stdout and ran.stderr
            ran.stdout.close()
            self.assertEqual(ran.stderr.read(), b"")


class Suites(RepositoryTest):
    def test_a_module_that_fails_is_told_with_what_it_said(self) -> None:
        self.write("tools/tests/__init__.py", "")
        self.write("tools/__init__.py", "")
        self.write("tools/tests/test_good.py", "import unittest\nclass A(unittest.TestCase):\n    def test_a(self): pass\n")
        self.write("tools/tests/test_bad.py", "import unittest\nclass A(unittest.TestCase):\n    def test_a(self): self.fail('why it fails')\n")
        with mock.patch.object(suites, "TOP", self.top):
            self.assertEqual(suites.modules(), ["tools/tests/test_bad.py", "tools/tests/test_good.py"])
            problems = list(suites.Suites().problems())
        self.assertEqual(len(problems), 1)
        self.assertTrue(problems[0].startswith("tools/tests/test_bad.py: its tests end with status 1: "))
        self.assertIn("why it fails", problems[0])

    def test_a_module_without_tests_is_no_module_that_passes(self) -> None:
        self.write("tools/__init__.py", "")
        self.write("tools/tests/__init__.py", "")
        self.write("tools/tests/test_none.py", "raise SystemExit(3)\n")
        with mock.patch.object(suites, "TOP", self.top):
            self.assertNotEqual(suites.run_module("tools/tests/test_none.py")[0], 0)


class SaidTwice(RepositoryTest):
    def setUp(self) -> None:
        super().setUp()
        self.write("crates/rules_tokens/src/word.rt", LEXER)
        self.write("crates/rules_tokens/src/symbol.rt", SYMBOLS)
        self.write(same.PAGE, LANGUAGE)

    def test_words_and_symbols_are_those_of_the_code(self) -> None:
        self.assertEqual(list(same.same_as_code()), [])
        self.write(same.PAGE, LANGUAGE.replace("if Int", "if Text"))
        self.assertEqual(list(same.same_as_code()), [f"{same.PAGE}: Reserved words are not those of rules_tokens/src/word.rt: Text where the code has Int"])
        self.write(same.PAGE, LANGUAGE.replace(" `(`", ""))
        self.assertEqual(list(same.same_as_code()), [f"{same.PAGE}: Symbols are not those of rules_tokens/src/symbol.rt: 1 where the code has 2"])

    def test_texts_that_the_program_prints_stand_on_the_page(self) -> None:
        self.write("crates/conc_top/specs/Lines.antt", 'line = codes "out of\\n"\n-- codes "a comment"\nother = codes ": "\n')
        self.assertEqual(list(same.same_as_code()), [f"{same.PAGE}: it doesn't have the text `out of`, which crates/conc_top/specs/Lines.antt has the program print"])
        self.write(same.PAGE, LANGUAGE + "It prints `out\nof memory`.\n")
        self.assertEqual(list(same.same_as_code()), [])

    def test_statuses_and_refusals_of_the_wrapper(self) -> None:
        kinds = "".join(f'line = placed_line (codes "{it}") at\n' for it in refusals.BROKEN)
        self.write("crates/conc_top/specs/Lines.antt", kinds)
        statuses = "".join(f"| {it} | an ending |\n" for it in STATUSES if it != 8) + "and status\n8 is another\n"
        self.write(same.PAGE, statuses)
        self.assertEqual(list(same.wrapper_texts()), [])
        self.write("crates/conc_top/specs/Lines.antt", kinds + 'codes "refused: Newer at 1:1"\n')
        self.write(same.PAGE, statuses.replace("| 4 |", "| four |"))
        self.assertEqual(list(same.wrapper_texts()), [f"{same.PAGE}: it doesn't have the status 4, which ./conc_run --help lists",
                                                      "tools/run/refusals.py: BROKEN has nothing of Newer", "tools/run/refusals.py: REMEDIES has nothing of Newer"])
        self.write("crates/conc_top/specs/Lines.antt", kinds.replace('"Twice"', '"twice"'))
        self.write(same.PAGE, statuses)
        self.assertEqual(list(same.wrapper_texts())[0], "tools/run/refusals.py: BROKEN has Twice, which is no refusal")
