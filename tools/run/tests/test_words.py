"""The words of the command line: which are refused and what helps then; the page of --help; the version."""

from __future__ import annotations

import os
import re

from tools.run import hints
from tools.run.page import help_page
from tools.run.tests.standins import WrapperTest
from tools.run.words import COMMANDS, OPTIONS, PROGRAM_OPTIONS, STATUSES

REFUSED = ("", "walk", "run --caps 17", "run --caps", "hello.conc", "run --", "run -x", "@")


class Words(WrapperTest):
    def test_refused_words(self) -> None:
        self.copy_with("proved")
        for words in REFUSED:
            with self.subTest(words):
                self.assertEqual(self.call(*words.split()).all, ("", "words not understood\n", 2))
                answer = self.call("--explain", *words.split())
                self.assertEqual((answer.out, answer.err.splitlines()[0], answer.status), ("", "words not understood", 2))
        self.assertEqual(self.call("bench").status, 0)

    def test_hints(self) -> None:
        self.copy_with("proved")
        for words, part in (("", "conc_run: to run a script: ./conc_run run FILE"), ("hello.conc", "a command comes first: ./conc_run run hello.conc"),
                            ("run --caps 17", "  ./conc_run run [FILE] [--caps N]"), ("walk", "conc_run: ./conc_run --help has the commands"),
                            ("outcomes --caps 17", "  ./conc_run outcomes [FILE] [--clock C] [--states N]")):
            with self.subTest(words):
                self.assertIn(part, self.call("--explain", *words.split()).err)

    def test_what_is_wrong_is_said(self) -> None:
        for words, said in (("run --caps 17", "argument --caps: 17 is no number from 1 to 16"), ("run --clock x", "argument --clock: x is neither real nor virtual"),
                            ("run --caps", "argument --caps: expected one argument"), ("run --caps 1 --caps 1", "argument --caps: it stands twice"),
                            ("check --caps 1", "unrecognized arguments: --caps 1"), ("bench 0", "argument N: 0 is no number from 1 to 4000"),
                            ("bench", "the following arguments are required: N"), ("run --caps 4 --fuel=10", ""), ("bench 4000 --fuel 9", "")):
            with self.subTest(words):
                self.assertEqual(hints.what_is_wrong(words.split()), said)
        self.copy_with("proved")
        self.assertEqual(self.call("--explain", "run", "--caps", "17").err.splitlines()[1], "conc_run: argument --caps: 17 is no number from 1 to 16")

    def test_options_before_the_command(self) -> None:
        self.copy_with("none")
        self.assert_line(self.call("--caps", "4", "run", "hello.conc", "--fuel=10"),
                         "conc_run: the command stands before its options: ./conc_run run --caps 4 --fuel=10 hello.conc", 2)
        self.assert_line(self.call("--fuel=10", "run", "--", "-x y"), "./conc_run run --fuel=10 -- '-x y'", 2)
        self.copy_with("proved")
        self.assertEqual(self.call("--explain", "run", "hello.conc", "--memory", "512").all, ("hello\n", "", 0), "the wrapper's own may stand anywhere")

    def test_help(self) -> None:
        self.copy_with("none")
        for words in ("--help", "-h", "help", "run --caps 4 -h"):
            with self.subTest(words):
                answer = self.call(*words.split())
                self.assertEqual((answer.err, answer.status), ("", 0))
                self.assertIn("  ./conc_run run [FILE] [--caps N] [--fuel N] [--clock C]   checks a script and runs it\n", answer.out)
                self.assertEqual(answer.out.count("conc_run test"), 1)
                self.assertEqual(answer.out.count("66  the file"), 1)

    def test_the_page_has_all_of_the_table(self) -> None:
        page = help_page()
        for command in COMMANDS.values():
            self.assertIn(f"  ./conc_run {command.usage}", page)
            self.assertIn(command.help, page)
            self.assertLessEqual(set(command.options), set(OPTIONS))
        for option in PROGRAM_OPTIONS.values():
            self.assertRegex(page, rf"(?m)^  {option.usage} +{re.escape(option.help)}$")
        for status, text in STATUSES.items():
            self.assertRegex(page, rf"(?m)(^|  ) *{status}  {re.escape(text.splitlines()[0])}")
        self.assertLessEqual(max(map(len, page.splitlines())), 128)

    def test_words_are_refused_before_anything_is_read(self) -> None:
        self.copy_with("proved")
        given, endless = os.pipe()
        self.addCleanup(os.close, endless)
        answer = self.call("--explain", "run", "--caps", "17", stdin=given)
        os.close(given)
        self.assertEqual((answer.err.splitlines()[0], answer.status), ("words not understood", 2))


class Version(WrapperTest):
    def test_version(self) -> None:
        self.copy_with("proved")
        self.assertEqual(self.call("--version").all, ("conc_run 1.2.3\nkit: rattle-kit-0\nbuild: proved\n", "", 0))
        self.copy_with("checked")
        self.assertIn("build: checked, without proof", self.call("run", "--version").out)

    def test_version_builds_nothing(self) -> None:
        self.copy_with("none")
        self.assertIn("build: none yet", self.call("--version").out)
        self.assertFalse(os.path.exists(self.path("out")))

    def test_neither_kit_nor_file(self) -> None:
        self.copy_with("none")
        os.remove(self.path("VERSION"))
        answer = self.call("--version", more={"PATH": "/usr/bin:/bin"})
        self.assertEqual(answer.out.splitlines()[:2], ["conc_run unknown", "kit: no command rt here"])
