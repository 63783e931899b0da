"""The wrapper on a terminal: what helps there, and a script that is typed."""

from __future__ import annotations

import os

from tools.run.tests.standins import WrapperTest
from tools.run.tests.terminals import Terminal, call_on_terminal
from tools.run.tests.test_refusals import EXPLAINED


class OnTerminal(WrapperTest):
    def out(self) -> str:
        with open(self.path("out.txt"), encoding="utf-8") as file:
            return file.read()

    def test_a_refusal_is_explained(self) -> None:
        self.copy_with("proved")
        answer = call_on_terminal(self, "run", "wrong.conc", stdin=os.devnull, stdout=self.path("out.txt"))
        self.assertEqual((self.out(), answer.err, answer.status), ("", EXPLAINED, 3))

    def test_a_run_says_nothing_more(self) -> None:
        self.copy_with("proved")
        answer = call_on_terminal(self, "run", stdin=self.path("hello.conc"), stdout=self.path("out.txt"))
        self.assertEqual((self.out(), answer.err, answer.status), ("hello\n", "", 0))

    def test_no_words(self) -> None:
        self.copy_with("proved")
        answer = call_on_terminal(self, stdin=os.devnull)
        self.assertTrue(answer.err.startswith("words not understood\nconc_run: to run a script: ./conc_run run FILE"), answer.err)
        self.assertEqual(answer.status, 2)

    def test_a_file_waits_for_nothing(self) -> None:
        self.copy_with("proved")
        self.assertEqual(call_on_terminal(self, "run", "hello.conc").all, ("", "hello\n", 0))

    def test_refused_words_wait_for_nothing(self) -> None:
        self.copy_with("proved")
        answer = call_on_terminal(self, "run", "--caps", "17")
        self.assertNotIn("waits for", answer.err)
        self.assertEqual(answer.status, 2)


class Typed(WrapperTest):
    def typed(self, *words: str) -> Terminal:
        """The wrapper, which waits for a script that is typed, and the first lines of one."""
        terminal = Terminal(self, list(words))
        self.assertTrue(terminal.until(lambda: b"waits for a script from the terminal, up to Ctrl-D" in terminal.said), terminal.said)
        terminal.type(b"-- prints: typed\n")
        return terminal

    def test_a_typed_script(self) -> None:
        self.copy_with("proved")
        terminal = self.typed("run")
        terminal.type(b"\x04")
        answer = terminal.end()
        self.assertEqual((answer.err.splitlines()[-1], answer.status), ("typed", 0))
        self.assertEqual(os.listdir(self.temporary), [], "and no file of it is left")

    def test_among_several_files(self) -> None:
        self.copy_with("proved")
        terminal = self.typed("check", "hello.conc", "-")
        terminal.type(b"\x04")
        answer = terminal.end()
        self.assertEqual((answer.err.splitlines()[-1], answer.status), ("-: typed", 0))

    def test_an_interrupt_in_place_of_its_end(self) -> None:
        self.copy_with("proved")
        for words in (["run"], ["picture"], ["check", "hello.conc", "-"]):
            with self.subTest(words):
                terminal = self.typed(*words)
                terminal.type(b"\x03")
                self.assertEqual(terminal.end().status, 130)
                self.assertEqual(os.listdir(self.temporary), [])
