"""`haskell` and `litmus`: the module of a script, and the same script by what stands for GHC."""

from __future__ import annotations

import os
import signal
import unittest

from tools.run.module import comment
from tools.run.tests.standins import WrapperTest, is_running, wait_until
from tools.run.tests.terminals import call_on_terminal

LIST = """-- prints: 1 outcome, and there {}
-- prints: 3 states; every schedule ends
-- prints:{}
-- prints: 1. done, after 3 entries
-- prints:    output:
-- prints:      : a
main :: IO () = {{ putStr "a" }};
"""
COUNTS = "1 outcome in 9 runs\n\n1. done, 9 of 9 runs\n   output:\n     : {}\n"


class Module(WrapperTest):
    def setUp(self) -> None:
        super().setUp()
        self.copy_with("proved")
        self.set_coming()
        self.write("module.conc", "-- prints: main = run script;\n")

    def test_a_line_says_what_it_is_of(self) -> None:
        for words in (["haskell", "module.conc"], ["haskell", "module.conc", "--explain"]):
            self.assertEqual(self.call(*words).all, ("-- module.conc, conc_run 1.2.3\nmain = run script;\n", "", 0))
        with open(self.path("module.conc"), "rb") as file:
            self.assertEqual(self.call("haskell", stdin=file).out, "-- standard input, conc_run 1.2.3\nmain = run script;\n")
        self.assertEqual(self.call("haskell", given="-- prints: x\n").out, "-- standard input, conc_run 1.2.3\nx\n")
        self.assertEqual(call_on_terminal(self, "haskell", "module.conc").all, ("", "-- module.conc, conc_run 1.2.3\nmain = run script;\n", 0))

    def test_nothing_is_printed_of_a_refused_script(self) -> None:
        self.assertEqual(self.call("haskell", "wrong.conc").all, ("", "refused: Mismatch at 2:19\n", 3))
        self.assertIn("\n" + " " * 18 + "^\n", self.call("haskell", "wrong.conc", "--explain").err)
        self.assertEqual(self.call("haskell", "module.conc", "--caps", "17").all, ("", "words not understood\n", 2))
        self.assertIn("  ./conc_run haskell [FILE]", self.call("haskell", "module.conc", "--caps", "17", "--explain").err)

    def test_streams(self) -> None:
        with open("/dev/full", "wb") as full:
            self.assertEqual(self.call("haskell", "module.conc", stdout=full).status, 8)
        self.assertEqual(self.call(command=["sh", "-c", "./conc_run haskell module.conc >&-"]).status, 8)
        self.assertEqual(self.call(command=["sh", "-c", "./conc_run haskell <&-"]).all, ("", "read fault\n", 7))
        self.assert_line(self.call("haskell", "module.conc", more={"TMPDIR": self.path("nowhere")}), "to keep the module", 70)


class Comment(unittest.TestCase):
    def test_a_name_stays_in_its_line(self) -> None:
        self.assertEqual(comment(["a\nmain = x\udcff\u2028.conc"], "1.0"), "-- a?main = x??.conc, conc_run 1.0\n")
        self.assertEqual(comment([], "1.0"), "-- standard input, conc_run 1.0\n")


class Litmus(WrapperTest):
    def setUp(self) -> None:
        super().setUp()
        self.copy_with("proved")
        self.with_litmus()
        self.write("a.conc", LIST.format("are no others", " "))
        self.counts = os.path.join(self.room, "counts")
        self.shows("a")

    def shows(self, output: str) -> None:
        """What stands for GHC shows this output in each run."""
        with open(self.counts, "w", encoding="utf-8") as file:
            file.write(COUNTS.format(output))
        self.environment["STAND_IN_COUNTS"] = self.counts

    def test_statuses(self) -> None:
        answer = self.call("litmus", "a.conc")
        self.assertEqual((answer.err, answer.status), ("", 0))
        self.assertIn("a.conc: 9 runs; 1 outcome listed, and there are no others\n", answer.out)
        self.assertRegex(answer.out, r"\n1 script, 9 runs by GHC 9\.0\.2 on 1, 2 and 4 capabilities, \d+ s: 1 of 1 listed outcomes seen, 0 unlisted, 0 by")
        self.shows("b")
        self.assertEqual(self.call("litmus", "a.conc", "--runs", "9").status, 15)
        self.write("open.conc", LIST.format("may be others: states", " ") + "-- ends: 11\n")
        self.assertEqual(self.call("litmus", "open.conc").status, 11)
        self.assertEqual(self.call("litmus", "open.conc", "--seconds=0.5", "a.conc").status, 15)
        self.assertEqual(os.listdir(self.temporary), [])

    def test_faults_of_several_files(self) -> None:
        answer = self.call("litmus", "a.conc", "wrong.conc", "none.conc")
        self.assertEqual(answer.err, "litmus: wrong.conc: refused: Mismatch at 2:19\nlitmus: none.conc: No such file or directory\n")
        self.assertEqual((answer.out, answer.status), ("", 66))
        self.assertEqual(self.call("litmus", "a.conc", "wrong.conc").status, 3)

    def test_words(self) -> None:
        self.assertEqual(self.call("litmus", "--where").all, (self.path("litmus") + "\n", "", 0))
        for words in (["litmus"], ["litmus", "--what", "a.conc"], ["litmus", "--runs", "0", "a.conc"], ["litmus", "--seconds"]):
            with self.subTest(words):
                answer = self.call(*words)
                self.assertEqual((answer.out, answer.status), ("", 2))
                self.assertIn("usage: ./conc_run litmus ", answer.err)
        self.assert_line(self.call("--runs", "9", "litmus", "a.conc"), "the command stands before its options: ./conc_run litmus --runs 9 a.conc", 2)
        self.assertIn("  ./conc_run litmus FILE.. [--runs N]", self.call("litmus", "--help").out)

    def test_memory_is_handed_on(self) -> None:
        answer = self.call("litmus", "a.conc", "--memory", "1")
        self.assertIn("litmus: a.conc: conc_run: 1 MB of memory are too little", answer.err)
        self.assertEqual(answer.status, 2)

    def test_without_ghc(self) -> None:
        os.remove(os.path.join(self.bin, "ghc"))
        for name in ("sh", "env", "readlink"):
            os.symlink(f"/bin/{name}" if name == "sh" else f"/usr/bin/{name}", os.path.join(self.bin, name))
        answer = self.call("litmus", "a.conc", command=["/bin/sh", "./conc_run"], more={"PATH": self.bin})
        self.assert_line(answer, "litmus: there is no ghc: apt-get install ghc libghc-async-dev", 70)

    def test_where_its_files_are_not_installed(self) -> None:
        os.rename(self.path("tools/litmus"), self.path("tools/other"))
        self.assert_line(self.call("litmus", "a.conc"), "litmus needs the folders tools/litmus and litmus", 70)

    def test_streams(self) -> None:
        for words in (["litmus", "a.conc"], ["litmus", "--where"]):
            with open("/dev/full", "wb") as full:
                self.assertEqual(self.call(*words, stdout=full).status, 8)
            self.assertEqual(self.call(command=["sh", "-c", f"./conc_run {' '.join(words)} >&-"]).status, 8)
        self.assertEqual(self.call(command=["sh", "-c", "./conc_run litmus a.conc 2>&-"]).status, 0)
        self.assertEqual(self.call("litmus", "a.conc", more={"LC_ALL": "C"}).status, 0)

    def test_a_signal_ends_the_compiler_and_leaves_nothing(self) -> None:
        asleep = os.path.join(self.room, "asleep")
        for number, status in ((signal.SIGTERM, 143), (signal.SIGINT, 130)):
            with self.start("litmus", "a.conc", more={"STAND_IN_ASLEEP": asleep}) as wrapper:
                self.assertTrue(wait_until(lambda: os.path.exists(asleep)))
                wrapper.send_signal(number)
                wrapper.communicate()
            with open(asleep, encoding="ascii") as file:
                compiler = int(file.read())
            self.assertEqual(wrapper.returncode, status)
            self.assertTrue(wait_until(lambda: not is_running(compiler)))
            self.assertEqual(os.listdir(self.temporary), [])
            os.remove(asleep)

    def test_progress_on_a_terminal(self) -> None:
        answer = call_on_terminal(self, "litmus", "a.conc")
        self.assertIn("1 of 1: lists a.conc", answer.err)
        self.assertEqual(answer.status, 0)
