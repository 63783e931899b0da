"""`picture` of a history, and of a script, which is run first."""

from __future__ import annotations

import os

from tools.run.tests.standins import WrapperTest
from tools.run.tests.terminals import call_on_terminal


class Picture(WrapperTest):
    def test_a_script_is_run_once_before_it_is_drawn(self) -> None:
        self.copy_with("proved")
        # What the stand-in prints for `trace` is what it is given for `picture`.
        self.write("script.conc", "-- prints: -- prints: drawn\n")
        for words in (["picture", "script.conc", "--caps", "2"], ["picture", "script.conc", "--caps", "2", "--explain"]):
            self.assertEqual(self.call(*words, more=self.counting).all, ("drawn\n", "", 0))
            self.assertEqual(self.calls(), ["trace --caps 2", "picture"])
        self.assertEqual(call_on_terminal(self, "picture", "script.conc", more=self.counting).all, ("", "drawn\n", 0))
        self.assertEqual(self.calls(), ["trace", "picture"])
        with open(self.path("script.conc"), "rb") as file:
            self.assertEqual(self.call("picture", given=file.read()).all, ("drawn\n", "", 0))

    def test_a_history_is_drawn_as_it_is(self) -> None:
        self.copy_with("proved")
        self.write("written.trace", "conc-trace 1\n-- prints: drawn\n")
        for words in (["picture", "written.trace"], ["picture", "written.trace", "--explain"]):
            self.assertEqual(self.call(*words, more=self.counting).all, ("drawn\n", "", 0))
            self.assertEqual(self.calls(), ["picture"])
        self.assertEqual(call_on_terminal(self, "picture", "written.trace", more=self.counting).all, ("", "drawn\n", 0))
        self.assertEqual(self.calls(), ["picture"], "the program runs once")
        self.assertEqual(self.call("picture", given="conc-trace 1\n-- prints: drawn\n").all, ("drawn\n", "", 0))

    def test_a_refused_script_is_not_drawn(self) -> None:
        self.copy_with("proved")
        self.assertEqual(self.call("picture", "wrong.conc").all, ("", "refused: Mismatch at 2:19\n", 3))
        self.assertIn("\nmain :: IO () = { putStrLn 3 };\n" + " " * 18 + "^\n", self.call("picture", "wrong.conc", "--explain").err)

    def test_wrong_options(self) -> None:
        self.copy_with("proved")
        given, endless = os.pipe()
        self.addCleanup(os.close, endless)
        answer = self.call("picture", "--caps", "17", "--explain", stdin=given)
        os.close(given)
        self.assertEqual((answer.err.splitlines()[0], answer.status), ("words not understood", 2))
        self.assertIn("./conc_run picture [FILE] [options of trace]", answer.err)

    def test_what_did_not_run_to_an_end_is_not_drawn(self) -> None:
        self.copy_with("proved")
        self.write("large.conc", "-- error: out of memory\n-- ends: 6\n")
        self.assertEqual(self.call("picture", "large.conc").all, ("", "out of memory\n", 6))
        self.write("late.conc", "-- prints: -- prints: drawn\n-- ends: 4\n")
        self.assertEqual(self.call("picture", "late.conc").all, ("drawn\n", "", 0))

    def test_closed_input(self) -> None:
        self.copy_with("proved")
        self.assertEqual(self.call(command=["sh", "-c", "./conc_run picture <&-"]).all, ("", "read fault\n", 7))

    def test_no_room_for_the_history(self) -> None:
        self.copy_with("proved")
        answer = self.call("picture", "hello.conc", more={"TMPDIR": self.path("nowhere")})
        self.assert_line(answer, f"no room in {self.path('nowhere')} to keep what is to be drawn", 70)
