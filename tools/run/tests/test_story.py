"""`story` of a history, and of a script, which is run first: the titles of its picture, a line each."""

from __future__ import annotations

import unittest

from tools.run.story import sentences
from tools.run.tests.standins import WrapperTest
from tools.run.tests.terminals import call_on_terminal

TITLE = "<g class='entry'><title>entry 2: thread 0 forks thread 1</title><circle/></g>"
TOLD = "    2  thread 0 forks thread 1\n"


class Story(WrapperTest):
    def test_a_history_and_a_script(self) -> None:
        self.copy_with("proved")
        self.write("written.trace", f"conc-trace 1\n-- prints: {TITLE}\n")
        for words in (["story", "written.trace"], ["story", "written.trace", "--explain"]):
            self.assertEqual(self.call(*words, more=self.counting).all, (TOLD, "", 0))
            self.assertEqual(self.calls(), ["picture"])
        self.assertEqual(call_on_terminal(self, "story", "written.trace").all, ("", TOLD, 0))
        # What the stand-in prints for `trace` is what it is given for `picture`.
        self.write("script.conc", f"-- prints: -- prints: {TITLE}\n")
        self.assertEqual(self.call("story", "script.conc", "--caps", "2", more=self.counting).all, (TOLD, "", 0))
        self.assertEqual(self.calls(), ["trace --caps 2", "picture"])

    def test_what_is_refused(self) -> None:
        self.copy_with("proved")
        self.assertEqual(self.call("story", "wrong.conc").all, ("", "refused: Mismatch at 2:19\n", 3))
        self.assertIn("\nmain :: IO () = { putStrLn 3 };\n", self.call("story", "wrong.conc", "--explain").err)
        answer = self.call("story", "hello.conc", "--caps", "17", "--explain")
        self.assertEqual((answer.err.splitlines()[0], answer.status), ("words not understood", 2))
        self.assertIn("./conc_run story [FILE] [options of trace]", answer.err)
        self.write("long.trace", f"conc-trace 1\n-- prints: {TITLE}\n-- error: not drawn: 10001 entries, at most 10000\n-- ends: 13\n")
        self.assertEqual(self.call("story", "long.trace").all, ("", "not drawn: 10001 entries, at most 10000\n", 13))

    def test_streams(self) -> None:
        self.copy_with("proved")
        self.write("written.trace", f"conc-trace 1\n-- prints: {TITLE}\n")
        with open("/dev/full", "wb") as full:
            self.assertEqual(self.call("story", "written.trace", stdout=full).status, 8)
        self.assertEqual(self.call(command=["sh", "-c", "./conc_run story written.trace >&-"]).status, 8)
        self.assertEqual(self.call(command=["sh", "-c", "./conc_run story <&-"]).all, ("", "read fault\n", 7))


class Sentences(unittest.TestCase):
    def test_local_steps_are_left_out(self) -> None:
        told = ["thread 0 makes local steps: 2", "thread 0 makes cell 0", "thread 1 receives ErrorCall thread 0 makes local steps: 2 from thread 0"]
        drawn = "".join(f"<g class='entry'><title>entry {number}: {it}</title></g>" for number, it in enumerate(told, 9))
        self.assertEqual(sentences(drawn.encode()), f"   10  {told[1]}\n   11  {told[2]}\n")

    def test_texts_stay_in_their_lines(self) -> None:
        title = "entry 3: thread 0 prints &lt;g class='entry'&gt; &amp;amp; é\n\x1b[31m"
        self.assertEqual(sentences(f"<g class='entry'><title>{title}</title></g>".encode()), "    3  thread 0 prints <g class='entry'> &amp; é??[31m\n")

    def test_other_marks_are_left_out(self) -> None:
        self.assertEqual(sentences(b"<g class='open'><title>thread 0 runs, from entry 0 on</title></g><g class='entry'><rect/></g>"), "")
