"""`outcomes`: how long it searches, what stands below its list, and on a terminal."""

from __future__ import annotations

import os
import unittest

from tools.run import search
from tools.run.tests.standins import WrapperTest
from tools.run.tests.terminals import call_on_terminal, shown

OTHERS = "-- prints: 1 outcome, and there may be others: {}\n-- ends: 11\n"


class Outcomes(WrapperTest):
    def test_a_list_that_may_lack_outcomes(self) -> None:
        self.copy_with("proved")
        self.write("others.conc", OTHERS.format("clock"))
        head = "1 outcome, and there may be others: clock\n"
        self.assertEqual(self.call("outcomes", "others.conc").all, (head, "", 11))
        answer = self.call("outcomes", "others.conc", "--explain")
        self.assertEqual((answer.out, answer.status), (head, 11))
        self.assertEqual([it.split(":")[0] for it in answer.err.splitlines()], ["conc_run", "states", "fuel", "clock", "limit"])

    def test_no_outcome_of_this_number(self) -> None:
        self.copy_with("proved")
        self.write("none.conc", "-- error: no outcome 5\n-- ends: 12\n")
        self.assertEqual(self.call("outcomes", "none.conc", "--witness", "5").all, ("", "no outcome 5\n", 12))
        answer = self.call("outcomes", "none.conc", "--witness", "5", "--explain")
        self.assertEqual((answer.err.splitlines()[0], answer.status), ("no outcome 5", 12))
        self.assertIn("conc_run: outcomes have the numbers of the list", answer.err)


class OutcomesOnTerminal(WrapperTest):
    def test_a_search_shows_for_how_long(self) -> None:
        self.copy_with("proved")
        self.write("slow.conc", "-- takes: 1.8\n-- prints: 2 outcomes\n-- prints: 9 states\n")
        answer = call_on_terminal(self, "outcomes", "slow.conc", stdin=os.devnull, stdout=self.path("list"))
        with open(self.path("list"), encoding="utf-8") as file:
            self.assertEqual((file.read(), answer.status), ("2 outcomes\n9 states\n", 0))
        self.assertIn("conc_run: searches, up to 1000000 states, 1 s", answer.err)
        self.assertEqual(shown(answer), "", "and nothing of that is left")
        answer = call_on_terminal(self, "outcomes", "slow.conc", "--states", "60")
        self.assertIn("up to 60 states, ", answer.err)
        self.assertEqual((shown(answer), answer.status), ("2 outcomes\n9 states\n", 0), "a list on the terminal stands alone")

    def test_a_quick_search_shows_nothing(self) -> None:
        self.copy_with("proved")
        answer = call_on_terminal(self, "outcomes", "hello.conc")
        self.assertEqual((answer.err, answer.status), ("hello\n", 0))

    def test_a_line_of_the_program_stands_alone(self) -> None:
        self.copy_with("proved")
        self.write("large.conc", "-- takes: 1.8\n-- error: out of memory\n-- ends: 6\n")
        answer = call_on_terminal(self, "outcomes", "large.conc")
        self.assertEqual((shown(answer), answer.status), ("out of memory\n", 6))

    def test_the_cause_is_told_that_the_list_has(self) -> None:
        self.copy_with("proved")
        self.write("others.conc", OTHERS.format("states"))
        answer = call_on_terminal(self, "outcomes", "others.conc")
        self.assertIn("conc_run: states: --states N keeps more", answer.err)
        self.assertNotIn("fuel:", answer.err)
        self.assertNotIn("no outcome found yet", answer.err)
        self.assertEqual(answer.status, 11)

    def test_no_outcome_found_yet(self) -> None:
        self.copy_with("proved")
        self.write("others.conc", "-- prints: 0 outcomes, and there may be others: states\n-- ends: 11\n")
        answer = call_on_terminal(self, "outcomes", "others.conc")
        head, yet, what = answer.err.splitlines()
        self.assertEqual((head, yet), ("0 outcomes, and there may be others: states", "conc_run: no outcome found yet"))
        self.assertIn("conc_run: states: --states N keeps more", what)
        self.assertEqual(answer.status, 11)

    def test_no_folder_to_hold_a_line_in(self) -> None:
        self.copy_with("proved")
        self.write("slow.conc", "-- prints: 2 outcomes\n")
        answer = call_on_terminal(self, "outcomes", "slow.conc", more={"TMPDIR": self.path("nowhere")})
        self.assertEqual((answer.err, answer.status), ("2 outcomes\n", 0))


class States(unittest.TestCase):
    def test_the_bound_of_the_words(self) -> None:
        for words in ("outcomes --states 60", "outcomes --states=60 --fuel 5", "outcomes --fuel 5 --states 60"):
            self.assertEqual(search.states_of(words.split()), "60")
        self.assertEqual(search.states_of(["outcomes", "--fuel", "5"]), "1000000")

    def test_the_first_line_of_a_list(self) -> None:
        head = search.Head("0 outcomes, and there may be others: limit: threads")
        self.assertEqual((head.outcomes, head.cause), (0, "limit"))
        self.assertEqual(search.Head("2 outcomes, and there are no others").cause, "")
