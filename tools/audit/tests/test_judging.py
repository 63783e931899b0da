"""What a kill adds, and which function is its cause."""

from __future__ import annotations

import unittest

from tools.audit.asking import Answer, _sections
from tools.audit.grouping import Grouper, candidates, definitions, hardened
from tools.audit.judging import Finding, Seen, judge, odd_of, seen
from tools.audit.offers import Place
from tools.audit.questions import BOTH, GOES_ON, INTERRUPT, KILL, KILL_TWO, KILLED, MASKED, WHOLE, Part, Program, Question
from tools.litmus.outcomes import Listed, Outcome

TOLD = b"uncaught exception in main: thread blocked indefinitely in an MVar operation\n"
FIRST, SECOND = Part((0,)), Part((1,))
ASKED, NOTHING, ALL = (Program(0, FIRST, SECOND, how, ()) for how in (KILLED, "nothing", WHOLE))


def listed(*outcomes: tuple[str, str], others: str = "there are no others") -> Listed:
    """Outcomes: how main ends, `done`, `waits` or `deadlock`, and what was printed."""
    made = [Outcome("uncaught", text.encode(), TOLD) if end == "waits" else Outcome(end, text.encode(), b"") for end, text in outcomes]
    return Listed(tuple(made), others)


def answer(*outcomes: tuple[str, str], script: str = "", bound: str = "") -> Answer:
    return Answer(script, listed(*outcomes), "", bound)


def question(kind: str, declined: Program | None = None) -> Question:
    how = {KILL: KILLED, INTERRUPT: MASKED, KILL_TWO: BOTH}[kind]
    return Question(kind, ASKED._replace(how=how), (NOTHING,), (ALL,), declined)


class Outcomes(unittest.TestCase):
    def test_how_main_ends(self) -> None:
        self.assertEqual(seen(Outcome("done", b"a\nb\n", b"")), Seen("ends", ("a", "b"), ""))
        self.assertTrue(seen(Outcome("uncaught", b"a\n", TOLD)).is_stuck())
        self.assertTrue(seen(Outcome("deadlock", b"", b"")).is_stuck())
        self.assertEqual(seen(Outcome("uncaught", b"", b"uncaught exception in main: boom\n")).end, "fails")

    def test_nothing_counts_behind_a_thread_that_waits_for_ever(self) -> None:
        self.assertEqual(seen(Outcome("done", b"a\nsecond: waits for ever\nb\n", b"")), Seen("waits", ("a",), ""))


class Judging(unittest.TestCase):
    def odd(self, asked: Question, outcomes: Listed, **answers: Answer) -> list[Seen]:
        known = {NOTHING: answers["nothing"], ALL: answers["whole"]}
        return sorted(odd_of(asked, outcomes, {**known, **({asked.declined: answers["declined"]} if asked.declined else {})}))

    def test_nothing_and_all_are_allowed(self) -> None:
        odd = self.odd(question(KILL), listed(("done", "1\n"), ("done", "2\n"), ("waits", "1\n")), nothing=answer(("done", "1\n")), whole=answer(("done", "2\n")))
        self.assertEqual(odd, [Seen("waits", ("1",), "")])

    def test_what_the_whole_call_does_too_is_expected(self) -> None:
        odd = self.odd(question(KILL), listed(("waits", "")), nothing=answer(("done", "")), whole=answer(("waits", "")))
        self.assertEqual(odd, [])

    def test_under_a_mask_the_end_tells_which(self) -> None:
        outcomes = listed(("done", "first: ends\n1\n"), ("done", "first: is killed\n2\n"), ("done", "first: is killed\n1\n"), ("done", "first: fails\n2\n"))
        odd = self.odd(question(INTERRUPT), outcomes, nothing=answer(("done", "1\n")), whole=answer(("done", "2\n")))
        self.assertEqual([it.lines for it in odd], [("first: ends", "1"), ("first: is killed", "2")])

    def test_of_two_that_are_killed_no_end_is_told(self) -> None:
        outcomes = listed(("done", "1\n"), ("done", "3\n"))
        odd = self.odd(question(KILL_TWO), outcomes, nothing=answer(("done", "second: ends\n1\n")), whole=answer(("done", "second: ends\n2\n")))
        self.assertEqual([it.lines for it in odd], [("3",)])

    def test_the_second_may_find_the_value_busy(self) -> None:
        declined = Program(0, None, None, WHOLE, ())
        outcomes = listed(("done", "second: ends\n0\n"))
        known = {"nothing": answer(("done", "second: ends\n1\n")), "whole": answer(("done", "second: ends\n2\n")), "declined": answer(("done", "0\n"))}
        self.assertEqual(self.odd(question(KILL, declined), outcomes, **known), [])

    def test_a_call_that_waits_is_told_before_a_thread_that_does(self) -> None:
        call, thread, other = Seen("waits", ("second: ends", GOES_ON), ""), Seen("waits", (), ""), Seen("ends", (), "")
        self.assertEqual(Finding(question(KILL), {other: 1, thread: 2, call: 3}).worst(), call)

    def test_a_question_with_a_bound_is_open(self) -> None:
        asked = question(KILL)
        known = {asked.asked: answer(("waits", "")), NOTHING: answer(bound="states"), ALL: answer()}
        self.assertEqual(judge(asked, known).why_open, "there may be others: states")
        known[NOTHING] = answer()
        self.assertEqual(len(judge(asked, known).odd), 1)


SCRIPT = """-- Lock.hs:3
new :: IO (MVar ()) = { newMVar () };
-- Lock.hs:9
part (n :: Int) :: Int = n + 1;
-- Lock.hs:12
release (x :: MVar ()) :: IO () = {
  mask_ {
    putMVar x () } };
-- Lock.hs:20
with (x :: MVar ()) :: IO () = {
  bracket { takeMVar x } y { release x } { return () } };
-- Lock.hs:12
release2 :: IO () = { return () };
main :: IO () = {
  x <- new;
  with x };
"""


class Grouping(unittest.TestCase):
    def test_definitions_are_actions_of_the_source(self) -> None:
        self.assertEqual([(it.name, it.place.line) for it in definitions(SCRIPT)], [("new", 3), ("release", 12), ("with", 20), ("release2", 12)])

    def test_those_that_call_the_fewest_others_come_first(self) -> None:
        self.assertEqual([it.name for it in candidates(SCRIPT)], ["new", "release", "with"])

    def test_a_function_is_hardened_in_all_its_forms(self) -> None:
        script = hardened(SCRIPT, [Place("Lock.hs", 12)])
        self.assertIn("release (x :: MVar ()) :: IO () = { uninterruptibleMask_ {\n  mask_ {\n    putMVar x () } } };\n", script)
        self.assertIn("release2 :: IO () = { uninterruptibleMask_ { return () } };\nmain ::", script)
        self.assertEqual(script.count("uninterruptibleMask_"), 2)

    def group(self, findings: list[Finding], search: dict[str, str], alone: list[Question] = []) -> list[tuple[str, int]]:
        """Groups, where a search of a script finds the kill's outcome unless one of these functions is hardened in it."""
        def searched(script: str) -> Answer:
            found = [name for name in search if f"{name} " in script and f"= {{ uninterruptibleMask_" in script.split(f"\n{name} ")[-1].split("\n--")[0]]
            return answer(*[("done", "1\n") if any(search[it] == "gone" for it in found) else ("waits", "")], script=script)

        self.answers = {it: Answer(SCRIPT, listed(("waits", "")), "", "") for finding in findings for it in (finding.question.asked,)}
        self.answers.update({NOTHING: answer(("done", "1\n")), ALL: answer(("done", "1\n"))})
        self.answers.update({it.asked: Answer(SCRIPT, listed(("done", "1\n")), "", "") for it in alone})
        return [(it.cause.name, len(it.findings)) for it in Grouper(self.answers, searched, 1, alone).groups(findings)]

    def finding(self, number: int) -> Finding:
        asked = Question(KILL, ASKED._replace(maker=number), (NOTHING,), (ALL,), None)
        return Finding(asked, {Seen("waits", (), ""): 1})

    def test_all_that_is_gone_with_one_function_is_one_finding(self) -> None:
        self.assertEqual(self.group([self.finding(0), self.finding(1)], {"release": "gone"}), [("release", 2)])

    def test_what_no_function_takes_away_is_told_by_its_calls(self) -> None:
        self.assertEqual(self.group([self.finding(0), self.finding(1)], {}), [("", 1), ("", 1)])

    def test_a_function_that_waits_is_the_last_to_be_blamed(self) -> None:
        # Hardened, `release` leaves a kill of it alone waiting; `with` does not.
        asked = Question(KILL, Program(0, FIRST, None, KILLED, ()), (NOTHING,), (ALL,), None)
        found = self.group([self.finding(0)], {"release": "stuck", "with": "gone"}, [asked])
        self.assertEqual(found, [("with", 1)])


class Translated(unittest.TestCase):
    def test_sections(self) -> None:
        lines = ["=== question0 0\n", "a\n", "b\n", "=== question12 3\n", "X.hs:1:1: error\n"]
        self.assertEqual(list(_sections(lines)), [(0, 0, "a\nb\n"), (12, 3, "X.hs:1:1: error\n")])


if __name__ == "__main__":
    unittest.main()
