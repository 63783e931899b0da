"""What is tried, which questions are made of that, and how they are written and told."""

from __future__ import annotations

import contextlib
import io
import unittest

from tools.audit.asking import Answer, Limits
from tools.audit.command import Stop, find_subject
from tools.audit.confirming import stress_text
from tools.audit.grouping import Cause, Group
from tools.audit.judging import Finding, Seen, Verdict
from tools.audit.offers import Maker, Offer, Operation, Place
from tools.audit.questions import ALWAYS, BESIDE, BOTH, GOES_ON, KILL, KILL_TWO, KILLED, MASKED, THROW, TIME_LIMIT, WHOLE, Part, Program, Question, Writer, covering, questions_of
from tools.audit.report import Report, first_line
from tools.audit.telling import Told, happening, result, smallest
from tools.audit.trying import Behaviour, Tried, behaviour, trial_text
from tools.audit.words import read

ACQUIRE, RELEASE, WITH, TAKEN = range(4)


def operation(name: str, line: int, is_shown: bool = False, action: bool = False) -> Operation:
    call = f"M.{name} x" + (" (return ())" if action else "")
    return Operation(name, call, f"M.{name} x throwing" if action else "", is_shown, is_shown, Place("a/Lock.hs", line))


OFFER = Offer("Lock", "Lock", "M.Lock", [Maker("new", "(M.new :: IO M.Lock)")],
              [operation("acquire", 4), operation("release", 9), operation("with", 14, action=True), operation("taken", 19, is_shown=True)])


class FakeTrial:
    """A lock that is free, taken, or taken for ever, as GHC would show it."""

    def __init__(self) -> None:
        self.count = 4
        self.asked = 0

    def ask(self, maker: int, sequences: object) -> None:
        self.asked += len(list(sequences)) if isinstance(sequences, list) else 0

    def of(self, maker: int, calls: tuple[int, ...]) -> Tried:
        taken = 0
        results: list[str] = []
        for it in calls:
            if it in (ACQUIRE, WITH) and taken:
                return Tried("waits", tuple(results))
            if it == RELEASE and not taken:
                return Tried("fails", tuple(results))
            taken = {ACQUIRE: 1, RELEASE: 0}.get(it, taken)
            results.append(str(taken) if it == TAKEN else "")
        return Tried("ends", tuple(results))


FOUND = behaviour(FakeTrial(), 0, [(ACQUIRE, RELEASE)])  # type: ignore[arg-type]


class Trying(unittest.TestCase):
    def test_what_ends_waits_and_fails(self) -> None:
        self.assertEqual((FOUND.ends, FOUND.waits, FOUND.fails), ([ACQUIRE, WITH, TAKEN], [], [RELEASE]))

    def test_what_leaves_no_trace(self) -> None:
        self.assertEqual(FOUND.traceless, [(WITH,), (TAKEN,), (ACQUIRE, RELEASE)])
        self.assertEqual(FOUND.pairs, [(ACQUIRE, RELEASE)])

    def test_a_pair_that_leaves_a_trace_is_none(self) -> None:
        self.assertEqual(behaviour(FakeTrial(), 0, [(ACQUIRE, WITH)]).pairs, [])  # type: ignore[arg-type]

    def test_each_operation_is_in_the_trial(self) -> None:
        text = trial_text(OFFER)
        self.assertIn("  0 -> M.acquire x >> tell \"\"\n", text)
        self.assertIn("  3 -> M.taken x >>= tell . show\n", text)


class Questions(unittest.TestCase):
    def test_what_only_looks_comes_last(self) -> None:
        self.assertEqual(covering(OFFER, FOUND), ((WITH,), (ACQUIRE, RELEASE), (TAKEN,)))

    def test_each_operation_needs_one_unit(self) -> None:
        found = Behaviour([], [], [], [(0, 1), (2,), (0, 3), (1, 0)], [(0, 1)], {})
        self.assertEqual(covering(OFFER, found), ((2,), (0, 1), (0, 3)))

    def test_kinds(self) -> None:
        asked = questions_of(OFFER, 0, FOUND, ALWAYS)
        firsts, seconds = 4, 5
        self.assertEqual(len(asked), firsts * seconds * 2 + 9)
        further = {kind: len(questions_of(OFFER, 0, FOUND, (kind,))) for kind in (TIME_LIMIT, THROW, BESIDE)}
        self.assertEqual(further, {TIME_LIMIT: firsts * seconds, THROW: seconds, BESIDE: 6})

    def test_what_the_second_makes_possible_is_asked_for(self) -> None:
        found = Behaviour([1], [0], [], [(3,)], [], {1: (0,)})
        asked = [it.asked for it in questions_of(OFFER, 0, found, (KILL,)) if it.asked.second]
        self.assertEqual({it.probe for it in asked}, {((3,), (0,))})

    def test_what_may_come_of_two_kills(self) -> None:
        asked = next(it for it in questions_of(OFFER, 0, FOUND, (KILL_TWO,)) if it.asked.first != it.asked.second)
        self.assertEqual(len({*asked.without, *asked.whole}), 4)

    def test_the_text_of_a_program(self) -> None:
        text = Writer(OFFER).body(Program(0, Part((ACQUIRE, RELEASE), is_bracket=True), Part((TAKEN,)), MASKED, ((TAKEN,),)))
        self.assertIn("forkIO (ended (bracket_ (M.acquire x) (M.release x) (return ())) >>= putMVar endOfFirst)", text)
        self.assertIn("forkIO (ended (restore (M.taken x >> return ())) >>= putMVar endOfSecond)", text)
        steps = ["killThread first", "takeMVar endOfFirst", "takeMVar endOfSecond", '"first: "', '"second: "', GOES_ON, "M.taken x\n", "show result1"]
        self.assertEqual(sorted(steps, key=text.index), steps)

    def test_two_kills_stand_behind_each_other(self) -> None:
        text = Writer(OFFER).body(Program(0, Part((WITH,)), Part((WITH,)), BOTH, ()))
        self.assertIn("  killThread first\n  killThread second\n", text)


def finding(worst: Seen, probe: tuple[tuple[int, ...], ...] = ((WITH,), (ACQUIRE, RELEASE))) -> Finding:
    asked = Program(0, Part((WITH,)), Part((TAKEN,)), KILLED, probe)
    plain = Program(0, Part((WITH,)), Part((TAKEN,)), WHOLE, probe)
    return Finding(Question(KILL, asked, (plain._replace(first=None),), (plain,), None), {worst: 2})


STUCK = Seen("waits", ("second: ends", GOES_ON, "with"), "")


def told(worst: Seen) -> Told:
    return Told(Group(Cause("release2", Place("Lock.hs", 9)), [finding(worst)]), finding(worst), "", 2, "",
                ["thread 1 takes from cell 1, and waits", "thread 1 receives ThreadKilled from thread 0 while it waits to take from cell 1"])


class Telling(unittest.TestCase):
    def test_which_call_waits(self) -> None:
        self.assertEqual(result(told(STUCK), Writer(OFFER)), "Then `acquire; release` of main may wait for ever.")
        self.assertEqual(result(told(Seen("waits", (), "")), Writer(OFFER)), "Then main waits for the second thread for ever.")
        self.assertEqual(told(STUCK).hit(), "waits to take from cell 1")

    def test_what_is_printed(self) -> None:
        seen = Seen("ends", ("second: ends", GOES_ON, "taken 2"), "")
        self.assertEqual(result(told(seen), Writer(OFFER)), "Then main may print what no order of whole calls gives: second: ends; taken 2")

    def test_what_happens(self) -> None:
        asked = finding(STUCK).question
        self.assertEqual(happening(asked, Writer(OFFER)), "A thread in `with x (return ())` is killed beside another one in `taken x`.")
        two = asked._replace(kind=KILL_TWO)
        self.assertEqual(happening(two, Writer(OFFER)), "A thread in `with x (return ())` is killed, and then another one in `taken x`.")

    def test_a_finding_keeps_only_the_call_that_waits(self) -> None:
        class Asked:
            answers: dict[Program, Answer] = {}

            def ask(self, programs: object) -> None:
                from tools.audit.tests.test_judging import answer
                assert isinstance(programs, list)
                stuck, *plain = programs
                self.answers = {stuck: answer(("waits", f"second: ends\n{GOES_ON}\n")), **{it: answer(("done", "")) for it in plain}}

        found = smallest(told(STUCK).group, Asked())  # type: ignore[arg-type]
        self.assertEqual(found.question.asked.probe, ((ACQUIRE, RELEASE),))
        self.assertEqual(found.odd, {Seen("waits", ("second: ends", GOES_ON), ""): 1})

    def test_the_first_line(self) -> None:
        verdicts = [Verdict(finding(STUCK).question, {STUCK: 2}, ""), Verdict(finding(STUCK).question, {}, "states")]
        line = first_line(Report(OFFER, {0: FOUND}, verdicts, [told(STUCK)], [], "audit-Lock"), Writer(OFFER))
        self.assertEqual(line, "Lock: 2 questions, 1 function that may leave later calls waiting for ever when killed: release, 1 open")
        self.assertEqual(first_line(Report(OFFER, {0: FOUND}, verdicts[:1], [], [], ""), Writer(OFFER)), "Lock: 1 question, nothing found")

    def test_a_stress_program_kills_and_looks(self) -> None:
        text = stress_text(OFFER, told(STUCK), FOUND)
        self.assertIn("restore (repeated stopped (M.with x (return ()) >> return ()))", text)
        self.assertIn("repeated stopped ((M.taken x >> return ()) >> yield)", text)
        self.assertIn("    takeMVar over\n    _ <- M.with x (return ())\n    _ <- M.acquire x\n    _ <- M.release x\n    return ()))", text)

    def test_what_cannot_be_repeated_is_done_once_beside_the_kill(self) -> None:
        shown = told(STUCK)
        asked = shown.finding.question.asked._replace(second=Part((RELEASE,)))
        changed = shown._replace(finding=shown.finding._replace(question=shown.finding.question._replace(asked=asked)))
        text = stress_text(OFFER, changed, FOUND)
        self.assertIn("forkIO (M.release x >> return () >> putMVar secondOver ())", text)
        self.assertIn("    takeMVar secondOver\n    _ <- M.with x (return ())\n", text)


class Words(unittest.TestCase):
    def refused(self, *words: str) -> int:
        with contextlib.redirect_stderr(io.StringIO()), self.assertRaises(SystemExit) as it:
            read(list(words), [])
        assert isinstance(it.exception.code, int)
        return it.exception.code

    def test_what_is_asked(self) -> None:
        asked = read(["--jobs", "2", "A.Lock", "--pair", "grab/drop", "--also", "limit", "--states=9", "--skip", "look"], ["-ia:b", "--strict"])
        self.assertEqual((asked.subject, asked.folders, asked.module_words), ("A.Lock", ("a", "b"), ("--strict",)))
        self.assertEqual((asked.pairs, asked.skipped, asked.kinds), ((("grab", "drop"),), ("look",), (*ALWAYS, TIME_LIMIT)))
        self.assertEqual(asked.limits, Limits(9, 60.0, 2))
        self.assertEqual(asked.confirms, 0)

    def test_words_that_are_not_understood(self) -> None:
        for words in ((), ("A", "B"), ("A", "--states", "0"), ("A", "--pair", "grab"), ("A", "--also", "more"), ("A", "--seconds", "nan")):
            self.assertEqual(self.refused(*words), 2, words)

    def test_a_module_that_is_not_there(self) -> None:
        for subject, status in (("No.Such", 66), ("no", 2), ("no.hs", 66)):
            with self.assertRaises(Stop) as it:
                find_subject(read([subject], []))
            self.assertEqual(it.exception.status, status)


if __name__ == "__main__":
    unittest.main()
