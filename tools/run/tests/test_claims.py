"""`claims`: which claims of each file hold, as lines that an editor jumps to, and what helps below them."""

from __future__ import annotations

import os
import unittest

from tools.run.claims import behind_code, count_text
from tools.run.tests.standins import WrapperTest
from tools.run.tests.terminals import call_on_terminal, shown

HOLDS = "-- prints: line 3: holds\n-- prints: line 4: holds\n"
FAILS = "-- prints: line 1: holds\n-- prints: line 7: fails: outcome 2\n-- prints: line 9: fails: outcome 5\n-- ends: 14\n"
OPEN = "-- prints: line 3: open: states\n-- prints: line 4: open: limit: threads\n-- ends: 11\n"


class Claims(WrapperTest):
    def setUp(self) -> None:
        super().setUp()
        self.copy_with("proved")
        self.set_coming()
        for name, text in (("holds", HOLDS), ("fails", FAILS), ("open", OPEN)):
            self.write(f"{name}.conc", text)

    def test_each_line_begins_with_file_and_line(self) -> None:
        self.assertEqual(self.call("claims", "holds.conc").all, ("holds.conc:3: holds\nholds.conc:4: holds\n2 claims hold, 0 fail, 0 open\n", "", 0))
        with open(self.path("holds.conc"), "rb") as file:
            self.assertEqual(self.call("claims", stdin=file).out, "-:3: holds\n-:4: holds\n2 claims hold, 0 fail, 0 open\n")
        self.assertEqual(self.call("claims", "-", given=HOLDS).out, "-:3: holds\n-:4: holds\n2 claims hold, 0 fail, 0 open\n")

    def test_a_claim_that_fails_and_its_history(self) -> None:
        answer = self.call("claims", "fails.conc", "--clock", "virtual")
        self.assertEqual(answer.out, "fails.conc:1: holds\nfails.conc:7: fails: outcome 2\nfails.conc:9: fails: outcome 5\n1 claim holds, 2 fail, 0 open\n")
        self.assertEqual(answer.err, "conc_run: outcome 2 of fails.conc as a picture: "
                         "./conc_run outcomes --clock virtual --witness 2 fails.conc | ./conc_run picture > outcome.svg\n")
        self.assertEqual(answer.status, 14)

    def test_a_claim_that_fails_without_an_outcome(self) -> None:
        self.write("none.conc", "-- prints: line 2: fails\n-- prints: line 3: fails: a schedule may run for ever\n-- ends: 14\n")
        out = "none.conc:2: fails\nnone.conc:3: fails: a schedule may run for ever\n0 claims hold, 2 fail, 0 open\n"
        self.assertEqual(self.call("claims", "none.conc").all, (out, "", 14))

    def test_the_history_of_a_file_with_an_odd_name(self) -> None:
        for name, named in (("-x.conc", "-- -x.conc"), ("it's.conc", "'it'\\''s.conc'")):
            self.write(name, FAILS)
            self.assertIn(f"./conc_run outcomes --witness 2 {named} | ./conc_run picture", self.call("claims", "--", name).err)

    def test_several_files(self) -> None:
        answer = self.call("claims", "holds.conc", "fails.conc", "open.conc")
        self.assertEqual(answer.out.splitlines()[-1], "3 claims hold, 2 fail, 2 open")
        self.assertEqual([it.split(":")[0] for it in answer.out.splitlines()[:-1]], ["holds.conc"] * 2 + ["fails.conc"] * 3 + ["open.conc"] * 2)
        self.assertEqual(answer.status, 14)
        self.assertEqual(self.call("claims", "holds.conc", "open.conc").status, 11)
        self.assertEqual(self.call("claims", "fails.conc", "nowhere.conc").status, 66)

    def test_a_refused_claim(self) -> None:
        self.write("refused.conc", "-- refused: Claim at 2:11\n--! always\n")
        answer = self.call("claims", "holds.conc", "refused.conc")
        self.assertEqual((answer.err, answer.status), ("refused.conc:2:11: refused: Claim at 2:11\n", 3))
        err = self.call("claims", "refused.conc", "--explain").err.splitlines()
        self.assertEqual(err[:3], ["refused.conc:2:11: refused: Claim at 2:11", "--! always", " " * 10 + "^"])
        self.assertTrue(err[3].startswith("Claim: "))
        self.write("refused.conc", "-- refused: TooLong\n")
        self.assertEqual(self.call("claims", "refused.conc").all, ("", "refused.conc: refused: TooLong\n", 3))

    def test_no_claim(self) -> None:
        self.write("none.conc", "-- error: no claim\n-- ends: 12\n")
        self.assertEqual(self.call("claims", "none.conc").all, ("", "none.conc: no claim\n", 12))
        self.assertEqual(self.call("claims", "none.conc", "--explain").err.splitlines()[1:], ["conc_run: a claim is a line of the script such as --! never stuck"])
        answer = self.call("claims", "none.conc", "holds.conc")
        self.assertEqual((answer.out.splitlines()[-1], answer.status), ("2 claims hold, 0 fail, 0 open", 12))

    def test_open_claims_are_explained(self) -> None:
        self.assertEqual(self.call("claims", "open.conc").err, "")
        answer = self.call("claims", "open.conc", "--explain")
        self.assertEqual([it.split(":")[1] for it in answer.err.splitlines()], [" states", " limit"])
        self.assertEqual(answer.status, 11)

    def test_a_claim_behind_code_is_warned_of(self) -> None:
        self.write("behind.conc", HOLDS + "main; --! never stuck\n")
        warning = "behind.conc:3: warning: a claim behind code is a comment alone; it needs a line of its own\n"
        self.assertEqual(self.call("claims", "behind.conc").all, ("behind.conc:3: holds\nbehind.conc:4: holds\n2 claims hold, 0 fail, 0 open\n", warning, 0))
        with open(self.path("behind.conc"), encoding="utf-8") as file:
            self.assertEqual(self.call("claims", given=file.read()).err, warning.replace("behind.conc", "-"))
        self.write("behind.conc", "-- error: no claim\n-- ends: 12\nmain; --! never stuck\n")
        self.assertEqual(self.call("claims", "behind.conc").err, "behind.conc: no claim\n" + warning)

    def test_refused_words_are_told_once(self) -> None:
        for words in (["--caps", "17", "holds.conc", "fails.conc"], ["--states", "17", "holds.conc"]):
            self.assertEqual(self.call("claims", *words).all, ("", "words not understood\n", 2))
        err = self.call("claims", "--states", "17", "holds.conc", "--explain").err.splitlines()
        self.assertEqual(err[0], "words not understood")
        self.assertIn("  ./conc_run claims [FILE..] [--clock C] [--states N] [--fuel N]", "\n".join(err))

    def test_full_output(self) -> None:
        with open("/dev/full", "wb") as full:
            self.assertEqual(self.call("claims", "holds.conc", "fails.conc", stdout=full, more=self.counting).status, 8)
        self.assertEqual(len(self.calls()), 1, "and no other file is searched then")

    def test_what_the_program_gets(self) -> None:
        self.call("claims", "holds.conc", "--fuel=9", "fails.conc", more=self.counting)
        self.assertEqual(self.calls(), ["claims --fuel=9"] * 2)

    def test_a_program_without_claims(self) -> None:
        self.set_coming("claims", "haskell")
        self.assertNotRegex(self.call("--help").out, "claim|haskell")
        self.assertEqual(self.call("claims", "holds.conc", more=self.counting).all, ("", "words not understood\n", 2))
        self.assertEqual(self.calls(), ["claims holds.conc"], "the words are the program's to refuse")


class OnTerminal(WrapperTest):
    def test_it_shows_for_how_long_it_searches(self) -> None:
        self.copy_with("proved")
        self.set_coming()
        self.write("slow.conc", "-- takes: 1.8\n" + HOLDS)
        answer = call_on_terminal(self, "claims", "slow.conc", "--states", "60")
        self.assertRegex(answer.err, r"conc_run: slow\.conc: searches, up to 60 states, \d+ s")
        self.assertEqual((shown(answer), answer.status), ("slow.conc:3: holds\nslow.conc:4: holds\n2 claims hold, 0 fail, 0 open\n", 0))
        self.assertEqual(os.listdir(self.temporary), [])


class BehindCode(unittest.TestCase):
    def lines(self, *lines: str) -> list[int]:
        return behind_code("\n".join(lines).encode())

    def test_behind_code(self) -> None:
        self.assertEqual(self.lines("main; --! never done", "x--!y", "}--\t ! always", 'putStr "a\\"b" --! x', "a - b --!"), [1, 2, 3, 4, 5])

    def test_a_claim(self) -> None:
        self.assertEqual(self.lines("--! never done", " \t\r--!always", "-- ! never"), [])

    def test_in_a_text_or_another_comment(self) -> None:
        self.assertEqual(self.lines('putStr "--! never"', 'putStr "\\\\" -- "--! x"', "x -- --! never", "-- x --! never", '"\\"--! x"'), [])

    def test_long_lines(self) -> None:
        self.assertEqual(self.lines("-" * 99_999, '"' + "a" * 99_999, "a-" * 50_000 + "a --! x"), [3])


class Count(unittest.TestCase):
    def test_how_many(self) -> None:
        self.assertEqual(count_text(12, 1, 0), "12 claims hold, 1 fails, 0 open")
        self.assertEqual(count_text(1, 2, 3), "1 claim holds, 2 fail, 3 open")
        self.assertEqual(count_text(0, 0, 1), "0 claims hold, 0 fail, 1 open")
