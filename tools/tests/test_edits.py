"""Must-fail edits: why one can't be applied; and patches that name no test."""

from __future__ import annotations

import os
import shutil
import unittest
from unittest import mock

from tools import edits
from tools.tests.repository import RepositoryTest, said_by

EDIT = "crates/low/must-fail/one.edit"


class Edits(RepositoryTest):
    def setUp(self) -> None:
        super().setUp()
        self.write("crates.txt", "low:\nhigh: low\n")
        self.write("crates/low/src/lib.rt", "fn one() {}\nfn two() {}\nfn two_more() {}\n")

    def problem(self, text: str) -> str | None:
        self.write(EDIT, text)
        return edits.problem(EDIT)

    def test_what_can_be_applied(self) -> None:
        self.assertIsNone(self.problem("file: src/lib.rt\nold: fn one\nnew: fn three\n"))
        self.assertIsNone(self.problem("file: src/lib.rt\nold: fn one() {}\nnew:\nold: fn two_more\nnew: fn one\n"))
        self.assertEqual(list(edits.can_be_applied()), [])

    def test_why_not(self) -> None:
        for text, why in (("file: src/none.rt\nold: a\nnew: b\n", "there is no file src/none.rt"),
                          ("file: must-fail/one.edit\nold: a\nnew: b\n", "there is no file must-fail/one.edit"),
                          ("old: a\nnew: b\n", "a `new:` line stands before any `file:` or `old:` line"),
                          ("file: src/lib.rt\nnew: b\n", "a `new:` line stands before any `file:` or `old:` line"),
                          ("file: src/lib.rt\nold: fn two\nnew: b\n", "its old text stands 2 times in crates/low/src/lib.rt, and not once: fn two"),
                          ("file: src/lib.rt\nold: fn none\nnew: b\n", "its old text stands 0 times"),
                          ("file: src/lib.rt\nold: fn one\nnew: fn one\n", "it changes nothing"), ("", "it changes nothing")):
            with self.subTest(text):
                self.assertTrue((self.problem(text) or "").startswith(why), self.problem(text))
        self.assertEqual(list(edits.can_be_applied()), [f"{EDIT}: it changes nothing"])

    def test_the_second_pair_is_applied_behind_the_first(self) -> None:
        self.assertIsNone(self.problem("file: src/lib.rt\nold: fn one\nnew: fn three\nold: fn three\nnew: fn four\n"))
        self.assertIn("stands 0 times", self.problem("file: src/lib.rt\nold: fn one\nnew: fn three\nold: fn one\nnew: fn four\n") or "")

    def test_other_files_and_the_record(self) -> None:
        self.write("crates/low/more-edits/two.edt", "")
        self.write("docs/edits.txt", "# head\nhigh 2 2026-01-01 kit 123\n")
        self.assertEqual(list(edits.can_be_applied()), ["crates/low/more-edits/two.edt: an edit's name ends in .edit",
                                                        "docs/edits.txt: high has no edits in more-edits"])

    def test_the_record_keeps_the_order_of_crates(self) -> None:
        self.write("docs/edits.txt", "# head\nhigh 2 2026-01-01 kit 123\n")
        with mock.patch.object(edits, "said", lambda command: {"rt": "kit-9 x\n", "rev-parse": "abc\n"}.get(command[0]) or ("abc\n" if "rev-parse" in command else "")):
            edits.record("low", 3)
        kept = [it for it in self.read("docs/edits.txt").splitlines() if not it.startswith("#")]
        self.assertEqual([it.split()[0] for it in kept], ["low", "high"])
        self.assertEqual((kept[0].split()[1], kept[0].split()[3:]), ("3", ["kit-9", "abc"]))

    def test_names_without_wider_edits(self) -> None:
        self.assertEqual(said_by(lambda: edits.try_edits(["low"]))[2], "check: there are no edits in crates/low/more-edits")
        self.assertEqual(said_by(lambda: edits.try_edits([])), ("there are no edits in crates/*/more-edits\n", "", 0))

    def test_edits_that_pass_are_told(self) -> None:
        self.write("crates/low/more-edits/one.edit", "file: src/lib.rt\nold: fn one\nnew: fn three\n")
        self.write("docs/edits.txt", "")
        for status, said in ((0, "the wider edits of 1 crates were all refused\n"), (1, "the wider edits of 0 crates were all refused, those of 1 not\n")):
            self.write_executable("bin/rt", f'#!/bin/sh\n[ "$1" = version ] && echo kit && exit\n[ -f crates/low/must-fail/one.edit ] && exit {status}\nexit 9\n')
            with mock.patch.dict(os.environ, {"PATH": f"{self.path('bin')}:{os.environ['PATH']}"}):
                out, _, ended = said_by(lambda: edits.try_edits([]))
            self.assertEqual((out.split("\n", 1)[1], ended), (said, status))
        self.assertTrue(self.read("docs/edits.txt").splitlines()[-1].startswith("low 1 "))


@unittest.skipUnless(shutil.which("patch"), "no command patch here")
class WrongBodies(RepositoryTest):
    def check(self, said: str, body: str = "one") -> list[str]:
        self.write("crates/low/src/lib.rt", "fn one() {}\n")
        self.write("crates/low/src/tests.rt", "fn looks() {}\n")
        self.write("tools/wrong-bodies/a.patch", f"what it does\n{said}\n--- crates/low/src/lib.rt\n+++ crates/low/src/lib.rt\n@@ -1 +1 @@\n-fn {body}() {{}}\n+fn two() {{}}\n")
        return list(edits.wrong_bodies())

    def test_patches(self) -> None:
        self.assertEqual(self.check("Refused by: low looks"), [])
        self.assertEqual(self.check("Refused by: low nothing"), ["tools/wrong-bodies/a.patch: low has no test nothing"])
        self.assertEqual(self.check(""), ["tools/wrong-bodies/a.patch: it names no test that refuses it"])
        self.assertTrue(self.check("Refused by: low looks", "three")[0].startswith("tools/wrong-bodies/a.patch: it can't be applied: "))
