"""./conc_run test: what it says while the gate runs, and its status."""

from __future__ import annotations

import os
import unittest

from tools.run.gate import Gate
from tools.run.tests.standins import WrapperTest, is_running, wait_until, write_executable

LINES = """== low
fn low::one: proved
rt: low proved
rt: low: its tests are proved
rt: low: trying its must-fail edits (2)
rt: conc_run is kept: an earlier run on this machine proved the same files over the same libraries
must-fail low/one.edit: refused, as it must be
rt: must-fail low/two.edit: refused, as it must be
rt: low: its tests passed
rt: ok; handles allowed: none
4 passed, 0 failed
"""
FAILS = "rt: low NOT PROVED\nrt: conc_run NOT PROVED: its library low failed\nrt: FAILED: low conc_run\n0 passed, 2 failed\n"


class Progress(unittest.TestCase):
    def test_how_far_it_is(self) -> None:
        gate, lines = Gate(2, 2, 1), LINES.splitlines()
        self.assertEqual(gate.at([]), "crates 0 of 2, edits 0 of 2 begun, tests 0 of 1")
        self.assertEqual(gate.at(lines[:5]), "crates 1 of 2, edits 2 of 2 begun, tests 0 of 1")
        self.assertEqual(gate.at(lines), "crates 2 of 2, edits 2 of 2, tests 1 of 1")


class Test(WrapperTest):
    def gate(self, lines: str, status: int = 0) -> dict[str, str]:
        """What has the kit say these lines and end so."""
        path = os.path.join(self.room, "lines")
        with open(path, "w", encoding="utf-8") as file:
            file.write(lines)
        return {"STAND_IN_CI": path, "STAND_IN_STATUS": str(status)}

    def test_a_gate_that_passes(self) -> None:
        self.copy_with("none")
        answer = self.call("test", more=self.gate(LINES))
        self.assertEqual((answer.out, answer.status), ("rt: ok; handles allowed: none\n4 passed, 0 failed\n", 0))
        self.assertIn("proves 2 crates, tries 2 wrong bodies and runs the tests of 1 crates: from nothing about two hours", answer.err)
        self.assertIn("conc_run: crates ", answer.err)
        with open(self.path("out/test.log"), encoding="utf-8") as file:
            self.assertEqual(file.read(), LINES)

    def test_a_gate_that_fails(self) -> None:
        self.copy_with("none")
        answer = self.call("test", more=self.gate(FAILS, 1))
        self.assertEqual((answer.out, answer.status), ("rt: FAILED: low conc_run\n0 passed, 2 failed\n", 1))
        self.assertEqual(answer.err.count("rt: low NOT PROVED\n"), 1, "what fails is told once")

    def test_a_gate_that_is_stopped(self) -> None:
        self.copy_with("none")
        write_executable(os.path.join(self.room, "rt"), f"#!/bin/sh\necho $$ > {self.room}/child.part\nmv {self.room}/child.part {self.room}/child\nexec sleep 300\n")
        with self.start("test") as wrapper:
            self.assertTrue(wait_until(lambda: os.path.exists(os.path.join(self.room, "child"))))
            wrapper.terminate()
            wrapper.communicate()
        with open(os.path.join(self.room, "child"), encoding="ascii") as file:
            child = int(file.read())
        self.assertEqual(wrapper.returncode, 143)
        self.assertFalse(is_running(child))

    def test_other_words(self) -> None:
        self.copy_with("none")
        for words in (["test", "--fast"], ["test", "low"], ["test", "--quick", "--quick"]):
            self.assert_line(self.call(*words), "test takes --quick or nothing", 2)

    def test_the_rows_alone(self) -> None:
        self.copy_with("none")
        self.assert_line(self.call("test", "--quick"), "there is no ./check here, which tries the rows", 70)
        write_executable(self.path("check"), '#!/bin/sh\necho "check $*"\nexit 5\n')
        answer = self.call("test", "--quick")
        self.assertEqual((answer.out, answer.status), ("check --rows\n", 5))
