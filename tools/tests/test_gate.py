"""What the gate costs: which crates a change reaches, and what these take."""

from __future__ import annotations

import subprocess
from unittest import mock

from tools import gate
from tools.tests.repository import RepositoryTest, said_by

CRATES = "low:\nmiddle: low\nother:\nhigh: middle other\n"


class Gate(RepositoryTest):
    def setUp(self) -> None:
        super().setUp()
        self.write("crates.txt", CRATES)
        for name in ("low", "middle", "other", "high"):
            self.write(f"crates/{name}/src/lib.rt", "")
        self.write("crates/low/must-fail/one.edit", "")
        self.write("docs/minutes.txt", "# crate, proof, edits, tests\nlow 1.0 2.0 -\nmiddle 10.0 - -\nhigh - - 5.0\n")
        self.git("init", "-q")
        self.commit()

    def git(self, *words: str) -> None:
        subprocess.run(["git", "-C", self.top, "-c", "user.name=a", "-c", "user.email=a@example.com", *words], check=True, stdout=subprocess.DEVNULL)

    def commit(self) -> None:
        self.git("add", "-A")
        self.git("commit", "-q", "-m", "a")

    def test_what_a_change_reaches(self) -> None:
        self.assertEqual(gate.changed_since("HEAD"), (set(), set()))
        self.write("crates/middle/src/lib.rt", "more\n")
        self.write("crates/low/must-fail/one.edit", "more\n")
        self.write("crates/other/src/new.rt", "a file that git doesn't know\n")
        self.write("crates/high/README", "no source\n")
        self.assertEqual(gate.changed_since("HEAD"), ({"middle", "other"}, {"low"}))

    def test_a_crate_whose_line_differs(self) -> None:
        self.write("crates.txt", CRATES.replace("other:", "other: low"))
        self.assertEqual(gate.changed_since("HEAD"), ({"other"}, set()))
        self.write("crates.txt", CRATES.replace("middle other", "other middle"))
        self.assertEqual(gate.changed_since("HEAD"), (set(), set()), "the order of names is nothing")

    def test_a_commit_that_is_none(self) -> None:
        self.assertEqual(said_by(lambda: gate.changed_since("nothing"))[2], "check: git knows no commit nothing")

    def test_the_cost(self) -> None:
        self.assertEqual(said_by(lambda: gate.cost("HEAD"))[0], "no crate differs, so nothing is proved anew but what each run of the gate proves\n")
        self.write("crates/low/src/lib.rt", "more\n")
        out = said_by(lambda: gate.cost("HEAD"))[0].splitlines()
        self.assertEqual(out[0], "changed: low")
        self.assertEqual(out[1], "proved anew: 3 of 4 crates; the dearest: middle 10, high 5, low 3")
        self.assertEqual(out[2], "about 18 processor minutes: 11 of proofs, 2 of edits, 5 of tests and programs")
        self.assertEqual(out[3], "the longest chain of proofs, one after another: 12 minutes")

    def test_a_crate_that_was_never_measured(self) -> None:
        known = gate.table()
        self.assertEqual(gate.minutes_of("other", known), {"proof": gate.PROOF, "edits": 0.0, "tests": 0.0})
        self.assertEqual(gate.minutes_of("high", known), {"proof": 0.0, "edits": 0.0, "tests": 5.0}, "one with tests alone has no proof to speak of")
        self.write("crates/other/src/lib.rt", "more\n")
        self.assertIn("(1 crates were never measured", said_by(lambda: gate.cost("HEAD"))[0])

    def test_chain(self) -> None:
        self.assertAlmostEqual(gate.chain(["low", "middle", "high"], gate.table()), 11.0 + gate.PROOF)
        self.assertAlmostEqual(gate.chain(["low", "high"], gate.table()), 1.0 + gate.PROOF, msg="what isn't proved anew takes nothing")
        self.assertEqual(gate.chain([], gate.table()), 0.0)

    def test_names_of_the_table(self) -> None:
        self.assertEqual(list(gate.names_are_crates()), [])
        self.write("docs/minutes.txt", "gone 1.0 - -\n")
        self.assertEqual(list(gate.names_are_crates()), ["docs/minutes.txt: there is no crate gone"])

    def test_a_log_is_taken_into_the_table(self) -> None:
        log = self.write("log", "low proof 60\nlow proof 30\nother tests 120\ngone proof 9\nlow nothing 9\nno row\n")
        said_by(lambda: gate.measured(log))
        kept = [it for it in self.read("docs/minutes.txt").splitlines() if not it.startswith("#")]
        self.assertEqual(kept, ["low 1.5 2.0 -", "middle 10.0 - -", "other - - 2.0", "high - - 5.0"])
        self.assertRegex(self.read("docs/minutes.txt"), r"(?m)^# 2 crates were last taken from a log on \d{4}-\d\d-\d\d, \d+ processors$")

    def test_a_command_is_measured(self) -> None:
        with mock.patch.object(gate, "processes", lambda _: {"1": ("low", "proof", 12.0)}):
            self.assertEqual(gate.measure(self.path("log"), ["sh", "-c", "sleep 0.1; exit 5"]), 5)
        self.assertIn(self.read("log"), ("", "low proof 12.0\n"))

    def test_processes_below_one(self) -> None:
        parents = {"3": "2", "2": "1", "5": "4"}
        self.assertEqual([gate.is_below(it, "2", parents) for it in ("3", "2", "1", "5")], [True, True, False, False])
