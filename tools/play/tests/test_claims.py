"""Claims: beside their lines and below the list, where the program judges them; by a stand-in where it doesn't yet."""

from __future__ import annotations

import json
import unittest
from typing import Any

from tools.play.tests import native, settings
from tools.play.tests.browser import Page, PageTest
from tools.play.tests.scripts import examples

SCRIPT = """-- One thread takes and puts.
--! never deadlock
  -- ! always output "1\\n"
main :: IO () = {
  m <- newMVar 0; --! never done
  t <- forkIO { x <- takeMVar m; putMVar m (x + 1) };
--! sometimes output "9\\n"
--! terminates
--! sometimes uncaught
  killThread t; x <- takeMVar m; putStrLn (show x) };
"""
TOLD = ["line 2: holds", "line 3: fails: outcome 1", "line 7: fails", "line 8: fails: a schedule may run for ever", "line 9: open: states"]
# Answers the command in place of the program, by the claims that the test names, a while later; hands on all else.
STAND_IN = """const Real = Worker, answers = %s;
  globalThis.Worker = class {
    constructor(address) {
      this.real = new Real(address);
      this.real.onmessage = it => this.onmessage(it);
      this.real.onerror = it => this.onerror(it);
    }
    terminate() { this.real.terminate(); this.isOver = true; }
    postMessage(given) {
      if (given.words[0] !== 'claims') return this.real.postMessage(given);
      globalThis.asked = (globalThis.asked ?? []).concat([given.words]);
      const script = new TextDecoder().decode(given.input), key = Object.keys(answers).find(it => script.includes(it));
      const [status, out, err] = key ? answers[key] : [12, '', 'no claim\\n'], bytes = it => new TextEncoder().encode(it);
      setTimeout(() => this.isOver || this.onmessage({data: {status, failure: null, milliseconds: 5, memory: 1e6, pieces: [[1, bytes(out)], [2, bytes(err)]]}}), script.includes('slow') ? 60000 : 20);
    }
  };"""
ANSWERS = {"-- One thread": [14, "\n".join(TOLD) + "\n", ""], "--! sometime done": [3, "", "refused: Claim at 2:5\n"], "--! always done": [0, "line 1: holds\n", ""],
           "--! never torn": [14, "line 1: hol", ""]}
BADGES = "return [...document.querySelectorAll('#paper div')].map((it, n) => [n + 1, it.dataset.verdict, it.dataset.kind]).filter(it => it[1])"


class StandIn(PageTest):
    """The page over a program that has the command."""

    stand_in: Page

    @classmethod
    def setUpClass(cls) -> None:
        if settings.browser != "chromium":
            raise unittest.SkipTest("what stands in for the program is set by Chromium's own protocol")
        cls.stand_in = Page()
        cls.stand_in.driver.execute_cdp_cmd("Page.addScriptToEvaluateOnNewDocument", {"source": STAND_IN % json.dumps(ANSWERS)})
        cls.stand_in.open()

    @classmethod
    def tearDownClass(cls) -> None:
        cls.stand_in.quit()

    def setUp(self) -> None:
        self.page = self.stand_in
        self.page.until("return !document.getElementById('claims').hidden")

    def claims(self) -> str:
        return str(self.page.until("return document.querySelector('.claims')?.innerText"))

    def test_below_a_list(self) -> None:
        self.page.act("outcomes", SCRIPT, clock="real")
        told = self.claims()
        for it in ("1 claim holds, 3 fail, 1 is open", "--! never deadlock holds", 'always output "1\\n" fails: outcome 1 shows it', "fails: no outcome is so",
                   "fails: a schedule may run for ever", "open: states", "What to do"):
            self.assertIn(it, told)
        self.assertEqual([[2, "holds", "good"], [3, "fails", "bad"], [7, "fails", "bad"], [8, "fails", "bad"], [9, "open", "stuck"]], self.page.run(BADGES))
        self.assertEqual(["claims", "--clock", "real", "--fuel", "1000000", "--states", "1000000"], self.page.run("return asked.at(-1)"))
        self.assertEqual(3, len(self.page.all(".cards .card")))

    def test_the_history_that_shows_it(self) -> None:
        self.page.act("outcomes", SCRIPT, clock="real")
        self.claims()
        self.page.run("[...document.querySelectorAll('.claims button')].find(it => /outcome 1/.test(it.textContent)).click()")
        self.page.until("return document.querySelector('.history img') && /against line 3/.test(document.querySelector('.history h2').textContent)")
        history = self.page.run("return new TextDecoder().decode(playground.last.history.out)").encode()
        self.assertEqual(native.call(["outcomes", "--witness", "1"], SCRIPT.encode()).out, history)

    def test_to_its_line(self) -> None:
        self.page.act("claims", SCRIPT)
        self.claims()
        self.page.run("document.querySelectorAll('.claims button')[1].click()")
        self.assertEqual('  -- ! always output "1\\n"', self.page.run("const it = document.getElementById('text'); return it.value.slice(it.selectionStart, it.selectionEnd)"))

    def test_by_the_button(self) -> None:
        self.page.act("claims", SCRIPT)
        self.assertIn("1 claim holds, 3 fail, 1 is open", self.page.said())
        self.assertEqual(5, len(self.page.run(BADGES)))
        self.page.act("claims", "--! always done\nmain :: IO () = { return () };\n")
        self.assertIn("1 claim holds", self.page.said())
        self.page.act("claims", "main :: IO () = { return () };\n")
        self.assertIn("No claim", self.page.said())
        self.assertIn("never deadlock", self.page.said())

    def test_an_edit_takes_them_away(self) -> None:
        self.page.act("claims", SCRIPT)
        self.page.run("const it = document.getElementById('text'); it.focus(); it.setSelectionRange(0, 0); document.execCommand('insertText', false, '-- mine\\n')")
        self.assertEqual([], self.page.run(BADGES))

    def test_a_refused_one_is_marked(self) -> None:
        script = 'main :: IO () = { return () };\n--! sometime done\n'
        for kind in ("claims", "outcomes"):
            self.page.act(kind, script)
            self.page.until("return document.getElementById('verdict').textContent === 'refused: Claim at 2:5'")
            self.assertEqual("sometime", self.page.run("return [...document.querySelectorAll('#paper .mark')].map(it => it.textContent).join('')"))
            self.assertIn("refused: Claim at 2:5", self.page.shown())
        self.assertEqual(1, len(self.page.all(".cards .card")))

    def test_stop(self) -> None:
        self.page.act("outcomes", "--! always done slow\nmain :: IO () = { return () };\n")
        self.page.until("return /are judged/.test(document.getElementById('shown').innerText) && !document.getElementById('stop').disabled")
        self.page.run("document.getElementById('stop').click()")
        self.page.until("return /not judged: stopped/.test(document.getElementById('shown').innerText)")

    def test_an_answer_that_is_none(self) -> None:
        """What can't be read is shown as it is, and never as a verdict."""
        self.page.act("claims", "--! never torn\nmain :: IO () = { return () };\n")
        self.assertIn("not judged", self.claims())
        self.assertIn("line 1: hol", self.page.shown())
        self.assertEqual([], self.page.run(BADGES))


class Claims(PageTest):
    """The page as it is: by the program where that judges claims, and else it says so."""

    def knows(self) -> bool:
        return native.call(["claims"], b"main :: IO () = { return () };").status == 12

    def test_the_button(self) -> None:
        self.page.open()
        self.page.until("return playground.running.size === 0")
        self.assertEqual(not self.knows(), self.page.run("return document.getElementById('claims').hidden"))

    def test_without_the_command(self) -> None:
        if self.knows():
            self.skipTest("the program judges claims")
        self.page.act("outcomes", SCRIPT)
        self.page.until("return /5 claims .* are not judged/.test(document.getElementById('shown').innerText)")

    def test_each_example(self) -> None:
        if not self.knows():
            self.skipTest("the program has no claims yet")
        judged = 0
        for name, script in examples().items():
            with self.subTest(name):
                result: Any = self.page.act("claims", script, clock="real")
                self.same(result, script)
                judged += result.answer.out.count(b"\n")
        print(f"{judged} claims of examples")
