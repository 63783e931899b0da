"""Each example by check, run and outcomes, its histories with picture and report, and what the page shows of a list."""

from __future__ import annotations

import time

from tools.play.tests import native
from tools.play.tests.browser import PageTest, Result
from tools.play.tests.scripts import examples, outcomes_of

# A list of so long a search is asked for its histories once only.
SLOW = {"counts"}


class Examples(PageTest):
    def test_ready(self) -> None:
        took = [self.page.open() for _ in range(3)]
        outcomes = [self.page.act("outcomes", examples()["update"]).milliseconds for _ in range(3)]
        print(f"ready after {took} ms; outcomes of update in the worker {[round(it) for it in outcomes]} ms")

    def test_each_command(self) -> None:
        times = {"page": 0.0, "program": 0.0}
        for name, script in examples().items():
            with self.subTest(name):
                self.same(self.page.act("check", script), script)
                self.same(self.page.act("run", script, clock="virtual"), script)
                self.same(self.page.act("outcomes", script, clock="virtual"), script)
                result = self.page.act("outcomes", script, clock="real")
                begun = time.time()
                self.same(result, script)
                times["program"] += time.time() - begun
                times["page"] += result.milliseconds / 1000
                shown = min(100, int(result.answer.out.split(None, 1)[0]))
                self.assertEqual(shown, len(self.page.all(".cards .card")))
        print(f"outcomes of all examples: page {times['page']:.1f} s, program {times['program']:.1f} s, {times['page'] / times['program']:.2f} times")

    def test_real_clock(self) -> None:
        """What a run by the real clock comes to stands in the program's list; of a script with one outcome it is what the program prints."""
        alone = 0
        for name, script in examples().items():
            with self.subTest(name):
                told = native.call(["outcomes"], script.encode())
                self.assertEqual(0, told.status)
                result = self.page.act("run", script, clock="real")
                status, out, err = result.answer
                self.assertIn((status, out, err.removesuffix(b"deadlock\n") if status == 4 else err), outcomes_of(told.out))
                if told.out.startswith(b"1 outcome, and there are no others"):
                    self.same(result, script)
                    alone += 1
        self.assertGreater(alone, 8)

    def test_real_clock_by_its_history(self) -> None:
        """A history that the page writes by the real clock is, for the program, a run of the script; and its report and picture are the same."""
        for name, script in examples().items():
            with self.subTest(name):
                traced = self.page.calls([(["trace", "--clock", "real"], script.encode())])[0]
                self.assertIsNone(traced.failure)
                verdict = native.call(["verify"], traced.answer.out)
                self.assertEqual((0, b""), (verdict.status, verdict.err))
                for result in self.page.calls([([it], traced.answer.out) for it in ("verify", "report", "picture")]):
                    self.same(result, traced.answer.out)

    def test_histories(self) -> None:
        seen = 0
        for name, script in examples().items():
            if name in SLOW:
                continue
            self.page.act("outcomes", script, clock="real")
            cards = len(self.page.all(".cards .card"))
            for number in range(0, cards, 1 if cards < 5 else 7):
                with self.subTest(name, number=number + 1):
                    self.history(script, number)
                    seen += 1
        print(f"{seen} histories with picture and report")

    def test_a_history_opens_at_once(self) -> None:
        """Where the search took long its histories are made meanwhile, so that one opens in less than the time of another search."""
        searched = self.page.act("outcomes", examples()["pool"], clock="real").milliseconds
        self.page.until("return playground.running.size === 0", 120)
        took = self.page.wait_for("""const done = arguments[0], start = performance.now();
          document.querySelector('.cards .card .bar button').click();
          const wait = () => document.querySelector('.history img') ? done(performance.now() - start) : setTimeout(wait, 5); wait();""")
        print(f"the search took {searched:.0f} ms, and its history opens in {took:.0f} ms")
        self.assertLess(took, searched)

    def history(self, script: str, number: int) -> None:
        parts = self.page.wait_for("""const done = arguments[1], last = playground.last; last.report = null;
          document.querySelectorAll('.cards .card .bar button')[arguments[0]].click();
          const wait = () => last.report ? done([packed(last.history), packed(last.picture), packed(last.report)]) : setTimeout(wait, 5); wait();""", number)
        history, picture, report = (Result(it) for it in parts)
        self.same(history, script)
        self.same(picture, history.answer.out)
        self.same(report, history.answer.out)
        self.assertEqual(0, picture.answer.status)
        self.page.until("return [...document.querySelectorAll('.history img')].every(it => it.complete && it.naturalWidth)")
        self.assertTrue(self.page.run("return document.querySelectorAll('.history .story li').length"))
