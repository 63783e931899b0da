"""Stop in each state, and a hundred searches without growth."""

from __future__ import annotations

from tools.play.tests.browser import PageTest
from tools.play.tests.scripts import ENDLESS, SLEEPER, examples

PRESSED = """const done = arguments[3]; playground.load(arguments[0], 'test');
  document.getElementById('clock').value = 'real'; document.getElementById('fuel').value = 4000000;
  const going = playground.act(arguments[1]);
  setTimeout(() => { const start = performance.now(); document.getElementById('stop').click(); going.then(() => done(performance.now() - start)); }, arguments[2]);"""


class Stop(PageTest):
    def tearDown(self) -> None:
        self.page.run("document.getElementById('fuel').value = 1000000")
        super().tearDown()

    def test_while_it_runs(self) -> None:
        took = []
        states = [("run", ENDLESS), ("outcomes", examples()["counts"]), ("run", SLEEPER)]
        for number in range(21):
            kind, script = states[number % 3]
            with self.subTest(kind=kind, number=number):
                # A counting thread has used up its steps in half a second.
                took.append(self.page.wait_for(PRESSED, script, kind, 5 * number if script == ENDLESS else 40 * number))
                self.assertTrue(self.page.said().startswith("Stopped"), self.page.said())
                self.assertTrue(self.page.run("return document.getElementById('stop').disabled"))
        print(f"stopped {len(took)} times, at most {max(took):.0f} ms after")
        script = examples()["update"]
        self.same(self.page.act("outcomes", script, fuel=1000000), script)

    def test_while_a_history_is_made(self) -> None:
        script = examples()["timeouts"]
        self.page.act("outcomes", script, fuel=1000000)
        self.page.run("playground.stop(); document.querySelectorAll('.cards .card .bar button')[7].click(); document.getElementById('stop').click()")
        self.page.until("return document.querySelector('.history')?.textContent.includes('Stopped')")

    def test_by_escape(self) -> None:
        self.page.load(SLEEPER)
        self.page.run("document.getElementById('clock').value = 'real'; playground.act('run'); setTimeout(() => document.dispatchEvent(new KeyboardEvent('keydown', {key: 'Escape'})), 300)")
        self.page.until("return document.getElementById('said').innerText.startsWith('Stopped')")

    def test_another_act_takes_the_place(self) -> None:
        self.page.load(SLEEPER)
        self.page.run("playground.act('run')")
        script = examples()["hello"]
        self.same(self.page.act("outcomes", script, fuel=1000000), script)
        self.assertIn("1 outcome", self.page.said())

    def test_a_hundred_searches(self) -> None:
        script, took = examples()["cells"], []
        self.page.act("outcomes", script, clock="real", fuel=1000000)
        before = self.page.memory()
        for _ in range(100):
            result = self.page.act("outcomes", script)
            took.append(result.milliseconds)
        self.same(result, script)
        after = self.page.memory()
        print(f"100 searches: {min(took):.0f} to {max(took):.0f} ms; the renderer has {before} MB before and {after} behind")
        self.assertLess(after, before + 100)
