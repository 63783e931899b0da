"""Where memory is refused the page says so, and goes on."""

from __future__ import annotations

from tools.play.tests.browser import PageTest
from tools.play.tests.scripts import FORKER, GROWER, examples


class Memory(PageTest):
    def tearDown(self) -> None:
        self.page.run("for (const it of ['memory', 'fuel', 'states']) document.getElementById(it).value = document.getElementById(it).defaultValue")
        super().tearDown()

    def test_out_of_memory(self) -> None:
        for name, kind, script, options in (("a run that grows", "run", GROWER, {"memory": 300}), ("a search", "outcomes", FORKER, {"memory": 300, "states": 4000000}),
                                            ("a run that grows, by the usual limit", "run", GROWER, {"memory": 2048})):
            with self.subTest(name):
                result = self.page.act(kind, script, clock="virtual", fuel=1000000, **options)
                self.assertEqual((6, None, b"out of memory\n"), (result.answer.status, result.failure, result.answer.err))
                self.assertIn("Out of memory", self.page.said())
                self.assertLessEqual(result.memory, options["memory"] * 1048576)
                print(f"{name}: out of memory at {result.memory // 1048576} MB after {result.milliseconds / 1000:.1f} s")
        script = examples()["update"]
        self.same(self.page.act("outcomes", script, memory=2048, states=1000000), script)
