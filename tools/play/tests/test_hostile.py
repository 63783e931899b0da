"""Hostile scripts: tags, every escape, NUL, emoji, CR LF, broken UTF-8, a megabyte, 200 nested openers, height 1,000, much output."""

from __future__ import annotations

import time

from tools.play.tests.browser import PageTest
from tools.play.tests.scripts import HOSTILE, deep, long

LIVE = "return document.querySelectorAll('script, img, iframe, object, embed, svg, form, base, meta').length"


class Hostile(PageTest):
    def test_nothing_is_injected(self) -> None:
        before = self.page.run(LIVE)
        for name, script in HOSTILE.items():
            for kind in ("check", "run", "outcomes"):
                with self.subTest(name, kind=kind):
                    self.same(self.page.act(kind, script, clock="virtual"), script)
                    self.assertEqual(before, self.page.run(LIVE))

    def test_bytes(self) -> None:
        """What no text area holds goes to the program as it is."""
        raw = [b'main :: IO () = {\r\n  putStrLn "a\rb" };\r\n', b'main :: IO () = { putStrLn "\xff" };', b"\xed\xa0\x80", b"\x00", b"", b"\xf0\x9f\x98",
               b'main :: IO () = { putStrLn "\x00\x1b[31m" };', b'main :: IO () = { putStrLn 3 };\r']
        for script in raw:
            for words in (["check"], ["run", "--clock", "virtual"], ["outcomes"], ["trace", "--clock", "virtual"]):
                with self.subTest(script=script, words=words):
                    self.same(self.page.calls([(words, script)])[0], script)

    def test_carriage_returns_are_told(self) -> None:
        result = self.page.act("check", "main :: IO () = {\r\n  putStrLn 3 };\r\n")
        self.assertEqual(b"refused: Mismatch at 2:3\n", result.answer.err)
        self.assertIn("carriage returns", self.page.run("return document.getElementById('name').textContent"))

    def test_picture_of_tags(self) -> None:
        """A picture stands in an image, and large in a frame without any right."""
        self.page.act("outcomes", HOSTILE["tags"], clock="virtual")
        self.page.all(".cards .card .bar button")[0].click()
        self.page.until("return document.querySelector('.history img')")
        self.page.all(".history .bar button")[0].click()
        kinds = self.page.until("const found = [...document.querySelectorAll('.history img, #large iframe')]; return found.length > 1 && "
                                "found.map(it => [it.tagName, it.getAttribute('sandbox'), it.src.slice(0, 5)])")
        self.assertEqual([["IMG", None, "blob:"], ["IFRAME", "", "blob:"]], kinds)
        self.page.run("document.getElementById('large').close()")

    def test_deep(self) -> None:
        for name, script in deep().items():
            for kind in ("check", "run", "outcomes"):
                with self.subTest(name, kind=kind):
                    result = self.page.act(kind, script, clock="virtual")
                    if result.failure == "stack":
                        self.assertIn("stack is too small", self.page.said())
                        print(f"{name} by {kind}: the browser's stack is too small, as the page says")
                    else:
                        self.same(result, script)

    def test_a_megabyte(self) -> None:
        script = long()
        begun = time.time()
        self.page.load(script)
        print(f"{len(script)} bytes are loaded in {time.time() - begun:.1f} s")
        self.page.until("return document.getElementById('verdict').textContent === 'accepted'")
        self.assertTrue(self.page.run("return document.querySelectorAll('#paper .form').length"))
        for kind in ("check", "run"):
            self.same(self.page.act(kind, clock="virtual"), script)
        padded = script + "-" * (1048576 - len(script))
        self.same(self.page.act("check", padded), padded)
        self.same(self.page.act("check", padded + "-"), padded + "-")
        self.assertIn("refused: TooLong", self.page.shown())

    def test_a_mark_far_down(self) -> None:
        lines = long().split("\n")
        lines[12000] = '  putStr "x"; putStr 3;'
        self.page.load("\n".join(lines))
        self.page.until("return document.getElementById('verdict').textContent === 'refused: Mismatch at 12001:15'")
        self.page.run("document.getElementById('verdict').click()")
        self.assertEqual("putStr", self.page.until("return [...document.querySelectorAll('#paper .mark')].map(it => it.textContent).join('')"))
        self.assertEqual("12001", self.page.run("const it = document.getElementById('text'); return String(it.value.slice(0, it.selectionStart).split('\\n').length)"))

    def test_one_long_line(self) -> None:
        self.page.load("-- " + "x" * 1000000 + "\nmain :: IO () = { return () };")
        self.page.until("return document.getElementById('verdict').textContent === 'accepted'")
        self.assertTrue(self.page.run("return document.querySelector('#paper .comment').textContent.length"))

    def test_a_mark_far_to_the_right(self) -> None:
        """Colours and the mark stand where the text has what they are of, also at column 960,019 of a line."""
        part = 'putStr "x"; '
        script = "main :: IO () = { " + part * 80000 + "putStr 3; " + part * 5000 + "return () };"
        begun = time.time()
        self.page.load(script)
        self.page.until("return document.getElementById('verdict').textContent === 'refused: Mismatch at 1:960019'")
        print(f"a line of {len(script)} characters is loaded and checked in {time.time() - begun:.1f} s")
        self.page.run("document.getElementById('verdict').click()")
        self.assertEqual("putStr", self.page.until("return [...document.querySelectorAll('#paper .mark')].map(it => it.textContent).join('')"))
        self.assertGreater(self.page.run("return document.querySelectorAll('#paper .string').length"), 5)
        far = self.page.run("""const text = document.getElementById('text'), mark = document.querySelector('#paper .mark').getBoundingClientRect(), style = getComputedStyle(text);
          const pen = document.createElement('canvas').getContext('2d'); pen.font = style.fontSize + ' ' + style.fontFamily;
          const cell = pen.measureText('x'.repeat(1000)).width / 1000, wanted = text.getBoundingClientRect().left + parseFloat(style.paddingLeft) + 960018 * cell - text.scrollLeft;
          return [Math.abs(mark.left - wanted), mark.left - text.getBoundingClientRect().left, text.clientWidth];""")
        self.assertLess(far[0], 3)
        self.assertTrue(0 < far[1] < far[2], far)

    def test_much_output(self) -> None:
        lines = ('f (n :: Int) :: IO () = { if n == 0 then { return () } else { putStrLn "0123456789"; f (n - 1) } };\nmain :: IO () = { f 90000 };')
        self.same(self.page.act("run", lines, clock="virtual"), lines)
        most = ('d (t :: Text) (n :: Int) :: IO Text = { if n == 0 then { return t } else { d (t ++ t) (n - 1) } };\n'
                'f (t :: Text) :: IO () = { putStr t; f t };\nmain :: IO () = { t <- d "x" 16; f t };')
        self.same(self.page.act("run", most, clock="virtual"), most)
        self.assertIn("Limit", self.page.said())
