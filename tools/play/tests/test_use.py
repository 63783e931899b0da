"""How the page is used: while one writes, by links, and by files."""

from __future__ import annotations

import base64
import os
import tempfile
import time
from typing import Any

from tools.play.tests import settings
from tools.play.tests.browser import PageTest
from tools.play.tests.scripts import examples
from tools.play.tests.serving import Server

VERDICT = "return document.getElementById('verdict').textContent"
TEXT = "return document.getElementById('text').value"
HASKELL = ["import Control.Concurrent\nmain = do\n  m <- newEmptyMVar\n  putMVar m 1\n", "main :: IO ()\nmain = do { putStrLn \"x\" }\n",
           "module Main where\n\nmain = putStrLn \"x\"\n", "{-# LANGUAGE LambdaCase #-}\nf x = x\n"]


class Writing(PageTest):
    def test_a_mark_while_one_writes(self) -> None:
        self.page.load('main :: IO () = {\n  putStrLn "\U0001F600"; putStrLn 3 };\n')
        self.page.until(f"{VERDICT} === 'refused: Mismatch at 2:17'")
        self.assertEqual("putStrLn", self.page.run("return [...document.querySelectorAll('#paper .mark')].map(it => it.textContent).join('')"))
        self.assertIn("hange the part", self.page.run("return document.getElementById('advice').textContent"))
        self.page.run("document.getElementById('verdict').click()")
        self.assertEqual("putStrLn", self.page.run("const it = document.getElementById('text'); return it.value.slice(it.selectionStart, it.selectionEnd)"))

    def test_at_the_end(self) -> None:
        self.page.load("main :: IO () = {")
        self.page.until(f"{VERDICT} === 'refused: Unexpected at 1:18'")
        self.assertEqual(1, len(self.page.all("#paper .mark")))

    def test_all_refusals_are_told(self) -> None:
        """Each refusal of the program has its sentence and what to do."""
        told = self.page.run("return JSON.parse(document.getElementById('data').textContent).faults")
        wanted = "TooLong NotUtf8 BadChar OpenText BigNumber Unexpected Deep Twice Unknown Kind Forward Arity Mismatch Scope Wide Large NoMain".split()
        self.assertEqual([], [it for it in wanted if not told.get(it, {}).get("where") or not told[it].get("cure")])

    def test_haskell_is_recognised(self) -> None:
        for script in HASKELL:
            with self.subTest(script):
                self.assertEqual(3, self.page.act("check", script).answer.status)
                self.assertIn("looks like Haskell", self.page.shown())
        for name, script in examples().items():
            broken = script.replace("main", "mein", 1)
            with self.subTest(name):
                self.page.act("check", broken)
                self.assertNotIn("looks like Haskell", self.page.shown())

    def test_unseen_characters_are_marked(self) -> None:
        self.page.load('main :: IO () = { putStrLn "a\u202eb\u200bc" }; -- \u2066')
        self.assertEqual(["U+202E", "U+200B", "U+2066"], self.page.run("return [...document.querySelectorAll('#paper .unseen')].map(it => it.dataset.code)"))
        self.assertIn("turns the direction", self.page.run("return document.getElementById('unseen').innerText"))
        self.page.act("run", clock="virtual")
        self.assertIn("aU+202EbU+200Bc", self.page.shown())
        self.page.load("main :: IO () = { return () };")
        self.assertTrue(self.page.run("return document.getElementById('unseen').hidden"))

    def test_a_result_of_another_text_is_told(self) -> None:
        self.page.act("outcomes", examples()["update"], clock="real")
        self.assertTrue(self.page.run("return document.getElementById('stale').hidden"))
        self.page.run("const it = document.getElementById('text'); it.focus(); document.execCommand('insertText', false, '-- mine\\n')")
        self.assertFalse(self.page.run("return document.getElementById('stale').hidden"))
        self.page.act("outcomes")
        self.assertTrue(self.page.run("return document.getElementById('stale').hidden"))

    def test_own_script_is_not_lost(self) -> None:
        self.page.open()
        self.page.run("const it = document.getElementById('text'); it.focus(); it.setSelectionRange(0, 0); document.execCommand('insertText', false, '-- mine\\n')")
        own = self.page.run(TEXT)
        self.page.run("playground.load('main :: IO () = { return () };', 'other')")
        self.page.run("document.getElementById('back').click()")
        self.assertEqual(own, self.page.run(TEXT))
        time.sleep(0.6)
        self.page.open(forget=False)
        self.assertEqual(own, self.page.run(TEXT))
        self.page.open("#hello", forget=False)
        self.assertEqual(examples()["hello"], self.page.run(TEXT))
        self.page.run("document.getElementById('back').click()")
        self.assertEqual(own, self.page.run(TEXT))
        self.page.open()


class Mistakes(PageTest):
    def test_each_has_its_cure(self) -> None:
        """Of a script with a mistake the right one is one key away, and what was written meanwhile comes back."""
        self.page.open()
        self.assertFalse(self.page.run("return document.getElementById('cure').hidden"))
        self.page.run("const it = document.getElementById('text'); it.focus(); document.execCommand('insertText', false, '-- mine\\n')")
        own = self.page.run(TEXT)
        self.page.run("document.getElementById('cure').click()")
        self.assertEqual(examples()["modify"], self.page.run(TEXT))
        self.assertTrue(self.page.run("return document.getElementById('cure').hidden"))
        self.page.run("document.getElementById('back').click()")
        self.assertEqual(own, self.page.run(TEXT))
        wrong = [it for it in examples() if it.endswith("-wrong")]
        cures = self.page.run("return JSON.parse(document.getElementById('data').textContent).cures")
        self.assertEqual([], [it for it in wrong if cures.get(it) not in examples()])
        self.page.open()


class Explained(PageTest):
    """How a script is written, for whoever begins or pastes a module."""

    def test_all_that_stands_there_is_accepted(self) -> None:
        self.page.open()
        pairs = self.page.run("return [...document.querySelectorAll('#how table')][0].querySelectorAll('tbody tr td:last-child').length")
        self.assertGreater(pairs, 10)
        for number in range(pairs):
            code = str(self.page.run("return document.querySelector('#how table').querySelectorAll('tbody tr td:last-child')[arguments[0]].textContent", number))
            script = code if code.endswith(";") else f"f (m :: MVar Int) (n :: Int) (r :: Maybe Int) :: IO () = {{ {code}; return () }};"
            with self.subTest(code):
                result = self.page.calls([(["check"], (script if script.startswith("main") else f"{script}\nmain :: IO () = {{ return () }};").encode())])[0]
                self.assertEqual((0, b""), (result.answer.status, result.answer.err))

    def test_its_script_is_taken(self) -> None:
        self.page.open()
        self.page.run("document.getElementById('write').click()")
        self.assertTrue(self.page.run("return document.getElementById('writing').open"))
        self.page.run("document.querySelector('#how button').click()")
        self.page.until(f"{VERDICT} === 'accepted'")
        result = self.page.act("outcomes")
        self.same(result, self.page.run(TEXT))
        self.assertTrue(result.answer.out.startswith(b"3 outcomes, and there are no others"))

    def test_ways_to_it(self) -> None:
        """From a pasted module, and from a refusal of the grammar."""
        self.page.open()
        for script in (HASKELL[0], "main :: IO () = { };"):
            with self.subTest(script):
                self.page.act("check", script)
                self.page.run("[...document.querySelectorAll('#shown button')].find(it => /How a script/.test(it.textContent)).click()")
                self.assertTrue(self.page.run("return document.getElementById('writing').open"))
                self.page.run("document.querySelector('#writing .close').click()")

    def test_all_forms_stand_there(self) -> None:
        told = self.page.run("return document.getElementById('how').textContent")
        words = self.page.run("return JSON.parse(document.getElementById('data').textContent).words")
        self.assertEqual([], [it for it in words if it not in told])


class Links(PageTest):
    """Links are tried where the page has an address: on a server of this test."""

    @classmethod
    def setUpClass(cls) -> None:
        cls.server = Server()
        cls.address = cls.server.address

    @classmethod
    def tearDownClass(cls) -> None:
        cls.server.close()

    def linked(self, script: str, **options: Any) -> str:
        self.page.open(address=self.address)
        self.page.act("check", script, **options)
        self.page.run("document.getElementById('link').click()")
        self.page.until("return /The link/.test(document.getElementById('said').innerText)")
        return str(self.page.run("return location.hash"))

    def test_a_link_is_shown_and_not_run(self) -> None:
        script = 'main :: IO () = { putStrLn "\U0001F600 <b>" };\n'
        behind = self.linked(script, clock="virtual", fuel=77)
        self.page.open(behind, address=self.address)
        time.sleep(1)
        self.assertEqual([script, "virtual", "77"], self.page.run("return ['text', 'clock', 'fuel'].map(it => document.getElementById(it).value)"))
        self.assertIn("nothing of it has run", self.page.said())
        self.assertIn("nothing of it has run", self.page.run(VERDICT))
        self.assertIsNone(self.page.run("return playground.last.result ?? null"))
        self.assertTrue(self.page.run("return document.getElementById('options').open"))
        self.same(self.page.act("run"), script)

    def test_another_version_is_named(self) -> None:
        behind = self.linked("main :: IO () = { return () };\n")
        self.page.open(f"#1.0-1-2.{behind.split('.')[2]}", address=self.address)
        self.assertIn("version 0.1.2", self.page.said())

    def test_an_edit_leaves_the_link(self) -> None:
        self.page.open(self.linked("main :: IO () = { return () };\n"), address=self.address)
        self.page.run("const it = document.getElementById('text'); it.focus(); document.execCommand('insertText', false, '-- mine\\n')")
        self.assertNotIn("#", self.page.run("return location.href"))
        self.page.until(f"{VERDICT} === 'accepted'")

    def test_broken_links(self) -> None:
        for behind in ("#1.broken", "#1.%", "#1.0-15-0.AAAA", "#9.x.y", "#1.0-1-0." + "A" * 100000):
            with self.subTest(behind[:20]):
                self.page.open(behind, address=self.address)
                self.assertIn("The link is broken", self.page.said())
                self.assertEqual(examples()["update"], self.page.run(TEXT))

    def test_a_long_script_has_no_link(self) -> None:
        self.page.open(address=self.address)
        self.page.load("-- " + "".join(f"{it * 7919 % 104729:x}" for it in range(5000)) + "\nmain :: IO () = { return () };\n")
        self.page.run("document.getElementById('link').click()")
        self.page.until("return /No link, but a file/.test(document.getElementById('said').innerText)")
        self.assertEqual("", self.page.run("return location.hash"))

    def test_from_a_file_there_is_no_link(self) -> None:
        self.page.open()
        self.page.run("document.getElementById('link').click()")
        self.page.until("return /No link, but a file/.test(document.getElementById('said').innerText)")


# Gives a file to the page, by the button or by a drop.
GIVEN = """const [way, name, code] = arguments, given = new DataTransfer(), bytes = Uint8Array.from(atob(code), it => it.charCodeAt(0));
  given.items.add(new File([bytes], name));
  const field = document.getElementById('file');
  if (way === 'button') { field.files = given.files; field.dispatchEvent(new Event('change')); }
  else document.getElementById('editor').dispatchEvent(new DragEvent('drop', {dataTransfer: given, bubbles: true, cancelable: true}));"""


class Files(PageTest):
    def give(self, name: str, content: bytes, way: str = "button") -> None:
        self.page.run(GIVEN, way, name, base64.b64encode(content).decode())

    def test_opened(self) -> None:
        for way in ("button", "drop"):
            script = f'main :: IO () = {{ putStrLn "{way} \U0001F600" }};\n'
            self.page.open()
            self.give("mine.conc", script.encode(), way)
            self.page.until("return document.getElementById('name').textContent === 'mine.conc'")
            self.assertEqual(script, self.page.run(TEXT))
            self.assertIsNone(self.page.run("return playground.last.result ?? null"))
            self.same(self.page.act("run", clock="virtual"), script)

    def test_not_opened(self) -> None:
        self.page.open()
        before = self.page.run(TEXT)
        for content, said in ((b"\xff\xfe", "not UTF-8"), (b"-" * (5 << 20), "at most 1,048,576 bytes")):
            self.give("bad.conc", content)
            self.page.until("return document.getElementById('said').innerText.includes(arguments[0])", 60, said)
            self.assertEqual(before, self.page.run(TEXT))

    def test_opened_and_too_long(self) -> None:
        """A file that is read and longer than a script may be is refused by the program."""
        content = b"-" * 1048577
        self.give("long.conc", content)
        self.page.until(f"{VERDICT} === 'refused: TooLong'")

    def test_saved(self) -> None:
        if settings.browser != "chromium":
            self.skipTest("the folder of what is saved is set by Chromium's own protocol")
        script = 'main :: IO () = { putStrLn "\U0001F600 <b> \u202e" };\n'
        with tempfile.TemporaryDirectory() as folder:
            self.page.driver.execute_cdp_cmd("Browser.setDownloadBehavior", {"behavior": "allow", "downloadPath": folder})
            self.page.open()
            self.page.run("playground.load(arguments[0], 'a/b <c>')", script)
            self.page.run("document.getElementById('save').click()")
            result = self.page.act("outcomes", examples()["update"])
            self.page.run("document.querySelectorAll('.cards .card .bar button')[1].click()")
            self.page.until("return document.querySelectorAll('.history a').length === 2")
            self.page.run("for (const it of document.querySelectorAll('#shown a, .history a')) it.click()")
            saved = self.waited(folder, 4)
        self.assertEqual(script.encode(), saved["b.conc"])
        self.assertEqual(result.answer.out, saved["outcomes.txt"])
        self.assertTrue(saved["history.svg"].startswith(b"<svg "))
        self.assertIn(b"script", saved["history.txt"])

    def waited(self, folder: str, count: int) -> dict[str, bytes]:
        for _ in range(200):
            names = [it for it in os.listdir(folder) if not it.endswith(".crdownload")]
            if len(names) == count:
                break
            time.sleep(0.1)
        found = {}
        for name in os.listdir(folder):
            with open(os.path.join(folder, name), "rb") as file:
                found[name] = file.read()
        return found

    def test_saved_and_opened(self) -> None:
        """An example is saved by its name."""
        self.page.run("playground.load('main', 'mistakes/two-locks, changed')")
        name = self.page.wait_for("""const done = arguments[0], real = HTMLAnchorElement.prototype.click;
          HTMLAnchorElement.prototype.click = function () { HTMLAnchorElement.prototype.click = real; done(this.download); };
          document.getElementById('save').click();""")
        self.assertEqual("two-locks.conc", name)
