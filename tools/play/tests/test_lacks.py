"""A browser that is too old, or lacks or refuses something: the page says so in words, and what to do. Each time in a window of its own."""

from __future__ import annotations

import unittest
from typing import Any

from tools.play.tests import native, settings
from tools.play.tests.browser import Page, Result, chromium
from tools.play.tests.scripts import GROWER, deep, examples
from tools.play.tests.serving import Server

SAYS = "return document.getElementById('said').innerText"
UNSTARTED = "const it = document.getElementById('unstarted'); return it && getComputedStyle(it).visibility === 'visible' && it.innerText"
# What is put before the source of each worker.
IN_WORKERS = """const Plain = Blob;
  globalThis.Blob = class extends Plain { constructor(parts, about) { super(about?.type === 'text/javascript' ? [%r, ...parts] : parts, about); } };"""


class Lacking(unittest.TestCase):
    def opened(self, *words: str, lacks: str = "", address: str = "", **user: Any) -> Page:
        if settings.browser != "chromium":
            self.skipTest("what a browser lacks is set by Chromium's own protocol")
        page = Page(chromium(*words, **user))
        self.addCleanup(page.quit)
        if lacks:
            page.driver.execute_cdp_cmd("Page.addScriptToEvaluateOnNewDocument", {"source": lacks})
        page.driver.get(address or page.address)
        return page

    def served(self, size: int | None = None, **head: str) -> str:
        server = Server(size, **head)
        self.addCleanup(server.close)
        return server.address

    def cannot(self, page: Page, *said: str) -> None:
        """It can't run anything, and says why and what to do."""
        page.until("return /cannot run it/.test(document.getElementById('said').innerText)")
        for it in said:
            self.assertIn(it, page.said())


class Old(Lacking):
    def test_no_webassembly(self) -> None:
        self.cannot(self.opened(lacks="delete globalThis.WebAssembly"), "WebAssembly is not allowed", "take another browser")

    def test_no_streams(self) -> None:
        self.cannot(self.opened(lacks="delete globalThis.DecompressionStream"), "Chrome or Edge 103, Firefox 113, Safari 16.4")

    def test_no_workers(self) -> None:
        page = self.opened(lacks="delete globalThis.Worker")
        page.until("return document.documentElement.dataset.ready")
        page.run("playground.act('outcomes')")
        self.cannot(page, "Chrome or Edge 103")

    def test_no_feature_of_webassembly(self) -> None:
        """A module with a part that the engine doesn't know is refused by its compiler."""
        page = self.opened(lacks="WebAssembly.compile = async () => { throw new WebAssembly.CompileError('invalid opcode 0xfc'); }")
        self.cannot(page, "Chrome or Edge 103", "invalid opcode")

    def test_script_does_not_begin(self) -> None:
        page = self.opened(lacks="delete globalThis.ResizeObserver")
        self.assertIn("Chrome or Edge 103", page.until(UNSTARTED, 30))

    def test_a_mistake_of_the_page(self) -> None:
        page = self.opened(lacks="Object.defineProperty(Array.prototype, 'entries', {get() { throw new Error('old'); }})")
        page.until("return /cannot run it/.test(document.getElementById('said').innerText)")
        page.run("setTimeout(() => { throw new Error('one'); })")
        page.until("return /made a mistake/.test(document.getElementById('said').innerText)")


class Refused(Lacking):
    """By whoever set up the browser or the server."""

    def test_no_scripts(self) -> None:
        page = self.opened(**{"profile.managed_default_content_settings.javascript": 2})
        tree = page.driver.execute_cdp_cmd("Accessibility.getFullAXTree", {})["nodes"]
        self.assertIn("Scripts are not allowed here", " ".join(str(it.get("name", {}).get("value", "")) for it in tree))

    def test_no_webassembly(self) -> None:
        page = self.opened(address=self.served(Content_Security_Policy="script-src 'unsafe-inline'; worker-src blob:"))
        self.cannot(page, "WebAssembly is not allowed here")

    def test_no_script_of_the_page(self) -> None:
        page = self.opened(address=self.served(Content_Security_Policy="script-src 'none'"))
        self.assertIn("has not started", page.until(UNSTARTED, 30))

    def test_no_workers(self) -> None:
        page = self.opened(address=self.served(Content_Security_Policy="worker-src 'none'"))
        page.run("playground.act('outcomes')")
        page.until("return /starts no worker/.test(document.getElementById('said').innerText)")
        self.assertIn("What to do: Allow them for this page", page.said())
        self.assertEqual(["not checked", 0], page.run("return [document.getElementById('verdict').textContent, document.querySelectorAll('.card').length]"))

    def test_a_page_that_is_cut(self) -> None:
        page = self.opened(address=self.served(400000))
        self.assertIn("has not started", page.until(UNSTARTED, 30))

    def test_nothing_is_kept(self) -> None:
        page = self.opened(**{"profile.managed_default_content_settings.cookies": 2})
        page.until("return document.documentElement.dataset.ready")
        self.assertTrue(page.run("try { localStorage.length; return false; } catch { return true; }"))
        script = examples()["update"].encode()
        self.assertEqual(native.call(["outcomes"], script).out, page.act("outcomes").answer.out)


class Small(Lacking):
    """Too little memory, or too small a stack: no answer is shown then, and one that is shown is right."""

    def test_no_memory_to_begin(self) -> None:
        page = self.opened("--js-flags=--wasm-max-mem-pages=600")
        page.until("return document.documentElement.dataset.ready")
        self.assertEqual("memory", page.act("outcomes").failure)
        self.assertIn("gives no memory", page.said())
        self.assertIn("What to do: Close other pages", page.said())
        self.assertEqual([], page.all(".card"))

    def test_little_memory(self) -> None:
        page = self.opened("--js-flags=--wasm-max-mem-pages=1600")
        result = page.act("run", GROWER, clock="virtual")
        self.assertEqual((6, b"out of memory\n"), (result.answer.status, result.answer.err))
        self.assertIn("or than this browser gives", page.said())
        script = examples()["update"].encode()
        self.assertEqual(native.call(["outcomes"], script).out, page.act("outcomes", script.decode(), clock="real").answer.out)

    def test_small_stack(self) -> None:
        """Without stacks of their own the calls have that of a worker, which is too small for some of the deep scripts."""
        page, small = self.opened(lacks=IN_WORKERS % "delete WebAssembly.promising;"), 0
        page.until("return document.documentElement.dataset.ready")
        for name, script in deep().items():
            for kind in ("check", "run", "outcomes"):
                with self.subTest(name, kind=kind):
                    result: Result = page.act(kind, script, clock="virtual")
                    if result.failure is None:
                        self.assertEqual(native.call(result.words, script.encode()), result.answer)
                        continue
                    self.assertEqual("stack", result.failure)
                    self.assertIn("stack is too small", page.said())
                    self.assertIn("says nothing about the script", page.said())
                    self.assertEqual([], page.all(".card"))
                    small += 1
        print(f"{small} calls of deep scripts find the stack of a worker too small, as the page says")
        self.assertGreater(small, 0)
