"""Who reaches it how: by the keyboard alone, by a screen reader, in the dark, at 400 pixels, printed."""

from __future__ import annotations

import base64
import re
import unittest
from typing import Any

from selenium.webdriver.common.keys import Keys

from tools.play.tests import settings
from tools.play.tests.browser import PageTest
from tools.play.tests.scripts import examples, long

TEXT = "return document.getElementById('text').value"
HASKELL = "import Control.Concurrent\nmain = do\n  m <- newEmptyMVar\n  putMVar m 1\n"


class Keyboard(PageTest):
    def test_alone(self) -> None:
        """From the script to an outcome's history and back, without a pointer."""
        self.page.open()
        self.page.run("document.querySelector('.skip').focus()")
        self.page.press(Keys.ENTER)
        self.assertEqual("text", self.page.focused())
        self.page.press(Keys.CONTROL, Keys.SHIFT, Keys.ENTER)
        self.page.until("return document.querySelectorAll('.cards .card').length === 3")
        self.page.press(Keys.ESCAPE)
        self.page.walk_to("Show the history of outcome 3")
        self.page.press(Keys.ENTER)
        self.page.until("return document.querySelector('.history .story li')")
        self.assertEqual("SECTION", self.page.run("return document.activeElement.tagName"))
        self.page.press(Keys.TAB)
        self.assertEqual("Close", self.page.focused())
        self.page.walk_to("Large, with words at each mark")
        self.page.press(Keys.ENTER)
        self.page.until("return document.getElementById('large').open")
        self.page.press(Keys.ESCAPE)
        self.page.until("return !document.getElementById('large').open")
        self.assertEqual("Large, with words at each mark", self.page.focused())
        self.page.press(Keys.SHIFT, Keys.TAB)
        self.page.run("document.querySelector('.history button').focus()")
        self.page.press(Keys.ENTER)
        self.assertEqual("Show the history of outcome 3", self.page.focused())

    def test_examples(self) -> None:
        self.page.open()
        self.page.walk_to("examples")
        self.page.press(Keys.ENTER)
        self.page.until("return document.getElementById('choose').open")
        self.page.until("return document.activeElement.closest('dialog')")
        for _ in range(80):
            if self.page.focused().startswith("modify"):
                break
            self.page.press(Keys.TAB)
        self.page.press(Keys.ENTER)
        self.assertEqual(examples()["modify"], self.page.run(TEXT))
        self.assertEqual("text", self.page.focused())

    def test_the_place_of_a_refusal(self) -> None:
        self.page.open()
        self.page.load("main :: IO () = {\n  putStrLn 3 };\n")
        self.page.until("return !document.getElementById('verdict').disabled")
        self.page.run("document.getElementById('text').focus()")
        self.page.press(Keys.ESCAPE)
        self.page.walk_to("verdict")
        self.page.press(Keys.ENTER)
        self.assertEqual(["text", 20], self.page.run("const it = document.activeElement; return [it.id, it.selectionStart]"))

    def test_options(self) -> None:
        self.page.open()
        self.page.run("document.querySelector('#options summary').focus()")
        self.page.press(Keys.ENTER)
        self.page.walk_to("clock")
        self.page.press(Keys.ARROW_DOWN)
        self.page.walk_to("fuel")
        self.page.press("7")
        self.page.press(Keys.CONTROL, Keys.ENTER)
        self.page.until("return playground.last.result?.words[0] === 'run'")
        words = self.page.run("return playground.last.result.words")
        self.assertEqual("virtual", words[2])
        self.assertIn("7", words[4])

    def test_tab_indents(self) -> None:
        self.page.load("")
        self.page.run("document.getElementById('text').blur(); document.getElementById('text').focus()")
        self.page.press(Keys.TAB, "x")
        self.assertEqual("  x", self.page.run(TEXT))
        self.page.press(Keys.ESCAPE)
        self.page.press(Keys.TAB)
        self.assertNotEqual("text", self.page.focused())

    def test_stop(self) -> None:
        self.page.load("main :: IO () = { threadDelay 100000000 };")
        self.page.run("document.getElementById('clock').value = 'real'; document.getElementById('text').focus()")
        self.page.press(Keys.CONTROL, Keys.ENTER)
        self.page.until("return !document.getElementById('stop').disabled")
        self.page.press(Keys.ESCAPE)
        self.page.until("return document.getElementById('said').innerText.startsWith('Stopped')")


class Reader(PageTest):
    """What a screen reader is told, by the tree that the browser makes for it."""

    def tree(self) -> list[dict[str, Any]]:
        if settings.browser != "chromium":
            raise unittest.SkipTest("the tree for readers is had by Chromium's own protocol")
        nodes = self.page.driver.execute_cdp_cmd("Accessibility.getFullAXTree", {})["nodes"]
        return [it for it in nodes if not it.get("ignored")]

    def told(self) -> list[tuple[str, str]]:
        """Each part in the order of reading: its role and its name."""
        return [(it["role"]["value"], it.get("name", {}).get("value", "")) for it in self.tree()]

    def of_text(self) -> dict[str, Any]:
        return next(it for it in self.tree() if it["role"]["value"] == "textbox")

    def test_on_opening(self) -> None:
        self.page.open()
        told = self.told()
        headings = [name for role, name in told if role == "heading"]
        self.assertEqual(["conc_run", "Script", "Result"], headings)
        names = [name for role, name in told if role == "button"]
        for it in ("Examples", "Open file", "Save file", "Link", "Check", "Run", "Outcomes", "Stop"):
            self.assertIn(it, names)
        # Numbers, colours and marks below the text aren't read; the text is.
        self.assertTrue(self.of_text()["name"]["value"].startswith("Script. Tab indents"))
        self.assertEqual(examples()["update"], self.of_text()["value"]["value"].replace("\r\n", "\n"))
        self.assertIn(("status", ""), [(role, "") for role, _ in told])

    def test_a_refusal(self) -> None:
        """The verdict and what to do describe the text, which is told to be invalid; the change is told where a reader listens."""
        self.page.load("main :: IO () = {\n  putStrLn 3 };\n")
        self.page.until("return !document.getElementById('verdict').disabled")
        node = self.of_text()
        described = node["description"]["value"]
        self.assertIn("refused: Mismatch at 2:3", described)
        self.assertIn("hange the part", described)
        self.assertEqual("true", next(it["value"]["value"] for it in node["properties"] if it["name"] == "invalid"))
        self.assertEqual("refused: Mismatch at 2:3", self.page.run("return document.getElementById('told').textContent"))

    def test_the_way_to_a_history(self) -> None:
        self.page.act("outcomes", examples()["update"], clock="real")
        told = self.told()
        self.assertTrue(self.page.run("return document.querySelector('#said').textContent.startsWith('3 outcomes, and there are no others')"))
        headings = [name for role, name in told if role == "heading"]
        self.assertEqual(["conc_run", "Script", "Result"], headings[:3])
        self.assertEqual([["1", "Done"], ["2", "Done"], ["3", "Uncaught"]], [re.split(r"\. | 1", it)[:2] for it in headings[3:]])
        self.page.run("document.querySelectorAll('.cards .card .bar button')[2].click()")
        self.page.until("return document.querySelector('.history .story li')")
        told = self.told()
        self.assertIn(("region", "Outcome 3: uncaught"), told)
        self.assertTrue([name for role, name in told if role in ("image", "img") and name.startswith("Outcome 3: uncaught, drawn")])
        items = [it for it in told if it[0] == "listitem"]
        self.assertGreater(len(items), 3)
        self.assertTrue([name for _, name in told if "waits" in name or "takes" in name])

    def test_all_have_names(self) -> None:
        self.page.act("outcomes", examples()["update"], clock="real")
        self.page.run("document.querySelectorAll('.cards .card .bar button')[0].click(); document.getElementById('options').open = true")
        self.page.until("return document.querySelector('.history .story li')")
        wanted = {"button", "link", "textbox", "combobox", "spinbutton", "image", "img", "region", "dialog"}
        nameless = [it for it in self.tree() if it["role"]["value"] in wanted and not it.get("name", {}).get("value", "")]
        # The verdict is empty until there is one.
        self.assertEqual([], [it for it in nameless if not any(p["name"] == "disabled" for p in it.get("properties", []))])
        self.assertEqual("en", self.page.run("return document.documentElement.lang"))


class Looks(PageTest):
    def media(self, kind: str = "", **features: str) -> None:
        if settings.browser != "chromium":
            self.skipTest("colours and media are set by Chromium's own protocol")
        self.page.driver.execute_cdp_cmd("Emulation.setEmulatedMedia", {"media": kind, "features": [{"name": f"prefers-{name.replace('_', '-')}", "value": value} for name, value in features.items()]})

    def tearDown(self) -> None:
        if settings.browser == "chromium":
            self.media()
            self.page.driver.execute_cdp_cmd("Emulation.clearDeviceMetricsOverride", {})
        super().tearDown()

    def history(self, name: str) -> None:
        self.page.act("outcomes", examples()[name], clock="real")
        self.page.run("document.querySelectorAll('.cards .card .bar button')[0].click()")
        self.page.until("return document.querySelector('.history .story li')")

    def test_contrast(self) -> None:
        """Each text has at least the contrast 4.5 with what is behind it, in light and dark."""
        self.history("update")
        for scheme in ("light", "dark"):
            self.media(color_scheme=scheme)
            low = self.page.run("""const part = v => { v /= 255; return v <= .03928 ? v / 12.92 : ((v + .055) / 1.055) ** 2.4; };
              const light = ([r, g, b]) => .2126 * part(r) + .7152 * part(g) + .0722 * part(b), colour = s => s.match(/[\\d.]+/g).map(Number);
              const behind = it => { for (; it; it = it.parentElement) { const c = colour(getComputedStyle(it).backgroundColor); if (c.length < 4 || c[3]) return c; } return [255, 255, 255]; };
              return [...document.querySelectorAll('body *')].filter(it => it.id !== 'text' && it.checkVisibility() && [...it.childNodes].some(n => n.nodeType === 3 && n.data.trim()))
                .filter(it => !it.disabled).map(it => { const a = light(colour(getComputedStyle(it).color)), b = light(behind(it));
                return [(Math.max(a, b) + .05) / (Math.min(a, b) + .05), it.tagName + '.' + it.className + ' ' + it.textContent.slice(0, 20)]; }).filter(it => it[0] < 4.5)""")
            self.assertEqual([], low, scheme)

    def test_four_hundred_pixels(self) -> None:
        self.media()
        self.page.driver.execute_cdp_cmd("Emulation.setDeviceMetricsOverride", {"width": 400, "height": 800, "deviceScaleFactor": 1, "mobile": False})
        self.history("timeouts")
        self.page.act("check", HASKELL)
        self.page.load(examples()["update"])
        self.page.run("document.getElementById('options').open = true")
        self.assertEqual(0, self.page.run("return document.documentElement.scrollWidth - document.documentElement.clientWidth"))
        for dialog in ("choose", "writing", "large"):
            self.page.run("document.getElementById(arguments[0]).showModal()", dialog)
            self.assertLessEqual(self.page.run("return document.getElementById(arguments[0]).getBoundingClientRect().right", dialog), 400)
            self.page.run("document.getElementById(arguments[0]).close()", dialog)

    def shown(self, selector: str) -> int:
        return int(self.page.run("return [...document.querySelectorAll(arguments[0])].filter(it => it.checkVisibility() && it.getClientRects().length).length", selector))

    def test_printed(self) -> None:
        """On paper stand the script, the outcomes and what was opened, and nothing that can be pressed; dark colours are light."""
        self.history("update")
        self.media("print", color_scheme="dark")
        for selector, least in (("header h1", 1), ("#paper div", 6), (".cards .card", 3), (".history img", 1), (".history .story li", 3), ("#said p", 1)):
            self.assertGreaterEqual(self.shown(selector), least, selector)
        self.assertEqual(0, self.shown("button:not(.plain), textarea, input, select, a, dialog"))
        self.assertEqual(["rgb(255, 255, 255)", "rgb(0, 0, 0)"], self.page.run("const it = getComputedStyle(document.body); return [it.backgroundColor, it.color]"))
        self.assertLessEqual(self.page.run("return Math.max(...[...document.querySelectorAll('.history img')].map(it => it.getBoundingClientRect().right))"), 1280)

    def test_a_long_script_is_printed_whole(self) -> None:
        self.media()
        self.page.load(long()[:200000])
        self.page.run("dispatchEvent(new Event('beforeprint'))")
        lines = self.page.run("return [document.querySelectorAll('#paper div').length, document.querySelectorAll('#paper .string').length, document.getElementById('text').value.split('\\n').length]")
        self.assertEqual(lines[2], lines[0])
        self.assertGreater(lines[1], lines[0])
        self.page.run("dispatchEvent(new Event('afterprint'))")
        self.assertLess(self.page.run("return document.querySelectorAll('#paper div').length"), 200)
        printed = base64.b64decode(self.page.driver.execute_cdp_cmd("Page.printToPDF", {})["data"])
        self.assertGreater(len(re.findall(rb"/Type\s*/Page\b", printed)), 40)
