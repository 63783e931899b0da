"""The page in a browser without a screen: what is done with it, and what it shows."""

from __future__ import annotations

import base64
import os
import shutil
import subprocess
import time
import unittest
from typing import Any, Sequence

from selenium import webdriver
from selenium.webdriver.common.by import By
from selenium.webdriver.common.keys import Keys

from tools.play.tests import marionette, native, settings

ENCODED = """const encoded = bytes => { let all = ''; for (let i = 0; i < bytes.length; i += 8192) all += String.fromCharCode(...bytes.subarray(i, i + 8192));
  return btoa(all); };
  const packed = it => it && [it.status, encoded(it.out), encoded(it.err), it.failure, it.milliseconds, it.memory, it.words];
  const bytesOf = code => Uint8Array.from(atob(code), it => it.charCodeAt(0));"""


class Result:
    """What a call in the page answered."""

    def __init__(self, packed: Sequence[Any]) -> None:
        self.answer = native.Answer(packed[0], base64.b64decode(packed[1]), base64.b64decode(packed[2]))
        self.failure, self.milliseconds, self.memory, self.words = packed[3:7]


def chromium(*words: str, **settings_of_user: Any) -> Any:
    """Chromium with further words of its command line and settings of its user."""
    options = webdriver.ChromeOptions()
    options.binary_location = shutil.which("chromium")
    for word in ("--headless=new", "--no-sandbox", "--disable-gpu", "--window-size=1280,900", *words):
        options.add_argument(word)
    options.add_experimental_option("prefs", settings_of_user)
    options.set_capability("goog:loggingPrefs", {"browser": "ALL"})
    service = webdriver.chrome.service.Service(shutil.which("chromedriver"))
    return webdriver.Chrome(service=service, options=options)


class Page:
    def __init__(self, driver: Any = None) -> None:
        self.driver = driver or {"chromium": chromium, "firefox": marionette.Firefox}[settings.browser]()
        self.driver.set_script_timeout(600)
        self.address = "file://" + os.path.abspath(settings.page)

    def quit(self) -> None:
        self.driver.quit()

    def run(self, code: str, *given: Any) -> Any:
        return self.driver.execute_script(code, *given)

    def wait_for(self, code: str, *given: Any) -> Any:
        return self.driver.execute_async_script(ENCODED + code, *given)

    def open(self, behind: str = "", address: str | None = None, forget: bool = True) -> int:
        """Opens the page anew; the answer is in how many milliseconds it was ready."""
        if forget and self.driver.current_url.startswith(("file:", "http")):
            self.run("localStorage.clear(); addEventListener('pagehide', () => localStorage.clear())")
        self.driver.get("about:blank")
        self.driver.get((address or self.address) + behind)
        return self.until("return document.documentElement.dataset.ready && Number(document.documentElement.dataset.ready)")

    def until(self, code: str, seconds: float = 60, *given: Any) -> Any:
        begun = time.time()
        while time.time() - begun < seconds:
            answer = self.run(code, *given)
            if answer:
                return answer
            time.sleep(0.02)
        raise AssertionError(f"not so after {seconds} s: {code}")

    def calls(self, calls: list[tuple[list[str], bytes]]) -> list[Result]:
        """Calls of the page's own program, beside what it shows."""
        given = [[words, base64.b64encode(script).decode()] for words, script in calls]
        return [Result(it) for it in self.wait_for("""const done = arguments[1];
          (async () => { const all = []; for (const [words, script] of arguments[0]) all.push(packed(await playground.call(words, bytesOf(script)))); done(all); })();""", given)]

    def load(self, script: str) -> None:
        self.run("playground.load(arguments[0], 'test')", script)

    def act(self, kind: str, script: str | None = None, **options: Any) -> Result:
        """Presses a button of the page, as it were, and waits."""
        if script is not None:
            self.load(script)
        for name, value in options.items():
            self.run("document.getElementById(arguments[0]).value = arguments[1]", name, str(value))
        return Result(self.wait_for("""const done = arguments[1]; delete playground.last.result;
          playground.act(arguments[0]).then(() => done(packed(playground.last.result ?? {status: null, out: new Uint8Array(), err: new Uint8Array(),
            failure: 'none', milliseconds: 0, memory: 0, words: []})));""", kind))

    def said(self) -> str:
        return self.run("return document.getElementById('said').innerText")

    def shown(self) -> str:
        return self.run("return document.getElementById('shown').innerText")

    def all(self, selector: str) -> list[Any]:
        return self.driver.find_elements(By.CSS_SELECTOR, selector)

    def press(self, *keys: str) -> None:
        """Presses keys where the page's caret or focus is; of the first ones each is held that only changes others."""
        if settings.browser == "chromium":
            self.driver.switch_to.active_element.send_keys(*keys)
        else:
            self.driver.press(*keys)

    def focused(self) -> str:
        """What has the focus, by its name, or its words."""
        return str(self.run("const it = document.activeElement; return it.id || it.getAttribute('aria-label') || it.textContent.trim() || it.tagName"))

    def walk_to(self, name: str, most: int = 60) -> None:
        """Goes on by the key Tab until this has the focus."""
        for _ in range(most):
            if self.focused() == name:
                return
            self.press(Keys.TAB)
        raise AssertionError(f"no key Tab leads to {name}")

    def log(self) -> list[str]:
        return [it["message"] for it in self.driver.get_log("browser")] if settings.browser == "chromium" else []

    def memory(self) -> int:
        """The memory that the browser's renderers really use, in MB."""
        rows = [it.split(None, 3) for it in subprocess.run(["ps", "-eo", "pid,ppid,rss,args"], capture_output=True, text=True, check=True)
                .stdout.split("\n")[1:] if it]
        below = {str(self.driver.service.process.pid)}
        for _ in range(6):
            below |= {row[0] for row in rows if row[1] in below}
        return sum(int(row[2]) for row in rows if row[0] in below and ("--type=renderer" in row[3] or "-contentproc" in row[3])) // 1024


def page() -> Page:
    if settings.opened is None:
        settings.opened = Page()
        settings.opened.open()
    return settings.opened


class PageTest(unittest.TestCase):
    """A test that has the page, and sees that nothing was refused or logged."""

    page: Page

    def setUp(self) -> None:
        self.page = page()
        self.page.log()

    def tearDown(self) -> None:
        self.assertEqual([], [it for it in self.page.log() if "favicon" not in it])

    def same(self, result: Result, script: bytes | str, seconds: float = 300) -> None:
        """The page's answer is the program's, byte for byte."""
        whole = script.encode() if isinstance(script, str) else script
        self.assertIsNone(result.failure)
        self.assertEqual(native.call(result.words, whole, seconds), result.answer, result.words)
