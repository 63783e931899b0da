"""Firefox without a driver of its own: what of Selenium's interface the tests use, over Firefox's own protocol, Marionette."""

from __future__ import annotations

import json
import os
import shutil
import socket
import subprocess
import tempfile
import time
import unittest
from typing import Any

PREFERENCES = {"marionette.port": 0, "app.update.enabled": False, "browser.shell.checkDefaultBrowser": False, "datareporting.policy.dataSubmissionEnabled": False,
               "browser.startup.homepage": "about:blank", "toolkit.startup.max_resumed_crashes": -1, "dom.disable_beforeunload": True}
SECONDS = 60
# The keys Shift, Control, Alt and Meta, as the protocol spells them.
MODIFIERS = "\ue008\ue009\ue00a\ue03d"


def free_port() -> int:
    with socket.socket() as one:
        one.bind(("127.0.0.1", 0))
        return int(one.getsockname()[1])


class Element:
    """The N-th element that a selector finds."""

    def __init__(self, driver: Firefox, selector: str, number: int) -> None:
        self.driver, self.selector, self.number = driver, selector, number

    def click(self) -> None:
        self.driver.execute_script("document.querySelectorAll(arguments[0])[arguments[1]].click()", self.selector, self.number)


class Firefox:
    def __init__(self) -> None:
        program = shutil.which("firefox-esr") or shutil.which("firefox")
        if not program:
            raise unittest.SkipTest("no Firefox here")
        self.profile, port = tempfile.mkdtemp(prefix="firefox-"), free_port()
        with open(os.path.join(self.profile, "user.js"), "w", encoding="utf-8") as file:
            for name, value in {**PREFERENCES, "marionette.port": port}.items():
                file.write(f"user_pref({json.dumps(name)}, {json.dumps(value)});\n")
        self.process = subprocess.Popen([program, "--marionette", "--headless", "--profile", self.profile, "--no-remote"], stdout=subprocess.DEVNULL,
                                        stderr=subprocess.DEVNULL, env={**os.environ, "HOME": self.profile, "MOZ_DISABLE_CONTENT_SANDBOX": "1"})
        self.service, self.number = self, 0
        self.socket = self.connected(port)
        self.stream = self.socket.makefile("rb")
        self.read()
        self.send("WebDriver:NewSession", {})

    def connected(self, port: int) -> socket.socket:
        begun = time.time()
        while time.time() - begun < SECONDS:
            try:
                return socket.create_connection(("127.0.0.1", port))
            except OSError:
                time.sleep(0.2)
        raise unittest.SkipTest("Firefox doesn't answer")

    def read(self) -> Any:
        """A message: its length, a colon, and JSON."""
        length = b""
        while not length.endswith(b":"):
            piece = self.stream.read(1)
            if not piece:
                raise AssertionError("Firefox has ended")
            length += piece
        return json.loads(self.stream.read(int(length[:-1])))

    def send(self, command: str, given: dict[str, Any]) -> Any:
        self.number += 1
        message = json.dumps([0, self.number, command, given]).encode()
        self.socket.sendall(f"{len(message)}:".encode() + message)
        _, _, fault, answer = self.read()
        if fault:
            raise AssertionError(f"{command}: {fault['error']}: {fault['message']}")
        return answer.get("value") if isinstance(answer, dict) else answer

    def set_script_timeout(self, seconds: float) -> None:
        self.send("WebDriver:SetTimeouts", {"script": int(seconds * 1000)})

    def get(self, address: str) -> None:
        self.send("WebDriver:Navigate", {"url": address})

    @property
    def current_url(self) -> str:
        return str(self.send("WebDriver:GetCurrentURL", {}))

    def execute_script(self, script: str, *given: Any) -> Any:
        return self.send("WebDriver:ExecuteScript", {"script": script, "args": list(given), "newSandbox": False})

    def execute_async_script(self, script: str, *given: Any) -> Any:
        return self.send("WebDriver:ExecuteAsyncScript", {"script": script, "args": list(given), "newSandbox": False})

    def find_elements(self, _: str, selector: str) -> list[Element]:
        count = self.execute_script("return document.querySelectorAll(arguments[0]).length", selector)
        return [Element(self, selector, it) for it in range(count)]

    def press(self, *keys: str) -> None:
        """Presses keys one after the other; those that change others are held to the end."""
        held = [it for it in keys if it in MODIFIERS]
        moves = [("keyDown", it) for it in held]
        moves += [(kind, letter) for it in keys if it not in MODIFIERS for letter in it for kind in ("keyDown", "keyUp")]
        moves += [("keyUp", it) for it in held]
        self.send("WebDriver:PerformActions", {"actions": [{"type": "key", "id": "keys", "actions": [{"type": kind, "value": it} for kind, it in moves]}]})

    def quit(self) -> None:
        self.process.terminate()
        self.process.wait()
        shutil.rmtree(self.profile, ignore_errors=True)
