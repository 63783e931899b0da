"""Nothing of the page goes anywhere: no network, no form, no markup from a text, no script but its own."""

from __future__ import annotations

import time

from tools.play.tests.browser import PageTest
from tools.play.tests.serving import Server

# Each way of asking another address for something. Each is tried in a task of the page's own, for which its policy holds.
WAYS = {
    "fetch": "fetch(at).catch(() => {})",
    "request": "const it = new XMLHttpRequest(); it.open('GET', at); it.onerror = () => {}; it.send()",
    "socket": "try { new WebSocket(at.replace('http', 'ws')); } catch {}",
    "events": "new EventSource(at)",
    "beacon": "navigator.sendBeacon(at, 'x')",
    "image": "new Image().src = at",
    "style": "const it = document.createElement('link'); it.rel = 'stylesheet'; it.href = at; document.head.append(it)",
    "prefetch": "const it = document.createElement('link'); it.rel = 'prefetch'; it.href = at; document.head.append(it)",
    "frame": "const it = document.createElement('iframe'); it.src = at; document.body.append(it)",
    "object": "const it = document.createElement('object'); it.data = at; document.body.append(it)",
    "sound": "new Audio(at).play().catch(() => {})",
    "font": "new FontFace('x', `url(${at})`).load().catch(() => {})",
    "form": "const it = document.createElement('form'); it.action = at; it.method = 'post'; document.body.append(it); it.submit()",
    "script": "try { const it = document.createElement('script'); it.src = at; document.head.append(it); } catch {}",
    "module": "try { Function('import(\"' + at + '\")')(); } catch {}",
    "worker": "try { new Worker(at); } catch {}",
    "own worker": "try { new Worker(URL.createObjectURL(new Blob([`fetch('${at}').catch(() => {}); try { importScripts('${at}'); } catch {}`]))); } catch {}",
}
REFUSED = {
    "eval": "window.eval('window.hit = 1')",
    "function": "window.Function('window.hit = 1')()",
    "timer": "window.setTimeout('window.hit = 1')",
    "inline script": "const it = document.createElement('script'); it.append('window.hit = 1'); document.body.append(it)",
    "markup": "document.body.insertAdjacentHTML('beforeend', '<img src=x onerror=\"window.hit = 1\">')",
    "handler": "const it = document.createElement('b'); it.setAttribute('onclick', 'window.hit = 1'); document.body.append(it); it.click()",
    "link": "const it = document.createElement('a'); it.href = 'javascript:window.hit = 1'; document.body.append(it); it.click()",
}


class Safety(PageTest):
    def tearDown(self) -> None:
        self.page.open()
        self.page.log()

    def test_nothing_is_sent(self) -> None:
        server = Server()
        self.addCleanup(server.close)
        self.page.open(address=server.address)
        self.page.act("outcomes")
        before = len(server.asked)
        for name, code in WAYS.items():
            with self.subTest(name):
                self.page.run(f"const at = arguments[0]; setTimeout(() => {{ {code} }})", f"{server.origin}/{name.replace(' ', '-')}")
        time.sleep(1.5)
        self.assertEqual([], [it for it in server.asked[before:] if it != "/favicon.ico"])
        self.assertEqual({"/page.html"}, set(server.asked) - {"/favicon.ico"})
        self.assertEqual(server.address, self.page.driver.current_url.split("#")[0])

    def test_nothing_else_is_run(self) -> None:
        self.page.open()
        for name, code in REFUSED.items():
            with self.subTest(name):
                self.page.run(f"window.hit = 0; setTimeout(() => {{ try {{ {code} }} catch {{}} }})")
                time.sleep(0.1)
                self.assertEqual(0, self.page.run("return window.hit"))
