"""A server of the tests: the page with an address, with lines of its head, or cut; and what is asked of it."""

from __future__ import annotations

import http.server
import os
import threading
from typing import Any

from tools.play.tests import settings


class Server:
    """Gives the page by the name page.html, and notes each path that is asked for."""

    def __init__(self, size: int | None = None, **head: str) -> None:
        with open(settings.page, "rb") as file:
            self.page = file.read()[:size]
        self.asked: list[str] = []
        self.head = {name.replace("_", "-"): value for name, value in head.items()}
        self.server = http.server.ThreadingHTTPServer(("127.0.0.1", 0), self.handler())
        self.origin = f"http://127.0.0.1:{self.server.server_address[1]}"
        self.address = f"{self.origin}/page.html"
        threading.Thread(target=self.server.serve_forever, daemon=True).start()

    def handler(self) -> type[http.server.BaseHTTPRequestHandler]:
        owner = self

        class Handler(http.server.BaseHTTPRequestHandler):
            def do_GET(self) -> None:
                owner.asked.append(self.path)
                there = os.path.basename(self.path) == "page.html"
                self.send_response(200 if there else 404)
                self.send_header("Content-Type", "text/html; charset=utf-8")
                for name, value in owner.head.items():
                    self.send_header(name, value)
                self.end_headers()
                if there:
                    self.wfile.write(owner.page)

            do_POST = do_GET

            def log_message(self, *_: Any) -> None:
                pass

        return Handler

    def close(self) -> None:
        self.server.shutdown()
        self.server.server_close()
