"""What tools/test-play was called with, and the one browser of all tests."""

from __future__ import annotations

import sys
from typing import Any

from tools.play import page as pages

page = module = program = ""
browser = "chromium"
count, first, every = 300, 0, 1
opened: Any = None


def take_module(path: str, into: str) -> None:
    """The module that a page holds, for node."""
    with open(path, encoding="utf-8", newline="") as file:
        code = pages.module_of(file.read())
    if code is None:
        sys.exit(f"test-play: {path} holds no program")
    with open(into, "wb") as out:
        out.write(code)


def close() -> None:
    if opened is not None:
        opened.quit()
