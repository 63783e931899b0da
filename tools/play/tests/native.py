"""Calls of the program itself."""

from __future__ import annotations

import resource
import subprocess
from typing import NamedTuple

from tools.play.tests import settings


class Answer(NamedTuple):
    status: int | None
    out: bytes
    err: bytes


def call(words: list[str], script: bytes, seconds: float = 300) -> Answer:
    ran = subprocess.run([settings.program, *words], input=script, capture_output=True, timeout=seconds, check=False)
    return Answer(ran.returncode, ran.stdout, ran.stderr)


def call_within(megabytes: int, words: list[str], script: bytes) -> Answer:
    """A call of the program with so much memory."""
    def limited() -> None:
        resource.setrlimit(resource.RLIMIT_AS, (megabytes << 20,) * 2)

    ran = subprocess.run([settings.program, *words], input=script, capture_output=True, preexec_fn=limited, check=False)
    return Answer(ran.returncode, ran.stdout, ran.stderr)
