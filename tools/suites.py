"""The unittest modules of the tools: each in a process of its own, several at a time, so that ./check waits for the longest alone."""

from __future__ import annotations

import os
import subprocess
import sys
from collections.abc import Iterator
from concurrent.futures import Future, ThreadPoolExecutor

from tools.sources import TOP, here

# The folders whose modules need neither the kit nor another program than Python.
FOLDERS = ("tools/run/tests", "tools/tests", "tools/audit/tests")
# The last bytes of what a module says.
SHOWN = 3000


def modules() -> list[str]:
    """The paths of the modules, those that take longest first."""
    found = [it for folder in FOLDERS for it in here(f"{folder}/test_*.py")]
    return sorted(found, key=lambda it: -os.path.getsize(os.path.join(TOP, it)))


def run_module(path: str) -> tuple[int, str]:
    """Runs the tests of a module, and answers its status and what it said."""
    name = path.removesuffix(".py").replace("/", ".")
    # Some of the tests copy this folder, and are to find in the copy only what they have made themselves.
    environment = {**os.environ, "PYTHONDONTWRITEBYTECODE": "1"}
    ran = subprocess.run([sys.executable, "-m", "unittest", name], cwd=TOP, env=environment, stdin=subprocess.DEVNULL, stdout=subprocess.PIPE,
                         stderr=subprocess.STDOUT, text=True, errors="replace", check=False)
    return ran.returncode, ran.stdout


class Suites:
    """All modules, which begin to run beside what else there is to do."""

    def __init__(self) -> None:
        self.pool = ThreadPoolExecutor(os.cpu_count())
        self.ran: dict[str, Future[tuple[int, str]]] = {it: self.pool.submit(run_module, it) for it in modules()}

    def problems(self) -> Iterator[str]:
        """A line for each module that fails, with the end of what it said."""
        for path, future in self.ran.items():
            status, said = future.result()
            if status:
                yield f"{path}: its tests end with status {status}: {said.strip()[-SHOWN:]}"
        self.pool.shutdown()
