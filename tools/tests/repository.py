"""A repository of a test's own, which the tools take for theirs; and tools that are no modules by their names."""

from __future__ import annotations

import importlib.machinery
import importlib.util
import io
import os
import sys
import tempfile
import unittest
from contextlib import redirect_stderr, redirect_stdout
from types import ModuleType
from typing import Any, Callable
from unittest import mock

from tools import bench, bitcode, crates, documents, edits, gate, rows, same, sources, syntax
from tools import map as crates_map

TOP = os.path.dirname(os.path.dirname(os.path.dirname(os.path.abspath(__file__))))
MODULES = (bench, bitcode, crates, documents, edits, gate, rows, same, sources, syntax, crates_map)
CACHES: tuple[Any, ...] = (sources.read, sources.files, sources.blocks, sources.words_of, sources.all_words, crates_map.paths)


def forget() -> None:
    """The tools read the repository anew."""
    for it in CACHES:
        it.cache_clear()
    crates._uses.clear()
    crates._below.clear()


class RepositoryTest(unittest.TestCase):
    """A test with a repository, which has no files but those that are written."""

    def setUp(self) -> None:
        folder = tempfile.TemporaryDirectory(prefix="test-tools.")
        self.addCleanup(folder.cleanup)
        self.top = folder.name
        for module in MODULES:
            if hasattr(module, "TOP"):
                patch = mock.patch.object(module, "TOP", self.top)
                patch.start()
                self.addCleanup(patch.stop)
        self.addCleanup(forget)
        forget()

    def path(self, name: str) -> str:
        return os.path.join(self.top, name)

    def write(self, name: str, text: str) -> str:
        os.makedirs(os.path.dirname(self.path(name)), exist_ok=True)
        with open(self.path(name), "w", encoding="utf-8") as file:
            file.write(text)
        forget()
        return self.path(name)

    def write_executable(self, name: str, text: str) -> str:
        os.chmod(self.write(name, text), 0o755)
        return self.path(name)

    def read(self, name: str) -> str:
        with open(self.path(name), encoding="utf-8") as file:
            return file.read()


def said_by(call: Callable[[], object]) -> tuple[str, str, object]:
    """What a call prints, what it tells, and what it answers or ends with."""
    out, err = io.StringIO(), io.StringIO()
    with redirect_stdout(out), redirect_stderr(err):
        try:
            answer = call()
        except SystemExit as ended:
            answer = ended.code
    return out.getvalue(), err.getvalue(), answer


def tool(path: str) -> ModuleType:
    """A tool that is no module by its name."""
    name = "tool_" + "".join(it if it.isalnum() else "_" for it in path)
    loader = importlib.machinery.SourceFileLoader(name, os.path.join(TOP, path))
    spec = importlib.util.spec_from_loader(name, loader)
    assert spec is not None
    module = importlib.util.module_from_spec(spec)
    sys.modules[name] = module
    loader.exec_module(module)
    return module
