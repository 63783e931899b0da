"""The file itself: the same bytes each time, its size, its policy, and what it says of itself."""

from __future__ import annotations

import re
import unittest

from tools.play import page, sums, tables, wasm
from tools.play.tests import settings


class Made(unittest.TestCase):
    def setUp(self) -> None:
        with open(settings.page, encoding="utf-8", newline="") as file:
            self.page = file.read()

    def test_the_same_bytes(self) -> None:
        code = page.module_of(self.page)
        assert code is not None
        self.assertEqual(page.made(code), page.made(code))
        self.assertTrue(page.is_current(settings.page), "the page that is tested is of the template and the documents as they are now")

    def test_size(self) -> None:
        self.assertLessEqual(len(self.page.encode()), page.MOST)
        print(f"the page has {len(self.page.encode())} bytes")

    def test_names_itself(self) -> None:
        self.assertEqual((sums.version(), sums.sum_of_sources()), page.said(self.page))

    def test_nothing_is_loaded(self) -> None:
        """No address stands in the page but the name of the SVG format's, and the policy allows none."""
        outside = re.findall(r"(?:https?:)?//[\w.-]+\.\w+", re.sub(r'id="(program|data)">[^<]*<', "", self.page))
        self.assertEqual([], outside)
        self.assertIn("default-src 'none'", self.page)
        self.assertNotIn("unsafe-eval'", self.page.replace("'wasm-unsafe-eval'", ""))

    def test_functions_are_short(self) -> None:
        """No function of the page's script has more than 40 lines."""
        for name in page.SCRIPTS:
            lines = page.site(f"{name}.js").split("\n")
            for begin, line in enumerate(lines):
                if re.match(r"(async )?function ", line):
                    end = next(it for it in range(begin, len(lines)) if lines[it] == "}")
                    self.assertLessEqual(end - begin, 40, f"{name}.js:{begin + 1}")


class Tables(unittest.TestCase):
    """What is read from the documents and from a module."""

    def test_cells(self) -> None:
        self.assertEqual(["`a || b`", "Bool"], tables.cells(r"| `a \|\| b` | Bool |"))
        self.assertEqual(["a lone `|` here", "x"], tables.cells("| a lone `|` here | x |"))

    def test_for_the_page(self) -> None:
        self.assertEqual("**Fuel**, under Options, up to 4", tables.for_the_page("`--fuel N`, up to 4 (`MEASURES.md`)"))

    def test_about(self) -> None:
        self.assertEqual("What is it? ".strip(), tables.about("-- What is it?\n-- More.\nmain"))

    def test_all_examples_are_in_a_group(self) -> None:
        data = tables.data()
        grouped = [name for group in data["groups"] for name in group["names"]]  # type: ignore[attr-defined]
        self.assertEqual(sorted(data["examples"]), sorted(grouped))  # type: ignore[call-overload]

    def test_numbers_of_webassembly(self) -> None:
        self.assertEqual((624485, 4), wasm.number_at(b"\0\xe5\x8e\x26", 1))
        self.assertEqual(set(), wasm.imports_of(b"\0asm\1\0\0\0"))
