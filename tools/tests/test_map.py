"""The map of the crates: how large the graph may be, its sections, and the lines of the crates on their page."""

from __future__ import annotations

from unittest import mock

from tools import map as crates_map
from tools.tests.repository import RepositoryTest, said_by

CRATES = "# base: what all stand on\nlow:\nmiddle: low\n# top: what is called\nhigh: low middle\n# tests: tests\nhigh_tests: high\n"
PAGE = f"before\n{crates_map.FIRST}\nold\n{crates_map.LAST}\nbehind\n"


class Map(RepositoryTest):
    def setUp(self) -> None:
        super().setUp()
        self.write("crates.txt", CRATES)
        self.write("crates/low/src/lib.rt", "//! Things that are low. More of them.\n//!\n//! Its promise: nothing falls.\n\nfn a() {}\n")
        self.write("crates/high/src/main.rt", "//! What promises nothing.\n")
        self.write(crates_map.PAGE, PAGE)

    def test_paths(self) -> None:
        self.assertEqual([crates_map.paths(it) for it in ("low", "middle", "high", "high_tests")], [1, 2, 4, 5])
        self.assertEqual(list(crates_map.bounds()), [])
        with mock.patch.object(crates_map, "MOST_PATHS", 11), mock.patch.object(crates_map, "MOST_CRATES", 3):
            self.assertEqual(list(crates_map.bounds()), ["crates.txt: 4 crates, and there are 3 at most", "crates.txt: 12 paths, and there are 11 at most"])

    def test_sections(self) -> None:
        self.assertEqual([(title, crates) for title, _, crates in crates_map.sections()], [("base", ["low", "middle"]), ("top", ["high"]), ("tests", ["high_tests"])])
        self.assertEqual(list(crates_map.headed()), [])
        self.write("crates.txt", "low:\n" + CRATES)
        self.assertEqual(list(crates_map.headed()), ["crates.txt: a crate stands under no heading `# part: what it is`"])
        self.write("crates.txt", CRATES + "# more: more\nmore:\n")
        self.assertEqual(list(crates_map.headed()), ["crates.txt: tests stand at its end"])

    def test_the_line_of_a_crate(self) -> None:
        self.assertEqual(crates_map.line_of("low"), "- `low`: Things that are low.")
        self.assertEqual(crates_map.line_of("high"), "- `high`: What promises nothing.")

    def test_lines_that_are_stale_are_drawn_anew(self) -> None:
        self.assertEqual(len(list(crates_map.stale())), 1)
        self.assertEqual(said_by(crates_map.draw), (f"{crates_map.PAGE}: the lines of 4 crates are drawn\n", "", 0))
        self.write(crates_map.PAGE, self.read(crates_map.PAGE))
        self.assertEqual(list(crates_map.stale()), [])
        page = self.read(crates_map.PAGE)
        self.assertTrue(page.startswith("before\n") and page.endswith("\nbehind\n"), "the rest of the page stays")
        self.assertIn("\n### base: what all stand on\n\n- `low`: Things that are low.\n", page)

    def test_a_page_without_a_place_for_them(self) -> None:
        self.write(crates_map.PAGE, "nothing\n")
        self.assertTrue(list(crates_map.stale())[0].startswith(f"{crates_map.PAGE}: it has no place for the lines of the crates"))
        self.assertEqual(said_by(crates_map.draw)[2], 1)
