"""Rows: which examples, lists, pictures and words of pages have none, the counts of a run, and how a row ends."""

from __future__ import annotations

import os
from unittest import mock

from tools import rows
from tools.tests.repository import RepositoryTest, said_by

DATA = "crates/conc_rows/data"
TOUR = """# example-one: a title
| main :: IO () = {
|   return () };
out: 1 outcome, and there are no others
out:
out: 1. done
# other: later
later
# picture-of-one: drawn
out: <svg>
out: </svg>
"""


class Data(RepositoryTest):
    def setUp(self) -> None:
        super().setUp()
        self.write(f"{DATA}/tour.rows", TOUR)
        self.write("docs/TOUR.md", "`one.conc` is the first.\n")
        self.write("examples/one.conc", "main :: IO () = {\n  return () };\n")

    def test_rows_of_a_file(self) -> None:
        found = rows.rows_of(f"{DATA}/tour.rows")
        self.assertEqual([(it.name, it.number) for it in found], [("example-one", 1), ("other", 7), ("picture-of-one", 9)])
        self.assertEqual(rows.script_of(found[0].lines), "main :: IO () = {\n  return () };")
        self.assertEqual(rows.count_of("conc_rows"), (3, 1))

    def test_examples_are_those_of_their_rows(self) -> None:
        self.assertEqual(list(rows.examples()), [])
        self.write("examples/one.conc", "main :: IO () = {\n  return (); };\n")
        self.assertEqual(list(rows.examples()), [f"examples/one.conc:2: the row example-one of {DATA}/tour.rows has another line"])
        self.write("examples/one.conc", "main :: IO () = {\n  return () };\n-- more\n")
        self.assertEqual(list(rows.examples()), ["examples/one.conc:3: the row example-one of crates/conc_rows/data/tour.rows has another line",
                                                 "examples/one.conc: it and the row example-one have different lengths"])

    def test_an_example_without_a_row_and_a_row_without_one(self) -> None:
        os.rename(self.path("examples/one.conc"), self.path("examples/two.conc"))
        self.assertEqual(list(rows.examples()), [f"examples/two.conc: {DATA}/tour.rows has no row example-two", f"{DATA}/tour.rows: there is no examples/one.conc"])

    def test_an_example_that_the_tour_leaves_out(self) -> None:
        self.write("docs/TOUR.md", "nothing\n")
        self.assertEqual(list(rows.examples()), ["docs/TOUR.md: it has no paragraph on one.conc"])

    def test_an_example_has_a_row_of_its_claims(self) -> None:
        self.write(f"{DATA}/examples.rows", "# claims-of-one: its claim holds\n| main :: IO () = {\n|   return () };\nout: line 3: holds\n")
        self.assertEqual(list(rows.claims()), [])
        self.write("examples/one.conc", "main :: IO () = {\n  return () };\n--! always done\n")
        self.write("examples/mistakes/two-wrong.conc", "main\n")
        self.assertEqual(list(rows.claims()), [f"examples/one.conc: the row claims-of-one of {DATA}/examples.rows has another script",
                                               f"examples/mistakes/two-wrong.conc: {DATA}/examples.rows has no row claims-of-two-wrong"])

    def test_scripts_of_the_readme(self) -> None:
        self.write("README.md", "A script:\n\n```haskell\nmain :: IO () = { -- a comment\n return () };\n```\n")
        self.assertEqual(list(rows.readme()), [])
        self.write("README.md", "A script:\n\n```haskell\nmain :: IO () = { putStr \"a\" };\n```\n")
        self.assertEqual(list(rows.readme()), [f"README.md:3: no row of {DATA} has this script"])

    def test_lists_of_the_documents(self) -> None:
        self.write("docs/LISTS.md", "A list:\n\n```\n1 outcome, and there are no others\n\n1. done\n```\n")
        self.assertEqual(list(rows.lists()), [])
        self.write("docs/LISTS.md", "A list:\n\n    2 outcomes, and there are no others\n")
        self.assertEqual(list(rows.lists()), [f"docs/LISTS.md:3: no row of {DATA} has the program print this list"])

    def test_pictures(self) -> None:
        self.write("docs/pictures/one.svg", "<svg>\n</svg>\n")
        self.assertEqual(list(rows.pictures()), [])
        self.write("docs/pictures/two.svg", "<svg>\n</svg>\n")
        self.assertEqual(list(rows.pictures()), [f"docs/pictures/two.svg: the row picture-of-two of {DATA} doesn't have the program draw it"])

    def test_comments(self) -> None:
        self.write("docs/PAGE.md", "Words of\na page.\n")
        self.write(f"{DATA}/more.rows", "-- what the file has: anything.\n\n-- PAGE.md: Words of a page.\n-- a title\n# a: one\n")
        self.assertEqual(list(rows.comments()), [])
        self.write(f"{DATA}/more.rows", "-- head\n\n-- PAGE.md: Other words.\n-- it says: more\n-- NONE.md: Words\n")
        self.assertEqual([it.split(":")[0] for it in rows.comments()], ["docs/PAGE.md", f"{DATA}/more.rows", "docs/NONE.md"])

    def test_counts_that_the_programs_print(self) -> None:
        self.write("crates/stack_rows/data/stack.rows", "# a: one\n")
        self.write("crates/stack_rows/stdout", "1 rows, 0 failed\n")
        self.write("crates/conc_rows/stdout", "3 rows, 0 failed, 1 later\n")
        self.assertEqual(list(rows.last_lines()), [])
        self.write("crates/conc_rows/stdout", "3 rows, 0 failed\n")
        self.assertEqual(list(rows.last_lines()), ["crates/conc_rows/stdout: it has to be `3 rows, 0 failed, 1 later`"])
        self.write(f"{DATA}/more.rows", "# other: again\n")
        self.assertIn("crates/conc_rows/data: two rows are called other", list(rows.last_lines()))


class Tried(RepositoryTest):
    def setUp(self) -> None:
        super().setUp()
        self.write(f"{DATA}/tour.rows", TOUR)
        self.row = rows.rows_of(f"{DATA}/tour.rows")[1]

    def program(self, text: str) -> str:
        return self.write_executable("program", f"#!/bin/sh\n{text}\n")

    def said_of(self, text: str) -> str | None:
        return rows.try_row(self.program(text), f"{DATA}/tour.rows", self.row, 5)

    def test_how_a_row_ends(self) -> None:
        self.assertEqual(self.said_of("echo '1 rows, 0 failed'"), "")
        self.assertEqual(self.said_of("echo 'line 7: other'; echo '1 rows, 1 failed'; exit 1"), "line 7: other")
        self.assertEqual(self.said_of("exit 3"), "other: status 3")
        self.assertEqual(self.said_of("echo '0 rows, 0 failed'"), "other: status 0", "a row that isn't read is no row that passes")
        self.assertIsNone(self.said_of("kill -XCPU $$"), "one that takes longer is not tried")

    def test_a_row_keeps_the_numbers_of_its_lines(self) -> None:
        self.assertEqual(self.said_of("grep -n later tour.rows; exit 1"), "7:# other: later\n8:later")

    def test_files_by_name(self) -> None:
        self.write("crates/stack_rows/data/stack.rows", "# a: one\n")
        self.assertEqual(rows.files_of(""), [f"{DATA}/tour.rows"])
        for name in ("stack", "stack.rows", "crates/stack_rows/data/stack.rows"):
            self.assertEqual(rows.files_of(name), ["crates/stack_rows/data/stack.rows"])
        self.assertIn("none is called none.rows", str(said_by(lambda: rows.files_of("none"))[2]))

    def test_all_rows_and_the_status(self) -> None:
        passes = "grep -q example tour.rows && { echo 'it fails'; exit 1; }; echo '1 rows, 0 failed'"
        with mock.patch.object(rows, "built", lambda _: self.program(passes)):
            out, _, status = said_by(lambda: rows.try_rows(""))
        self.assertEqual((out, status), (f"{DATA}/tour.rows:1: it fails\n2 rows were tried by a build without proof, 1 failed\n", 1))

    def test_a_program_is_new_where_no_source_is_newer(self) -> None:
        self.write("crates.txt", "low:\nconc_rows: low\n")
        source, program = self.write("crates/low/src/lib.rt", ""), self.program("")
        os.utime(source, (10, 10))
        os.utime(program, (20, 20))
        self.assertTrue(rows.is_new(program, "conc_rows"))
        os.utime(source, (30, 30))
        self.assertFalse(rows.is_new(program, "conc_rows"))
        self.assertFalse(rows.is_new(self.path("none"), "conc_rows"))
