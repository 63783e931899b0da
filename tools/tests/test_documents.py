"""What documents say: names and paths that the repository doesn't have, decisions without a date, pages that are too long, citations."""

from __future__ import annotations

from tools import crates, documents, sources
from tools.tests.repository import RepositoryTest


class Documents(RepositoryTest):
    def setUp(self) -> None:
        super().setUp()
        self.write("crates.txt", "low: std base64\nhigh: low\n")
        self.write("crates/low/src/lib.rt", "pub fn counted() {}\nfn hidden() {}\nstruct Thing;\n")
        self.write("crates/low/specs/Counts.antt", "counts : N\n")
        self.write("crates/high/src/main.rt", "fn main() {}\n")
        self.write("docs/LANGUAGE.md", "The language.\n")
        self.write("conc_run", "stub\n")

    def names_in(self, text: str, page: str = "docs/PAGE.md") -> list[str]:
        self.write(page, text)
        return [it.removeprefix(f"{page}:") for it in documents.names() if it.startswith(f"{page}:")]

    def test_paths(self) -> None:
        self.assertEqual(self.names_in("`crates/low/src/lib.rt`, `low/src/lib.rt`, `low`: `specs/Counts`, `crates/NAME/src`, `out/any`"), [])
        self.assertEqual(self.names_in("One line.\n`low/src/none.rt`"), ["2: there is no low/src/none.rt"])
        self.assertEqual(self.names_in("`low`: `specs/None`"), ["1: there is no specs/None"])
        self.assertEqual(self.names_in("```\nls docs/NONE.md\n```\n"), ["2: there is no docs/NONE.md"])

    def test_files(self) -> None:
        self.write("examples/one.conc", "main\n")
        self.assertEqual(self.names_in("`one.conc`, `LANGUAGE.md`, `low/src/lib.rt` and `lib.rt`"), [])
        self.assertEqual(self.names_in("`two.conc` and `NONE.md`"), ["1: there is no two.conc", "1: there is no NONE.md"])

    def test_laws(self) -> None:
        self.assertEqual(self.names_in("`low::counted`, `low::counted(a, b)`, `std::fmt::Write`, `Thing`"), [])
        self.assertEqual(self.names_in("`low::lacking`"), ["1: low has no lacking, which low::lacking names"])
        self.assertEqual(self.names_in("`low::Thing::lacking`"), ["1: low has no lacking, which low::Thing::lacking names"])
        self.assertEqual(self.names_in("`nowhere::counted`"), ["1: nothing is called nowhere::counted"])
        self.assertEqual(self.names_in("`no_such_name` and `NoSuchName`"), ["1: nothing is called no_such_name", "1: nothing is called NoSuchName"])

    def test_a_law_is_a_public_function(self) -> None:
        self.write("crates/low/src/lib.rt", "struct counted;\n")
        self.assertEqual(documents.law("low::counted"), "low has no public function counted")

    def test_clauses_of_promises(self) -> None:
        self.write("docs/PROMISES.md", "# Promises\n\nOf `low` it is `counts` and `counted`.\n\nOf `low` it is `nothing`.\n")
        self.write("crates/conc_task/src/lib.rt", "")
        self.write("crates.txt", "low: std\nhigh: low\nconc_task:\n")
        self.assertEqual(list(documents.clauses()), ["docs/PROMISES.md:5: no crate that is named here has `nothing`"])

    def test_decisions(self) -> None:
        self.write("docs/DECISIONS.md", "- 2026-01-02 · **A title.** Why.\n- **No date.** Why.\n- 2026-01-02 · no title\n")
        self.assertEqual([it.split(":")[1] for it in documents.decisions()], ["2", "3"])

    def test_lengths(self) -> None:
        self.write("docs/LONG.md", "a\n" * (documents.LONGEST + 1))
        self.write("docs/PAGE.md", "a\n" * documents.LONGEST)
        self.assertEqual(list(documents.lengths()), [f"docs/LONG.md: {documents.LONGEST + 1} lines, and a document has {documents.LONGEST} at most"])

    def test_each_example_has_a_claim(self) -> None:
        self.write("examples/one.conc", "main\n \t-- ! always done\n")
        self.write("examples/two.conc", "main --! always done\n-- ? always\n--\n! always done\n")
        self.write("examples/mistakes/three-wrong.conc", "-- --! never stuck\nmain\n")
        self.assertEqual(list(documents.claims()), ["examples/two.conc: it has no claim", "examples/mistakes/three-wrong.conc: it has no claim"])

    def test_what_is_trusted(self) -> None:
        self.write("docs/PROMISES.md", "These are trusted (`std`, `base64`).\n")
        self.assertEqual(list(documents.trusted()), [])
        self.write("docs/PROMISES.md", "These are trusted (`std`, `clap`).\n")
        self.assertEqual(list(documents.trusted()), ["docs/PROMISES.md: `base64` is used and so trusted, and isn't named",
                                                     "docs/PROMISES.md: `clap` is named as trusted, and no crate uses it"])
        self.write("docs/PROMISES.md", "Nothing.\n")
        self.assertEqual(len(list(documents.trusted())), 1)

    def test_citations(self) -> None:
        # (built of parts, since this file is looked through as well)
        self.write("docs/PAGE.md", "a\nby " + "issue" + " 12 and " + "D" + "7, and by " + "shared/" + "papers/x\n")
        self.assertEqual([it.split(": ")[0] for it in documents.citations()], ["docs/PAGE.md:2"] * 3)
        self.write("docs/PAGE.md", "an issue, a row, D and 7, wide\n")
        self.assertEqual(list(documents.citations()), [])

    def test_pages_that_comments_name(self) -> None:
        self.write("crates/low/src/lib.rt", "// docs/LANGUAGE.md says it, and docs/NONE.md\n")
        self.assertEqual(list(documents.named_pages()), ["crates/low/src/lib.rt: there is no docs/NONE.md"])


class Sources(RepositoryTest):
    def test_blocks(self) -> None:
        self.write("docs/PAGE.md", "# One\n\nA line\nand more\n- an item\n| a | b |\n| c | d |\n\n    code\n\n```\nfenced\n\nstill\n```\nend\n")
        found = sources.blocks("docs/PAGE.md")
        self.assertEqual([(it.line, it.kind) for it in found], [(1, "heading"), (3, "text"), (5, "text"), (6, "row"), (7, "row"), (9, "code"), (11, "code"), (16, "text")])
        self.assertEqual(found[1].text, "A line\nand more")
        self.assertEqual(found[1].at(len("A line\na")), "docs/PAGE.md:4")
        self.assertEqual(found[6].lines, ["```", "fenced", "", "still", "```"])

    def test_crates_of_the_kit(self) -> None:
        self.write("crates.txt", "# a comment\nlow: itoa\nhigh: low slab # another\n")
        self.assertEqual(sources.kit_crates(), {"itoa", "slab", "std"})
        self.assertEqual(crates.below("high"), {"low"})

    def test_code_has_no_comments(self) -> None:
        self.write("crates/low/src/lib.rt", "//! head\nfn a() {} // kept\n  // b\n")
        self.assertEqual(sources.code("crates/low/src/lib.rt"), "fn a() {} // kept\n")
        self.write("crates/low/specs/A.antt", "-- a\na : N\n")
        self.assertEqual(sources.code("crates/low/specs/A.antt"), "a : N\n")
